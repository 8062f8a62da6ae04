"""Caches that are keys of a server, or of a cluster, with the module jcache. The names are those of the package `jcache`,
whose values and errors these are; loaders, listeners and writers run on the client's side.
"""

from .cache import Cache
from .listening import Listening
from .manager import Manager
from .writing import write_behind

__all__ = ["Cache", "Listening", "Manager", "write_behind"]
