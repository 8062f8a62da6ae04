"""Named caches with the behaviour of JSR 107 (JCache 1.1), over the library of `jcache.h`.

Keys are texts of 1 to 63 bytes of UTF-8, values bytes of at most 65,535, moments and durations milliseconds.
"""

from ._calls import library_version
from .cache import Cache
from .clocks import FixedClock, WallClock
from .errors import (BadArgument, BadSave, Busy, CacheError, Closed, Failed, HooksDiffer, ListenerFailed, LoaderFailed,
                     NotCreated, NotRestored, OtherVersion, OutOfMemory, ProcessorFailed, Refused, Status, WriterFailed)
from .manager import Manager
from .values import Configuration, Entry, Event, Expiry, Result, Row, Statistics

__all__ = [
    "BadArgument", "BadSave", "Busy", "Cache", "CacheError", "Closed", "Configuration", "Entry", "Event", "Expiry", "Failed",
    "FixedClock", "HooksDiffer", "ListenerFailed", "LoaderFailed", "Manager", "NotCreated", "NotRestored", "OtherVersion",
    "OutOfMemory", "ProcessorFailed", "Refused", "Result", "Row", "Statistics", "Status", "WallClock", "WriterFailed",
    "library_version",
]
