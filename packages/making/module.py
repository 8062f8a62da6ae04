"""The module for Redis, by its own Makefile, without what a debugger reads."""
import os

from making.commands import output

FOLDER = "servers/redis"


def build(archive, work):
    """Returns where the module lies."""
    folder = f"{work}/module"
    output(["make", "--silent", "-C", FOLDER, f"OUT={folder}", f"JCACHE_LIBRARY={os.path.abspath(archive)}"])
    output(["strip", "--strip-unneeded", f"{folder}/jcache.so"])
    return f"{folder}/jcache.so"
