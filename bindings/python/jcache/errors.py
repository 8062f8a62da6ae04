"""What a call raises. Each kind has a class of its own below `CacheError`, and tells what it came from."""

from enum import IntEnum
from typing import Dict, Optional, Type


class Status(IntEnum):
    """Why a call was refused: the numbers of `jcache.h`."""

    NO_SUCH_CACHE = 32
    BUSY = 33
    NO_SUCH_PROCESSOR = 34
    NO_TURN = 35
    WRONG_ANSWER = 36
    OUT_OF_MEMORY = 37
    TOO_MANY_CACHES = 48
    BAD_CAPACITY = 49
    TOO_MANY_LISTENERS = 50
    TOO_MANY_PROCESSORS = 51
    DUPLICATE_NAME = 52
    TOTAL_CAPACITY = 53
    IDS_SPENT = 54
    CLOSED = 64
    IN_USE = 65
    BAD_KEY = 66
    BAD_VALUE = 67
    BAD_LENGTHS = 68
    TOO_MANY_KEYS = 69
    DUPLICATE_KEY = 70
    BAD_CHOICE = 71
    BAD_SAVE = 74
    OTHER_VERSION = 75


_WORDS: Dict[Status, str] = {
    Status.NO_SUCH_CACHE: "the cache was destroyed",
    Status.BUSY: "a call on the cache is open",
    Status.OUT_OF_MEMORY: "out of memory",
    Status.TOO_MANY_CACHES: "more than 1,024 caches",
    Status.BAD_CAPACITY: "the capacity is not from 1 to 65,536",
    Status.TOO_MANY_LISTENERS: "more than 8 listeners",
    Status.DUPLICATE_NAME: "a live cache has this name",
    Status.TOTAL_CAPACITY: "more than 262,144 entries in all caches",
    Status.IDS_SPENT: "no id is left",
    Status.CLOSED: "the manager is closed",
    Status.BAD_KEY: "a key or a name has not from 1 to 63 bytes of UTF-8",
    Status.BAD_VALUE: "a value has more bytes than the cache takes",
    Status.TOO_MANY_KEYS: "more than 64 keys",
    Status.DUPLICATE_KEY: "a key stands twice",
    Status.BAD_SAVE: "the bytes are no saved cache",
    Status.OTHER_VERSION: "the bytes are of another version",
}


class CacheError(Exception):
    """What all errors of this package have in common (JSR 107, `CacheException`)."""


class Refused(CacheError):
    """The call has changed nothing; `status` says why."""

    def __init__(self, status: Status) -> None:
        super().__init__(_WORDS.get(status, status.name.lower().replace("_", " ")))
        self.status = status


class BadArgument(Refused, ValueError):
    """A key, a name, a value or a list of keys is not within the limits."""


class NotCreated(Refused, ValueError):
    """The manager has no room for such a cache, or one of its name."""


class Closed(Refused):
    """The manager was closed, or the cache destroyed (JSR 107, `IllegalStateException`)."""


class Busy(Refused):
    """A hook has called the cache that it is asked by."""


class OutOfMemory(Refused, MemoryError):
    """Memory was wanting, and the call has changed nothing."""


class NotRestored(Refused, ValueError):
    """The bytes are none that this version saves. `place` is how many of them stand before the first flaw."""

    def __init__(self, status: Status, place: int) -> None:
        super().__init__(status)
        self.place = place


class BadSave(NotRestored):
    """The bytes were damaged, no cache was saved as these, or they are more than 268,435,456."""


class OtherVersion(NotRestored):
    """The bytes say that another version of their format has written them."""


class HooksDiffer(CacheError, ValueError):
    """The saved cache had other hooks: a loader, a writer, not as many listeners, or processors that are no binding's. Nothing
    was restored."""

    def __init__(self) -> None:
        super().__init__("the saved cache had other hooks")


class Failed(CacheError):
    """A hook raised; `__cause__` is what. `done` is, of a call on many keys, how many were done before."""

    who = "hook"

    def __init__(self, done: Optional[int] = None) -> None:
        super().__init__("the %s failed" % self.who)
        self.done = done


class LoaderFailed(Failed):
    """The loader raised: nothing is stored (JSR 107, `CacheLoaderException`)."""

    who = "loader"


class WriterFailed(Failed):
    """The writer raised: the key's entry is as it was (JSR 107, `CacheWriterException`)."""

    who = "writer"


class ProcessorFailed(Failed):
    """The function that was invoked raised: the entry is as it was (JSR 107, `EntryProcessorException`)."""

    who = "function"


class ListenerFailed(Failed):
    """A listener raised: the call is done, and what comes behind was not told (JSR 107, `CacheEntryListenerException`)."""

    who = "listener"


def _kind(status: Status) -> Type[Refused]:
    if status in (Status.NO_SUCH_CACHE, Status.CLOSED):
        return Closed
    if status is Status.BUSY:
        return Busy
    if status is Status.OUT_OF_MEMORY:
        return OutOfMemory
    if Status.TOO_MANY_CACHES <= status <= Status.IDS_SPENT:
        return NotCreated
    return BadArgument if Status.BAD_KEY <= status <= Status.BAD_CHOICE else Refused


def refusal(status: int, place: int = 0) -> Refused:
    """The error that a refusing status is raised as; the place is that of a flaw in saved bytes."""
    if status >= Status.BAD_SAVE:
        return (BadSave if status == Status.BAD_SAVE else OtherVersion)(Status(status), place)
    return _kind(Status(status))(Status(status))
