"""What caches are made with, and what they give."""

from dataclasses import dataclass
from datetime import timedelta
from typing import Callable, Generic, NamedTuple, Optional, Sequence, Tuple, TypeVar, Union, cast

from .errors import ProcessorFailed

R = TypeVar("R")

Duration = Union[int, timedelta]
"""Milliseconds, or a `timedelta`, of which whole milliseconds count."""


@dataclass(frozen=True)
class Expiry:
    """When an entry expires (JSR 107, `ExpiryPolicy`): `duration` milliseconds after what `policy` names."""

    policy: int = 0
    duration: int = 0

    @classmethod
    def eternal(cls) -> "Expiry":
        """Never."""
        return cls()

    @classmethod
    def created(cls, after: Duration) -> "Expiry":
        """From its creation on."""
        return cls(1, _milliseconds(after))

    @classmethod
    def accessed(cls, after: Duration) -> "Expiry":
        """From its creation, and anew from each access."""
        return cls(2, _milliseconds(after))

    @classmethod
    def modified(cls, after: Duration) -> "Expiry":
        """From its creation, and anew from each update."""
        return cls(3, _milliseconds(after))

    @classmethod
    def touched(cls, after: Duration) -> "Expiry":
        """From its creation, and anew from each access and each update."""
        return cls(4, _milliseconds(after))


def _milliseconds(duration: Duration) -> int:
    return duration // timedelta(milliseconds=1) if isinstance(duration, timedelta) else duration


class Statistics(NamedTuple):
    """The counters of a cache (JSR 107, `CacheStatisticsMXBean`)."""

    hits: int
    misses: int
    puts: int
    removals: int
    evictions: int


class Event(NamedTuple):
    """What a listener is told (JSR 107, `CacheEntryEvent`)."""

    kind: str
    """created, updated, removed or expired"""
    key: str
    value: Optional[bytes]
    """of an entry that was created or updated"""
    before: Optional[bytes]
    """of an entry that was updated, removed or expired"""


Loader = Callable[[str], Optional[bytes]]
Writer = Callable[[str, Optional[bytes]], object]
Listener = Callable[[Event], object]


class Configuration(NamedTuple):
    """What a cache was created or restored with (JSR 107, `CompleteConfiguration`)."""

    capacity: int
    expiry: Expiry
    loader: Optional[Loader]
    writer: Optional[Writer]
    listeners: Sequence[Listener]
    max_value: int
    """the most bytes of a value"""


class Row(NamedTuple):
    """An entry that was looked at."""

    key: str
    value: bytes
    expires: Optional[int]
    """the moment, or None: never"""


class Entry:
    """What an invoked function is given (JSR 107, `MutableEntry`). Of several changes the last one holds."""

    def __init__(self, key: str, value: Optional[bytes]) -> None:
        self.key = key
        self._value = value
        self._action = 0

    @property
    def value(self) -> Optional[bytes]:
        """The value, or None where there is none."""
        return self._value

    @property
    def exists(self) -> bool:
        """Whether there is a value."""
        return self._value is not None

    def set(self, value: bytes) -> None:
        """Stores a value."""
        if not isinstance(value, bytes):
            raise TypeError("a value is bytes, not %s" % type(value).__name__)
        self._value, self._action = value, 1

    def remove(self) -> None:
        """Removes the entry."""
        self._value, self._action = None, 2

    def change(self) -> Tuple[int, bytes]:
        """What the library is told: the action's number, and the new value."""
        return self._action, self._value if self._action == 1 and self._value is not None else b""


class Result(Generic[R]):
    """What an invoked function has returned or raised (JSR 107, `EntryProcessorResult`)."""

    def __init__(self, value: Optional[R], error: Optional[Exception]) -> None:
        self._value, self.error = value, error

    def get(self) -> R:
        """What was returned. Raises `ProcessorFailed` where the function raised."""
        if self.error is not None:
            raise ProcessorFailed() from self.error
        return cast(R, self._value)
