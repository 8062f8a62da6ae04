"""A cache, with the methods of JSR 107's `Cache` in snake case, and Python's mapping protocol."""

from functools import wraps
from typing import Any, Callable, Dict, Iterable, Iterator, Mapping, Optional, Tuple, TypeVar, Union
from typing import cast, overload

from . import _calls as calls
from ._asking import Asking, Clock, joined, kept_in, many, rows_of
from .errors import refusal
from .values import Configuration, Result, Row, Statistics

R = TypeVar("R")
T = TypeVar("T")
F = TypeVar("F", bound=Callable[..., bytes])


class Cache(Asking):
    """A cache of a manager. Each call takes `now`, a moment in milliseconds; the clock says it where it is left out.

    A whole call holds the cache's lock, hooks too. Each call may raise `Refused`, and `Failed` where it asks a hook.
    """

    def __init__(self, handle: calls.Calls, number: int, name: str, clock: Clock, configuration: Configuration) -> None:
        super().__init__(handle, number, clock, configuration)
        self._name = name

    @property
    def name(self) -> str:
        """The cache's name (JSR 107, `getName`)."""
        return self._name

    @property
    def configuration(self) -> Configuration:
        """What the cache was created or restored with (JSR 107, `getConfiguration`)."""
        return self._hooks

    @overload
    def get(self, key: str, *, now: Optional[int] = None) -> Optional[bytes]: ...
    @overload
    def get(self, key: str, default: T, *, now: Optional[int] = None) -> Union[bytes, T]: ...

    def get(self, key: str, default: Optional[T] = None, *, now: Optional[int] = None) -> Union[bytes, T, None]:
        """The value, or `default`. A missing key is loaded (`get`)."""
        with self._lock:
            found = self._calls.get(self._id, self._clock() if now is None else now, key)
            if isinstance(found, bytes):
                return found
            return self._found(found, default)

    def contains_key(self, key: str, *, now: Optional[int] = None) -> bool:
        """Whether there is a value. Nothing is loaded, counted or renewed (`containsKey`)."""
        with self._lock:
            return self._truth(self._calls.contains(self._id, self._moment(now), key))

    def put(self, key: str, value: bytes, *, now: Optional[int] = None) -> None:
        """Stores a value (`put`)."""
        with self._lock:
            self._finish(self._calls.put(self._id, self._clock() if now is None else now, key, value))

    def get_and_put(self, key: str, value: bytes, *, now: Optional[int] = None) -> Optional[bytes]:
        """Stores a value, and gives the one before (`getAndPut`)."""
        with self._lock:
            return self._found(self._calls.get_and_put(self._id, self._moment(now), key, value), None)

    def put_if_absent(self, key: str, value: bytes, *, now: Optional[int] = None) -> bool:
        """Stores a value where there is none. Whether it did (`putIfAbsent`)."""
        with self._lock:
            return self._truth(self._calls.put_if_absent(self._id, self._moment(now), key, value))

    def replace(self, key: str, value: bytes, *, expected: Optional[bytes] = None, now: Optional[int] = None) -> bool:
        """Stores a value where there is one, and it is the expected one. Whether it did (`replace`)."""
        with self._lock:
            moment = self._moment(now)
            if expected is None:
                return self._truth(self._calls.replace(self._id, moment, key, value))
            return self._truth(self._calls.replace_if(self._id, moment, key, expected, value))

    def get_and_replace(self, key: str, value: bytes, *, now: Optional[int] = None) -> Optional[bytes]:
        """Stores a value where there is one, and gives that (`getAndReplace`)."""
        with self._lock:
            return self._found(self._calls.get_and_replace(self._id, self._moment(now), key, value), None)

    def remove(self, key: str, *, expected: Optional[bytes] = None, now: Optional[int] = None) -> bool:
        """Removes the value, where it is the expected one. Whether it did (`remove`)."""
        with self._lock:
            moment = self._moment(now)
            if expected is None:
                return self._truth(self._calls.remove(self._id, moment, key))
            return self._truth(self._calls.remove_if(self._id, moment, key, expected))

    def get_and_remove(self, key: str, *, now: Optional[int] = None) -> Optional[bytes]:
        """Removes the value, and gives it (`getAndRemove`)."""
        with self._lock:
            return self._found(self._calls.get_and_remove(self._id, self._moment(now), key), None)

    def get_all(self, keys: Iterable[str], *, now: Optional[int] = None) -> Dict[str, bytes]:
        """The values of at most 64 keys; missing ones are loaded (`getAll`)."""
        with self._lock:
            self._finish(self._calls.get_all(self._id, self._moment(now), *many(keys)))
            return self._pairs()

    def put_all(self, pairs: Mapping[str, bytes], *, now: Optional[int] = None) -> None:
        """Stores at most 64 values (`putAll`)."""
        parts = [part for key, value in pairs.items() for part in (key.encode(), value)]
        with self._lock:
            self._finish(self._calls.put_all(self._id, self._moment(now), *joined(parts)))

    def remove_all(self, keys: Optional[Iterable[str]] = None, *, now: Optional[int] = None) -> None:
        """Removes at most 64 keys, or else all, by the writer and with events (`removeAll`)."""
        with self._lock:
            moment = self._moment(now)
            if keys is None:
                self._finish(self._calls.remove_all(self._id, moment))
            else:
                self._finish(self._calls.remove_keys(self._id, moment, *many(keys)))

    def clear(self, *, now: Optional[int] = None) -> None:
        """Drops all, and tells nobody (`clear`)."""
        with self._lock:
            self._finish(self._calls.clear(self._id, self._moment(now)))

    def load_all(self, keys: Iterable[str], replace: bool = False, *, now: Optional[int] = None) -> None:
        """Loads at most 64 keys, those that have a value only with `replace` (`loadAll`)."""
        with self._lock:
            self._finish(self._calls.load_all(self._id, self._moment(now), *many(keys), replace))

    def invoke(self, key: str, function: Callable[..., R], *arguments: Any, loads: bool = True,
               now: Optional[int] = None) -> R:
        """Hands the key's `Entry` to a function, and gives what that returns (`invoke`). What it sets or removes happens
        when it returns. A missing value is loaded for it with `loads`."""
        results: Dict[str, Result[R]] = {}
        with self._lock:
            status = self._calls.invoke(self._id, self._moment(now), key, int(loads))
            self._finish(status, kept_in(results, function, arguments))
        return results[key].get()

    def invoke_all(self, keys: Iterable[str], function: Callable[..., R], *arguments: Any, loads: bool = True,
                   now: Optional[int] = None) -> Dict[str, Result[R]]:
        """`invoke` for at most 64 keys: by key what was returned or raised, None left out (`invokeAll`)."""
        results: Dict[str, Result[R]] = {}
        with self._lock:
            status = self._calls.invoke_all(self._id, self._moment(now), *many(keys), int(loads))
            self._finish(status, kept_in(results, function, arguments))
        return {key: result for key, result in results.items() if result.error is not None or result.get() is not None}

    def entries(self, *, now: Optional[int] = None) -> Dict[str, bytes]:
        """All entries, each with an access and a hit (`iterator`). `walk` counts nothing."""
        with self._lock:
            self._finish(self._calls.entries(self._id, self._moment(now)))
            return self._pairs()

    def stats(self, *, now: Optional[int] = None) -> Statistics:
        """The counters (`CacheStatisticsMXBean`)."""
        with self._lock:
            self._finish(self._calls.stats(self._id, self._moment(now)))
            return Statistics(*self._calls.numbers(self._id))

    def clear_stats(self, *, now: Optional[int] = None) -> None:
        """Sets the counters to zero."""
        with self._lock:
            self._finish(self._calls.clear_stats(self._id, self._moment(now)))

    def save(self) -> bytes:
        """The cache as bytes, from which `Manager.restore` makes it anew: all by which it will ever answer, but for its name
        and its hooks. Nothing is changed or counted. It waits for an open call."""
        with self._lock:
            saved = self._calls.save(self._id)
        if isinstance(saved, int):
            raise refusal(saved)
        return saved

    def peek(self, key: str, *, now: Optional[int] = None) -> Optional[Row]:
        """The entry as it stands. Nothing is loaded, counted or renewed, and no open call is waited for."""
        found = self._calls.peek(self._id, self._moment(now), key)
        if isinstance(found, tuple):
            return Row(key, found[0], None if found[1] == calls.NEVER else found[1])
        self._refuse(found)
        return None

    def walk(self, *, now: Optional[int] = None) -> Iterator[Row]:
        """The live entries one after the other, in no order. Nothing is loaded, counted or renewed. Other calls may go on
        between two: an entry that stays is given once."""
        following = 0
        while True:
            found = self._calls.walk(self._id, following)
            if isinstance(found, int):
                self._refuse(found)
                return
            text, following = found
            yield from rows_of(text, self._moment(now))

    def byte_count(self) -> int:
        """How many bytes the keys and the values of all entries have, also of those that `len` counts though they expired."""
        status, found = self._calls.byte_count(self._id)
        self._refuse(status)
        return found

    def memoize(self, key: Callable[..., str]) -> Callable[[F], F]:
        """Keeps what a function returns. `key` gives the key from its arguments. Threads that miss together each call it,
        and the last value stays."""
        def decorate(function: F) -> F:
            @wraps(function)
            def kept(*arguments: Any, **options: Any) -> bytes:
                place = key(*arguments, **options)
                found = self.get(place)
                if found is None:
                    found = function(*arguments, **options)
                    self.put(place, found)
                return found
            return cast(F, kept)
        return decorate

    def __getitem__(self, key: str) -> bytes:
        found = self.get(key)
        if found is None:
            raise KeyError(key)
        return found

    def __setitem__(self, key: str, value: bytes) -> None:
        self.put(key, value)

    def __delitem__(self, key: str) -> None:
        if not self.remove(key):
            raise KeyError(key)

    def __contains__(self, key: object) -> bool:
        return isinstance(key, str) and self.contains_key(key)

    def __len__(self) -> int:
        """How many entries lie in the cache, also those that expired and were met by no call since."""
        status, rows = self._calls.rows(self._id)
        self._refuse(status)
        return rows

    def __iter__(self) -> Iterator[str]:
        return (row.key for row in self.walk())

    def keys(self) -> Iterator[str]:
        """The keys, by `walk`."""
        return iter(self)

    def items(self) -> Iterator[Tuple[str, bytes]]:
        """The keys with their values, by `walk`."""
        return ((row.key, row.value) for row in self.walk())

    def values(self) -> Iterator[bytes]:
        """The values, by `walk`."""
        return (row.value for row in self.walk())

    def __repr__(self) -> str:
        return "<Cache %r>" % self._name
