"""A cache at a server, with the methods of JSR 107's `Cache` in snake case."""

import time
from typing import Any, Callable, Dict, Iterable, Iterator, List, Mapping, Optional, Tuple, TypeVar, Union

from jcache.errors import LoaderFailed, ProcessorFailed
from jcache.values import Configuration, Entry, Result, Row, Statistics

from .calling import Calling, Server, Word, pairs_of

R = TypeVar("R")
T = TypeVar("T")
# How long one client has for a load, and how long others wait until they ask again.
LEASE, PAUSE = 5_000, 0.005


class Cache(Calling):
    """A cache of a server. Each call may raise what the package `jcache` raises, and what `redis` does.

    The server says the moment of a call. `now` gives another, and needs the right to call JC.AT; such a call is given no
    lease, and its writes are not added to the stream.
    """

    def __init__(self, server: Server, name: str, configuration: Configuration, stream: Optional[str]) -> None:
        super().__init__(server, name, stream)
        self._configuration = configuration

    @property
    def name(self) -> str:
        """The cache's name: the server's key (JSR 107, `getName`)."""
        return self._name

    @property
    def configuration(self) -> Configuration:
        """What the cache was created with, and this client's hooks (JSR 107, `getConfiguration`)."""
        return self._configuration

    def get(self, key: str, default: Optional[T] = None, *, now: Optional[int] = None) -> Union[bytes, T, None]:
        """The value, or `default`. A missing key is loaded: of many clients that miss it at once by one (`get`)."""
        if self._configuration.loader is None:
            found = self._call(now, "GET", key)
        elif now is None:
            found = self._get_or_load(key)
        else:
            found = self._load_at(now, key)
        return default if found is None else found

    def _load(self, key: str) -> Optional[bytes]:
        if self._configuration.loader is None:
            return None
        try:
            return self._configuration.loader(key)
        except Exception as cause:
            raise LoaderFailed() from cause

    def _get_or_load(self, key: str) -> Optional[bytes]:
        while True:
            reply = self._send("JC.GET", key, "LEASE", LEASE)
            if isinstance(reply, bytes):
                return reply
            if reply is not None:
                return self._fill(key, reply)
            time.sleep(PAUSE)

    def _fill(self, key: str, token: int) -> Optional[bytes]:
        value = None
        try:
            value = self._load(key)
        finally:
            if value is None:
                self._send("JC.RELEASE", key, token)
        if value is not None:
            self._send("JC.FILL", key, value, "TOKEN", token)
        return value

    def _load_at(self, now: int, key: str) -> Optional[bytes]:
        found: Optional[bytes] = self._call(now, "GET", key)
        if found is None:
            found = self._load(key)
            if found is not None:
                self._call(now, "LOADALL", "KEEP", key, found)
        return found

    def contains_key(self, key: str, *, now: Optional[int] = None) -> bool:
        """Whether there is a value. Nothing is loaded, counted or renewed (`containsKey`)."""
        return bool(self._call(now, "CONTAINS", key))

    def put(self, key: str, value: bytes, *, now: Optional[int] = None) -> None:
        """Stores a value (`put`)."""
        self._call(now, "PUT", key, value)

    def get_and_put(self, key: str, value: bytes, *, now: Optional[int] = None) -> Optional[bytes]:
        """Stores a value, and gives the one before (`getAndPut`)."""
        found: Optional[bytes] = self._call(now, "GETANDPUT", key, value)
        return found

    def put_if_absent(self, key: str, value: bytes, *, now: Optional[int] = None) -> bool:
        """Stores a value where there is none. Whether it did (`putIfAbsent`)."""
        return bool(self._call(now, "PUTIFABSENT", key, value))

    def replace(self, key: str, value: bytes, *, expected: Optional[bytes] = None, now: Optional[int] = None) -> bool:
        """Stores a value where there is one, and it is the expected one. Whether it did (`replace`)."""
        if expected is None:
            return bool(self._call(now, "REPLACE", key, value))
        return bool(self._call(now, "REPLACEIF", key, expected, value))

    def get_and_replace(self, key: str, value: bytes, *, now: Optional[int] = None) -> Optional[bytes]:
        """Stores a value where there is one, and gives that (`getAndReplace`)."""
        found: Optional[bytes] = self._call(now, "GETANDREPLACE", key, value)
        return found

    def remove(self, key: str, *, expected: Optional[bytes] = None, now: Optional[int] = None) -> bool:
        """Removes the value, where it is the expected one. Whether it did (`remove`)."""
        if expected is None:
            return bool(self._call(now, "REMOVE", key))
        return bool(self._call(now, "REMOVEIF", key, expected))

    def get_and_remove(self, key: str, *, now: Optional[int] = None) -> Optional[bytes]:
        """Removes the value, and gives it (`getAndRemove`)."""
        found: Optional[bytes] = self._call(now, "GETANDREMOVE", key)
        return found

    def get_all(self, keys: Iterable[str], *, now: Optional[int] = None) -> Dict[str, bytes]:
        """The values of at most 64 keys; missing ones are loaded (`getAll`)."""
        asked = list(keys)
        if not asked:
            return {}
        found = {key.decode(): value for key, value in pairs_of(self._call(now, "GETALL", *asked))}
        for key in asked:
            value = None if key in found else self._load(key)
            if value is not None:
                self._call(now, "LOADALL", "KEEP", key, value)
                found[key] = value
        return {key: found[key] for key in asked if key in found}

    def put_all(self, pairs: Mapping[str, bytes], *, now: Optional[int] = None) -> None:
        """Stores at most 64 values (`putAll`)."""
        words: List[Word] = []
        for key, value in pairs.items():
            words += [key, value]
        if words:
            self._call(now, "PUTALL", *words)

    def remove_all(self, keys: Optional[Iterable[str]] = None, *, now: Optional[int] = None) -> None:
        """Removes at most 64 keys, or else all, by the writer and with events (`removeAll`)."""
        words = None if keys is None else list(keys)
        if words is None:
            self._call(now, "REMOVEALL")
        elif words:
            self._call(now, "REMOVEKEYS", *words)

    def clear(self, *, now: Optional[int] = None) -> None:
        """Drops all, and tells nobody (`clear`)."""
        self._call(now, "CLEAR")

    def load_all(self, keys: Iterable[str], replace: bool = False, *, now: Optional[int] = None) -> None:
        """Loads at most 64 keys, those that have a value only with `replace` (`loadAll`)."""
        for key in keys:
            value = None if not replace and self.contains_key(key, now=now) else self._load(key)
            if value is not None:
                self._call(now, "LOADALL", "REPLACE" if replace else "KEEP", key, value)

    def invoke(self, key: str, function: Union[str, Callable[..., R]], *arguments: Any) -> Union[bytes, R, None]:
        """Hands the key's `Entry` to a function, and gives what that returns (`invoke`). What it sets or removes is stored
        if the entry is still as it was; else the function runs again. A name, as "ADD", runs the server's processor."""
        if isinstance(function, str):
            answer: Optional[bytes] = self._call(None, "INVOKE", key, function, *arguments)
            return answer
        while True:
            row = self.peek(key)
            old = row.value if row else self._load(key)
            entry = Entry(key, old)
            try:
                result = function(entry, *arguments)
            except Exception as cause:
                self._call(None, "GET", key)
                raise ProcessorFailed() from cause
            if self._stored(key, row.value if row else None, old, entry.change()):
                return result

    def _stored(self, key: str, here: Optional[bytes], old: Optional[bytes], change: Tuple[int, bytes]) -> bool:
        """Stores what a function has made of an entry, if that is still as it was. Whether it was."""
        action, value = change
        if action == 0:
            if here is None and old is not None:
                self._call(None, "LOADALL", "KEEP", key, old)
            self._call(None, "GET", key)
            return True
        if action == 1:
            return self.put_if_absent(key, value) if here is None else self.replace(key, value, expected=here)
        if here is None:
            self._call(None, "REMOVE", key)
            return True
        return self.remove(key, expected=here)

    def invoke_all(self, keys: Iterable[str], function: Union[str, Callable[..., R]], *arguments: Any) -> Dict[str, Result[Any]]:
        """`invoke` for each key: by key what was returned or raised, None left out (`invokeAll`)."""
        found: Dict[str, Result[Any]] = {}
        for key in keys:
            try:
                result = self.invoke(key, function, *arguments)
                if result is not None:
                    found[key] = Result(result, None)
            except ProcessorFailed as failed:
                found[key] = Result(None, failed)
        return found

    def entries(self, *, now: Optional[int] = None) -> Dict[str, bytes]:
        """All entries, each with an access and a hit (`iterator`). `walk` counts nothing."""
        return {key.decode(): value for key, value in pairs_of(self._call(now, "ENTRIES"))}

    def stats(self) -> Statistics:
        """The counters (`CacheStatisticsMXBean`)."""
        return Statistics(*self._send("JC.STATS")[1::2])

    def clear_stats(self, *, now: Optional[int] = None) -> None:
        """Sets the counters to zero."""
        self._call(now, "CLEARSTATS")

    def peek(self, key: str) -> Optional[Row]:
        """The entry as it stands. Nothing is loaded, counted or renewed."""
        found = self._send("JC.PEEK", key)
        return None if found is None else Row(key, found[0], found[1])

    def walk(self) -> Iterator[Row]:
        """The live entries one after the other, in no order. Nothing is loaded, counted or renewed. An entry that stays is
        given once, if the cache does not move meanwhile."""
        cursor = 0
        while True:
            cursor, rows = self._send("JC.SCAN", cursor)
            for key, value, expires in rows:
                yield Row(key.decode(), value, expires)
            if not cursor:
                return

    def __getitem__(self, key: str) -> bytes:
        found = self.get(key)
        if found is None:
            raise KeyError(key)
        return found

    def __setitem__(self, key: str, value: bytes) -> None:
        self.put(key, value)

    def __delitem__(self, key: str) -> None:
        if not self.remove(key):
            raise KeyError(key)

    def __contains__(self, key: object) -> bool:
        return isinstance(key, str) and self.contains_key(key)

    def __len__(self) -> int:
        """How many entries lie in the cache, also those that expired and were met by no call since."""
        settings = dict(pairs_of(self._send("JC.SETTINGS")))
        return int(settings[b"rows"])

    def __iter__(self) -> Iterator[str]:
        return (row.key for row in self.walk())

    def items(self) -> Iterator[Tuple[str, bytes]]:
        """The keys with their values, by `walk`."""
        return ((row.key, row.value) for row in self.walk())

    def __repr__(self) -> str:
        return "<Cache %r>" % self._name
