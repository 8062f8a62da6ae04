"""A manager of caches, with the methods of JSR 107's `CacheManager` in snake case."""

import os
import threading
from typing import Dict, List, Optional, Sequence

from . import _calls as calls
from ._asking import Clock, names_of
from .cache import Cache
from .clocks import WallClock
from .errors import HooksDiffer, refusal
from .values import Configuration, Expiry, Listener, Loader, Writer

# Each cache has two processors in the library: they run the function that was invoked. The second one wants the value.
_WANTS = b"\0\1"


class Manager:
    """A manager of named caches, closed at the end of its `with` or by `close`. Threads may share it.

    `clock` gives the moment of a call that is given none. Keys are placed by a secret that the system draws, so that nobody
    can choose keys that share their places; or by a `seed`, which anybody may know.
    """

    def __init__(self, seed: Optional[int] = None, clock: Optional[Clock] = None) -> None:
        self._calls = calls.new_calls()
        self._clock: Clock = clock or WallClock().__call__
        self._caches: Dict[str, Cache] = {}
        self._lock = threading.Lock()
        self._refuse(self._calls.open_secret(os.urandom(16)) if seed is None else self._calls.open(seed))

    def create_cache(self, name: str, capacity: int, expiry: Expiry = Expiry.eternal(), *,
                     loader: Optional[Loader] = None, writer: Optional[Writer] = None,
                     listeners: Sequence[Listener] = (), max_value: int = 65_535) -> Cache:
        """Makes a cache of at most `capacity` entries, whose values have at most `max_value` bytes (`createCache`).

        A loader gives a missing key's value or None. A writer is given a key with its value, or with None where it is
        removed. Each listener is told each event. Raises `NotCreated`, `BadArgument`, `OutOfMemory`, `Closed`.
        """
        with self._lock:
            status, number = self._calls.create(name, capacity, expiry.policy, expiry.duration, loader is not None,
                                                writer is not None, min(len(listeners), 255), max_value, _WANTS)
            self._refuse(status)
            return self._made(number, name, Configuration(capacity, expiry, loader, writer, tuple(listeners), max_value))

    def restore(self, name: str, saved: bytes, *, loader: Optional[Loader] = None, writer: Optional[Writer] = None,
                listeners: Sequence[Listener] = (), max_value: int = 65_535) -> Cache:
        """Makes a cache of this name from what `Cache.save` gave, in this process or another. From here on it answers as the
        saved one would have, by hooks of the same kinds.

        Moments are absolute: after a restart the clock has to go on from where it was, as `WallClock` does. Raises `BadSave`,
        `OtherVersion`, `HooksDiffer`, and what `create_cache` raises.
        """
        with self._lock:
            status, number, place = self._calls.restore(name, saved, max_value)
            self._refuse(status, place)
            _, capacity, policy, duration, hooks, wants = self._calls.settings(number)
            if (hooks, wants) != ((loader is not None, writer is not None, len(listeners)), _WANTS):
                self._calls.destroy(number)
                raise HooksDiffer()
            expiry = Expiry(policy, duration)
            return self._made(number, name, Configuration(capacity, expiry, loader, writer, tuple(listeners), max_value))

    def _made(self, number: int, name: str, configuration: Configuration) -> Cache:
        cache = Cache(self._calls, number, name, self._clock, configuration)
        self._caches[name] = cache
        return cache

    def get_cache(self, name: str) -> Optional[Cache]:
        """The live cache of this name, or None (`getCache`)."""
        with self._lock:
            status, _ = self._calls.find(name)
            if status == calls.NO_SUCH_CACHE:
                return None
            self._refuse(status)
            return self._caches[name]

    def destroy_cache(self, name: str) -> None:
        """Ends the cache of this name, if there is one, after its open call; tells nobody (`destroyCache`)."""
        cache = self.get_cache(name)
        if cache is None:
            return
        cache.end()
        with self._lock:
            if self._caches.get(name) is cache:
                del self._caches[name]

    def cache_names(self) -> List[str]:
        """The names of the live caches, as they were made (`getCacheNames`)."""
        names = self._calls.names()
        if isinstance(names, int):
            raise refusal(names)
        return list(names_of(names))

    def close(self) -> None:
        """Ends all caches and frees their memory (`close`). Again, it does nothing."""
        self._calls.close()

    @property
    def is_closed(self) -> bool:
        """Whether it was closed (`isClosed`)."""
        return self._calls.find("?")[0] == calls.CLOSED

    def __enter__(self) -> "Manager":
        return self

    def __exit__(self, *_: object) -> None:
        self.close()

    @staticmethod
    def _refuse(status: int, place: int = 0) -> None:
        if status:
            raise refusal(status, place)
