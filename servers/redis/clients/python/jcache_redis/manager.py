"""The caches of a server, with the methods of JSR 107's `CacheManager` in snake case."""

from typing import List, Optional, Sequence

from jcache.values import Configuration, Expiry, Listener, Loader

from .cache import Cache
from .calling import Calling, Server, Word, pairs_of
from .listening import Listening

_POLICIES = ("ETERNAL", "CREATED", "ACCESSED", "MODIFIED", "TOUCHED")


class Manager:
    """The caches of a `redis.Redis` or a `redis.RedisCluster`, which its caller closes. `close`, or the end of a `with`,
    ends the threads that listen; the caches stay."""

    def __init__(self, server: Server) -> None:
        self._server = server
        self._listening: List[Listening] = []

    def create_cache(self, name: str, capacity: int, expiry: Expiry = Expiry.eternal(), *, loader: Optional[Loader] = None,
                     stream: Optional[str] = None, listeners: Sequence[Listener] = (), max_value: Optional[int] = None) -> Cache:
        """Makes a cache of at most `capacity` entries, whose values have at most `max_value` bytes, or else as many as can be
        saved of such a cache (`createCache`).

        Where there is a stream, all writes are added to it; its key and the cache's name are of one slot. `write_behind`
        takes them from there. A loader and listeners are this client's: others have their own, by `get_cache`.
        """
        words: List[Word] = [capacity, _POLICIES[expiry.policy], *[expiry.duration] * (expiry.policy > 0)]
        words += ["LOADER"] * (loader is not None) + ["WRITER"] * (stream is not None) + ["LISTENERS"] * bool(listeners)
        words += [] if max_value is None else ["MAXVALUE", max_value]
        Calling(self._server, name, None)._send("JC.CREATE", *words)
        return self._found(name, loader, stream, listeners)

    def get_cache(self, name: str, *, loader: Optional[Loader] = None, stream: Optional[str] = None,
                  listeners: Sequence[Listener] = ()) -> Optional[Cache]:
        """The cache of this name with this client's hooks, or None. It loads, writes and tells where it was created so
        (`getCache`)."""
        return self._found(name, loader, stream, listeners) if self._server.exists(name) else None

    def _found(self, name: str, loader: Optional[Loader], stream: Optional[str], listeners: Sequence[Listener]) -> Cache:
        told = dict(pairs_of(Calling(self._server, name, None)._send("JC.SETTINGS")))
        expiry = Expiry(_POLICIES.index(told[b"policy"].decode()), told[b"duration"])
        configuration = Configuration(told[b"capacity"], expiry, loader, None, tuple(listeners), told[b"maxvalue"])
        if listeners:
            self._listening.append(Listening(self._server, name, configuration.listeners))
        return Cache(self._server, name, configuration, stream)

    def destroy_cache(self, name: str) -> None:
        """Ends the cache of this name, if there is one (`destroyCache`)."""
        if self._server.exists(name):
            Calling(self._server, name, None)._send("JC.DESTROY")

    def close(self) -> None:
        """Ends the threads that listen."""
        while self._listening:
            self._listening.pop().close()

    def __enter__(self) -> "Manager":
        return self

    def __exit__(self, *_: object) -> None:
        self.close()
