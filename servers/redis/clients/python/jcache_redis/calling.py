"""How a call is sent, and its errors."""

from typing import Any, Callable, Dict, List, Optional, Sequence, Tuple, Union

import redis
from jcache.errors import CacheError, ProcessorFailed, Status, WriterFailed, refusal

Server = Any
"""A `redis.Redis`, or a `redis.RedisCluster`."""

Word = Union[bytes, str, int]

_REFUSALS: Dict[str, Status] = {
    "JCNOCACHE": Status.NO_SUCH_CACHE, "JCEXISTS": Status.DUPLICATE_NAME, "JCBADKEY": Status.BAD_KEY,
    "JCBADVALUE": Status.BAD_VALUE, "JCBADCAPACITY": Status.BAD_CAPACITY, "JCTOOMANY": Status.TOO_MANY_KEYS,
    "JCDUPLICATE": Status.DUPLICATE_KEY, "JCNOPROCESSOR": Status.NO_SUCH_PROCESSOR, "OOM": Status.OUT_OF_MEMORY,
}


def error_of(reply: redis.ResponseError) -> CacheError:
    """What an error that the server replied is raised as; others are raised as they are."""
    kind = str(reply).split(" ", 1)[0]
    if kind in _REFUSALS:
        return refusal(_REFUSALS[kind])
    if kind == "JCPROCESSOR":
        return ProcessorFailed()
    if kind == "JCWRITER":
        return WriterFailed()
    raise reply


class Calling:
    """A cache's name at a server; each call by its name and words, at the server's moment or at a given one."""

    def __init__(self, server: Server, name: str, stream: Optional[str]) -> None:
        self._server, self._name, self._stream = server, name, stream

    def _send(self, command: str, *words: Word) -> Any:
        try:
            return self._server.execute_command(command, self._name, *words)
        except redis.ResponseError as reply:
            raise error_of(reply) from reply

    def _call(self, now: Optional[int], call: str, *words: Word) -> Any:
        """A call; where the cache writes, its writes are added to the stream."""
        if now is not None:
            return self._send("JC.AT", now, call, *words)
        if self._stream is not None:
            return self._send("JC.BEHIND", self._stream, call, *words)
        return self._send("JC." + call, *words)


def pairs_of(reply: Sequence[Any]) -> List[Tuple[bytes, Any]]:
    """Keys with what stands behind each."""
    return list(zip(reply[::2], reply[1::2]))


def place_of(server: Server, name: str) -> Callable[[], Tuple[str, int]]:
    """What tells the host and port of the master that has a key now."""
    def place() -> Tuple[str, int]:
        if isinstance(server, redis.RedisCluster):
            server.nodes_manager.initialize()
            node = server.get_node_from_key(name)
            if node is None:
                raise redis.RedisError("no node has the slot of %r" % name)
            return node.host, node.port
        options = server.connection_pool.connection_kwargs
        return options.get("host", "localhost"), options.get("port", 6379)
    return place
