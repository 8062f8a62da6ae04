"""Hears the events of a cache by the shard channel of its name."""

import threading
from typing import Any, List, Optional, Sequence

import redis
from jcache.values import Event, Listener

from .calling import Server, place_of

# Seconds until a lost connection is sought again, and that a read waits at most.
AGAIN, WAIT = 0.1, 0.2


def event_of(message: bytes) -> Event:
    """What a message says: its kind, the lengths of three parts or -, a line's end, the parts."""
    head, _, rest = message.partition(b"\n")
    kind, *lengths = head.decode().split(" ")
    parts: List[Optional[bytes]] = []
    for length in lengths:
        here = 0 if length == "-" else int(length)
        parts.append(None if length == "-" else rest[:here])
        rest = rest[here:]
    key, value, before = parts
    return Event(kind, (key or b"").decode(), value, before)


class Listening:
    """A thread that hands each event to the listeners, in order, until it is closed. An event is heard at most once: what is
    told while no connection stands is not. What a listener raises is dropped, and the others go on."""

    def __init__(self, server: Server, name: str, listeners: Sequence[Listener]) -> None:
        self._place, self._name, self._listeners = place_of(server, name), name, listeners
        self._ends, self._hears = threading.Event(), threading.Event()
        self._thread = threading.Thread(target=self._run, daemon=True)
        self._thread.start()
        self._hears.wait(10)

    def _run(self) -> None:
        while not self._ends.is_set():
            try:
                self._hear()
            except (OSError, redis.RedisError):
                self._ends.wait(AGAIN)

    def _hear(self) -> None:
        """Listens at the node that has the cache, until that ends."""
        host, port = self._place()
        connection = redis.Connection(host=host, port=port, decode_responses=False)
        try:
            connection.connect()
            connection.send_command("SSUBSCRIBE", self._name)
            while not self._ends.is_set():
                if not connection.can_read(WAIT):
                    continue
                message = connection.read_response()
                if message[0] == b"sunsubscribe":
                    return
                self._take(message)
        finally:
            connection.disconnect()

    def _take(self, message: List[Any]) -> None:
        if message[0] == b"ssubscribe":
            self._hears.set()
            return
        event = event_of(message[2])
        for listener in self._listeners:
            try:
                listener(event)
            except Exception:
                continue

    def close(self) -> None:
        """Ends the thread."""
        self._ends.set()
        self._thread.join()
