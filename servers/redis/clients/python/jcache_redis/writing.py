"""Takes writes from a cache's stream."""

from typing import Optional

import redis
from jcache.values import Writer

from .calling import Server


def write_behind(server: Server, stream: str, writer: Writer, *, group: str = "writers", consumer: str = "writer",
                 count: int = 100, wait: Optional[int] = None) -> int:
    """Hands at most `count` writes of a stream to a writer, in order: a key with its value, or with None where it was
    removed. How many were written. Each is taken off the stream's group once the writer has returned; where it raises, that
    is raised, and that write comes first next time. So each is written at least once.

    `wait` is how many milliseconds to wait for a write where there is none. One consumer at a time keeps the order.
    """
    _make_group(server, stream, group)
    for place in ("0", ">"):  # what was handed out before and not written; then what is new
        found = server.xreadgroup(group, consumer, {stream: place}, count=count, block=wait if place == ">" else None)
        entries = found[0][1] if found else []
        for number, fields in entries:
            writer(fields[b"key"].decode(), fields.get(b"value"))
            server.xack(stream, group, number)
        if entries:
            return len(entries)
    return 0


def _make_group(server: Server, stream: str, group: str) -> None:
    """Makes a group, and its stream, where they are not there yet."""
    groups = server.xinfo_groups(stream) if server.exists(stream) else []
    if group.encode() in [it["name"] for it in groups]:
        return
    try:
        server.xgroup_create(stream, group, id="0", mkstream=True)
    except redis.ResponseError as reply:  # another consumer was faster
        if not str(reply).startswith("BUSYGROUP"):
            raise
