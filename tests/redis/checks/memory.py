"""Memory: what the server counts, what it refuses, and what long commands take by size."""
import os
import sys
import time

import tally
from playing import Differs, Play
from protocol import Error
from servers import LOGGED, QUIET, Server

EVERYTHING = "--all" in sys.argv
CALLS = 20_000 if EVERYTHING else 2000
REFUSING = os.environ["JCACHE_REFUSING_MODULE"]


def used(client):
    return int(client.information("memory")["used_memory"])


def fill(client, name, rows, size, first=0):
    steps = range(first, first + rows, 64)
    for at in steps:
        pairs = [it for i in range(at, min(at + 64, first + rows)) for it in (b"key-%012d" % i, b"v" * size)]
        client.send("jc.putall", name, *pairs)
    for _ in steps:
        assert client.read() == "OK"


def counted():
    """MEMORY USAGE grows by what used_memory grows; and all of it comes back."""
    client = Server().client
    client.do("jc.create", "warm", 1000)
    fill(client, "warm", 1000, 100)
    client.do("del", "warm")
    before = used(client)
    for rows in (10, 1000, 20_000):
        client.do("jc.create", f"c{rows}", rows, "TOUCHED", 10**9)
        start, usage = used(client), client.do("memory", "usage", f"c{rows}")
        fill(client, f"c{rows}", rows, 100)
        grown, told = used(client) - start, client.do("memory", "usage", f"c{rows}") - usage
        if abs(grown - told) > 64_000:
            return f"{rows} rows: used memory grew by {grown}, MEMORY USAGE by {told}"
    client.do("flushall")
    time.sleep(0.1)
    left = used(client) - before
    return f"{left} bytes are left" if left > 256_000 else None


def at_the_limit():
    """At maxmemory what stores is refused, what takes out and gets is not; and noeviction takes no cache."""
    client = Server(*QUIET, "--maxmemory-policy", "noeviction").client
    client.do("jc.create", "c", 20_000)
    client.do("config", "set", "maxmemory", used(client) + 3_000_000)
    count = 0
    while not isinstance(reply := client.call("jc.put", "c", f"k{count}", b"v" * 1000), Error):
        count += 1
    saved = client.do("jc.save", "c")
    got = [reply.kind, client.call("jc.at", "c", 1, "PUT", "k0", "x").kind, client.call("jc.create", "d", 10).kind,
           client.do("jc.save", "c") == saved, client.do("jc.get", "c", "k0"), client.do("jc.remove", "c", "k0"),
           client.do("jc.getall", "c", "k1")[0], client.do("dbsize")]
    return tally.differs(got, ["OOM", "OOM", "OOM", True, b"v" * 1000, 1, b"k1", 1])


class Retried:
    """A client that repeats what was refused for want of memory, and sees that a refusal changes nothing."""

    def __init__(self, client, copy):
        self.client, self.copy, self.refused = client, copy, 0

    def do(self, *words):
        for _ in range(1000):
            before = self.client.call("debug", "digest") if self.copy else None
            reply = self.client.call(*words)
            if not isinstance(reply, Error) or reply.kind != "OOM":
                return reply
            self.refused += 1
            if self.copy and self.client.do("debug", "digest") != before:
                raise Differs(f"{words}: refused, and something has changed")
        raise Differs(f"{words}: always refused")

    call = do


def refused():
    """Allocations are refused now and then: a refusal changes nothing, is not replicated, and the call may be repeated."""
    server, replica, play = Server(*LOGGED, modules=(REFUSING,)), Server(*QUIET, modules=(REFUSING,)), Play(19, 30)
    replica.follow(server)
    client = Retried(server.client, True)
    play.create(client)
    for _ in range(CALLS):
        play.one(client)
    server.client.do("wait", 1, 5000)
    digest = server.client.do("debug", "digest")
    same = [replica.client.do("debug", "digest") == digest]
    server.restart()
    same.append(server.client.do("debug", "digest") == digest)
    print(f"    {client.refused} refusals in {CALLS} calls")
    return tally.differs([same, play.others(server.client), client.refused > CALLS // 200], [[True, True], [], True])


def largest():
    """The most that a cache takes can be saved and loaded: a value is as long as its capacity allows."""
    client, told = Server().client, []
    for capacity, most in ((65_536, 4020), (4091, 65_535), (10_000, 26_768)):
        client.do("jc.create", "c", capacity)
        settings = client.do("jc.settings", "c")
        told += [settings[settings.index("maxvalue") + 1] == most, client.do("jc.put", "c", "k", b"v" * most) == "OK"]
        saved = client.do("jc.save", "c")
        if most < 65_535:
            told.append(client.call("jc.put", "c", "k", b"v" * (most + 1)).kind == "JCBADVALUE")
            told.append(client.call("jc.restore", "d", saved, "MAXVALUE", most + 1).kind == "JCTOOLARGE")
        # 81 bytes at most before the rows, and 75 beside a value in each
        told.append(81 + capacity * (75 + most) <= 268_435_456)
        told.append(client.do("jc.restore", "d", saved) == "OK" and client.do("jc.save", "d") == saved)
        client.do("flushall")
    return tally.differs(told, [True] * len(told))


def timed(client, *words):
    """The milliseconds that a command takes, and its reply."""
    began = time.time()
    reply = client.do(*words)
    return 1000 * (time.time() - began), reply


def sizes():
    """What takes long, by the size of the cache: within bounds that are far above what was measured."""
    first, second = Server(), Server()
    client, told = first.client, []
    for rows, size in ((1000, 100), (65_536, 100), *[(65_536, 1000)] * EVERYTHING):
        client.do("jc.create", "big", rows, "TOUCHED", 10**9)
        fill(client, "big", rows, size)
        digest = client.do("debug", "digest-value", "big")
        took = {"save": timed(client, "jc.save", "big")[0], "dump": timed(client, "dump", "big")[0],
                "copy": timed(client, "copy", "big", "other")[0], "unlink": timed(client, "unlink", "other")[0],
                "migrate": timed(client, "migrate", "127.0.0.1", second.port, "big", 0, 60_000)[0]}
        if second.client.do("debug", "digest-value", "big") != digest:
            return "it is another when it has moved"
        took["migrate back"] = timed(second.client, "migrate", "127.0.0.1", first.port, "big", 0, 60_000)[0]
        took |= {"entries": timed(client, "jc.entries", "big")[0], "removeall": timed(client, "jc.removeall", "big")[0],
                 "del": timed(client, "del", "big")[0]}
        told.append((rows, size, took))
        print(f"    {rows:,} rows of 16 + {size} bytes: " + ", ".join(f"{it} {ms:.0f} ms" for it, ms in took.items()), flush=True)
    return tally.differs([max(it.values()) < 20_000 for _, _, it in told], [True] * len(told))


tally.run((
    ("the server's memory has each cache's", counted),
    ("at maxmemory what stores is refused", at_the_limit),
    ("allocations that fail change nothing", refused),
    ("whatever a cache holds can be saved and loaded", largest),
    ("large caches are saved, copied, moved and emptied", sizes),
), [it for it in sys.argv[1:] if not it.startswith("--")])
