"""Hooks: leases of keys that are loaded, listeners by shard channels, writes behind by a stream, processors."""
import random
import sys
import threading
import time

import tally
from model import Cache
from playing import are_same, random_call
from servers import LOGGED, Client, Server

EVERYTHING = "--all" in sys.argv
CALLS = 20_000 if EVERYTHING else 2000


def leases():
    """One of those who miss is given a lease, and its fill alone is taken while that lasts."""
    client = Server().client
    client.do("jc.create", "c", 10, "LOADER")
    token = client.do("jc.get", "c", "k", "LEASE", 60_000)
    got = [client.do("jc.get", "c", "k", "LEASE", 60_000), client.do("jc.fill", "c", "k", "stray"),
           client.do("jc.fill", "c", "k", "stray", "TOKEN", token + 1), client.do("jc.get", "c", "k"),
           client.do("jc.fill", "c", "k", "mine", "TOKEN", token), client.do("jc.fill", "c", "k", "late", "TOKEN", token),
           client.do("jc.get", "c", "k", "LEASE", 60_000), client.do("jc.fill", "c", "other", "free"),
           client.do("jc.fill", "c", "other", "again"), client.do("jc.get", "c", "other")]
    counts = client.do("jc.stats", "c")
    token = client.do("jc.get", "c", "none", "LEASE", 60_000)
    got += [client.do("jc.release", "c", "none", it) for it in (token + 1, token, token)]
    wanted = [None, 0, 0, None, 1, 0, b"mine", 1, 0, b"free", 0, 1, 0]
    return tally.differs([token > 0, got, counts[1:6:2]], [True, wanted, [2, 3, 0]])


def lost_leases():
    """A lease ends with its time, with a change of its key, with all its cache's rows, and with the server."""
    server = Server(*LOGGED)
    client, ends = server.client, []
    client.do("jc.create", "c", 10, "LOADER")
    changes = ("put c k new", "remove c k", "putall c a 1 k 2", "removekeys c k", "clear c", "removeall c",
               "invoke c k append x", "loadall c keep k v", "at c 1 put k v", "putifabsent c k v")
    for words in changes:
        client.do("jc.remove", "c", "k")
        token = client.do("jc.get", "c", "k", "LEASE", 60_000)
        client.do(*("jc." + words).split())
        client.do("jc.remove", "c", "k")
        ends.append(client.do("jc.fill", "c", "k", "stale", "TOKEN", token))
    token = client.do("jc.get", "c", "k", "LEASE", 30)
    time.sleep(0.05)
    ends.append(client.do("jc.fill", "c", "k", "stale", "TOKEN", token))
    newer = client.do("jc.get", "c", "k", "LEASE", 60_000)
    server.restart()
    ends.append(server.client.do("jc.fill", "c", "k", "stale", "TOKEN", newer))
    return tally.differs([ends, newer > token, server.client.do("jc.get", "c", "k")], [[0] * len(ends), True, None])


def many_leases():
    """More leases than are kept: the server keeps none of them for good."""
    client = Server().client
    client.do("jc.create", "c", 10, "LOADER")
    before = client.do("memory", "usage", "c")
    for i in range(25_000):
        client.send("jc.get", "c", f"k{i}", "LEASE", 600_000)
    tokens = [client.read() for _ in range(25_000)]
    takes = client.do("memory", "usage", "c") - before
    return tally.differs([len(set(tokens)), 0 < takes < 2_000_000], [25_000, True])


def herd():
    """Of twenty clients that miss a key at once one loads it."""
    server, loads, found = Server(), [], []
    server.client.do("jc.create", "c", 10, "LOADER")

    def ask():
        client = Client(server.port)
        while True:
            reply = client.do("jc.get", "c", "k", "LEASE", 5000)
            if isinstance(reply, bytes):
                found.append(reply)
                return
            if reply is not None:
                loads.append(1)
                time.sleep(0.05)
                client.do("jc.fill", "c", "k", "loaded", "TOKEN", reply)
            time.sleep(0.002)

    threads = [threading.Thread(target=ask) for _ in range(20)]
    for thread in threads:
        thread.start()
    for thread in threads:
        thread.join()
    return tally.differs([len(loads), found], [1, [b"loaded"] * 20])


def event_of(message):
    """What a message says: kind, key, value, value before."""
    head, _, rest = message.partition(b"\n")
    kind, *lengths = head.decode().split()
    parts = []
    for length in lengths:
        parts.append(None if length == "-" else rest[:int(length)])
        rest = rest if length == "-" else rest[int(length):]
    assert rest == b""
    return (kind, *parts)


def listeners():
    """Each event is told once and in order on the shard channel of the cache's name; nothing is by replicas or logs."""
    server, replica, chance = Server(*LOGGED), Server(), random.Random(3)
    replica.follow(server)
    cache = Cache(20, "TOUCHED", 100, listeners=True)
    server.client.do(*cache.words("heard"))
    hears, now = Client(server.port), 1000
    hears.do("ssubscribe", "heard")
    for _ in range(CALLS):
        now += chance.choice((0, 1, 5))
        call = random_call(chance)
        wanted, got = cache.call(now, *call), server.client.call("jc.at", "heard", now, *call)
        if not are_same(got, wanted):
            return f"{call}: got {got!r}, wanted {wanted!r}"
    for event in cache.events:
        told = event_of(hears.read()[2])
        if told != event:
            return f"told {told}, wanted {event}"
    replica.client.do("ping")
    return tally.differs(len(cache.events) > CALLS // 3, True)


def entries_of(client, stream):
    """The writes in a stream, in order."""
    found = [dict(zip(fields[::2], fields[1::2])) for _, fields in client.do("xrange", stream, "-", "+")]
    return [(it[b"key"], it.get(b"value")) for it in found]


def writes_behind():
    """What a writer is given stands in the stream, in order; with the call that did it, or not at all."""
    server, replica, chance = Server(*LOGGED), Server(), random.Random(4)
    replica.follow(server)
    client, cache = server.client, Cache(20, writer=True)
    client.do(*cache.words("{c}"))
    for _ in range(CALLS):
        call = random_call(chance)
        wanted, got = cache.call(0, *call), client.call("jc.behind", "{c}", "{c}:writes", *call)
        if not are_same(got, wanted):
            return f"{call}: got {got!r}, wanted {wanted!r}"
    if entries_of(client, "{c}:writes") != cache.written or client.do("jc.save", "{c}") != cache.saved():
        return "the stream or the cache is another"
    client.do("wait", 1, 5000)
    digest = client.do("debug", "digest")
    same = replica.client.do("debug", "digest") == digest
    server.restart()
    return tally.differs([same, server.client.do("debug", "digest") == digest], [True, True])


def refused_writes():
    """Where the server can't add to the stream the call is its writer's fault, here, at a replica and by the log."""
    server, replica = Server(*LOGGED), Server()
    replica.follow(server)
    client = server.client
    client.do("jc.create", "c", 10, "WRITER")
    client.do("jc.behind", "c", "s", "PUTALL", "a", "1", "b", "2")
    client.do("set", "text", "x")
    client.do("xadd", "full", "18446744073709551615-18446744073709551614", "a", "b")
    got = [client.call("jc.behind", "c", it, "PUT", "a", "3").kind for it in ("text", "c")]
    got.append(client.call("jc.behind", "c", "full", "PUTALL", "a", "4", "b", "5", "d", "6").kind)
    got.append(client.do("jc.getall", "c", "a", "b", "d"))
    client.do("wait", 1, 5000)
    digest = client.do("debug", "digest")
    got.append(replica.client.do("debug", "digest") == digest)
    server.restart()
    got.append(server.client.do("debug", "digest") == digest)
    return tally.differs(got, ["JCWRITER"] * 3 + [[b"a", b"4", b"b", b"2"], True, True])


def processors():
    """Each processor on values by hand, and at the ends of numbers."""
    client = Server().client
    client.do("jc.create", "c", 10, "MAXVALUE", 20)
    least, most = b"-9223372036854775808", b"9223372036854775807"
    cases = ((None, "ADD", b"5", b"5"), (b"5", "add", b"-7", b"-2"), (most, "ADD", b"1", "fails"), (most, "ADD", b"-1", b"9223372036854775806"),
             (least, "ADD", b"0", least), (least, "ADD", b"-1", "fails"), (b"05", "ADD", b"1", "fails"), (b"-0", "ADD", b"1", "fails"),
             (b"", "ADD", b"1", "fails"), (b"1", "ADD", b"", "fails"), (b"1", "ADD", b" 1", "fails"), (b"+1", "ADD", b"1", "fails"),
             (None, "APPEND", b"x", b"x"), (b"a", "APPEND", b"\0", b"a\0"), (b"v" * 19, "APPEND", b"xy", "fails"),
             (None, "MAXIMUM", b"3", b"3"), (b"4", "MAXIMUM", b"3", b"4"), (b"-4", "MAXIMUM", b"-3", b"-3"), (b"x", "MAXIMUM", b"3", "fails"),
             (None, "MINIMUM", b"3", b"3"), (b"4", "MINIMUM", b"3", b"3"), (least, "MINIMUM", most, least), (b"4", "MINIMUM", b"x", "fails"))
    for old, name, argument, wanted in cases:
        client.do("jc.clear", "c")
        if old is not None:
            client.do("jc.put", "c", "k", old)
        reply = client.call("jc.invoke", "c", "k", name, argument)
        after = client.do("jc.get", "c", "k")
        if wanted == "fails":
            if after != old or getattr(reply, "kind", "") != "JCPROCESSOR":
                return f"{old} {name} {argument}: {reply!r}, {after!r}"
        elif reply != wanted or after != wanted:
            return f"{old} {name} {argument}: {reply!r}, {after!r}"
    return None


tally.run((
    ("a lease is one client's, and its fill alone is taken", leases),
    ("leases end with time, changes and the server", lost_leases),
    ("leases are bounded", many_leases),
    ("of twenty clients that miss one loads", herd),
    ("listeners hear each event in order", listeners),
    ("writes behind stand in the stream, with replica and log", writes_behind),
    ("a write that is refused is the writer's fault everywhere", refused_writes),
    ("processors", processors),
), [it for it in sys.argv[1:] if not it.startswith("--")])
