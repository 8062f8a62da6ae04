"""Random calls on one server against the model; what may happen to a key in between; errors by their names."""
import sys

import tally
from playing import Play
from protocol import Error, Map
from servers import Server

EVERYTHING = "--all" in sys.argv
CALLS = 200_000 if EVERYTHING else 20_000


def random_calls():
    play, server = Play(5), Server()
    play.create(server.client)
    play.many(server.client, CALLS)
    return tally.differs(play.others(server.client), [])


def moved_keys():
    """DUMP and RESTORE, COPY, RENAME, MOVE and SWAPDB, JC.SAVE and JC.RESTORE, DEBUG RELOAD; and calls go on."""
    play, server = Play(6, 30), Server()
    client = server.client
    play.create(client)
    for _ in range(3):
        play.many(client, 2000)
        for name in play.caches:
            move(client, name)
        client.do("swapdb", 0, 3)
        client.do("swapdb", 3, 0)
        digest = client.do("debug", "digest")
        client.do("debug", "reload")
        if client.do("debug", "digest") != digest or play.others(client):
            return f"other caches after moves: {play.others(client)}"
    play.many(client, 2000)
    return tally.differs(play.others(client), [])


def move(client, name):
    dump, saved, latest = client.do("dump", name), client.do("jc.save", name), client.do("debug", "digest-value", name)
    assert client.do("copy", name, "copy") == 1 and client.do("dump", "copy") == dump
    assert client.do("debug", "digest-value", "copy") == latest
    assert client.do("jc.destroy", "copy") == "OK"
    assert client.do("del", name) == 1 and client.do("restore", name, 0, dump) == "OK"
    assert client.do("dump", name) == dump
    assert client.do("unlink", name) == 1 and client.do("jc.restore", name, saved) == "OK"
    assert client.do("rename", name, "other") == "OK" and client.do("rename", "other", name) == "OK"
    assert client.do("move", name, 3) == 1 and client.do("select", 3) == "OK"
    assert client.do("jc.save", name) == saved and client.do("move", name, 0) == 1
    assert client.do("select", 0) == "OK"


ERRORS = (
    ("JCNOCACHE", "jc.get none k"), ("JCNOCACHE", "jc.put none k v"), ("JCNOCACHE", "jc.save none"),
    ("JCNOCACHE", "jc.settings none"), ("JCNOCACHE", "jc.peek none k"), ("JCNOCACHE", "jc.scan none 0"),
    ("JCNOCACHE", "jc.destroy none"), ("JCNOCACHE", "jc.at none 1 GET k"), ("JCNOCACHE", "jc.stats none"),
    ("WRONGTYPE", "jc.get text k"), ("WRONGTYPE", "jc.put text k v"), ("WRONGTYPE", "jc.destroy text"),
    ("WRONGTYPE", "jc.save text"), ("WRONGTYPE", "jc.entries text"), ("WRONGTYPE", "get c"), ("WRONGTYPE", "xadd c * a b"),
    ("JCEXISTS", "jc.create c 5"), ("JCEXISTS", "jc.create text 5"), ("JCEXISTS", "jc.restore c x"),
    ("JCBADCAPACITY", "jc.create new 0"), ("JCBADCAPACITY", "jc.create new 65537"),
    ("JCBADCAPACITY", "jc.create new 99999999999"), ("JCTOOLARGE", "jc.create new 65536 MAXVALUE 4021"),
    ("JCTOOLARGE", "jc.create new 4092 MAXVALUE 65535"),
    ("JCSYNTAX", "jc.create new x"), ("JCSYNTAX", "jc.create new -1"), ("JCSYNTAX", "jc.create new 5 SOON"),
    ("JCSYNTAX", "jc.create new 5 CREATED"), ("JCSYNTAX", "jc.create new 5 CREATED soon"),
    ("JCSYNTAX", "jc.create new 5 CREATED 18446744073709551616"), ("JCSYNTAX", "jc.create new 5 MAXVALUE 65536"),
    ("JCBADKEY", "jc.get c " + "k" * 64), ("JCBADKEY", "jc.getall c a " + "k" * 64), ("JCBADKEY", "jc.peek c " + "k" * 64),
    ("JCDUPLICATE", "jc.getall c a a"), ("JCDUPLICATE", "jc.putall c a 1 a 2"),
    ("JCDUPLICATE", "jc.loadall l KEEP a 1 a 2"), ("JCDUPLICATE", "jc.invokeall c ADD 1 a a"),
    ("JCTOOMANY", "jc.getall c " + " ".join(map(str, range(65)))),
    ("JCNOPROCESSOR", "jc.invoke c k MULTIPLY 2"), ("JCPROCESSOR", "jc.invoke c k ADD x"),
    ("JCPROCESSOR", "jc.invoke c k MAXIMUM 01"), ("JCPROCESSOR", "jc.invoke c k ADD 9223372036854775808"),
    ("JCSYNTAX", "jc.loadall l SOON a 1"), ("JCSYNTAX", "jc.at c soon GET k"), ("JCSYNTAX", "jc.at c 1 FILL k v"),
    ("JCSYNTAX", "jc.at c 18446744073709551616 GET k"), ("JCSYNTAX", "jc.at c 1 WROTE x PUT k v"),
    ("JCSYNTAX", "jc.behind c s FILL k v"), ("JCSYNTAX", "jc.get l k LEASE 0"), ("JCSYNTAX", "jc.get l k HIRE 5"),
    ("JCSYNTAX", "jc.fill l k v TOKEN x"), ("JCSYNTAX", "jc.release l k x"), ("JCSYNTAX", "jc.scan c x"), ("JCSYNTAX", "jc.scan c 0 BYTES x"),
    ("JCSYNTAX", "jc.restore new x MAXVALUE"), ("JCSYNTAX", "jc.restore new x SOON 1"),
    ("JCBADSAVE", "jc.restore new JCS"), ("JCBADSAVE", "jc.restore new x"), ("JCVERSION", "jc.restore new JCS2"),
    ("JCNOLOADER", "jc.get c k LEASE 5"), ("JCNOLOADER", "jc.fill c k v"),
    ("JCWRITER", "jc.put w k v"), ("JCWRITER", "jc.removeall w"), ("JCBADVALUE", "jc.put small k four"),
    ("JCBADVALUE", "jc.loadall small KEEP k four"), ("JCPROCESSOR", "jc.invoke small k APPEND four"),
)
WRONG_ARITY = ("jc.create c", "jc.get c", "jc.get c k LEASE", "jc.put c k", "jc.put c k v w", "jc.contains c", "jc.replaceif c k v",
               "jc.invoke c k ADD", "jc.getall c", "jc.putall c k", "jc.putall c a 1 b", "jc.loadall l KEEP a",
               "jc.invokeall c ADD 1", "jc.removeall c k", "jc.entries", "jc.stats c k", "jc.at c 1", "jc.at c 1 GET",
               "jc.at c 1 PUT k", "jc.behind c s", "jc.behind c s PUT k", "jc.fill c k", "jc.fill c k v TOKEN",
               "jc.release l k", "jc.scan c", "jc.save", "jc.restore c", "jc.destroy", "jc.settings", "jc.peek c")


def errors():
    client = Server().client
    client.do("set", "text", "x")
    for words in ("c 5", "l 5 LOADER", "w 5 WRITER", "small 5 LOADER MAXVALUE 3"):
        client.do("jc.create", *words.split())
    digest = client.do("debug", "digest")
    for wanted, words in [*ERRORS, *(("ERR", it) for it in WRONG_ARITY)]:
        reply = client.call(*words.split(" "))
        if not isinstance(reply, Error) or reply.kind != wanted:
            return f"{words}: got {reply!r}, wanted {wanted}"
        changed = client.do("debug", "digest") != digest
        if changed and wanted != "JCPROCESSOR":  # a processor's fault is a call's reply, which counts
            return f"{words}: {reply}, and something has changed"
        digest = client.do("debug", "digest")
    bytes_errors = [("JCBADKEY", b""), ("JCBADKEY", b"\xff"), ("JCBADKEY", b"\xed\xa0\x80")]
    got = [client.call("jc.get", "c", key).kind for _, key in bytes_errors]
    got.append(client.call("jc.put", "c", "k", b"v" * 65536).kind)
    return tally.differs(got, [kind for kind, _ in bytes_errors] + ["JCBADVALUE"])


def newer_protocol():
    """The same commands by RESP3, whose maps are maps and whose null is a null of its own."""
    server = Server()
    newer = type(server.client)(server.port, newer=True)
    newer.do("jc.create", "c", 10)
    newer.do("jc.putall", "c", "a", "1", "b", "2")
    got = [newer.do("jc.getall", "c", "a", "b", "x"), newer.do("jc.get", "c", "x"), newer.do("jc.entries", "c"),
           newer.do("jc.stats", "c"), newer.do("jc.peek", "c", "a"), newer.do("jc.invokeall", "c", "ADD", "1", "a")]
    wanted = [[b"a", b"1", b"b", b"2"], None, [b"a", b"1", b"b", b"2"],
              ["hits", 4, "misses", 2, "puts", 2, "removals", 0, "evictions", 0], [b"1", None], [b"a", b"2"]]
    are_maps = [isinstance(it, Map) for it in got]
    return tally.differs(got, wanted) or tally.differs(are_maps, [True, False, True, True, False, True])


def transactions_and_scripts():
    client = Server().client
    other = type(client)(client.port)
    client.do("jc.create", "c", 10)
    for words in ("multi", "jc.put c a 1", "jc.invoke c a add 5", "jc.get c a"):
        client.do(*words.split())
    script = "redis.call('jc.put', KEYS[1], 'b', ARGV[1]) return redis.call('jc.getall', KEYS[1], 'a', 'b')"
    got = [client.do("exec"), client.do("eval", script, 1, "c", "x")]
    for words in ("jc.get c a", "jc.put c a 2"):  # WATCH sees a put, and no get
        other.do("watch", "c")
        client.do(*words.split())
        other.do("multi")
        other.do("ping")
        got.append(other.do("exec"))
    return tally.differs(got, [["OK", b"6", b"6"], [b"a", b"6", b"b", b"x"], ["PONG"], None])


def walks():
    """A walk by JC.SCAN gives each row once, changes nothing, and leaves expired rows out."""
    client = Server().client
    client.do("jc.create", "c", 5000, "CREATED", 10**9)
    client.do("jc.create", "long", 10)
    client.do("jc.put", "long", "k", b"v" * 65535)
    rows = {b"key-%d" % i: b"v" * (i % 50) for i in range(5000)}
    for key, value in rows.items():
        client.send("jc.put", "c", key, value)
    for _ in rows:
        client.read()
    client.do("jc.at", "c", 1, "REMOVE", "key-7")
    client.do("jc.at", "c", 1, "PUT", "key-7", "over")  # this expires in 1970
    saved, found, cursor, steps = client.do("jc.save", "c"), [], 0, 0
    while cursor or not steps:
        cursor, step = client.do("jc.scan", "c", cursor, "BYTES", 3000)
        found += step
        steps += 1
    del rows[b"key-7"]
    if len(found) != len(rows) or {key: value for key, value, _ in found} != rows or steps < 20:
        return f"{len(found)} rows in {steps} steps, wanted {len(rows)}"
    long = client.do("jc.scan", "long", 0)[1]
    return tally.differs([client.do("jc.save", "c") == saved, long], [True, [[b"k", b"v" * 65535, None]]])


tally.run((
    (f"{CALLS:,} random calls on 60 caches reply and save as the model says", random_calls),
    ("keys are dumped, copied, renamed, moved and loaded again", moved_keys),
    ("errors have their names, and change nothing", errors),
    ("RESP3", newer_protocol),
    ("transactions, scripts and WATCH", transactions_and_scripts),
    ("JC.SCAN walks over each row once", walks),
), [it for it in sys.argv[1:] if not it.startswith("--")])
