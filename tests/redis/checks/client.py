"""The client for Python: the cases of the bindings that it promises too, its hooks, and a cluster."""
import json
import logging
import os
import sys
import threading
import time

import redis

import jcache
import tally
from jcache import Expiry
from jcache_redis import Manager, write_behind
from servers import Server, cluster, wait_until

logging.disable(logging.CRITICAL)  # the cluster's client logs each error that it handles
CASES = os.path.join(os.environ["JCACHE_TOP"], "tests", "bindings", "cases", "cases.jsonl")
# The client promises the cases that have these hooks and calls alone; looks at moments of one's own are left out.
HOOKS = {"loader", "listener"}
CALLS = {"get", "put", "contains", "get_and_put", "put_if_absent", "replace", "replace_if", "get_and_replace", "remove", "remove_if",
         "get_and_remove", "get_all", "put_all", "remove_keys", "load_all", "entries", "clear", "remove_all", "stats", "clear_stats", "rows"}

LOOKS = {"peek", "walk", "bytes"}


def text(value):
    return None if value is None else value.decode()


class Player:
    """One case, by a client of a server."""

    def __init__(self, server, case, number):
        self.asked, hooks = [], case.get("hooks", [])
        expiry = getattr(Expiry, case["expiry"])(case["duration"]) if "expiry" in case else Expiry.eternal()
        self.told = 0
        self.manager = Manager(server)
        self.cache = self.manager.create_cache(
            f"case-{number}", case["capacity"], expiry, loader=self.load if "loader" in hooks else None,
            listeners=(self.hear,) if "listener" in hooks else (), max_value=case.get("max_value"))

    def load(self, key):
        self.asked.append(["load", key])
        if key.startswith("!"):
            raise ValueError(key)
        return None if key.startswith("-") else key.encode()

    def hear(self, event):
        self.asked.append([event.kind, event.key, text(event.value), text(event.before)])

    def call(self, line):
        try:
            return getattr(self, "do_" + line["op"], self.simple)(line)
        except jcache.Refused as refused:
            return {"refused": int(refused.status)}
        except jcache.Failed as failed:
            return {"failed": failed.who} if failed.done is None else {"failed": failed.who, "done": failed.done}

    def simple(self, line):
        op, given = line["op"], {"now": line["at"]}
        if "expect" in line:
            op, given["expected"] = op[:-len("_if")], line["expect"].encode()
        words = [line[it] if it == "k" else line[it].encode() for it in ("k", "v") if it in line]
        result = getattr(self.cache, {"contains": "contains_key"}.get(op, op))(*words, **given)
        return {"value": text(result)} if op.startswith("get") else "done" if result is None else result

    def do_get_all(self, line):
        return {"pairs": [[key, text(value)] for key, value in self.cache.get_all(line["ks"], now=line["at"]).items()]}

    def do_entries(self, line):
        return {"pairs": [[key, text(value)] for key, value in self.cache.entries(now=line["at"]).items()]}

    def do_put_all(self, line):
        self.cache.put_all({key: value.encode() for key, value in line["kvs"]}, now=line["at"])
        return "done"

    def do_remove_keys(self, line):
        self.cache.remove_all(line["ks"], now=line["at"])
        return "done"

    def do_load_all(self, line):
        self.cache.load_all(line["ks"], line["replace"], now=line["at"])
        return "done"

    def do_rows(self, line):
        return {"rows": len(self.cache)}

    def do_stats(self, line):
        return {"counters": list(self.cache.stats())}


def is_ours(case, lines):
    """Whether the client promises this case. A load that fails among many is not told with a number; without a loader
    load_all sends nothing."""
    calls = CALLS if "loader" in case.get("hooks", ()) else CALLS - {"load_all"}
    return set(case.get("hooks", ())) <= HOOKS and all(
        line["op"] in calls and not (isinstance(line["is"], dict) and "done" in line["is"]) for line in lines)


def cases():
    """The cases that the bindings share, as far as the client promises them: the same replies, loads and events."""
    server = redis.Redis(port=Server().port)
    groups, played, calls = [], 0, 0
    with open(CASES, encoding="utf-8") as lines:
        for line in map(json.loads, lines):
            groups += [(line, [])] if "case" in line else []
            if "case" not in line and line["op"] not in LOOKS:
                groups[-1][1].append(line)
    for number, (case, lines) in enumerate(groups):
        if not is_ours(case, lines):
            continue
        player = Player(server, case, number)
        for line in lines:
            outcome = player.call(line)
            try:
                wait_until(lambda: len(player.asked) >= len(line.get("asks", [])), 5)
            except TimeoutError:
                pass
            if outcome != line["is"] or player.asked != line.get("asks", []):
                return f"{case['case']}: {line}: {outcome}, asked {player.asked}"
            player.asked.clear()
        player.manager.close()
        played, calls = played + 1, calls + len(lines)
    print(f"    {played} of {len(groups)} cases, {calls} calls")
    return None if played >= 12 else "too few cases"


def loads():
    """Of ten threads that miss a key at once one loads it; what raises or gives nothing leaves the lease to others."""
    server, asked = Server(), []

    def load(key):
        asked.append(key)
        time.sleep(0.05)
        if key == "bad":
            raise ValueError(key)
        return None if key == "none" else key.encode()

    with Manager(redis.Redis(port=server.port)) as manager:
        cache, found = manager.create_cache("c", 10, loader=load), []
        threads = [threading.Thread(target=lambda: found.append(cache.get("k"))) for _ in range(10)]
        for thread in threads:
            thread.start()
        for thread in threads:
            thread.join()
        got = [found, asked, cache.get("none"), cache.get("none", b"-"), cache.get_all(["k", "a", "none"])]
        try:
            cache.get("bad")
        except jcache.LoaderFailed as failed:
            got.append(repr(failed.__cause__))
        return tally.differs(got, [[b"k"] * 10, asked, None, b"-", {"k": b"k", "a": b"a"}, "ValueError('bad')"]) or \
            tally.differs(asked, ["k", "none", "none", "a", "none", "bad"])


def count(entry, by=1):
    entry.set(b"%d" % (int(entry.value or b"0") + by))
    return entry.value


def invokes():
    """A function of the client's runs by compare and set: of four threads no step is lost."""
    server = Server()
    with Manager(redis.Redis(port=server.port)) as manager:
        cache = manager.create_cache("c", 10)
        got = [cache.invoke("k", count), cache.invoke("k", count, 4), cache.invoke("k", lambda entry: entry.value),
               cache.invoke("k", "ADD", b"5"), cache.stats()]
        cache.invoke("k", lambda entry: entry.remove())
        got += [cache.stats(), "k" in cache]

        def many():
            own = Manager(redis.Redis(port=server.port)).get_cache("c")
            for _ in range(100):
                own.invoke("n", count)

        threads = [threading.Thread(target=many) for _ in range(4)]
        for thread in threads:
            thread.start()
        for thread in threads:
            thread.join()
        got.append(cache["n"])
    return tally.differs(got, [b"1", b"5", b"5", b"10", (3, 1, 3, 0, 0), (4, 1, 3, 1, 0), False, b"400"])


def errors():
    server = redis.Redis(port=Server().port)
    manager, told = Manager(server), []
    cache = manager.create_cache("c", 10, max_value=3)
    other = Manager(server).get_cache("c")
    for call in (lambda: cache.get(""), lambda: cache.put("k", b"four"), lambda: cache.get_all(["a", "a"]),
                 lambda: cache.get_all(map(str, range(65))), lambda: manager.create_cache("c", 5),
                 lambda: manager.create_cache("d", 0), lambda: cache.invoke("k", "ADD", b"x"),
                 lambda: cache.invoke("k", lambda entry: 1 // 0), lambda: manager.destroy_cache("c") or cache.get("k")):
        try:
            call()
        except jcache.CacheError as error:
            told.append(getattr(error, "status", type(error)))
    status = jcache.Status
    return tally.differs(told, [status.BAD_KEY, status.BAD_VALUE, status.DUPLICATE_KEY, status.TOO_MANY_KEYS, status.DUPLICATE_NAME,
                                status.BAD_CAPACITY, jcache.ProcessorFailed, jcache.ProcessorFailed, status.NO_SUCH_CACHE]) or \
        tally.differs((other.configuration.capacity, other.configuration.max_value, manager.get_cache("c")), (10, 3, None))


def in_cluster():
    """Listeners, writes behind and walks at a cluster; a listener follows a cache whose slot moves."""
    servers = cluster(3, 0)
    client, heard, written = redis.RedisCluster(host="127.0.0.1", port=servers[0].port), [], []
    with Manager(client) as manager:
        cache = manager.create_cache("{c}", 1000, stream="{c}:writes", listeners=(heard.append,))
        for i in range(500):
            cache.put(f"k{i}", b"v")
        cache.remove("k7")
        move("{c}", servers, client)
        cache.put("k7", b"w")
        wait_until(lambda: len(heard) >= 501)
        wait_until(lambda: cache.put("k7", b"x") or heard[-1].value == b"x")
        done = 1
        while done:
            done = write_behind(client, "{c}:writes", lambda key, value: written.append((key, value)))
        got = [len(cache), len(set(cache)), [it.kind for it in heard[:501]], written[:501], cache["k7"], written[-1]]
    wanted = [500, 500, ["created"] * 500 + ["removed"], [(f"k{i}", b"v") for i in range(500)] + [("k7", None)], b"x", ("k7", b"x")]
    return tally.differs(got, wanted)


def move(name, servers, client):
    """Moves a key's slot, and all keys in it, to another node."""
    slot = client.keyslot(name)
    by_port = {it.port: it.client for it in servers}
    source = client.get_node_from_key(name).port
    target = next(port for port in by_port if port != source)
    ids = {port: it.do("cluster", "myid") for port, it in by_port.items()}
    by_port[target].do("cluster", "setslot", slot, "importing", ids[source])
    by_port[source].do("cluster", "setslot", slot, "migrating", ids[target])
    for key in by_port[source].do("cluster", "getkeysinslot", slot, 100):
        assert by_port[source].do("migrate", "127.0.0.1", target, key, 0, 10_000) == "OK"
    for port in (target, source):
        by_port[port].do("cluster", "setslot", slot, "node", ids[target])


def failing_writer():
    """A write whose writer raises comes first next time."""
    client, written, fails = redis.Redis(port=Server().port), [], [True]
    cache = Manager(client).create_cache("c", 10, stream="s")
    cache.put_all({"a": b"1", "b": b"2", "d": b"3"})

    def write(key, value):
        if key == "b" and fails.pop():
            fails.append(False)
            raise ValueError(key)
        written.append((key, value))

    got = []
    for _ in range(4):
        try:
            got.append(write_behind(client, "s", write))
        except ValueError:
            got.append("raised")
            fails[:] = [False]
    return tally.differs([got, written], [["raised", 2, 0, 0], [("a", b"1"), ("b", b"2"), ("d", b"3")]])


tally.run((
    ("the client for Python plays the bindings' cases", cases),
    ("the client loads by leases", loads),
    ("the client invokes its functions by compare and set", invokes),
    ("the client's errors are the package's", errors),
    ("the client at a cluster whose slots move", in_cluster),
    ("the client's writer is at least once, and in order", failing_writer),
), [it for it in sys.argv[1:] if not it.startswith("--")])
