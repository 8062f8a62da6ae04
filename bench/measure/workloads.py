"""The workloads of whole runs. All are of 100,000 lines or so."""

import itertools
from dataclasses import dataclass
from typing import Callable

from measure.scripts import Script, key

OPS = ("get", "put", "contains", "remove")
MIXED = (60, 30, 5, 5)
IN_ALL = 50_000


@dataclass(frozen=True)
class Workload:
    """A script, what it is, and whether rows are evicted, where the peers of the JVM choose otherwise."""

    what: str
    make: Callable
    evicts: bool = False


def zipf(script, keys, count, power=0.99):
    """`count` draws from `keys` numbers, the first the most frequent."""
    weights = list(itertools.accumulate((i + 1) ** -power for i in range(keys)))
    return script.random.choices(range(keys), cum_weights=weights, k=count)


def ask_stats(script):
    for cache in script.caches:
        script.add("stats", cache)
    return script


def mix(lines=99_998):
    script = Script(f"mix-{lines}", {"a": 1000, "b": 1000})
    for number in zipf(script, 5000, lines):
        script.add(script.random.choices(OPS, (80, 20, 0, 0))[0], script.random.choice("ab"), key(number))
    return ask_stats(script)


def full():
    script = Script("full", {f"cache-{i:02}": 4096 for i in range(64)}, value_bytes=62)
    names = list(script.caches)
    for number in zipf(script, 4000, 99_936):
        script.add(script.random.choices(OPS, MIXED)[0], script.random.choice(names), key(number))
    return ask_stats(script)


def large():
    script = Script("large", {"a": 65_536})
    order = list(range(60_000))
    for op in ("put", "get"):
        for number in order:
            script.add(op, "a", key(number))
        script.random.shuffle(order)
    return ask_stats(script)


def evicting():
    script = Script("evicting", {"a": 100})
    for number in range(99_999):
        script.add("put", "a", key(number))
    return ask_stats(script)


def turning(rows, lines=99_998):
    """`rows` keys put, then in turn a row that is there removed and a new key put: nearly full all the time."""
    script = Script(f"turning-{rows}-{lines}", {"a": rows})
    held = list(range(rows))
    for number in held:
        script.add("put", "a", key(number))
    for fresh in range(rows, (rows + lines) // 2):
        at = script.random.randrange(rows)
        script.add("remove", "a", key(held[at]))
        script.add("put", "a", key(fresh))
        held[at] = fresh
    return ask_stats(script)


def filled(name, rows, in_all=IN_ALL):
    """So many keys put: `rows` into cache a, the others into another."""
    script = Script(name, {"a": rows, "rest": 65_536})
    for number in range(in_all):
        script.add("put", "a" if number < rows else "rest", key(number))
    return script


def hitting(rows, gets=50_000, in_all=IN_ALL):
    """So many rows in all, then random gets of rows of a cache of `rows`."""
    script = filled(f"hitting-{rows}-{gets}", rows, in_all)
    for _ in range(gets):
        script.add("get", "a", key(script.random.randrange(rows)))
    return ask_stats(script)


def spread(caches):
    """Random calls over so many caches of 64 rows, with 80 keys for each."""
    script = Script(f"spread-{caches}", {f"cache-{i:04}": 64 for i in range(caches)})
    names = list(script.caches)
    for _ in range(99_000):
        op = script.random.choices(OPS, MIXED)[0]
        script.add(op, script.random.choice(names), key(script.random.randrange(80)))
    return script


SHORT = (
    Workload("80 % get and 20 % put, zipf over 5,000 keys, 2 caches of 1,000 rows", mix, True),
    Workload("60,000 puts into 65,536 rows, then a get of each", large),
)
MORE = (
    Workload("100,000 calls on 64 caches of 4,096 rows, a script of 8 MB", full),
    Workload("puts of 100,000 keys into 100 rows", evicting, True),
    Workload("a removal and a put in turn, 10,000 rows", lambda: turning(10_000)),
    Workload("a removal and a put in turn, 50,000 rows", lambda: turning(50_000)),
    Workload("50,000 puts, then as many gets of 100 rows", lambda: hitting(100)),
    Workload("50,000 puts, then as many gets of 50,000 rows", lambda: hitting(IN_ALL)),
    Workload("calls on 16 caches of 64 rows", lambda: spread(16), True),
    Workload("calls on 1,024 caches of 64 rows", lambda: spread(1024), True),
)
