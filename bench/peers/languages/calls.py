"""Gets that hit and puts of keys that are there, from Python: prints the nanoseconds of the processor that one takes.

    calls.py CONTENDER
"""

import sys
import threading
import time

COUNT, WARM, CALLS = 5_000, 20_000, 200_000
KEYS = ["user:%d" % (1_000_000 + i) for i in range(COUNT)]
VALUES = [(b"value %d" % i).ljust(100) for i in range(COUNT)]


def each(times, call):
    """What one call takes, of so many with keys that follow each other without a pattern."""
    order = [i * 1_237 % COUNT for i in range(COUNT)]
    began = time.process_time_ns()
    for _ in range(times // COUNT):
        for i in order:
            call(i)
    return (time.process_time_ns() - began) // times


def by_jcache():
    import jcache
    cache = jcache.Manager(7).create_cache("calls", 10_000)
    return lambda i: cache.get(KEYS[i]), lambda i: cache.put(KEYS[i], VALUES[i])


def by_map(made):
    lock = threading.Lock()

    def get(i):
        with lock:
            return made[KEYS[i]]

    def put(i):
        with lock:
            made[KEYS[i]] = VALUES[i]

    return get, put


def by_cachetools():
    import cachetools
    return by_map(cachetools.LRUCache(10_000))


def main():
    contenders = {"jcache": by_jcache, "cachetools": by_cachetools, "dict": lambda: by_map({})}
    get, put = contenders[sys.argv[1]]()
    each(COUNT, put)
    if get(0) != VALUES[0]:
        sys.exit("another value was found")
    each(WARM, get), each(WARM, put)
    print(each(CALLS, get), each(CALLS, put))


main()
