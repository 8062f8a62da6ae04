"""The binding: each call, each callback, what is raised and from what, clocks, the mapping protocol, and threads."""

import threading
from datetime import timedelta
from typing import Callable, Dict, List, Optional, Type

import jcache
from jcache import Cache, Entry, Event, Expiry, FixedClock, Manager, Row, Status


def refused(call: Callable[[], object]) -> Optional[Status]:
    try:
        call()
    except jcache.Refused as refusal:
        return refusal.status
    return None


def raised(kind: Type[BaseException], call: Callable[[], object]) -> BaseException:
    try:
        call()
    except kind as error:
        return error
    raise AssertionError("%s was not raised" % kind.__name__)


def calls(manager: Manager) -> None:
    cache = manager.create_cache("calls", 2)
    assert cache.get("k") is None and cache.get("k", b"-") == b"-" and not cache.contains_key("k")
    cache.put("k", b"v" * 65_535)
    assert cache.get("k") == b"v" * 65_535 and cache.get_and_put("k", b"") == b"v" * 65_535 and cache.get("k") == b""
    assert not cache.put_if_absent("k", b"w") and cache.replace("k", b"w") and not cache.replace("n", b"w")
    assert not cache.replace("k", b"x", expected=b"v") and cache.replace("k", b"x", expected=b"w")
    assert cache.get_and_replace("k", b"y") == b"x" and cache.get_and_replace("n", b"y") is None
    assert not cache.remove("k", expected=b"x") and cache.remove("k", expected=b"y") and not cache.remove("k")
    assert cache.get_and_remove("k") is None
    cache.put_all({"a": b"1", "bü": b"22"})
    assert cache.get_all(["a", "c", "bü"]) == {"a": b"1", "bü": b"22"} == cache.entries() and cache.get_all([]) == {}
    cache.remove_all(["a", "c"])
    assert cache.entries() == {"bü": b"22"}
    cache.remove_all()
    cache.put("a", b"1")
    cache.clear()
    assert cache.entries() == {} and cache.stats().removals == 3
    cache.clear_stats()
    cache.get("k")
    assert cache.stats() == jcache.Statistics(hits=0, misses=1, puts=0, removals=0, evictions=0)


def caches(manager: Manager) -> None:
    expiry = Expiry.touched(timedelta(seconds=1, microseconds=1))
    cache = manager.create_cache("first", 3, expiry, loader=str.encode)
    assert cache.name == "first" and manager.get_cache("first") is cache and manager.get_cache("none") is None
    assert cache.configuration == jcache.Configuration(3, Expiry(4, 1000), str.encode, None, (), 65_535)
    manager.create_cache("second", 3, writer=lambda key, value: None, listeners=(print,))
    assert manager.cache_names()[-2:] == ["first", "second"]
    assert refused(lambda: manager.create_cache("first", 3)) is Status.DUPLICATE_NAME
    assert refused(lambda: manager.create_cache("none", 0)) is Status.BAD_CAPACITY
    assert refused(lambda: manager.create_cache("none", 3, listeners=(print,) * 300)) is Status.TOO_MANY_LISTENERS
    assert refused(lambda: manager.create_cache("x" * 64, 3)) is Status.BAD_KEY
    manager.destroy_cache("first")
    manager.destroy_cache("first")
    assert refused(lambda: cache.get("k")) is Status.NO_SUCH_CACHE and manager.get_cache("first") is None
    assert manager.create_cache("first", 3).get("k") is None


def arguments(manager: Manager) -> None:
    cache = manager.create_cache("arguments", 3)
    assert refused(lambda: cache.get("")) is Status.BAD_KEY
    assert refused(lambda: cache.put("k", b"v" * 65_536)) is Status.BAD_VALUE
    assert refused(lambda: cache.get_all(["a", "a"])) is Status.DUPLICATE_KEY
    assert refused(lambda: cache.get_all(map(str, range(65)))) is Status.TOO_MANY_KEYS
    for kind in (jcache.BadArgument, jcache.CacheError, ValueError):
        raised(kind, lambda: cache.get(""))
    raised(OverflowError, lambda: cache.get("k", now=-1))
    raised(OverflowError, lambda: cache.get("k", now=2**64))
    raised(TypeError, lambda: cache.put("k", "v"))  # type: ignore[arg-type]
    raised(UnicodeEncodeError, lambda: cache.get("\ud800"))
    assert cache.stats() == (0, 0, 0, 0, 0)


def bounds(manager: Manager) -> None:
    cache = manager.create_cache("bounds", 3, loader=str.encode, max_value=4)
    cache.put("a", b"1234")
    assert refused(lambda: cache.put("a", b"12345")) is Status.BAD_VALUE and cache.get("a") == b"1234"
    assert refused(lambda: cache.get("longer")) is Status.BAD_VALUE and cache.byte_count() == 5
    assert cache.configuration.max_value == 4 and cache.get("bu") == b"bu" and cache.byte_count() == 9
    raised(OverflowError, lambda: manager.create_cache("none", 3, max_value=2**32))


def moments() -> None:
    clock = FixedClock(5)
    with Manager(clock=clock) as manager:
        cache = manager.create_cache("moments", 3, Expiry.created(10))
        cache.put("k", b"v")
        clock.advance(9)
        assert "k" in cache and cache.peek("k") == Row("k", b"v", 15)
        clock.now = 15
        assert "k" not in cache and cache.peek("k") is None and cache.get("k", now=14) == b"v"
    wall = jcache.WallClock()
    before = wall()
    assert before > 1_700_000_000_000 and wall() >= before


class Behind:
    """What lies behind a cache, with callbacks that fail for some keys."""

    def __init__(self) -> None:
        self.rows: Dict[str, Optional[bytes]] = {"ann": b"Ann"}
        self.heard: List[Event] = []
        self.error = KeyError("of a callback")

    def load(self, key: str) -> Optional[bytes]:
        if key == "worse":
            raise self.error
        return self.rows.get(key)

    def write(self, key: str, value: Optional[bytes]) -> None:
        if key == "locked":
            raise self.error
        self.rows[key] = value

    def append(self, entry: Entry, more: bytes) -> bytes:
        before = entry.value
        if before is None:
            raise self.error
        entry.set(before + more)
        return before


def empty(entry: Entry) -> None:
    entry.set(b"")


def is_there(entry: Entry) -> bool:
    return entry.exists


def callbacks(manager: Manager) -> None:
    behind = Behind()
    cache = manager.create_cache("called", 10, Expiry.touched(100), loader=behind.load, writer=behind.write,
                                 listeners=(behind.heard.append,))
    assert cache.get("ann", now=0) == b"Ann" and cache.get("bob", now=0) is None
    assert behind.heard == [Event("created", "ann", b"Ann", None)]
    cache.put("eve", b"Eve", now=10)
    assert behind.rows["eve"] == b"Eve"
    assert cache.invoke("eve", behind.append, b"!", now=20) == b"Eve" and behind.rows["eve"] == b"Eve!"
    results = cache.invoke_all(["eve", "none"], behind.append, b"?", now=30)
    assert results["eve"].get() == b"Eve!" and results["none"].error is behind.error
    assert raised(jcache.ProcessorFailed, results["none"].get).__cause__ is behind.error
    assert cache.invoke_all(["eve"], lambda entry: None, now=30) == {}
    assert cache.invoke("bob", is_there, loads=False, now=30) is False
    assert cache.get_and_remove("eve", now=50) == b"Eve!?" and behind.rows["eve"] is None
    assert behind.heard[-1] == Event("removed", "eve", None, b"Eve!?")
    assert cache.get("ann", now=500) == b"Ann" and [event.kind for event in behind.heard[-2:]] == ["expired", "created"]
    cache.load_all(["ann"], replace=True, now=500)
    assert behind.heard[-1] == Event("updated", "ann", b"Ann", b"Ann")
    assert cache.invoke("ann", Entry.remove, now=500) is None and behind.rows["ann"] is None


def failures(manager: Manager) -> None:
    behind = Behind()
    cache = manager.create_cache("failing", 10, loader=behind.load, writer=behind.write)
    failing: Dict[Type[jcache.Failed], Callable[[], object]] = {
        jcache.LoaderFailed: lambda: cache.get("worse"),
        jcache.WriterFailed: lambda: cache.put("locked", b""),
        jcache.ProcessorFailed: lambda: cache.invoke("none", behind.append, b""),
    }
    for kind, call in failing.items():
        failed = raised(kind, call)
        assert failed.__cause__ is behind.error and isinstance(failed, jcache.Failed) and failed.done is None
    failed = raised(jcache.LoaderFailed, lambda: cache.load_all(["ann", "worse"]))
    assert isinstance(failed, jcache.Failed) and failed.done == 1
    assert raised(jcache.WriterFailed, lambda: cache.invoke("locked", empty)).__cause__ is behind.error
    assert "locked" not in cache and cache.get("ann") == b"Ann"
    wrong = manager.create_cache("wrong", 10, loader=lambda key: "text")  # type: ignore[arg-type, return-value]
    assert isinstance(raised(jcache.LoaderFailed, lambda: wrong.get("k")).__cause__, TypeError)
    long = manager.create_cache("long", 10, loader=lambda key: b"v" * 65_536)
    assert refused(lambda: long.get("k")) is Status.BAD_VALUE and not long.contains_key("k")


def listeners(manager: Manager) -> None:
    def hear(event: Event) -> None:
        raise (KeyboardInterrupt if event.key == "stop" else LookupError)()

    cache = manager.create_cache("heard", 10, listeners=(hear,))
    assert isinstance(raised(jcache.ListenerFailed, lambda: cache.put("k", b"v")).__cause__, LookupError)
    raised(KeyboardInterrupt, lambda: cache.put("stop", b"v"))
    assert cache.get("k") == b"v" == cache.get("stop")


def within(manager: Manager) -> None:
    seen: List[object] = []

    def load(key: str) -> bytes:
        assert refused(lambda: manager.destroy_cache("within")) is Status.BUSY
        seen.extend((refused(lambda: cache.get(key)), cache.peek("old"), len(cache), list(cache)))
        return b"loaded"

    cache = manager.create_cache("within", 10, loader=load)
    cache.put("old", b"v")
    assert cache.get("k") == b"loaded" and seen == [Status.BUSY, Row("old", b"v", None), 1, ["old"]]


def mapping(manager: Manager) -> None:
    cache = manager.create_cache("mapping", 1000, Expiry.created(10))
    cache["a"] = b"1"
    assert cache["a"] == b"1" and "a" in cache and 7 not in cache and len(cache) == 1
    raised(KeyError, lambda: cache["b"])
    del cache["a"]
    raised(KeyError, lambda: cache.__delitem__("a"))
    rows = {"key %d" % n: b"v" * (n * 97 % 2000) for n in range(1000)}
    for key, value in rows.items():
        cache.put(key, value, now=n_of(key) % 2)
    half = {key: value for key, value in rows.items() if n_of(key) % 2}
    assert {row.key: row.value for row in cache.walk(now=9)} == rows and len(cache) == 1000
    assert {row.key: row.value for row in cache.walk(now=10)} == half
    assert all(row.expires == 11 for row in cache.walk(now=10)) and cache.stats().hits == 1


def n_of(key: str) -> int:
    return int(key[4:])


def memoized(manager: Manager) -> None:
    cache, made = manager.create_cache("memoized", 10), []

    @cache.memoize(key=lambda number, word="": "%d %s" % (number, word))
    def text(number: int, word: str = "") -> bytes:
        """A text."""
        made.append(number)
        return (word * number).encode()

    assert text(2, "ab") == b"abab" == text(2, word="ab") and text(3) == b"" and made == [2, 3]
    assert text.__doc__ == "A text." and cache["2 ab"] == b"abab"


def threads(manager: Manager) -> None:
    shared = [manager.create_cache("thread %d" % n, 10) for n in range(2)]

    def count(entry: Entry) -> None:
        entry.set(b"%d" % (int(entry.value or b"0") + 1))

    def run(cache: Cache) -> None:
        for _ in range(250):
            cache.invoke("n", count)

    made = [threading.Thread(target=run, args=(shared[n % 2],)) for n in range(4)]
    for thread in made:
        thread.start()
    for thread in made:
        thread.join()
    assert [cache.get("n") for cache in shared] == [b"500", b"500"]


def main() -> None:
    assert jcache.library_version() // 10_000 == 0
    with Manager(7) as manager:
        for test in (calls, caches, arguments, bounds, callbacks, failures, listeners, within, mapping, memoized, threads):
            test(manager)
        kept = manager.create_cache("kept", 1)
        assert not manager.is_closed
    manager.close()
    assert manager.is_closed and refused(lambda: manager.create_cache("late", 1)) is Status.CLOSED
    raised(jcache.Closed, lambda: kept.get("k"))
    moments()
    print("ok")


main()
