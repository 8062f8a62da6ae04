"""Saved caches: random calls on a cache that is cut, saved and restored elsewhere again and again, beside one that stays where
it is; bytes with a change or an end in them; hooks that differ; threads.

    saved.py [SEED]
"""

import random
import sys
import threading
from typing import Callable, List, Optional, Tuple

import jcache
from jcache import Cache, Entry, Event, Expiry, Manager

KEYS = ["k%d" % number for number in range(12)] + ["ü"]
Heard = List[object]
Call = Callable[[Cache, int], object]


class Hooks:
    """A loader, a writer and listeners that note what they are asked. Some keys fail."""

    def __init__(self, loads: bool, writes: bool, listeners: int) -> None:
        self.loads, self.writes, self.count = loads, writes, listeners
        self.heard: Heard = []

    def load(self, key: str) -> Optional[bytes]:
        self.heard.append(("load", key))
        if key == "k1":
            raise ValueError(key)
        return None if key == "k2" else key.encode()

    def write(self, key: str, value: Optional[bytes]) -> None:
        self.heard.append(("write", key, value))
        if key == "k3":
            raise ValueError(key)

    def hear(self, event: Event) -> None:
        self.heard.append(event)

    def create(self, manager: Manager, name: str, capacity: int, expiry: Expiry) -> Cache:
        return manager.create_cache(name, capacity, expiry, loader=self.load if self.loads else None,
                                    writer=self.write if self.writes else None, listeners=(self.hear,) * self.count)

    def restore(self, manager: Manager, name: str, saved: bytes) -> Cache:
        return manager.restore(name, saved, loader=self.load if self.loads else None,
                               writer=self.write if self.writes else None, listeners=(self.hear,) * self.count)


def append(entry: Entry) -> Optional[bytes]:
    before = entry.value
    if entry.key == "k4":
        raise ValueError(entry.key)
    if entry.key == "k5":
        entry.remove()
    elif entry.key != "k6":
        entry.set((before or b"")[-9:] + b"+")
    return before


def drawn(draw: random.Random) -> Call:
    """A call, whatever cache it is made on."""
    key, value, some = draw.choice(KEYS), b"%d" % draw.randrange(4), draw.sample(KEYS, draw.randrange(6))
    long = b"long" * draw.choice((0, 1, 80))
    calls: Tuple[Call, ...] = (
        lambda cache, now: cache.get(key, now=now),
        lambda cache, now: cache.put(key, value, now=now),
        lambda cache, now: cache.put(key, long, now=now),
        lambda cache, now: cache.get_and_put(key, value, now=now),
        lambda cache, now: cache.put_if_absent(key, value, now=now),
        lambda cache, now: cache.replace(key, value, now=now),
        lambda cache, now: cache.replace(key, b"new", expected=value, now=now),
        lambda cache, now: cache.remove(key, now=now),
        lambda cache, now: cache.remove(key, expected=value, now=now),
        lambda cache, now: cache.get_and_remove(key, now=now),
        lambda cache, now: cache.invoke(key, append, loads=len(some) > 2, now=now),
        lambda cache, now: cache.get_all(some, now=now),
        lambda cache, now: cache.put_all({name: value for name in some}, now=now),
        lambda cache, now: cache.load_all(some, replace=key == "k7", now=now),
        lambda cache, now: cache.contains_key(key, now=now),
        lambda cache, now: cache.entries(now=now),
        lambda cache, now: cache.stats(now=now),
        lambda cache, now: cache.remove_all(None if key == "k8" else some, now=now),
        lambda cache, now: cache.clear(now=now) if key == "k9" else None,
        lambda cache, now: cache.clear_stats(now=now) if key == "k10" else None,
    )
    return draw.choice(calls)


def outcome(call: Call, cache: Cache, now: int) -> object:
    try:
        return call(cache, now)
    except jcache.Failed as failed:
        return type(failed), failed.done


def moves(seed: int, calls: int) -> None:
    """A cache that moves between two managers is seen as one that stays."""
    draw = random.Random(seed)
    capacity, expiry = draw.randrange(1, 9), Expiry(seed % 5, draw.randrange(20) if seed % 5 else 0)
    loads, writes = draw.random() < 0.5, draw.random() < 0.5
    stays, moving = (Hooks(loads, writes, seed % 3) for _ in range(2))
    with Manager(seed) as home, Manager() as first, Manager(3) as second:
        one, other = stays.create(home, "stays", capacity, expiry), moving.create(first, "moves 0", capacity, expiry)
        now, moved = 0, 0
        for number in range(calls):
            now = max(0, now + draw.randrange(-1, 4))
            call = drawn(draw)
            assert outcome(call, one, now) == outcome(call, other, now) and stays.heard == moving.heard, (seed, number)
            stays.heard.clear()
            moving.heard.clear()
            if draw.random() < 0.05:
                moved += 1
                saved, there = other.save(), (first, second)[moved % 2]
                there.destroy_cache("moves %d" % (moved - 2))
                other = moving.restore(there, "moves %d" % moved, saved)
                assert other.save() == saved == one.save() and other.configuration[:2] == (capacity, expiry), (seed, number)
        assert moved and sorted(one.walk(now=now)) == sorted(other.walk(now=now))


def filled(manager: Manager, rows: int) -> Cache:
    cache = manager.create_cache("filled", 9, Expiry.touched(50), loader=str.encode)
    for number in range(rows):
        cache.put("key %d" % number, b"value" * number, now=number)
    cache.get("key 1", now=9)
    return cache


def damage(seed: int, count: int) -> None:
    """Bytes with an end or a change in them are refused with its place, or are a cache that saves to the same bytes."""
    draw = random.Random(seed)
    with Manager() as manager:
        saved, restored = filled(manager, 7).save(), 0
        damaged = [saved[:end] for end in range(len(saved))]
        for _ in range(count):
            place = draw.randrange(len(saved))
            damaged.append(saved[:place] + bytes([saved[place] ^ draw.randrange(1, 256)]) + saved[place + 1:])
        for text in damaged:
            try:
                cache = manager.restore("damaged", text, loader=str.encode)
            except (jcache.NotRestored, jcache.HooksDiffer) as error:
                if isinstance(error, jcache.NotRestored):
                    assert 0 <= error.place <= len(text) and text != saved
                continue
            assert len(text) == len(saved) and cache.save() == text
            manager.destroy_cache("damaged")
            restored += 1
        assert manager.cache_names() == ["filled"] and count // 9 < restored < count


def refused(call: Callable[[], object]) -> object:
    """The kind of error that a call raises, and the place that it tells."""
    try:
        call()
    except jcache.CacheError as error:
        assert isinstance(error, ValueError)
        return type(error), getattr(error, "place", None)
    return None


def kinds() -> None:
    """Each kind of error, and what it tells; what was restored."""
    with Manager() as manager:
        saved = filled(manager, 3).save()
        assert refused(lambda: manager.restore("again", b"")) == (jcache.BadSave, 0)
        assert refused(lambda: manager.restore("again", saved + b"!")) == (jcache.BadSave, len(saved))
        assert refused(lambda: manager.restore("again", b"JCS2")) == (jcache.OtherVersion, 3)
        assert refused(lambda: manager.restore("filled", saved)) == (jcache.NotCreated, None)
        assert refused(lambda: manager.restore("", saved)) == (jcache.BadArgument, None)
        assert refused(lambda: manager.restore("again", saved)) == (jcache.HooksDiffer, None)
        heard = (print,)
        assert refused(lambda: manager.restore("again", saved, loader=str.encode, listeners=heard)) == (jcache.HooksDiffer, None)
        without_processors = b"JCS1\x01\0\0\0" + bytes(49)
        assert refused(lambda: manager.restore("again", without_processors)) == (jcache.HooksDiffer, None)
        assert manager.get_cache("again") is None and manager.cache_names() == ["filled"]
        again = manager.restore("again", saved, loader=str.encode, max_value=60)
        assert manager.get_cache("again") is again and manager.cache_names() == ["filled", "again"]
        assert again.configuration == jcache.Configuration(9, Expiry.touched(50), str.encode, None, (), 60)
        assert again.get("key 2", now=9) == b"valuevalue"


def large() -> None:
    """A cache whose bytes are more than are read at once."""
    with Manager() as manager:
        cache = manager.create_cache("large", 65_536)
        for number in range(9_000):
            cache["key %d" % number] = b"v" * (number % 200)
        saved = cache.save()
        again = manager.restore("again", saved)
        assert len(saved) > 900_000 and again.save() == saved and sorted(again.items()) == sorted(cache.items())


def threads() -> None:
    """Saving waits for another thread's open call; a hook's own cache is busy."""
    began, goes_on = threading.Event(), threading.Event()
    saved: List[bytes] = []

    def wait(entry: Entry) -> None:
        began.set()
        goes_on.wait()
        entry.set(b"late")

    def busy(entry: Entry) -> type:
        try:
            cache.save()
        except jcache.Busy as error:
            return type(error)
        return type(None)

    with Manager() as manager:
        cache = manager.create_cache("shared", 3)
        assert cache.invoke("a", busy) is jcache.Busy
        caller = threading.Thread(target=lambda: cache.invoke("k", wait))
        saver = threading.Thread(target=lambda: saved.append(cache.save()))
        caller.start()
        began.wait()
        saver.start()
        assert not saved
        goes_on.set()
        for thread in (caller, saver):
            thread.join()
        assert manager.restore("again", saved[0])["k"] == b"late"


def main() -> None:
    seed = int(sys.argv[1]) if len(sys.argv) > 1 else 0
    for number in range(20):
        moves(20 * seed + number, 500)
    damage(seed, 10_000)
    for test in (kinds, large, threads):
        test()
    print("ok")


main()
