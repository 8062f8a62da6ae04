"""Random calls on many caches, beside the model."""
import random

from model import Cache
from protocol import Error

ONE = ("GET",) * 5 + ("PUT",) * 4 + ("CONTAINS", "GETANDPUT", "PUTIFABSENT", "REPLACE", "REPLACEIF", "GETANDREPLACE",
                                     "REMOVE", "REMOVEIF", "GETANDREMOVE", "INVOKE", "INVOKE")
MANY = ("GETALL", "PUTALL", "REMOVEKEYS", "LOADALL", "LOADALL", "INVOKEALL", "ENTRIES", "STATS")
RARE = (("REMOVEALL",), ("CLEAR",), ("CLEARSTATS",))
PROCESSORS = ("APPEND", "ADD", "MAXIMUM", "MINIMUM")
NOT_REPLICATED = ("CONTAINS", "STATS")


def random_cache(chance):
    policy = chance.choice(("ETERNAL", "CREATED", "ACCESSED", "MODIFIED", "TOUCHED"))
    duration = 0 if policy == "ETERNAL" else chance.choice((0, 1, 20, 100, 1000, 2**64 - 1))
    return Cache(chance.choice((1, 2, 5, 20, 50)), policy, duration, chance.random() < 0.5, chance.random() < 0.2,
                 chance.random() < 0.3)


def random_key(chance):
    return b"k%d" % chance.randrange(60)


def random_value(chance):
    return chance.choice((b"%d" % chance.randrange(-4, 4), b"v" * chance.randrange(1, 30), b"", b"\0\xff\r\n"))


def random_many(chance):
    name = chance.choice(MANY)
    keys = list({random_key(chance): 1 for _ in range(chance.randrange(1, 6))})
    pairs = [it for key in keys for it in (key, random_value(chance))]
    if name in ("GETALL", "REMOVEKEYS"):
        return (name, *keys)
    if name == "PUTALL":
        return (name, *pairs)
    if name == "LOADALL":
        return (name, chance.choice(("KEEP", "REPLACE")), *pairs)
    if name == "INVOKEALL":
        return (name, chance.choice(PROCESSORS), b"%d" % chance.randrange(-3, 3), *keys)
    return (name,)


def random_call(chance):
    draw = chance.random()
    if draw < 0.003:
        return chance.choice(RARE)
    if draw < 0.15:
        return random_many(chance)
    name, key = chance.choice(ONE), random_key(chance)
    if name in ("GET", "CONTAINS", "REMOVE", "GETANDREMOVE"):
        return (name, key)
    if name == "REPLACEIF":
        return (name, key, random_value(chance), random_value(chance))
    if name == "INVOKE":
        return (name, key, chance.choice(PROCESSORS), chance.choice((b"%d" % chance.randrange(-3, 3), b"x", b"")))
    return (name, key, random_value(chance))


def are_same(got, wanted):
    if isinstance(got, Error) or isinstance(wanted, Error):
        return isinstance(got, Error) and isinstance(wanted, Error) and got.kind == wanted.kind
    if isinstance(got, list) and isinstance(wanted, list):
        return [it.encode() if isinstance(it, str) else it for it in got] == \
            [it.encode() if isinstance(it, str) else it for it in wanted]
    return got == wanted


class Differs(Exception):
    """A reply that is not the model's."""


class Play:
    """Caches, their models, and calls at moments of our own, which now and then fall."""

    def __init__(self, seed, count=60):
        self.chance, self.now, self.calls = random.Random(seed), 1000, 0
        self.caches = {f"cache-{i}": random_cache(self.chance) for i in range(count)}

    def create(self, client):
        for name, cache in self.caches.items():
            client.do(*cache.words(name))

    def next_call(self):
        """A command, and what the model replies."""
        chance = self.chance
        self.now += chance.choice((0, 0, 1, 3, 30)) - chance.choice((0, 0, 0, 5))
        self.calls += 1
        name, call = chance.choice(list(self.caches)), random_call(chance)
        words, cache = ["jc.at", name, self.now], self.caches[name]
        if cache.writer and chance.random() < 0.2:
            cache.written, cache.succeeds = [], chance.randrange(3)
            words += ["WROTE", cache.succeeds]
        wanted = cache.call(self.now, *call)
        cache.succeeds = None
        return [*words, *call], wanted

    @staticmethod
    def compare(words, got, wanted):
        if not are_same(got, wanted):
            raise Differs(f"{words}: got {got!r}, wanted {wanted!r}")

    def one(self, client):
        words, wanted = self.next_call()
        self.compare(words, client.call(*words), wanted)

    def many(self, client, count):
        """Calls by one client, a hundred on their way at once."""
        for _ in range(0, count, 100):
            batch = [self.next_call() for _ in range(100)]
            client.send_all(words for words, _ in batch)
            for words, wanted in batch:
                self.compare(words, client.read(), wanted)

    def others(self, client, names=None):
        """The names of the caches that are not as the model has them, byte by byte."""
        return [name for name in names or self.caches if client.do("jc.save", name) != self.caches[name].saved()]
