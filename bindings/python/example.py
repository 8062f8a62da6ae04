"""A cache whose loader is ours: the first get of a name loads its greeting, the next one finds it."""

from jcache import Expiry, FixedClock, Manager


def greeting(name: str) -> bytes:
    print("loads", name)
    return ("Hello, %s!" % name).encode()


clock = FixedClock()
with Manager(clock=clock) as manager:
    greetings = manager.create_cache("greetings", 100, Expiry.created(60_000), loader=greeting)
    for clock.now in (0, 59_999, 60_000):
        print(clock.now, greetings["ann"].decode())
    print(greetings.stats())
