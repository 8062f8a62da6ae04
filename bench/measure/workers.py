"""A script by workers beside the same script without."""

from measure.comparing import compared, interleaved, seconds
from measure.processes import run
from measure.scripts import Script, key
from measure.tools import SERIAL

LINES = 100_000


def small_calls(sessions, caches):
    """80 % get and 20 % put of 1,000 keys, session s on cache s modulo their number."""
    names = {f"cache-{i}": 4096 for i in range(caches)}
    script = Script(f"workers-{sessions}-{caches}", names)
    for number in range(LINES):
        session = number % sessions
        op = script.random.choices(("get", "put"), (80, 20))[0]
        script.add(op, f"cache-{session % caches}", key(script.random.randrange(1000)), session)
    return script


def ways(short):
    return {SERIAL: [SERIAL]} | {
        "1 worker" if count == 1 else f"{count} workers": ["--workers", str(count)]
        for count in ((1, 2, 4) if short else (1, 2, 4, 8))
    }


def lines(bench):
    """The lines of both scripts."""
    for sessions, caches, what in ((8, 8, "8 sessions on 8 caches"), (64, 1, "64 sessions on one cache")):
        files = small_calls(sessions, caches).write(bench.folder)
        start = [bench.tools.jcache, "run", *files.words()]
        contenders = {name: lambda way=way: run([*start, *way]) for name, way in ways(bench.short).items()}
        rounds = interleaved(what, contenders, bench.repetitions)
        name = f"100,000 small calls of {what}, {SERIAL}"
        yield compared(name, rounds, lambda it: it.processor, seconds, ours=SERIAL)
        if not bench.short:
            yield compared("the same, by the clock", rounds, lambda it: it.clock, seconds, ours=SERIAL)
