"""What keys cost that all go to the stash: calls on their cache, and on an innocent one beside it."""

import itertools

from measure.comparing import Line, counted
from measure.hostile_keys import hostile_keys
from measure.processes import all_instructions
from measure.scripts import Script
from measure.sessions import Case, did, our_words
from measure.tools import SERIAL

CALLS = 1000
IN_SLOTS = 8
INNOCENT = 2000
BAD, GOOD, FILL = "bad", "good", "fill"
REMOVAL, REMOVAL_OF_HOSTILE = "a line with a removal", "a line with a removal of a hostile key"
CACHES = {BAD: 60_000, GOOD: 5_000}


def key(number):
    return f"good-{number:05}"


def fill(keys):
    """The innocent rows, and then the hostile ones: all but eight of those go to the stash."""
    script = Script(f"hostile-{len(keys)}", CACHES)
    for number in range(INNOCENT):
        script.add("put", GOOD, key(number))
    for text in keys:
        script.add("put", BAD, text)
    return script


def calls(held, fresh):
    """A name, the op, its cache and its keys: those that have a row, and those that have none."""
    good = [key(number) for number in range(INNOCENT)]
    new = [f"new-{number:05}" for number in range(CALLS)]
    yield "a line with a get that hits", "get", GOOD, good
    yield "a line with a get that misses", "get", GOOD, new
    yield "a line with a put of a new key", "put", GOOD, new
    yield "a line with a get that hits, of a hostile key", "get", BAD, held
    yield "a line with a get that misses, of a hostile key", "get", BAD, fresh
    yield "a line with a put of a new hostile key", "put", BAD, fresh
    yield REMOVAL, "remove", GOOD, good
    if len(held) >= CALLS:
        yield REMOVAL_OF_HOSTILE, "remove", BAD, held[-CALLS:]


def scripts(held, fresh):
    """The fill, and for each kind of call the fill and so many of those calls."""
    base = fill(held)
    yield FILL, base
    for what, op, cache, keys in calls(held, fresh):
        script = base.copy(f"{base.name} {what}".replace(" ", "-"))
        for text in itertools.islice(itertools.cycle(keys), CALLS):
            script.add(op, cache, text)
        yield what, script


def costs(bench, held, fresh):
    """Instructions of each kind of call, the fill taken off."""
    jcache = bench.tools.jcache
    written = {what: script.write(bench.folder) for what, script in scripts(held, fresh)}
    counts = all_instructions({what: [jcache, "run", *it.words(), SERIAL] for what, it in written.items()})
    base = counts.pop(FILL)
    return {what: (count - base) / CALLS for what, count in counts.items()}


def unsure(bench):
    """Lookups beside the lock that miss, while four rows are in the stash."""
    ran = did(our_words(bench.tools.jc_bench, Case("miss", 1_200, 1), CALLS) + ["--stashed"])
    return Line("a lookup that misses, 4 rows in the stash, part that is unsure", f"{ran.unsure * 100:.0f} %")


def lines(bench):
    """A line for each kind of call and number of rows in the stash, beside an empty stash."""
    sizes = (1_000,) if bench.short else (1_000, 30_000)
    keys = hostile_keys(IN_SLOTS + max(sizes) + CALLS)
    fresh = keys[-CALLS:]
    without = costs(bench, keys[:IN_SLOTS], fresh)
    without[REMOVAL_OF_HOSTILE] = without[REMOVAL]
    for size in sizes:
        for what, cost in costs(bench, keys[: IN_SLOTS + size], fresh).items():
            name = f"{what}, {size:,} rows in the stash"
            yield Line(name, counted("instructions")(cost), {"empty stash": without[what] / cost})
    yield unsure(bench)
