"""How the cost of a call grows, in instructions: a script less another that lacks the calls."""

from dataclasses import dataclass

from measure.comparing import OURS, Line, counted, ratio_to
from measure.processes import all_instructions
from measure.scripts import Script
from measure.whole_runs import COUNTED, started
from measure.workloads import IN_ALL, filled, hitting, mix, spread, turning

GETS = 10_000
LINES = 99_998
NOTHING = Script("nothing", {"a": 1})


@dataclass(frozen=True)
class Difference:
    """What is measured, the script with it, the script without, and how many calls are left."""

    what: str
    more: Script
    less: Script
    calls: int


def hits(rows, in_all):
    more, less = (hitting(rows, gets, in_all) for gets in (GETS, 0))
    return Difference(f"a line with a get that hits, {rows:,} of {in_all:,} rows", more, less, GETS)


def turns(rows):
    what = f"a line with a removal or a put of a new key, {rows:,} rows"
    return Difference(what, turning(rows), turning(rows, rows), LINES - rows)


def spreads(caches):
    more = spread(caches)
    return Difference(f"a line with a call on one of {caches:,} caches of 64 rows", more, NOTHING, len(more.lines))


def at_once(op):
    less = filled("filled", IN_ALL)
    more = less.copy(op)
    more.add(op, "a")
    return Difference(f"one {op} of {IN_ALL:,} rows", more, less, 1)


def reads(lines):
    return Difference(f"a line of the first script, shortened to {lines:,} lines", mix(lines), NOTHING, lines)


def differences(short):
    if short:
        return [hits(100, 10_000), hits(10_000, 10_000), reads(10_000)]
    return [
        *(hits(rows, IN_ALL) for rows in (100, IN_ALL)),
        *(turns(rows) for rows in (10_000, IN_ALL)),
        *(spreads(caches) for caches in (16, 1024)),
        *(at_once(op) for op in ("entries", "remove_all", "clear")),
        *(reads(lines) for lines in (10_000, LINES)),
    ]


def counts_of(bench, scripts):
    """Instructions of each contender for each script, by the names of both."""
    every = {}
    for script in scripts.values():
        words = started(bench.tools, script.write(bench.folder))
        every |= {(script.name, name): words[name] for name in COUNTED}
    return all_instructions(every)


def line_of(difference, counts):
    grown = {name: counts[difference.more.name, name] - counts[difference.less.name, name] for name in COUNTED}
    return Line(difference.what, counted("instructions")(grown[OURS] / difference.calls), ratio_to(grown, OURS))


def lines(bench):
    """The lines of all differences. Each script is counted once."""
    every = differences(bench.short)
    counts = counts_of(bench, {it.name: it for difference in every for it in (difference.more, difference.less)})
    return [line_of(difference, counts) for difference in every]
