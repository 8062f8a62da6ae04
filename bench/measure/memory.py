"""Memory of a row and of a call: how the peak of a process grows with the lines of its script."""

from measure.comparing import OURS, compared, counted, interleaved
from measure.processes import run
from measure.scripts import Script, key
from measure.whole_runs import started

FEW, MANY = 15_000, 60_000
BY_WORKERS = "by 4 workers"
CONTENDERS = (OURS, BY_WORKERS, "plain Rust", "Caffeine")


def rows(script, lines):
    for number in range(lines):
        script.add("put", "a", key(number))


def gets(script, lines):
    script.add("put", "a", key(0))
    for _ in range(lines - 1):
        script.add("get", "a", key(0))


def puts(script, lines):
    for _ in range(lines):
        script.add("put", "a", key(0))


def misses(script, lines):
    for _ in range(lines):
        script.add("remove", "a", key(0))


KINDS = {
    "a row, with its put": rows,
    "a get that hits": gets,
    "a put of one row": puts,
    "a removal that misses": misses,
}


def written(folder, kind, lines):
    script = Script(f"memory-{KINDS[kind].__name__}-{lines}", {"a": 65_536}, sessions=8)
    KINDS[kind](script, lines)
    return script.write(folder)


def ways(tools, files):
    """The words of each contender, ours by workers too."""
    every = started(tools, files) | {BY_WORKERS: [tools.jcache, "run", *files.words(), "--workers", "4"]}
    return {name: every[name] for name in CONTENDERS}


def a_line(tools, name, few, many):
    """Bytes of memory that each further line takes."""
    grown = run(ways(tools, many)[name]).peak - run(ways(tools, few)[name]).peak
    return grown * 1024 / (many.lines - few.lines)


def lines(bench):
    """The lines of all kinds."""
    tools = bench.tools
    for kind in KINDS:
        few, many = (written(bench.folder, kind, lines) for lines in (FEW, MANY))
        contenders = {name: lambda name=name: a_line(tools, name, few, many) for name in CONTENDERS}
        rounds = interleaved(f"memory of {kind}", contenders, bench.repetitions)
        bytes_of_line = (many.size - few.size) / (many.lines - few.lines)
        what = f"memory of {kind}, whose line has {bytes_of_line:.0f} bytes"
        yield compared(what, rounds, lambda it: it, counted("bytes"))
