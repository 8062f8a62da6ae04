"""Whole runs: a process reads a configuration and a script and prints the report."""

import sys

from measure.comparing import OURS, Line, compared, counted, interleaved, megabytes, ratio_to, seconds
from measure.processes import all_instructions, run
from measure.tools import SERIAL
from measure.workloads import MORE, SHORT

COUNTED = (OURS, "plain Rust", "typed Rust")


def started(tools, files):
    """The words of each contender."""
    ours = {OURS: [tools.jcache, "run", *files.words(), SERIAL]}
    return ours | {name: [*words, *files.words()] for name, words in tools.runners.items()}


def must_be_alike(workload, rounds):
    """Stops where a report differs from ours. Where the peers of the JVM evict other rows, it has as many lines."""
    for given in rounds:
        ours = given[OURS].output
        for name, ran in given.items():
            same = ran.output == ours
            if workload.evicts and not name.endswith("Rust"):
                same = ran.output.count(b"\n") == ours.count(b"\n")
            if not same:
                sys.exit(f"{workload.what}: the report of {name} differs")


def lines_of(bench, workload):
    files = workload.make().write(bench.folder)
    every = started(bench.tools, files)
    contenders = {name: lambda words=words: run(words) for name, words in every.items()}
    rounds = interleaved(workload.what, contenders, bench.repetitions)
    must_be_alike(workload, rounds)
    yield compared(f"run: {workload.what}", rounds, lambda it: it.processor, seconds)
    yield compared("the same, peak memory", rounds, lambda it: it.peak, megabytes)
    if bench.short:
        return
    yield compared("the same, by the clock", rounds, lambda it: it.clock, seconds)
    counts = all_instructions({name: every[name] for name in COUNTED})
    yield Line("the same, instructions", counted("a line")(counts[OURS] / files.lines), ratio_to(counts, OURS))


def lines(bench):
    """The lines of all workloads."""
    for workload in SHORT if bench.short else SHORT + MORE:
        yield from lines_of(bench, workload)
