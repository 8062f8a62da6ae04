"""Lookups and calls of many threads on one manager, beside maps that threads share."""

import subprocess
from dataclasses import dataclass

from measure.comparing import OURS, Line, compared, interleaved, nanoseconds

KINDS = {
    "lookup": "a lookup that hits",
    "miss": "a lookup that misses",
    "get": "a get that hits",
    "put": "a put of a row",
}
LOOKUPS = ("lookup", "miss")


@dataclass(frozen=True)
class Case:
    """What each thread does, in a map of so many rows, while others write."""

    kind: str
    rows: int
    threads: int
    writers: int = 0

    def tries(self, short):
        """How often each thread does it: a recorded call takes memory, a lookup none."""
        if self.kind in LOOKUPS:
            return 300_000 if short else 1_500_000
        return 50_000 if short else 100_000

    def __str__(self):
        threads = "1 thread" if self.threads == 1 else f"{self.threads} threads"
        writing = " and a writer" if self.writers else ""
        return f"{KINDS[self.kind]}, {self.rows:,} rows, {threads}{writing}"


@dataclass(frozen=True)
class Did:
    """What all threads of a run did that are no writers: nanoseconds of the processor a try, tries a second, and the
    part of them that was unsure."""

    processor: float
    rate: float
    unsure: float


def figures(line):
    """The name and the numbers of a line that `jc_bench` or a peer prints."""
    name, *pairs = line.split()
    return name, {word: int(number) for word, number in (it.split("=") for it in pairs)}


def did(words):
    """Runs a process of threads, and reads what they did."""
    ran = subprocess.run(words, check=True, capture_output=True, text=True)
    threads = [numbers for name, numbers in map(figures, ran.stdout.splitlines()) if name != "write"]
    tries = sum(it[outcome] for it in threads for outcome in ("yes", "no", "unsure"))
    return Did(
        processor=sum(it["processor"] for it in threads) / tries,
        rate=tries * 1e9 / max(it["wall"] for it in threads),
        unsure=sum(it["unsure"] for it in threads) / tries,
    )


def our_words(jc_bench, case, tries):
    sizes = {"rows": case.rows, "threads": case.threads, "writers": case.writers, "calls": tries}
    return [jc_bench, case.kind, *(word for name, size in sizes.items() for word in (f"--{name}", str(size)))]


def our_other_ways(ours, threads):
    """The words for managers that keep their open calls alone: one, and several, each thread on a cache of its own."""
    several = {"two managers": 2} | ({"four managers": 4} if threads == 4 else {})
    apart = lambda count: [*ours, "--apart", "--caches", str(max(threads, count)), "--shards", str(count)]
    return {"open calls": [*ours, "--open"]} | {name: apart(count) for name, count in several.items()}


def peer_words(words, case, tries):
    return [*words, case.kind, *(str(it) for it in (case.rows, case.threads, case.writers, tries))]


def lines_of(bench, case):
    tries = case.tries(bench.short)
    ours = our_words(bench.tools.jc_bench, case, tries)
    every = {OURS: ours} | ({} if case.kind in LOOKUPS else our_other_ways(ours, case.threads))
    every |= {name: peer_words(words, case, tries) for name, words in bench.tools.maps.items()}
    contenders = {name: lambda words=words: did(words) for name, words in every.items()}
    rounds = interleaved(str(case), contenders, bench.repetitions)
    yield compared(str(case), rounds, lambda it: it.processor, nanoseconds)
    if not bench.short:
        yield compared("the same, by the clock, of all threads together", rounds, lambda it: 1e9 / it.rate, nanoseconds)
    if case.writers:
        unsure = sum(it[OURS].unsure for it in rounds) / len(rounds)
        yield Line("the same, part that was unsure", f"{unsure * 100:.2f} %")


def sizes(short):
    """Rows and threads. A writer's 32 further rows double no table of so many."""
    if short:
        return [(1_200, 1), (1_200, 4)]
    return [(1_200, 1), (1_200, 2), (1_200, 4), (60_000, 1), (60_000, 4)]


def cases(short):
    yield from (Case(kind, rows, threads) for kind in KINDS for rows, threads in sizes(short))
    if not short:
        yield from (Case("lookup", 1_200, threads, writers=1) for threads in (1, 2, 4))


def lines(bench):
    """The lines of all cases."""
    for case in cases(bench.short):
        yield from lines_of(bench, case)
