"""Contenders beside each other, and the lines of the table."""

import random
import statistics
import sys
from dataclasses import dataclass, field

OURS = "jcache"


@dataclass(frozen=True)
class Line:
    """A line of the table: what was measured, our figure, and of each other its ratio to ours."""

    what: str
    ours: str
    beside: dict = field(default_factory=dict)

    def __str__(self):
        beside = ", ".join(f"{name} {ratio:.2f}" for name, ratio in self.beside.items())
        return f"| {self.what} | {self.ours} | {beside} |"


def interleaved(name, contenders, repetitions):
    """What each contender gives, by repetitions. Each has every contender once, in an order of its own, so that other
    work on the machine falls on all alike."""
    rounds = []
    for repetition in range(repetitions):
        order = list(contenders)
        random.Random(f"{name} {repetition}").shuffle(order)
        given = {it: contenders[it]() for it in order}
        rounds.append({it: given[it] for it in contenders})
        print(f"{name}: {repetition + 1} of {repetitions}", file=sys.stderr, flush=True)
    return rounds


def ratio_to(figures, ours):
    """Of each other contender its figure as a part of ours."""
    return {name: figure / figures[ours] for name, figure in figures.items() if name != ours}


def compared(what, rounds, figure, unit, ours=OURS):
    """A line of medians: of our figure, and of each other's ratio to ours within a repetition."""
    figures = [{name: figure(given) for name, given in it.items()} for it in rounds]
    ratios = [ratio_to(it, ours) for it in figures]
    beside = {name: statistics.median(it[name] for it in ratios) for name in ratios[0]}
    return Line(what, unit(statistics.median(it[ours] for it in figures)), beside)


def seconds(figure):
    return f"{figure:.2f} s"


def nanoseconds(figure):
    return f"{figure:,.0f} ns"


def megabytes(figure):
    return f"{figure / 1024:.0f} MB"


def counted(unit):
    """The form of a whole number of these."""
    return lambda figure: f"{figure:,.0f} {unit}"
