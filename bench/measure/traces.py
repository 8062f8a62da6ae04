"""Traces of keys, by a fixed seed."""

import itertools
import random

LENGTH = 100_000


def skewed(power, keys=20_000, seed=1):
    """Draws by Zipf's law: the nth key has the weight n to the power -`power`."""
    weights = list(itertools.accumulate((n + 1) ** -power for n in range(keys)))
    return random.Random(seed).choices(range(keys), cum_weights=weights, k=LENGTH)


def scanned(keys=20_000, every=10_000, scan=5_000):
    """The same, where after every 10,000 lookups 5,000 keys are looked up once that do not come again."""
    trace, fresh = [], itertools.count(keys)
    for place, key in enumerate(skewed(0.99, keys, seed=2)):
        if place and place % every == 0:
            trace += itertools.islice(fresh, scan)
        trace.append(key)
    return trace[:LENGTH]


def cyclic(keys=2_000):
    """The same keys over and over, in one order."""
    return [place % keys for place in range(LENGTH)]


def shifting(keys=1_000, phases=10, seed=3):
    """Nine lookups in ten are of 1,000 keys, which are others after every 10,000 lookups."""
    chance, trace = random.Random(seed), []
    for place in range(LENGTH):
        phase = place * phases // LENGTH
        hot = chance.random() < 0.9
        trace.append(phase * keys + chance.randrange(keys) if hot else chance.randrange(100_000, 150_000))
    return trace


TRACES = {
    "skewed, 0.99": skewed(0.99),
    "skewed, 0.7": skewed(0.7),
    "with scans": scanned(),
    "cyclic": cyclic(),
    "shifting": shifting(),
}
