"""Hits of a trace by replacement: every key is looked up, and stored where it was not there."""

import heapq
import math
from collections import OrderedDict, deque


def clock(keys, capacity):
    """CLOCK as docs/MODEL.md has it: a new row comes last with its bit clear, and a lookup that finds a row sets it."""
    ring, used, hits = deque(), {}, 0
    for key in keys:
        if key in used:
            used[key] = True
            hits += 1
            continue
        if len(ring) == capacity:
            while used[ring[0]]:
                used[ring[0]] = False
                ring.rotate(-1)
            del used[ring.popleft()]
        ring.append(key)
        used[key] = False
    return hits


def lru(keys, capacity):
    """The row goes that was not used for the longest time."""
    rows, hits = OrderedDict(), 0
    for key in keys:
        if key in rows:
            rows.move_to_end(key)
            hits += 1
            continue
        if len(rows) == capacity:
            rows.popitem(last=False)
        rows[key] = None
    return hits


def next_uses(keys):
    """For each place of the trace the next place of its key, infinity where there is none."""
    later, seen = [math.inf] * len(keys), {}
    for place in range(len(keys) - 1, -1, -1):
        later[place] = seen.get(keys[place], math.inf)
        seen[keys[place]] = place
    return later


def optimum(keys, capacity):
    """The row goes whose next use is the farthest (Belady): no replacement that stores each missing key has more hits."""
    uses, farthest, hits = {}, [], 0
    for key, later in zip(keys, next_uses(keys)):
        if key in uses:
            hits += 1
        elif len(uses) == capacity:
            del uses[farthest_of(farthest, uses)]
        uses[key] = later
        heapq.heappush(farthest, (-later, key))
    return hits


def farthest_of(farthest, uses):
    """The row whose next use is the farthest; what the heap says of earlier uses is passed over."""
    while True:
        later, key = heapq.heappop(farthest)
        if uses.get(key) == -later:
            return key
