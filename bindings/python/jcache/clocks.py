"""Clocks: callables that give the time in milliseconds."""

import time


class WallClock:
    """Milliseconds since 1970: read from the system's clock once, and from then on counted by one that nobody sets. So it
    never falls."""

    def __init__(self) -> None:
        self._start = time.time_ns() - time.monotonic_ns()

    def __call__(self) -> int:
        return (self._start + time.monotonic_ns()) // 1_000_000


class FixedClock:
    """A clock for tests, which moves where it is told to: `now` is its time."""

    def __init__(self, now: int = 0) -> None:
        self.now = now

    def advance(self, milliseconds: int) -> None:
        """Moves the clock by so much."""
        self.now += milliseconds

    def __call__(self) -> int:
        return self.now
