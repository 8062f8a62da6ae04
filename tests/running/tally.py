"""Counts what passed, what failed and what was skipped, a line each."""


class Tally:
    def __init__(self):
        self.passed, self.failed, self.skipped = 0, 0, 0

    def ok(self, what):
        self.passed += 1
        print(f"ok: {what}", flush=True)

    def fail(self, what, why):
        self.failed += 1
        print(f"failed: {what}: {why}", flush=True)

    def skip(self, what, why):
        self.skipped += 1
        print(f"skipped: {what}: {why}", flush=True)

    def check(self, what, why):
        """Counts one thing that passed where there is no reason why not."""
        if why:
            self.fail(what, why)
        else:
            self.ok(what)

    def line(self, line):
        """Counts a line of a test beside the gate, where it is one of the three kinds."""
        kind = line.partition(": ")[0]
        self.passed += kind == "ok"
        self.failed += kind == "failed"
        self.skipped += kind == "skipped"
        print(line, flush=True)

    def end(self, nothing_skipped):
        """Prints the last line, and returns the status."""
        print(f"{self.passed} passed, {self.failed} failed, {self.skipped} skipped")
        return 1 if self.failed or nothing_skipped and self.skipped else 0
