"""The tests beside the gate: each folder of tests/ with an executable `test`, which prints lines `ok: ..`, `failed: ..`
and `skipped: ..`, and with `--all` runs what takes longer, too."""
import os
import subprocess
import tempfile
import time

from running import packages

# Seconds that one folder's tests may take, and with --all.
LIMIT, LIMIT_OF_ALL = 900, 7200


def names():
    return sorted(it for it in os.listdir("tests") if os.access(f"tests/{it}/test", os.X_OK))


def run(tally, found, tests, everything):
    packages.install(tests, everything)
    for test in tests:
        lacking = packages.missing([test], everything)
        if lacking:
            tally.skip(test, f"it wants {' '.join(lacking)} of Debian")
        else:
            run_one(tally, test, found, everything)


def run_one(tally, test, found, everything):
    """Runs the tests of a folder; a status that no line of them explains is a failure of its own."""
    began, failed = time.time(), tally.failed
    limit = LIMIT_OF_ALL if everything else LIMIT
    with tempfile.TemporaryFile("w+", errors="replace") as complaints:
        words = ["timeout", "--kill-after=10", str(limit), f"tests/{test}/test", *["--all"] * everything]
        with subprocess.Popen(words, stdout=subprocess.PIPE, stderr=complaints, text=True, errors="replace", env={**os.environ, **found}) as ran:
            for line in ran.stdout:
                tally.line(line.rstrip("\n"))
        complaints.seek(0)
        if ran.returncode and tally.failed == failed:
            tally.fail(test, f"status {ran.returncode}: {complaints.read()[-2000:].strip()}")
    print(f"tests of {test} took {time.time() - began:.0f} seconds", flush=True)
