"""One process: its processor time, its time by the clock, its peak memory, what it prints, and its instructions."""

import concurrent.futures
import os
import shutil
import subprocess
import sys
import tempfile
import time
from dataclasses import dataclass

# callgrind counts a `rep stosb` once for each byte, though it takes a cycle for 32 or more: have memset and memcpy do
# without.
PLAIN_STORES = {
    "GLIBC_TUNABLES": "glibc.cpu.x86_rep_stosb_threshold=1000000000:glibc.cpu.x86_rep_movsb_threshold=1000000000"
}


@dataclass(frozen=True)
class Ran:
    """What a process took, in seconds and KiB, and what it printed."""

    processor: float
    clock: float
    peak: int
    output: bytes


def run(words):
    """Runs a process, which has to succeed. Its peak is told by `time`: a fork of Python would count Python's pages."""
    with tempfile.NamedTemporaryFile() as peak, tempfile.TemporaryFile() as output:
        start = time.monotonic()
        child = subprocess.Popen([shutil.which("time"), "-f", "%M", "-o", peak.name, *words], stdout=output)
        _, status, used = os.wait4(child.pid, 0)
        clock = time.monotonic() - start
        child.returncode = os.waitstatus_to_exitcode(status)
        if child.returncode:
            sys.exit(f"{words} ended with {child.returncode}")
        output.seek(0)
        return Ran(used.ru_utime + used.ru_stime, clock, int(peak.read().split()[-1]), output.read())


def callgrind(words, dump):
    """Runs a process under callgrind, which writes its counts to a file."""
    tool = ["valgrind", "-q", "--tool=callgrind", f"--callgrind-out-file={dump}"]
    subprocess.run([*tool, *words], check=True, stdout=subprocess.DEVNULL, env={**os.environ, **PLAIN_STORES})


def instructions(words):
    """How many instructions a process runs."""
    with tempfile.TemporaryDirectory() as folder:
        dump = os.path.join(folder, "dump")
        callgrind(words, dump)
        with open(dump) as counts:
            return next(int(it.split()[1]) for it in counts if it.startswith(("summary:", "totals:")))


def all_instructions(every):
    """The same for each of some named processes, on all processors at once: other work does not change the counts."""
    with concurrent.futures.ThreadPoolExecutor(os.cpu_count()) as pool:
        counted = {name: pool.submit(instructions, words) for name, words in every.items()}
        return {name: count.result() for name, count in counted.items()}
