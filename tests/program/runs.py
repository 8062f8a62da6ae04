"""Runs of the built program, in a folder of their own, and what they wrote."""
import os
import shutil
import subprocess
import sys
from dataclasses import dataclass

TOP = os.path.dirname(os.path.dirname(os.path.dirname(os.path.abspath(__file__))))
DATA = os.path.join(TOP, "crates", "jc_examples", "data")
# Who runs the program where root runs the tests: one who may not read all files.
NOBODY = 65534
SECONDS = 60


@dataclass(frozen=True)
class Ran:
    """What a run wrote, and how it ended."""

    output: bytes
    errors: bytes
    status: int

    def text(self):
        """What it wrote, its output first, and its status where that is not 0."""
        return self.output + self.errors + (b"status %d\n" % self.status if self.status else b"")


class Program:
    """A build of the program, beside a copy of the examples' files, where it runs."""

    def __init__(self, built, room):
        self.path, self.data, self.room = os.path.join(room, "jcache"), os.path.join(room, "data"), room
        os.chmod(room, 0o755)
        shutil.copyfile(built, self.path)
        os.chmod(self.path, 0o755)
        shutil.copytree(DATA, self.data)

    def write(self, name, content):
        """Writes a file where the program runs."""
        with open(os.path.join(self.data, name), "wb") as file:
            file.write(content)

    def run(self, words, given=b"", name="jcache", **how):
        """Runs it with these words, behind a name. What is given is standard input, unless `how` says what is."""
        if "stdin" not in how:
            how["input"] = given
        how = {"stdout": subprocess.PIPE, "stderr": subprocess.PIPE, "cwd": self.data, "timeout": SECONDS} | how
        if not os.geteuid():
            how |= {"user": NOBODY, "group": NOBODY, "extra_groups": []}
        ran = subprocess.run([name, *words], executable=self.path, **how)
        # A shell's number for one whom a signal has ended.
        status = ran.returncode if ran.returncode >= 0 else 128 - ran.returncode
        return Ran(ran.stdout or b"", ran.stderr or b"", status)


def told(what, faults):
    """Prints how a test ended, and the first of its faults."""
    if faults:
        print(f"failed: {what}: {len(faults)} faults, {faults[0]}")
    else:
        print(f"ok: {what}")
    sys.stdout.flush()
    return not faults


def other(what, found, wanted):
    """Why what was found is not what was wanted, in a list; nothing where it is."""
    return [] if found == wanted else [f"{what}: {found[-300:]!r} in place of {wanted[-300:]!r}"]
