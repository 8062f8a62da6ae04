"""The samples of a page: files that it shows, and commands with what they print."""

import os
import shutil
import subprocess
from dataclasses import dataclass, field

from pages import blocks

BUILT = ("JCACHE_PROGRAM", "JCACHE_ARCHIVE", "JCACHE_HEAP", "JCACHE_SHARED")
SECONDS = 120


def missing_builds():
    """The variables that name no file."""
    return [name for name in BUILT if not os.path.isfile(os.environ.get(name, ""))]


@dataclass(frozen=True)
class Sample:
    """A command, and what a page says it prints."""

    command: str
    prints: str


@dataclass
class Outcome:
    """How many samples of a page were run, what is wrong with them, and what was skipped."""

    count: int = 0
    faults: list = field(default_factory=list)
    skipped: list = field(default_factory=list)


class Folder:
    """A folder in which all that lies at the repository's top is found, with `jcache` on the path."""

    def __init__(self, top, made):
        self.top, self.path = top, os.path.join(made, "top")
        programs = os.path.join(made, "bin")
        for folder in (self.path, programs):
            os.mkdir(folder)
        for name in set(os.listdir(top)) - {".git"}:
            os.symlink(os.path.join(top, name), os.path.join(self.path, name))
        paths = {name: os.path.abspath(os.environ[name]) for name in BUILT}
        os.symlink(paths["JCACHE_PROGRAM"], os.path.join(programs, "jcache"))
        archives = [os.path.dirname(paths[name]) for name in ("JCACHE_ARCHIVE", "JCACHE_HEAP")]
        self.variables = os.environ | paths | {
            "PATH": programs + os.pathsep + os.environ["PATH"],
            "JCACHE_LIBRARY": paths["JCACHE_SHARED"],
            "JCACHE_FOLDERS": os.pathsep.join(archives),
            "PYTHONPATH": os.path.join("bindings", "python"),
            "PYTHONDONTWRITEBYTECODE": "1",
            "LC_ALL": "C.UTF-8",
        }

    def write(self, name, text):
        """Writes a file that is not there, beside what is the repository's. What is wrong with that, if anything."""
        path = os.path.join(self.path, name)
        if os.path.lexists(path) or os.path.islink(os.path.join(self.path, name.split("/")[0])):
            return [f"{name} is the repository's, or there already"]
        os.makedirs(os.path.dirname(path), exist_ok=True)
        with open(path, "w", encoding="utf-8") as file:
            file.write(text)
        return []

    def printed(self, command):
        """What a command prints, as a terminal shows it, without line feeds at the end."""
        words = ["timeout", str(SECONDS), "bash", "-c", command]
        ran = subprocess.run(words, cwd=self.path, env=self.variables, stdin=subprocess.DEVNULL,
                             stdout=subprocess.PIPE, stderr=subprocess.STDOUT, check=False)
        late = f"\n(not ended within {SECONDS} seconds)" if ran.returncode == 124 else ""
        return ran.stdout.decode("utf-8", "replace").rstrip("\n") + late

    def has(self, name, text):
        """Whether these lines stand together in a file of the repository, wherever they begin."""
        with open(os.path.join(self.top, name), encoding="utf-8") as file:
            lines = [line.strip() for line in file]
        wanted = [line.strip() for line in text.splitlines()]
        return any(lines[place : place + len(wanted)] == wanted for place in range(len(lines)))


def samples(text):
    """The commands of a block: each line behind `$ `, with the lines below it."""
    for part in ("\n" + text).split("\n$ ")[1:]:
        command, _, prints = part.partition("\n")
        yield Sample(command, prints.rstrip("\n"))


def sample_faults(sample, folder):
    """A command that prints something else, with a line `-` for each wanted and a line `+` for each printed."""
    printed = folder.printed(sample.command)
    if printed == sample.prints:
        return []
    wanted, found = (text.replace("\n", f"\n{sign} ") for sign, text in (("-", sample.prints), ("+", printed)))
    return [f"$ {sample.command}\n- {wanted}\n+ {found}"]


def missing_program(block):
    """Of a mark `run: wants A B` the first program that is not on the path."""
    return next((word for word in block.said.split()[1:] if shutil.which(word) is None), None)


def try_block(block, folder, outcome):
    """Runs, writes or seeks what a block shows."""
    if block.text is None:
        outcome.faults.append("no block behind the mark")
    elif block.kind == "file":
        outcome.faults += folder.write(block.said, block.text)
    elif block.kind == "from":
        outcome.count += 1
        outcome.faults += [] if folder.has(block.said, block.text) else [f"not in {block.said}"]
    elif missing_program(block):
        outcome.skipped.append(f"line {block.line}: {missing_program(block)} is not there")
    else:
        for sample in samples(block.text):
            outcome.count += 1
            outcome.faults += sample_faults(sample, folder)


def run_samples(page, folder):
    """What became of a page's samples."""
    outcome = Outcome()
    for block in blocks(page):
        before = len(outcome.faults)
        try_block(block, folder, outcome)
        outcome.faults[before:] = [f"line {block.line}: {fault}" for fault in outcome.faults[before:]]
    return outcome
