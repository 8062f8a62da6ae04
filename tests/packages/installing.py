"""The commands of docs/PACKAGES.md that install, run in a clean place, with the programs of the pages that they name."""
import os
import re
import shutil
import subprocess
import sys
import tempfile
from dataclasses import dataclass

HERE = os.path.dirname(os.path.abspath(__file__))
TOP = os.path.dirname(os.path.dirname(HERE))
sys.path.insert(0, f"{TOP}/tests/docs")

from pages import block_at, blocks, page_of  # noqa: E402
from samples import samples  # noqa: E402

PACKAGE = re.compile(r"(?<![\w-])(?:lib|redis-)?jcache[\w.-]*\.(?:deb|whl|crate|jar)")
MARK = re.compile(r"^<!-- installed: (.*) -->$")


@dataclass(frozen=True)
class Installing:
    """A page with a first program, and the commands that install a package and run it."""

    page: str
    commands: list


def installings():
    lines = page_of(TOP, "docs/PACKAGES.md").text.splitlines()
    for place, line in enumerate(lines):
        mark = MARK.match(line)
        if mark:
            yield Installing(mark[1], [sample.command for sample in samples(block_at(lines, place + 1))])


def lacking(installing, packages):
    """The packages that the commands name and that are not built."""
    named = {name for command in installing.commands for name in PACKAGE.findall(command)}
    return sorted(named - {*os.listdir(packages)})


def first_output(page, command=""):
    """What the page's samples print first, of those that end with the command's last word."""
    runs = (sample for block in blocks(page) if block.kind == "run" for sample in samples(block.text))
    return next(sample.prints for sample in runs if sample.prints and sample.command.endswith(command.split(" ")[-1]))


def write_files(page, folder):
    for block in blocks(page):
        if block.kind == "file":
            path = f"{folder}/{block.said}"
            os.makedirs(os.path.dirname(path), exist_ok=True)
            with open(path, "w", encoding="utf-8") as file:
                file.write(block.text)


def in_clean_place(folder, commands, hidden):
    """How the commands end, of which the last one's output alone is kept."""
    quiet = [f"{{ {command}; }} > log.txt 2>&1 || {{ cat log.txt >&2; exit 1; }}" for command in commands[:-1]]
    words = [f"{HERE}/clean", folder, "; ".join([*quiet, commands[-1]]), *hidden]
    return subprocess.run(words, capture_output=True, text=True, errors="replace", check=False)


def why_no_clean_place():
    with tempfile.TemporaryDirectory() as folder:
        ran = in_clean_place(folder, ["true"], [])
    return (ran.stderr.strip() or f"status {ran.returncode}") if ran.returncode else None


def check(tally, packages, hidden):
    """Counts for each page whether its first program runs where the folder's packages are installed."""
    why = why_no_clean_place()
    for each in installings():
        what = f"installed in a clean place, the first program of {each.page}"
        absent = lacking(each, packages)
        if why:
            tally.skip(what, f"no namespace can be made: {why}")
        elif absent:
            tally.fail(what, f"{', '.join(absent)} is not built")
        else:
            tally.check(what, faults(each, packages, hidden))


def faults(installing, packages, hidden):
    """Installs and runs; what is printed has to be what the page shows."""
    page = page_of(TOP, installing.page)
    with tempfile.TemporaryDirectory() as folder:
        shutil.copytree(packages, folder, dirs_exist_ok=True)
        write_files(page, folder)
        ran = in_clean_place(folder, installing.commands, hidden)
    wanted = first_output(page, installing.commands[-1])
    if ran.returncode or ran.stdout.rstrip("\n") != wanted:
        return f"status {ran.returncode}, wanted {wanted!r}, printed {ran.stdout!r} {ran.stderr[-2000:]!r}"
    return None
