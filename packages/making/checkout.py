"""What a package says of the checkout that it is built from."""
import re
import subprocess
from dataclasses import dataclass
from typing import List

from making.commands import output
from running import record

VERSION = re.compile(r"^## (\d+\.\d+\.\d+)\b", re.M)
KIT = re.compile(r"(\S+) logic ([0-9a-f]+)")
# Whoever owns the checkout.
GIT = ("git", "-c", "safe.directory=*")


@dataclass(frozen=True)
class Checkout:
    """The version that CHANGELOG.md has first; the commit, its time in seconds since 1970, and the files that differ from
    it; the kit and its logic; whether the gate has passed what is there; the checksum of all sources."""

    version: str
    commit: str
    seconds: int
    changes: List[str]
    kit: str
    logic: str
    is_proved: bool
    sources: str


def changed_files():
    lines = output([*GIT, "status", "--porcelain", "--no-renames", "--untracked-files=all", "-z"]).split("\0")
    return sorted(line[3:] for line in lines if line)


def read():
    """What the folder is, which has to be the top of a checkout."""
    with open("CHANGELOG.md", encoding="utf-8") as file:
        version = VERSION.search(file.read())[1]
    commit, seconds = output([*GIT, "log", "-1", "--format=%H %ct"]).split()
    kit, logic = KIT.match(record.kit()).groups()
    return Checkout(version, commit, int(seconds), changed_files(), kit, logic, record.stands(), record.checksum_of_sources())
