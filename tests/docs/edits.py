"""The must-fail edits that docs/PROMISES.md names, and those that there are."""

import glob
import os
import re

from pages import page_of

NAMED = re.compile(r"`(\w+)`(?: \(`(\w+)`\))?")


def edits_there(top):
    """The crate and the name of each edit."""
    paths = glob.glob(os.path.join(top, "crates", "*", "must-fail", "*.edit"))
    return {(path.split(os.sep)[-3], os.path.splitext(os.path.basename(path))[0]) for path in paths}


def rows(text):
    """The cells of the tables' rows, each with the crates that the heading above it names."""
    crates = []
    for line in text.splitlines():
        if line.startswith("## "):
            crates = re.findall(r"`(\w+)`", line)
        elif line.startswith("| ") and not line.startswith("|---"):
            yield crates, [cell.strip() for cell in re.split(r"(?<!\\)\|", line)[1:-1]]


def edit_faults(top):
    """Edits that are named and not there, and those that are there and not named."""
    there, named, faults = edits_there(top), set(), []
    for crates, cells in rows(page_of(top, os.path.join("docs", "PROMISES.md")).text):
        for name, crate in NAMED.findall(cells[2] if len(cells) > 2 else ""):
            found = {(it, name) for it in ([crate] if crate else crates)} & there
            faults += [] if found else [f"named, and not there: {name} of {crate or ', '.join(crates)}"]
            named |= found
    return faults + [f"not named: crates/{crate}/must-fail/{name}.edit" for crate, name in sorted(there - named)]
