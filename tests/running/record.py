"""What the gate has passed: the kit, and the checksum of what it reads. It is written where the gate passes, and read by
packages/build."""
import hashlib
import json
import os
import subprocess

FILE = "out/gate.json"
GATE_READS = ("HANDLES", "crates.txt", "crates")
NO_SOURCES = {".git", "out"}


def sources(below=(".",)):
    """The files below these paths, in order of their names, but for git's own and what is built."""
    found = {path for path in below if os.path.isfile(path)}
    for path in below:
        for folder, folders, files in os.walk(path):
            folders[:] = [name for name in folders if name not in NO_SOURCES]
            found |= {os.path.normpath(f"{folder}/{name}") for name in files}
    return sorted(found)


def checksum(path):
    """The SHA-256 of a file in hexadecimal."""
    with open(path, "rb") as file:
        return hashlib.sha256(file.read()).hexdigest()


def checksum_of_sources(below=(".",)):
    """The SHA-256 of a line `CHECKSUM  NAME` for each source, as `sha256sum` prints them."""
    lines = "".join(f"{checksum(name)}  {name}\n" for name in sources(below))
    return hashlib.sha256(lines.encode()).hexdigest()


def kit():
    """The kit and its logic, in one line."""
    return subprocess.run(["rt", "version"], capture_output=True, text=True, check=True).stdout.strip()


def present():
    """What a record of the checkout as it is now says."""
    return {"kit": kit(), "sources": checksum_of_sources(GATE_READS)}


def forget():
    if os.path.exists(FILE):
        os.remove(FILE)


def write(read):
    os.makedirs(os.path.dirname(FILE), exist_ok=True)
    with open(FILE, "w", encoding="utf-8") as file:
        json.dump(read, file)


def stands():
    """Whether the gate has passed what is there now, with the kit that is there now."""
    if not os.path.isfile(FILE):
        return False
    with open(FILE, encoding="utf-8") as file:
        return json.load(file) == present()
