"""The manifest: what the packages are built from, and the checksum of each."""
import json
import os

from running import record

NAME = "manifest.json"


def write(checkout, proofs, folder):
    """`proofs` says what stands behind the library and the program."""
    said = {
        "version": checkout.version,
        "commit": checkout.commit,
        "changes": checkout.changes,
        "kit": checkout.kit,
        "logic": checkout.logic,
        "proofs": proofs,
        "sources": checkout.sources,
        "files": {name: record.checksum(f"{folder}/{name}") for name in sorted(os.listdir(folder))},
    }
    with open(f"{folder}/{NAME}", "w", encoding="utf-8") as file:
        file.write(json.dumps(said, indent=2) + "\n")


def faults(folder, sources):
    """What is not as the manifest says: lines that name it."""
    with open(f"{folder}/{NAME}", encoding="utf-8") as file:
        said = json.load(file)
    there = {*os.listdir(folder)} - {NAME}
    lines = [f"{name} is not there" for name in sorted({*said["files"]} - there)]
    lines += [f"{name} is not in the manifest" for name in sorted(there - {*said["files"]})]
    lines += [f"{name} is another file" for name in sorted(there & {*said["files"]})
              if record.checksum(f"{folder}/{name}") != said["files"][name]]
    if said["sources"] != sources:
        lines.append(f"the sources of this checkout are others than those of {said['commit']} that were built")
    return said, lines
