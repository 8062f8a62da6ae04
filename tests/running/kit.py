"""Where the kit lies, and what crates.txt says."""
import functools
import os
import subprocess


@functools.cache
def folder():
    """The kit's folder: that of the page which `rt doc` names."""
    return os.path.dirname(subprocess.run(["rt", "doc"], capture_output=True, text=True, check=True).stdout.strip())


@functools.cache
def crates():
    """The libraries that each crate of the repository names, by crate, in the order of crates.txt."""
    found = {}
    with open("crates.txt", encoding="utf-8") as lines:
        for line in lines:
            head, _, libraries = line.partition("#")[0].partition(":")
            if head.strip():
                found[head.split()[0]] = libraries.split()
    return found


def below(name):
    """The crates of the repository on which this one stands."""
    found = set()
    for library in crates()[name]:
        if library in crates():
            found |= {library} | below(library)
    return found
