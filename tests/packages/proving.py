"""Whether packages/build asks for the gate's record, tried in a copy of the checkout."""
import json
import os
import shutil
import subprocess
import sys

from installing import TOP

RECORDING = "import sys; sys.path.insert(0, 'tests'); from running import record; record.write(record.present())"
REFUSED = "the gate has not passed what is there: run ./test, or name --program and --archive\n"


def copy_checkout(copy):
    """All but what is built, with the program and the library that the environment names where the gate leaves its own."""
    shutil.copytree(TOP, copy, ignore=shutil.ignore_patterns(".git", "out"))
    for variable, name in (("JCACHE_PROGRAM", "crates/jcache/out/jcache"), ("JCACHE_ARCHIVE", "crates/jc_c/out/libjc_c.a")):
        os.makedirs(os.path.dirname(f"{copy}/{name}"))
        shutil.copy(os.environ[variable], f"{copy}/{name}")


def build(copy, into):
    """The complaint of packages/build in the copy, if any."""
    words = [f"{copy}/packages/build", into]
    ran = subprocess.run(words, env={**os.environ, "GIT_DIR": f"{TOP}/.git"}, capture_output=True, text=True, cwd=copy, check=False)
    return ran.stderr or ran.returncode and f"status {ran.returncode}"


def said_proofs(folder):
    with open(f"{folder}/manifest.json", encoding="utf-8") as file:
        return json.load(file)["proofs"]


def faults(made):
    """What goes wrong without a record, with one, and once a source has changed."""
    copy = f"{made}/checkout"
    copy_checkout(copy)
    without = build(copy, f"{made}/without")
    if without != REFUSED:
        return f"without a record: {without}"
    subprocess.run([sys.executable, "-B", "-c", RECORDING], cwd=copy, check=True)
    os.utime(f"{copy}/crates/jc_c/out/libjc_c.a")
    why = build(copy, f"{made}/with")
    if why or said_proofs(f"{made}/with") != "passed by the gate":
        return f"with a record: {why or said_proofs(made + '/with')}"
    with open(f"{copy}/crates.txt", "a", encoding="utf-8") as file:
        file.write("# changed\n")
    changed = build(copy, f"{made}/changed")
    return None if changed == REFUSED else f"of a changed source: {changed}"
