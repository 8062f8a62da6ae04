"""What a person runs before a commit."""
import os
import re
import subprocess

from running import beside, kit


def run(tally):
    for name in kit.crates():
        layout(tally, name)
        edits(tally, name)
    changed = changed_crates()
    for name in kit.crates():
        if name in changed or changed & kit.below(name):
            proof(tally, name)
    examples(tally)


def sources(name):
    """The crate's files that a check reads."""
    for part in ("src", "specs", "proofs"):
        for folder, _, files in os.walk(f"crates/{name}/{part}"):
            yield from (f"{folder}/{file}" for file in files if file.endswith((".rt", ".antt")))


def layout(tally, name):
    words = [f"{kit.folder()}/bin/rattle", "fmt", "--check", *sorted(sources(name))]
    ran = subprocess.run(words, stdout=subprocess.PIPE, stderr=subprocess.STDOUT)
    if ran.returncode:
        tally.fail(f"layout of {name}", "run rt fmt in its folder")


def edits(tally, name):
    """Each must-fail edit finds what it replaces exactly once."""
    folder = f"crates/{name}/must-fail"
    for file in sorted(os.listdir(folder)) if os.path.isdir(folder) else []:
        with open(f"{folder}/{file}", encoding="utf-8") as lines:
            why = lacks(name, lines.read().split("\n"))
        if why:
            tally.fail(f"must-fail {name}/{file}", why)


def lacks(name, lines):
    text = ""
    for line in lines:
        kind, _, rest = line.partition(": ")
        if kind == "file":
            with open(f"crates/{name}/{rest.strip()}", encoding="utf-8") as file:
                text = file.read()
        elif kind == "old":
            if text.count(rest) != 1:
                return f"what it replaces stands {text.count(rest)} times: {rest[:60]}"
            old = rest
        elif kind == "new":
            text = text.replace(old, rest)
    return None


def changed_crates():
    """The crates with files that the last commit does not have as they are."""
    words = ["git", "status", "--porcelain", "--untracked-files=all", "--", "crates"]
    lines = subprocess.run(words, capture_output=True, text=True, check=True).stdout.splitlines()
    return {found[1] for line in lines if (found := re.search(r"\bcrates/(\w+)/", line))} & {*kit.crates()}


def proof(tally, name):
    """The crate is proved over what earlier checks kept, and its tests pass."""
    for verb in ("check", "test"):
        ran = subprocess.run(["rt", verb], cwd=f"crates/{name}", stdout=subprocess.PIPE, stderr=subprocess.STDOUT, text=True)
        if ran.returncode:
            print(ran.stdout[-4000:], flush=True)
        tally.check(f"rt {verb} in {name}", ran.returncode and f"status {ran.returncode}")


def examples(tally):
    """Plays all examples: over other tables and event by event, and by the program, which is built for that."""
    ran = subprocess.run(["rt", "run"], cwd="crates/jc_examples", capture_output=True, text=True)
    with open("crates/jc_examples/stdout", encoding="utf-8") as wanted:
        is_same = ran.stdout == wanted.read()
    tally.check("examples over other tables", None if is_same else "what they print is not crates/jc_examples/stdout")
    ran = subprocess.run(["rt", "run"], cwd="crates/jcache", stdin=subprocess.DEVNULL, capture_output=True, text=True)
    tally.check("the program is built", ran.stderr[-2000:] if ran.returncode else None)
    beside.run(tally, {"JCACHE_PROGRAM": os.path.abspath("crates/jcache/out/jcache")}, ["program"], False)
