"""The examples that `crates/jc_examples/data/cases.txt` lists, but for events, which `jc_examples` plays: what the program
prints is the text beside each. Its head says what a line of it means."""
import os
import pty
import tty

from runs import DATA, Ran, other

# Words with which a run of two files is made again: the report is the same.
AGAIN = (("--seed", "1"), ("--seed", "9223372036854775807"), ("--serial", "--seed=0"))


def read(name):
    with open(os.path.join(DATA, name), "rb") as file:
        return file.read()


def lines_of(name):
    """The lines of a file, without what ends them."""
    lines = read(name).split(b"\n")
    return [line.removesuffix(b"\r") for line in (lines if lines[-1] else lines[:-1])]


def run_files(program, name):
    """Runs the configuration and the script of a name, once more with other words each."""
    words = ["run", f"{name}.toml", f"{name}.jsonl"]
    ran = program.run([*words, "--seed", "0"])
    for more in AGAIN:
        if program.run([*words, *more]).output != ran.output:
            return f"another report with {' '.join(more)}".encode()
    return ran.text()


def run_each(program, kind, file, config=None):
    """Runs each line of a file as a script, or as a configuration with an empty script."""
    text = b""
    for line in lines_of(file):
        program.write("config", line if config is None else read(config))
        program.write("script", b"" if config is None else line)
        ran = program.run(["run", "config", "script"])
        text += ran.output + ran.errors
    return text


def run_typed(program, script, *words):
    """Runs the program as a person who types a script at a terminal, and sees there what standard error says."""
    ours, terminal = pty.openpty()
    seen, errors = pty.openpty()
    tty.setraw(errors)
    try:
        os.write(ours, read(script) + b"\x04")
        ran = program.run(words, stdin=terminal, stderr=errors)
        os.set_blocking(seen, False)
        try:
            told = os.read(seen, 65536)
        except BlockingIOError:
            told = b""
        return Ran(ran.output, told, ran.status).text()
    finally:
        for end in (ours, terminal, seen, errors):
            os.close(end)


def run_full(program, *words):
    """Runs the program where standard output is a full device."""
    with open("/dev/full", "wb") as full:
        return program.run(words, stdout=full).text()


def run_closed(program, *words):
    """Runs the program where nobody reads standard output any more."""
    reads, writes = os.pipe()
    os.close(reads)
    try:
        return program.run(words, stdout=writes).text()
    finally:
        os.close(writes)


def run_words(program, words):
    """Runs the program with words, and the file behind `<` as standard input."""
    if words[-2:-1] == ["<"]:
        return program.run(words[:-2], read(words[-1])).text()
    return program.run(words).text()


def printed(program, name, words):
    """What an example prints; nothing where it is one of events."""
    first, rest = words[0] if words else "", words[1:]
    if not words:
        return run_files(program, name)
    if first == "events":
        return None
    if first == "each":
        return run_each(program, *rest[0::2])
    if first == "typed":
        return run_typed(program, *rest)
    if first == "words":
        return program.run(read(rest[1]).split(b"\n")).text()
    if first == "blanks":
        return program.run(rest[1:], b" " * int(rest[0])).text()
    if first in ("full", "closed"):
        return (run_full if first == "full" else run_closed)(program, *rest)
    return run_words(program, words)


def faults_of(program):
    """How many examples there are, and what is wrong with them."""
    count, faults = 0, []
    for line in lines_of("cases.txt"):
        name, *words = line.decode().split() or ["#"]
        text = None if name.startswith("#") else printed(program, name, words)
        if text is not None:
            count += 1
            faults += other(name, text, read(f"{name}.txt"))
    return count, faults
