"""Scripts that are cut or no text, and streams that are long, or that fail behind so many bytes."""
import errno
import os
import subprocess

from examples import read
from runs import other

CONFIG, SCRIPT = "stored/caches.toml", "stored/calls.jsonl"
# What the lines of that script report, in its order, the first three for the first cache.
REPLIES = ("0 put ok", '0 get some "1"', "0 stats 1 0 1 0 0", "1 put ok", "1 get none", "1 stats 0 1 1 0 0")
# The most bytes that a configuration or a script has.
MOST = 8_388_608
CONFIG_UNREAD, SCRIPT_UNREAD = b"config: cannot be read\nstatus 1\n", b"script: cannot be read\nstatus 1\n"


def report(count):
    """What so many lines of the script report."""
    first, second = REPLIES[: min(count, 3)], REPLIES[3:count]
    return "".join(line + "\n" for line in ("cache a", *first, "cache b", *second)).encode()


def not_json(line):
    return b"script line %d: not JSON\nstatus 1\n" % line


def cut(front):
    """What comes of the first bytes of the script: its lines up to a cut one, which is no JSON."""
    whole = front.count(b"}")
    return report(whole) if not front or front[-1:] in b"}\n" else not_json(whole + 1)


def every_prefix_of_a_script(program, _):
    script = read(SCRIPT)
    for end in range(len(script) + 1):
        front = script[:end]
        yield from other(f"the first {end} bytes", program.run([], front).text(), cut(front))


def a_line_that_is_no_text_is_told(program, _):
    script = read(SCRIPT)
    for at in range(len(script)):
        spoilt = script[:at] + b"\xff" + script[at + 1 :]
        wanted = not_json(1 + script[:at].count(b"\n"))
        yield from other(f"no text at {at}", program.run([], spoilt).text(), wanted)


def texts_have_at_most_eight_megabytes(program, _):
    for length in (MOST, MOST + 1):
        long = length > MOST
        ran = program.run([], b" " * length)
        yield from other(f"a script of {length}", ran.text(), b"script: too long\nstatus 1\n" if long else report(0))
        ran = program.run(["check", "-"], b" " * length)
        yield from other(f"a configuration of {length}", ran.text(), b"config: too long\nstatus 1\n" if long else b"")
    for words, wanted in (([], b"script: too long\nstatus 1\n"), (["check", "-"], b"config: too long\nstatus 1\n")):
        with subprocess.Popen(["yes", ""], stdout=subprocess.PIPE) as blanks:
            ran = program.run(words, stdin=blanks.stdout)
            blanks.kill()
        yield from other(f"endless input {words}", ran.text(), wanted)


def failing(loaded, **variables):
    return {"env": {"LD_PRELOAD": loaded} | {name: str(value) for name, value in variables.items()}}


def readers_that_fail(program, loaded):
    script = read(SCRIPT)
    for count in range(len(script) + 1):
        ran = program.run([], script, **failing(loaded, FAIL_READ=count))
        yield from other(f"a script behind {count} bytes", ran.text(), SCRIPT_UNREAD)
        ran = program.run(["check", "-"], script, **failing(loaded, FAIL_READ=count))
        yield from other(f"a configuration behind {count} bytes", ran.text(), CONFIG_UNREAD)
    ran = program.run([], script, **failing(loaded, FAIL_READ=len(script) + 1))
    yield from other("a script in single bytes", ran.text(), report(6))


def writers_that_fail(program, loaded):
    whole = report(6)
    ends = {errno.EPIPE: b"status 141\n", errno.ENOSPC: b"report: cannot be written\nstatus 1\n"}
    for words in (["--serial"], ["--workers", "2"]):
        for left in range(len(whole)):
            for number, end in ends.items():
                how = failing(loaded, FAIL_WRITE=left, FAIL_WITH=number)
                ran = program.run(["run", CONFIG, SCRIPT, *words], **how)
                what = f"{words} behind {left} bytes, by {errno.errorcode[number]}"
                yield from other(what, ran.text(), whole[:left] + end)
        ran = program.run(["run", CONFIG, SCRIPT, *words], **failing(loaded, FAIL_WRITE=len(whole)))
        yield from other(f"{words} in single bytes", ran.text(), whole)


def a_closed_pipe_ends_the_program_in_silence(program, loaded):
    for number, status in ((errno.EPIPE, 141), (errno.ENOSPC, 1)):
        ran = program.run(["--version"], **failing(loaded, FAIL_WRITE=0, FAIL_WITH=number))
        yield from other(f"--version by {errno.errorcode[number]}", ran.text(), b"status %d\n" % status)


def build(room):
    """Compiles what is loaded before the program, and says where it lies."""
    source, loaded = os.path.join(os.path.dirname(os.path.abspath(__file__)), "failing.c"), os.path.join(room, "failing.so")
    words = ["gcc", "-std=c11", "-O2", "-Wall", "-Wextra", "-Werror", "-fPIC", "-shared", source, "-o", loaded, "-ldl"]
    subprocess.run(words, check=True)
    os.chmod(loaded, 0o755)
    return loaded


TESTS = (
    every_prefix_of_a_script,
    a_line_that_is_no_text_is_told,
    texts_have_at_most_eight_megabytes,
    readers_that_fail,
    writers_that_fail,
    a_closed_pipe_ends_the_program_in_silence,
)
