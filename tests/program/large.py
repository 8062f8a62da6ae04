"""What is too large for the examples' files: values, lists and rows at their limits, and a crowd of sessions."""
import json

from runs import other

CACHES = b"""
[[cache]]
name = "a"
capacity = 65536
processors = ["append"]

[[cache]]
name = "b"
capacity = 64
"""
# Fewer rows than the crowd has keys.
CROWDED = b"""
[[cache]]
name = "a"
capacity = 64
loader = "echo"

[[cache]]
name = "b"
capacity = 64
"""
LONGEST = 65_535
# How many sessions share a cache, how many calls they make together, and of how many keys.
SESSIONS, CALLS, KEYS = 64, 640, 100


def line(cache, op, session=0, **members):
    return json.dumps({"s": session, "c": cache, "at": 0, "op": op, **members}).encode() + b"\n"


def ran_with(program, script, *words, caches=CACHES):
    program.write("large.toml", caches)
    program.write("large.jsonl", script)
    return program.run(["run", "large.toml", "large.jsonl", *words]).text()


def the_longest_value_is_stored_and_replied(program, _):
    value = "v" * LONGEST
    script = line("a", "put", k="x", v=value) + line("a", "get", k="x")
    script += line("a", "invoke", k="x", p=0, arg="") + line("a", "invoke", k="x", p=0, arg="+")
    wanted = f'cache a\n0 put ok\n0 get some "{value}"\n0 invoke some "{value}"\n0 invoke fault processor\ncache b\n'
    yield from other("the longest value", ran_with(program, script), wanted.encode())


def a_longer_value_is_a_fault(program, _):
    value = "v" * (LONGEST + 1)
    calls = {
        "v": line("a", "put", k="x", v=value),
        "expect": line("a", "remove_if", k="x", expect=value),
        "arg": line("a", "invoke", k="x", p=0, arg=value),
        "kvs": line("a", "put_all", kvs=[["x", value]]),
    }
    for member, script in calls.items():
        yield from other(member, ran_with(program, script), f"script line 1: bad {member}\nstatus 1\n".encode())


def more_than_the_most_is_a_fault(program, _):
    fault = {member: f"script line 1: bad {member}\nstatus 1\n".encode() for member in ("k", "ks", "kvs")}
    for length, wanted in ((0, fault["k"]), (1, b"false"), (63, b"false"), (64, fault["k"])):
        ran = ran_with(program, line("b", "contains", k="k" * length))
        yield from other(f"a key of {length}", ran, b"cache a\ncache b\n0 contains %s\n" % wanted if wanted == b"false" else wanted)
    for count, last, is_list in ((0, "", True), (64, "64", True), (2, "1", False), (64, "1", False), (65, "65", False), (65, "1", False)):
        keys = [*map(str, range(1, count)), last] if count else []
        ran = ran_with(program, line("b", "remove_keys", ks=keys))
        yield from other(f"{count} keys", ran, b"cache a\ncache b\n0 remove_keys ok\n" if is_list else fault["ks"])
        ran = ran_with(program, line("b", "put_all", kvs=[[key, ""] for key in keys]))
        yield from other(f"{count} pairs", ran, b"cache a\ncache b\n0 put_all ok\n" if is_list else fault["kvs"])


def put_64(cache, number):
    """A line that puts 64 keys of a cache, with a number in their names."""
    return line(cache, "put_all", kvs=[[str(number), "0"], *([f"{number}-{key}", str(key)] for key in range(1, 64))])


def more_than_65536_rows_have_their_places(program, _):
    script = put_64("b", 0) + b"".join(put_64("a", number) for number in range(1024))
    script += line("a", "stats") + line("a", "contains", k="0") + line("a", "contains", k="1023-63")
    script += line("b", "remove", k="0-63") + line("b", "stats")
    wanted = "cache a\n" + "0 put_all ok\n" * 1024 + "0 stats 0 0 65536 0 0\n0 contains true\n0 contains true\n"
    wanted += "cache b\n0 put_all ok\n0 remove true\n0 stats 0 0 64 1 0\n"
    yield from other("65,600 rows", ran_with(program, script), wanted.encode())


def a_crowd_of_sessions_closes(program, _):
    script, wanted = b"", {session: [] for session in range(SESSIONS)}
    for number in range(CALLS):
        session, key = number % SESSIONS, f"k{number % KEYS}"
        puts = number % 3 == 0
        script += line("a", "put", session, k=key, v=key) if puts else line("a", "get", session, k=key)
        wanted[session].append(f"{session} put ok" if puts else f'{session} get some "{key}"')
    for turn in range(10):
        lines = ran_with(program, script, "--workers", "8", caches=CROWDED).decode().splitlines()
        found = {session: [it for it in lines if it.startswith(f"{session} ")] for session in wanted}
        heads = [it for it in lines if it.startswith("cache")]
        if (found, heads, len(lines)) != (wanted, ["cache a", "cache b"], CALLS + 2):
            yield f"run {turn} by 8 workers"


TESTS = (
    the_longest_value_is_stored_and_replied,
    a_longer_value_is_a_fault,
    more_than_the_most_is_a_fault,
    more_than_65536_rows_have_their_places,
    a_crowd_of_sessions_closes,
)
