"""The same random calls through the module and through `jcache run`: the same replies and events."""
import json
import os
import random
import subprocess
import sys
import tempfile

import tally
from playing import random_key
from protocol import Error
from servers import Client, Server

PROGRAM = os.environ["JCACHE_PROGRAM"]
COUNT = 20_000 if "--all" in sys.argv else 4000
POLICIES = ("eternal", "created", "accessed", "modified", "touched")
OPS = {
    "get": "k", "contains": "k", "put": "kv", "get_and_put": "kv", "put_if_absent": "kv", "replace": "kv", "replace_if": "kev",
    "get_and_replace": "kv", "remove": "k", "remove_if": "ke", "get_and_remove": "k", "invoke": "kp", "get_all": "K",
    "put_all": "P", "remove_keys": "K", "invoke_all": "pK", "entries": "", "stats": "",
}
LISTS, RARE = {"get_all", "entries"}, ("remove_all", "clear", "clear_stats")


def random_settings(chance, name):
    made = {"name": name, "capacity": chance.choice((1, 2, 5, 20, 50)), "expiry": chance.choice(POLICIES),
            "processors": ["append"], "listeners": chance.randrange(2)}
    if made["expiry"] != "eternal":
        made["duration"] = chance.choice((0, 1, 20, 100, 2**62))
    return made | ({"writer": "check"} if chance.random() < 0.3 else {})


def created(made):
    words = ["jc.create", made["name"], made["capacity"], made["expiry"], *([made["duration"]] if "duration" in made else [])]
    return words + ["WRITER"] * ("writer" in made) + ["LISTENERS"] * made["listeners"]


def random_line(chance, names, at):
    """A line of the script, and the same as a command."""
    op = chance.choice(RARE) if chance.random() < 0.003 else chance.choice(list(OPS))
    line, words = {"s": 0, "c": chance.choice(names), "at": at, "op": op}, []
    keys = list({random_key(chance).decode(): 1 for _ in range(chance.randrange(1, 6))})
    value = lambda: chance.choice(("", "v", "1", "\u20ac", "x" * 40))
    for part in OPS.get(op, ""):
        if part == "k":
            line["k"] = keys[0]
            words.append(keys[0])
        elif part in "ev":
            member = {"e": "expect", "v": "v"}[part]
            line[member] = value()
            words.append(line[member])
        elif part == "p":
            line |= {"p": 0, "arg": value()}
            words += ["APPEND", line["arg"]]
        elif part == "K":
            line["ks"] = keys
            words += keys
        else:
            line["kvs"] = [[key, value()] for key in keys]
            words += [it for pair in line["kvs"] for it in pair]
    return line, ["jc.at", line["c"], at, op.replace("_", ""), *words]


def told(op, reply):
    """A reply of the server's as the program's report has it."""
    text = lambda it: None if it is None else it.decode()
    if isinstance(reply, Error):
        return {"kind": "fault", "by": {"JCPROCESSOR": "processor"}[reply.kind], "after": None}
    if reply == "OK":
        return {"kind": "done"}
    if op == "stats":
        return {"kind": "counted", "value": dict(zip(reply[::2], reply[1::2]))}
    if isinstance(reply, list):
        pairs = [{"key": text(key), "value": text(value)} for key, value in zip(reply[::2], reply[1::2])]
        return {"kind": "listed" if op in LISTS else "results", "value": pairs}
    return {"kind": "truth", "value": bool(reply)} if isinstance(reply, int) else {"kind": "found", "value": text(reply)}


def reported(made, lines):
    """What the program tells of each line."""
    with tempfile.TemporaryDirectory() as folder:
        with open(f"{folder}/caches.toml", "w", encoding="utf-8") as out:
            for it in made:
                out.write("[[cache]]\n" + "".join(f"{name} = {json.dumps(value)}\n" for name, value in it.items()))
        with open(f"{folder}/calls.jsonl", "w", encoding="utf-8") as out:
            out.writelines(json.dumps(it) + "\n" for it in lines)
        words = [PROGRAM, "run", f"{folder}/caches.toml", f"{folder}/calls.jsonl", "--serial", "--format", "json"]
        ran = subprocess.run(words, capture_output=True, text=True, check=True)
    return [it for it in map(json.loads, ran.stdout.splitlines()) if "line" in it]


def same_calls():
    chance, at = random.Random(31), 0
    made = [random_settings(chance, f"c{i}") for i in range(30)]
    calls = []
    for _ in range(COUNT):
        at = max(0, at + chance.choice((0, 0, 1, 3, 30)) - chance.choice((0, 0, 0, 5)))
        calls.append(random_line(chance, [it["name"] for it in made], at))
    server = Server()
    hears = Client(server.port)
    for it in made:
        server.client.do(*created(it))
        hears.do("ssubscribe", it["name"])
    report = reported(made, [line for line, _ in calls])
    if len(report) != COUNT:
        return f"the program tells of {len(report)} lines"
    for (line, words), wanted in zip(calls, report):
        got = told(line["op"], server.client.call(*words))
        events = []
        for _ in wanted["events"]:
            head, _, rest = hears.read()[2].partition(b"\n")
            kind, length = head.split()[:2]
            events.append({"kind": kind.decode(), "key": rest[:int(length)].decode()})
        if [got, events] != [wanted["reply"], wanted["events"]]:
            return f"{line}: {got}, {events}, wanted {wanted['reply']}, {wanted['events']}"
    return None


tally.run(((f"{COUNT:,} random calls through the module and through the program", same_calls),))
