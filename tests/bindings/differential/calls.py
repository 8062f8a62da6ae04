"""Writes a random script for the program, `calls.jsonl` with its `caches.toml`, and the same calls as plain words for
`play.c`, `calls.txt`.

    calls.py SEED COUNT FOLDER
"""

import json
import os
import random
import sys

POLICIES = ("eternal", "created", "accessed", "modified", "touched")
PROCESSORS = ("append", "fail", "drop", "peek")
LAST = 2**64 - 1
MOST_ROWS = 262144


def names(rng):
    """Keys that load, that have nothing to load, and that fail; the longest, and some beyond ASCII."""
    plain = ["k%d" % n for n in range(7)] + ["é%d" % n for n in range(2)] + ["w" * 63]
    return plain + ["-%d" % n for n in range(2)] + ["!"] + ["q\"\\" + str(rng.randrange(9))]


def config(rng, name, plain):
    policy = rng.randrange(5)
    made = {"name": name, "capacity": rng.choice((1, 2, 5, 12, 40)), "expiry": POLICIES[policy]}
    if policy:
        made["duration"] = rng.choice((0, 1, 8, 40, LAST >> 1))
    if plain:
        made["capacity"] = rng.choice((1, 3, 20, 60000, 65536))
        return made
    if rng.random() < 0.6:
        made["loader"] = "echo"
    if rng.random() < 0.5:
        made["writer"] = "check"
    made["processors"] = [rng.choice(PROCESSORS) for _ in range(rng.randrange(6))]
    made["listeners"] = rng.choice((0, 1, 2))
    return made


def code(text):
    return "=" + text.encode().hex()


def settings(made):
    """A configuration as words: capacity, policy, duration, loader, writer, listeners, processors."""
    kinds = "".join(kind[0] for kind in made.get("processors", ())) or "-"
    words = (made["capacity"], POLICIES.index(made["expiry"]), made.get("duration", 0), int("loader" in made),
             int("writer" in made), made.get("listeners", 0), kinds)
    return " ".join(str(word) for word in words)


def toml(made):
    lines = ["[[cache]]"] + ["%s = %s" % (name, json.dumps(value)) for name, value in made.items()]
    return "\n".join(lines) + "\n"


class Calls:
    """The caches that live as the calls go on, and the moment."""

    def __init__(self, rng):
        self.rng, self.at, self.keys = rng, 0, names(rng)
        self.values = ["", "v", "über", "\"", "1" * 40] + self.keys[:4]
        self.live = {name: config(rng, name, False) for name in "abcdef"}

    def moment(self):
        chance = self.rng.random()
        if chance < 0.2:
            self.at += self.rng.randrange(4)
        if chance > 0.999:
            return LAST
        return max(0, self.at - self.rng.randrange(20)) if chance > 0.97 else self.at

    def some(self, most):
        return self.rng.sample(self.keys, self.rng.randrange(most))

    def members(self, op, processors):
        """What an op needs, as pairs of a name in the script and a value."""
        rng = self.rng
        give = {
            "k": lambda: rng.choice(self.keys), "v": lambda: rng.choice(self.values),
            "expect": lambda: rng.choice(self.values), "arg": lambda: rng.choice(self.values),
            "p": lambda: rng.randrange(len(processors)), "ks": lambda: self.some(6),
            "kvs": lambda: [[key, rng.choice(self.values)] for key in self.some(5)],
            "replace": lambda: rng.random() < 0.5,
        }
        return [(name, give[name]()) for name in OPS[op].split()]

    def call(self):
        """A line of the script and the same in words."""
        rng = self.rng
        if not self.live or rng.random() < 0.01:
            return self.create()
        name = rng.choice(list(self.live))
        called_back = "processors" in self.live[name]
        if rng.random() < (0.0003 if called_back else 0.01):
            return self.destroy(name)
        processors = self.live[name].get("processors", ())
        op = rng.choice([op for op in WEIGHTED if processors or "p" not in OPS[op].split()])
        members = self.members(op, processors)
        line = {"s": rng.randrange(64), "c": name, "at": self.moment(), "op": op}
        words = [line["s"], code(name), line["at"], op] + [word for _, value in members for word in in_words(value)]
        return {**line, **dict(members)}, words

    def create(self):
        name = self.rng.choice("abcdefgh")
        made = config(self.rng, name, True)
        rows = sum(cache["capacity"] for cache in self.live.values())
        if name not in self.live and rows + made["capacity"] <= MOST_ROWS:
            self.live[name] = made
        line = {"s": 0, "c": name, "at": self.at, "op": "create"}
        words = [0, code(name), self.at, "create", settings(made)]
        return {**line, **{member: made[member] for member in made if member != "name"}}, words

    def destroy(self, name):
        del self.live[name]
        return {"s": 1, "c": name, "at": self.at, "op": "destroy"}, [1, code(name), self.at, "destroy"]


def in_words(value):
    """Texts by their bytes, lists behind how many items they have."""
    if isinstance(value, str):
        return [code(value)]
    if isinstance(value, list):
        return [len(value)] + [word for item in value for word in (in_words(item) if isinstance(item, str) else
                                                                   [code(text) for text in item])]
    return [int(value)]


OPS = {
    "get": "k", "contains": "k", "put": "k v", "get_and_put": "k v", "put_if_absent": "k v", "replace": "k v",
    "replace_if": "k expect v", "get_and_replace": "k v", "remove": "k", "remove_if": "k expect",
    "get_and_remove": "k", "invoke": "k p arg", "get_all": "ks", "put_all": "kvs", "remove_keys": "ks",
    "load_all": "ks replace", "invoke_all": "ks p arg", "remove_all": "", "clear": "", "entries": "", "stats": "",
    "clear_stats": "",
}
RARE = ("remove_all", "clear", "clear_stats", "remove_keys")
WEIGHTED = [op for op in OPS for _ in range(1 if op in RARE else 20 if op in ("get", "put") else 10)]


def main(seed, count, folder):
    calls = Calls(random.Random(int(seed)))
    with open(os.path.join(folder, "caches.toml"), "w") as out:
        out.write("".join(toml(made) for made in calls.live.values()))
    words = ["cache %s %s" % (code(name), settings(made)) for name, made in calls.live.items()]
    lines = []
    for _ in range(int(count)):
        line, said = calls.call()
        lines.append(json.dumps(line, ensure_ascii=False, separators=(",", ":")))
        words.append(" ".join(str(word) for word in said))
    with open(os.path.join(folder, "calls.jsonl"), "w", encoding="utf-8") as out:
        out.write("\n".join(lines) + "\n")
    with open(os.path.join(folder, "calls.txt"), "w") as out:
        out.write("\n".join(words) + "\n")


main(*sys.argv[1:])
