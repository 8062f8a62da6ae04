"""Writes a random script for the program, `calls.jsonl` with its `caches.toml`, and the same calls as plain words for
`Play.java`, `calls.txt`.

    calls.py SEED COUNT FOLDER

Left out are calls of which docs/JAVA.md says that the provider does them otherwise: load_all where entries are evicted,
several keys of which one fails to load, and all keys with a writer where entries expire.
"""
import json
import os
import random
import sys

POLICIES = ("eternal", "created", "accessed", "modified", "touched")
PROCESSORS = ("append", "fail", "drop", "peek")
KEYS = [f"k{n}" for n in range(9)] + ["é", "w" * 62, "-0", "-1", "!0", "!1"]
VALUES = ["", "v", "über", "1" * 40, "k1", "k2"]
ROOMY = 40  # more entries than there are keys
OPS = {
    "get": "k", "contains": "k", "put": "k v", "get_and_put": "k v", "put_if_absent": "k v", "replace": "k v",
    "replace_if": "k expect v", "get_and_replace": "k v", "remove": "k", "remove_if": "k expect",
    "get_and_remove": "k", "invoke": "k p arg", "get_all": "ks", "put_all": "kvs", "remove_keys": "ks",
    "load_all": "ks replace", "invoke_all": "ks p arg", "remove_all": "", "clear": "", "entries": "", "stats": "",
    "clear_stats": "",
}
RARE = ("remove_all", "clear", "clear_stats", "remove_keys")
WEIGHTED = [op for op in OPS for _ in range(1 if op in RARE else 20 if op in ("get", "put") else 10)]


def config(rng, name):
    policy = rng.randrange(5)
    made = {"name": name, "capacity": rng.choice((1, 2, 5, 12, ROOMY, ROOMY)), "expiry": POLICIES[policy]}
    if policy:
        made["duration"] = rng.choice((0, 1, 8, 40, 2**63 - 1))
    if rng.random() < 0.6:
        made["loader"] = "echo"
    if rng.random() < 0.5:
        made["writer"] = "check"
    made["processors"] = [rng.choice(PROCESSORS) for _ in range(1 + rng.randrange(5))]
    made["listeners"] = rng.choice((0, 1))
    return made


def does_alike(made, op):
    """Whether the provider does this op as the engine does."""
    if op == "load_all":
        return "loader" in made and made["capacity"] == ROOMY
    return op != "remove_all" or "writer" not in made or made["expiry"] == "eternal"


def may_fail(made, op):
    """Whether a key that fails may stand among several."""
    return op in ("put_all", "remove_keys") or "loader" not in made and "writer" not in made


def members(rng, made, op):
    """What an op needs, as pairs of a name in the script and a value."""
    several = [key for key in KEYS if may_fail(made, op) or not key.startswith("!")]
    give = {
        "k": lambda: rng.choice(KEYS), "v": lambda: rng.choice(VALUES), "expect": lambda: rng.choice(VALUES),
        "arg": lambda: rng.choice(VALUES), "p": lambda: rng.randrange(len(made["processors"])),
        "ks": lambda: rng.sample(several, rng.randrange(6)),
        "kvs": lambda: [[key, rng.choice(VALUES)] for key in rng.sample(several, rng.randrange(5))],
        "replace": lambda: rng.random() < 0.5,
    }
    return [(name, give[name]()) for name in OPS[op].split()]


def code(text):
    return "=" + text.encode().hex()


def in_words(value):
    """Texts by their bytes, lists behind how many texts they have."""
    if isinstance(value, str):
        return [code(value)]
    if isinstance(value, list):
        texts = [text for item in value for text in ([item] if isinstance(item, str) else item)]
        return [len(texts)] + [code(text) for text in texts]
    return [int(value)]


def calls(rng, caches, count):
    """Pairs of a line of the script and the same in words."""
    at = 1000
    for _ in range(count):
        at += rng.randrange(4) if rng.random() < 0.2 else 0
        made = rng.choice(caches)
        op = rng.choice([op for op in WEIGHTED if does_alike(made, op)])
        given = members(rng, made, op)
        moment = at - rng.randrange(20) if rng.random() > 0.97 else at
        line = {"s": rng.randrange(64), "c": made["name"], "at": moment, "op": op, **dict(given)}
        yield line, [line["s"], made["name"], moment, op] + [word for _, value in given for word in in_words(value)]


def settings(made):
    kinds = "".join(kind[0] for kind in made["processors"])
    return ["cache", made["name"], made["capacity"], made["expiry"], made.get("duration", 0), int("loader" in made),
            int("writer" in made), made["listeners"], kinds]


def main(seed, count, folder):
    rng = random.Random(int(seed))
    caches = [config(rng, name) for name in "abcdefgh"]
    lines, words = zip(*calls(rng, caches, int(count)))
    toml = ["[[cache]]\n" + "".join(f"{name} = {json.dumps(value)}\n" for name, value in made.items()) for made in caches]
    texts = {
        "caches.toml": toml,
        "calls.jsonl": [json.dumps(line, ensure_ascii=False) + "\n" for line in lines],
        "calls.txt": [" ".join(map(str, each)) + "\n" for each in [*map(settings, caches), *words]],
    }
    for name, parts in texts.items():
        with open(os.path.join(folder, name), "w", encoding="utf-8") as out:
            out.write("".join(parts))


main(*sys.argv[1:])
