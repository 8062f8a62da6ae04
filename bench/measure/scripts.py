"""A script of calls and the configuration of its caches, as files."""

import json
import os
import random
import sys
from dataclasses import dataclass

MOST_BYTES = 8_388_608
LETTERS = "abcdefghijklmnopqrstuvwxyz0123456789"


@dataclass(frozen=True)
class Files:
    """Where a configuration and a script lie, and how many lines and bytes the script has."""

    config: str
    script: str
    lines: int
    size: int

    def words(self):
        """The last words of each program that runs the script."""
        return [self.config, self.script]


class Script:
    """A script that grows line by line. What is picked is the same for the same name."""

    def __init__(self, name, caches, sessions=64, value_bytes=12):
        self.name, self.caches, self.sessions, self.value_bytes = name, caches, sessions, value_bytes
        self.random = random.Random(name)
        self.lines = []

    def add(self, op, cache, key=None, session=None):
        """Adds a call, by any session where none is named. A put has a value without a pattern."""
        line = {
            "s": self.random.randrange(self.sessions) if session is None else session,
            "c": cache,
            "at": len(self.lines),
            "op": op,
        }
        if key is not None:
            line["k"] = key
        if op == "put":
            line["v"] = "".join(self.random.choices(LETTERS, k=self.value_bytes))
        self.lines.append(json.dumps(line, separators=(",", ":"), ensure_ascii=False))

    def copy(self, name):
        """The same lines, to be gone on with under another name."""
        copied = Script(name, self.caches, self.sessions, self.value_bytes)
        copied.lines = list(self.lines)
        return copied

    def write(self, folder):
        """Writes both files."""
        config, script = (os.path.join(folder, f"{self.name}.{ending}") for ending in ("toml", "jsonl"))
        text = "".join(f"{line}\n" for line in self.lines).encode()
        if len(text) > MOST_BYTES:
            sys.exit(f"{self.name}: {len(text)} bytes")
        with open(script, "wb") as out:
            out.write(text)
        with open(config, "w") as out:
            for cache, rows in self.caches.items():
                out.write(f'[[cache]]\nname = "{cache}"\ncapacity = {rows}\n\n')
        return Files(config, script, len(self.lines), len(text))


def key(number):
    return f"key-{number:06}"
