"""Plays cases.jsonl, whose form README.md tells, and prints how many calls it made.

    play.py CASES
"""

import json
import sys
from typing import Any, Dict, List, Optional, Tuple

import jcache
from jcache import Cache, Entry, Event, Expiry, FixedClock, Manager

Json = Any


class Player:
    """A manager with the cache of one case, and what its hooks were asked since the last call."""

    def __init__(self, case: Dict[str, Json]) -> None:
        self.clock = FixedClock()
        self.manager = Manager(clock=self.clock)
        self.asked: List[List[Json]] = []
        self.saved = b""
        expiry = getattr(Expiry, case["expiry"])(case["duration"]) if "expiry" in case else Expiry.eternal()
        self.cache: Cache = self.manager.create_cache("case", case["capacity"], expiry, **self.named(case))

    def named(self, line: Dict[str, Json]) -> Dict[str, Json]:
        """The hooks and the bound that a line names."""
        hooks = line.get("hooks", [])
        return {"loader": self.load if "loader" in hooks else None, "writer": self.write if "writer" in hooks else None,
                "listeners": (self.hear,) if "listener" in hooks else (), "max_value": line.get("max_value", 65_535)}

    def load(self, key: str) -> Optional[bytes]:
        self.asked.append(["load", key])
        if key.startswith("!"):
            raise ValueError(key)
        return None if key.startswith("-") else key.encode()

    def write(self, key: str, value: Optional[bytes]) -> None:
        self.asked.append(["delete", key] if value is None else ["write", key, value.decode()])
        if key.startswith("!"):
            raise ValueError(key)

    def hear(self, event: Event) -> None:
        self.asked.append([event.kind, event.key, text(event.value), text(event.before)])

    def process(self, entry: Entry, name: str, argument: str) -> Optional[bytes]:
        value = entry.value
        self.asked.append(["process", entry.key, text(value)])
        if name == "fail":
            raise ValueError(name)
        if name == "drop":
            entry.remove()
        if name == "save":
            self.asked.append(["save", self.call({"op": "save"})["refused"]])
        if name == "append":
            entry.set((value or b"") + argument.encode())
            return entry.value
        return value

    def call(self, line: Dict[str, Json]) -> Json:
        """What a call comes to, as a case says it."""
        try:
            return getattr(self, "do_" + line["op"], self.simple)(line)
        except jcache.NotRestored as refused:
            return {"refused": int(refused.status), "place": refused.place}
        except jcache.Refused as refused:
            return {"refused": int(refused.status)}
        except jcache.Failed as failed:
            told: Json = {"failed": failed.who}
            return told if failed.done is None else {**told, "done": failed.done}

    def simple(self, line: Dict[str, Json]) -> Json:
        op, given = line["op"], {"now": line.get("at")}
        if "expect" in line:
            op, given["expected"] = op[:-len("_if")], line["expect"].encode()
        key = [line["k"]] if "k" in line else []
        value = [line["v"].encode()] if "v" in line else []
        result = getattr(self.cache, {"contains": "contains_key"}.get(op, op))(*key, *value, **given)
        if op.startswith("get"):
            return {"value": text(result)}
        return "done" if result is None else result

    def do_clock(self, line: Dict[str, Json]) -> Json:
        self.clock.now = line["at"]
        return "done"

    def do_create(self, line: Dict[str, Json]) -> Json:
        self.manager.create_cache(line["name"], line["capacity"])
        return "done"

    def do_destroy(self, line: Dict[str, Json]) -> Json:
        self.manager.destroy_cache(line["name"])
        return "done"

    def do_save(self, line: Dict[str, Json]) -> Json:
        self.saved = self.cache.save()
        return {"saved": self.saved.hex()}

    def do_restore(self, line: Dict[str, Json]) -> Json:
        saved = bytes.fromhex(line["bytes"]) if "bytes" in line else self.saved
        self.cache = self.manager.restore(line["name"], saved, **self.named(line))
        return "done"

    def do_settings(self, line: Dict[str, Json]) -> Json:
        capacity, expiry = self.cache.configuration[:2]
        return {"settings": [capacity, expiry.policy, expiry.duration]}

    def do_names(self, line: Dict[str, Json]) -> Json:
        return {"names": self.manager.cache_names()}

    def do_get_all(self, line: Dict[str, Json]) -> Json:
        return pairs(list(self.cache.get_all(line["ks"], now=line["at"]).items()))

    def do_entries(self, line: Dict[str, Json]) -> Json:
        return pairs(list(self.cache.entries(now=line["at"]).items()))

    def do_walk(self, line: Dict[str, Json]) -> Json:
        return pairs(sorted((row.key, row.value) for row in self.cache.walk(now=line["at"])))

    def do_put_all(self, line: Dict[str, Json]) -> Json:
        self.cache.put_all({key: value.encode() for key, value in line["kvs"]}, now=line["at"])
        return "done"

    def do_remove_keys(self, line: Dict[str, Json]) -> Json:
        self.cache.remove_all(line["ks"], now=line["at"])
        return "done"

    def do_load_all(self, line: Dict[str, Json]) -> Json:
        self.cache.load_all(line["ks"], line["replace"], now=line["at"])
        return "done"

    def do_invoke(self, line: Dict[str, Json]) -> Json:
        found = self.cache.invoke(line["k"], self.process, line["f"], line["arg"], loads=line["loads"], now=line["at"])
        return {"value": text(found)}

    def do_invoke_all(self, line: Dict[str, Json]) -> Json:
        results = self.cache.invoke_all(line["ks"], self.process, line["f"], line["arg"], loads=line["loads"], now=line["at"])
        return {"results": [[key, None if result.error else text(result.get())] for key, result in results.items()]}

    def do_peek(self, line: Dict[str, Json]) -> Json:
        row = self.cache.peek(line["k"], now=line.get("at"))
        return {"row": row and [text(row.value), row.expires]}

    def do_rows(self, line: Dict[str, Json]) -> Json:
        return {"rows": len(self.cache)}

    def do_bytes(self, line: Dict[str, Json]) -> Json:
        return {"bytes": self.cache.byte_count()}

    def do_stats(self, line: Dict[str, Json]) -> Json:
        return {"counters": list(self.cache.stats(now=line["at"]))}


def text(value: Optional[bytes]) -> Optional[str]:
    return None if value is None else value.decode()


def pairs(found: List[Tuple[str, bytes]]) -> Json:
    return {"pairs": [[key, text(value)] for key, value in found]}


def main(path: str) -> None:
    calls, case = 0, ""
    with open(path, encoding="utf-8") as lines:
        for number, said in enumerate(lines, 1):
            line = json.loads(said)
            if "case" in line:
                case, player = line["case"], Player(line)
                continue
            outcome = player.call(line)
            if (outcome, player.asked) != (line["is"], line.get("asks", [])):
                sys.exit("line %d, %s: %s, asked %s" % (number, case, outcome, player.asked))
            player.asked.clear()
            calls += 1
    print(calls, "calls")


main(sys.argv[1])
