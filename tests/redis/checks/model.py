"""What a cache of the module does, by docs/MODEL.md, in the words of its replies; and how it is saved, by docs/FORMATS.md."""
import struct

from protocol import Error

MOST = 2**64 - 1
POLICIES = ("ETERNAL", "CREATED", "ACCESSED", "MODIFIED", "TOUCHED")
COUNTERS = ("hits", "misses", "puts", "removals", "evictions")
PROCESSORS = 4


class WriterFailed(Exception):
    pass


class Row:
    __slots__ = ("value", "expires", "used")

    def __init__(self, value, expires):
        self.value, self.expires, self.used = value, expires, False


def whole(text):
    """The whole number that a value or an argument spells."""
    number = int(text)
    if b"%d" % number != text or not -2**63 <= number < 2**63:
        raise ValueError
    return number


def processed(name, old, argument):
    """What a processor makes of a value; it raises ValueError where it fails."""
    if name == "APPEND":
        return (old or b"") + argument
    by = whole(argument)
    if name == "ADD":
        return b"%d" % whole(b"%d" % ((whole(old) if old is not None else 0) + by))
    if old is None:
        return argument
    return b"%d" % (max if name == "MAXIMUM" else min)(whole(old), by)


class Cache:
    def __init__(self, capacity, policy="ETERNAL", duration=0, loader=False, writer=False, listeners=False):
        self.capacity, self.policy, self.duration = capacity, policy, duration
        self.loader, self.writer, self.listeners = loader, writer, listeners
        self.ring = {}  # from the hand on
        self.counts = dict.fromkeys(COUNTERS, 0)
        self.events, self.written = [], []
        self.succeeds = None  # so many writes succeed, then all fail; None: all succeed

    def words(self, name):
        """The command that creates it."""
        words = ["jc.create", name, self.capacity, self.policy, *[self.duration] * (self.policy != "ETERNAL")]
        return words + ["LOADER"] * self.loader + ["WRITER"] * self.writer + ["LISTENERS"] * self.listeners

    def saved(self):
        """Its bytes."""
        out = b"JCS1" + struct.pack("<IB", self.capacity, POLICIES.index(self.policy))
        out += b"" if self.policy == "ETERNAL" else struct.pack("<Q", self.duration)
        out += bytes([self.loader, self.writer, self.listeners, PROCESSORS, *[1] * PROCESSORS])
        out += struct.pack("<5QI", *self.counts.values(), len(self.ring))
        return out + b"".join(self.saved_row(*it) for it in self.ring.items())

    @staticmethod
    def saved_row(key, row):
        moment = b"" if row.expires is None else struct.pack("<Q", row.expires)
        mark = row.used + 2 * (row.expires is not None)
        return bytes([mark]) + moment + bytes([len(key)]) + key + struct.pack("<H", len(row.value)) + row.value

    # Changes of one entry.

    def count(self, name):
        self.counts[name] += 1

    def tell(self, kind, key, value=None, before=None):
        if self.listeners:
            self.events.append((kind, key, value, before))

    def write(self, key, value=None):
        if not self.writer:
            return
        if self.succeeds is not None and len(self.written) >= self.succeeds:
            raise WriterFailed
        self.written.append((key, value))

    def later(self, now):
        return now + self.duration if now + self.duration <= MOST else None

    def row(self, key, now):
        """The live row, where an expired one goes."""
        row = self.ring.get(key)
        if row and row.expires is not None and row.expires <= now:
            del self.ring[key]
            self.tell("expired", key, None, row.value)
            return None
        return row

    def access(self, row, now):
        row.used = True
        if self.policy in ("ACCESSED", "TOUCHED"):
            row.expires = self.later(now)

    def update(self, key, row, value, now):
        before, row.value, row.used = row.value, value, True
        if self.policy in ("MODIFIED", "TOUCHED"):
            row.expires = self.later(now)
        self.tell("updated", key, value, before)

    def delete(self, key, row):
        del self.ring[key]
        self.tell("removed", key, None, row.value)
        self.count("removals")

    def make_room(self, now):
        while True:
            first = next(iter(self.ring))
            row = self.ring.pop(first)
            is_live = row.expires is None or now < row.expires
            if not is_live or not row.used:
                break
            row.used = False
            self.ring[first] = row
        if is_live:
            self.count("evictions")
        else:
            self.tell("expired", first, None, row.value)

    def create(self, key, value, now):
        if self.policy != "ETERNAL" and self.duration == 0:
            return False
        if len(self.ring) >= self.capacity:
            self.make_room(now)
        self.ring[key] = Row(value, None if self.policy == "ETERNAL" else self.later(now))
        self.tell("created", key, value)
        return True

    def set(self, key, row, value, now):
        if row:
            self.update(key, row, value, now)
        elif not self.create(key, value, now):
            return
        self.count("puts")

    # Steps of one key.

    def get(self, key, now):
        row = self.row(key, now)
        self.count("hits" if row else "misses")
        if row:
            self.access(row, now)
        return row.value if row else None

    def put(self, key, value, now):
        row = self.row(key, now)
        self.write(key, value)
        self.set(key, row, value, now)

    def remove(self, key, now):
        row = self.row(key, now)
        self.write(key)
        if row:
            self.delete(key, row)
        return row

    def conditional(self, name, key, values, now):
        row = self.row(key, now)
        old = row.value if row else None
        stores = {"GETANDPUT": True, "PUTIFABSENT": row is None, "REPLACEIF": row and old == values[0]}.get(name, row)
        if name == "REMOVEIF":
            stores = row and old == values[0]
        if stores:
            self.write(key, None if name == "REMOVEIF" else values[-1])
        self.count("hits" if row else "misses")
        if stores and name == "REMOVEIF":
            self.delete(key, row)
        elif stores:
            self.set(key, row, values[-1], now)
        elif row and name in ("REPLACEIF", "REMOVEIF"):
            self.access(row, now)
        return old if name in ("GETANDPUT", "GETANDREPLACE") else int(bool(stores))

    def get_and_remove(self, key, now):
        row = self.row(key, now)
        self.write(key)
        self.count("hits" if row else "misses")
        if row:
            self.delete(key, row)
        return row.value if row else None

    def invoke(self, key, name, argument, now):
        row = self.row(key, now)
        try:
            new = processed(name, row.value if row else None, argument)
            if len(new) > 65535:
                raise ValueError
        except ValueError:
            self.count("hits" if row else "misses")
            return Error("JCPROCESSOR")
        self.write(key, new)
        self.count("hits" if row else "misses")
        self.set(key, row, new, now)
        return new

    def load(self, key, value, replaces, now):
        row = self.row(key, now)
        if not self.loader or row and not replaces:
            return
        if row:
            self.update(key, row, value, now)
        else:
            self.create(key, value, now)

    # Calls.

    def call(self, now, name, *words):
        """The reply to a call, as the server gives it."""
        try:
            return getattr(self, "call_" + name.lower(), None)(now, *words) if hasattr(self, "call_" + name.lower()) \
                else self.conditional(name, words[0], words[1:], now)
        except WriterFailed:
            return Error("JCWRITER")

    def call_get(self, now, key):
        return self.get(key, now)

    def call_contains(self, now, key):
        row = self.ring.get(key)
        return int(row is not None and (row.expires is None or now < row.expires))

    def call_put(self, now, key, value):
        self.put(key, value, now)
        return "OK"

    def call_remove(self, now, key):
        return int(self.remove(key, now) is not None)

    def call_getandremove(self, now, key):
        return self.get_and_remove(key, now)

    def call_invoke(self, now, key, name, argument):
        return self.invoke(key, name, argument, now)

    def call_getall(self, now, *keys):
        found = [(key, self.get(key, now)) for key in keys]
        return [it for key, value in found if value is not None for it in (key, value)]

    def call_putall(self, now, *words):
        for key, value in zip(words[::2], words[1::2]):
            self.put(key, value, now)
        return "OK"

    def call_removekeys(self, now, *keys):
        for key in keys:
            self.remove(key, now)
        return "OK"

    def call_loadall(self, now, mode, *words):
        for key, value in zip(words[::2], words[1::2]):
            self.load(key, value, mode == "REPLACE", now)
        return "OK"

    def call_invokeall(self, now, name, argument, *keys):
        answers = [(key, self.invoke(key, name, argument, now)) for key in keys]
        return [it for key, answer in answers for it in (key, None if isinstance(answer, Error) else answer)]

    def call_removeall(self, now):
        for key in list(self.ring):
            if self.row(key, now):
                self.remove(key, now)
        return "OK"

    def call_clear(self, _):
        self.ring.clear()
        return "OK"

    def call_entries(self, now):
        live = [(key, row) for key, row in self.ring.items() if row.expires is None or now < row.expires]
        for _, row in live:
            self.count("hits")
            self.access(row, now)
        return [it for key, row in live for it in (key, row.value)]

    def call_stats(self, _):
        return [it for name, number in self.counts.items() for it in (name, number)]

    def call_clearstats(self, _):
        self.counts = dict.fromkeys(COUNTERS, 0)
        return "OK"
