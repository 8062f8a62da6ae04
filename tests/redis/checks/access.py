"""Who may call what, and what the server tells of the commands."""
import sys

import tally
from servers import Client, Server

LOOKS = {"jc.contains", "jc.peek", "jc.stats", "jc.scan", "jc.save", "jc.settings"}
TAKE_NOTHING = LOOKS | {"jc.get", "jc.release", "jc.getall", "jc.remove", "jc.removeif", "jc.getandremove", "jc.removekeys", "jc.removeall",
                        "jc.clear", "jc.entries", "jc.clearstats", "jc.destroy"}


def commands(client):
    names = [it.decode() for it in client.do("command", "list", "filterby", "module", "jcache")]
    return {it[0].decode(): it for it in client.do("command", "info", *names)}


def told():
    """Each command has its arity, flags, keys and documentation."""
    client = Server().client
    found = commands(client)
    for name, (_, arity, flags, first, last, step, categories, *_) in found.items():
        keys = [first, last, step]
        if keys != [1, 2 if name == "jc.behind" else 1, 1] or abs(arity) < 2:
            return f"{name}: {arity}, {keys}"
        if ("readonly" in flags) != (name in LOOKS) or ("write" in flags) == (name in LOOKS):
            return f"{name}: {flags}"
        if ("denyoom" in flags) == (name in TAKE_NOTHING):
            return f"{name}: {flags}"
        if categories and ("@dangerous" in categories) != (name == "jc.at"):  # servers before 7.2 have none of modules
            return f"{name}: {categories}"
        docs = client.do("command", "docs", name)[1]
        docs = dict(zip(docs[::2], docs[1::2]))
        if not docs[b"summary"].endswith(b".") or docs[b"arguments"][0][1] != b"cache" or docs[b"since"] != b"0.1.0":
            return f"{name}: {docs}"
    return tally.differs(len(found), 33)


def users():
    """Users by the server's access lists: by command, key and channel."""
    server = Server()
    client = server.client
    client.do("jc.create", "a:1", 10, "WRITER")
    client.do("jc.create", "b:1", 10)
    client.do("acl", "setuser", "looks", "on", ">x", "~a:*", *("+" + it for it in LOOKS))
    client.do("acl", "setuser", "calls", "on", ">x", "~a:*", "resetchannels", "&a:*", "+@all", "-jc.at")
    client.do("acl", "setuser", "replica", "on", ">x", "~*", "+jc.at")
    client.do("acl", "setuser", "reads", "on", ">x", "%R~a:*", "+@all")
    wanted = {
        "looks": {"jc.contains a:1 k": True, "jc.peek a:1 k": True, "jc.stats a:1": True, "jc.get a:1 k": False,
                  "jc.put a:1 k v": False, "jc.contains b:1 k": False, "jc.at a:1 1 GET k": False},
        "calls": {"jc.get a:1 k": True, "jc.behind a:1 a:1:writes PUT k v": True, "jc.at a:1 1 GET k": False,
                  "jc.get b:1 k": False, "jc.behind a:1 b:1:writes PUT k v": False, "ssubscribe b:1": False},
        "replica": {"jc.at a:1 1 GET k": True, "jc.get a:1 k": False},
        "reads": {"jc.peek a:1 k": True, "jc.save a:1": True, "jc.get a:1 k": False, "jc.clearstats a:1": False},
    }
    for user, cases in wanted.items():
        other = Client(server.port)
        other.do("auth", user, "x")
        for words, allowed in cases.items():
            reply = other.call(*words.split())
            if (getattr(reply, "kind", "") == "NOPERM") == allowed:
                return f"{user}: {words}: {reply!r}"
    return None


tally.run((
    ("33 commands are told with arity, flags, keys and documentation", told),
    ("users are let by command, key and channel", users),
), [it for it in sys.argv[1:] if not it.startswith("--")])
