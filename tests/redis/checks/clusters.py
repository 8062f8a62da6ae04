"""A cluster of three masters with a replica each: caches under load while slots move, a master dies, and all restart."""
import subprocess
import sys
import threading

import tally
from playing import Play
from protocol import slot_of
from servers import LOGGED, Client, Cluster, Error, cluster, wait_until

EVERYTHING = "--all" in sys.argv
CALLS = 20_000 if EVERYTHING else 2000
SLOTS = 4000 if EVERYTHING else 400


class Run:
    """One cluster, which the checks change in turn."""

    def __init__(self):
        self.play = Play(17, 100)
        self.servers = cluster(3, 1, *LOGGED[:5], "everysec", *LOGGED[6:])
        self.masters = {node["port"]: node for node in self.nodes() if node["is_master"]}
        self.client = Cluster(self.servers[0].port)

    def alive(self):
        return next(it for it in self.servers if it.process.poll() is None)

    def nodes(self):
        found = []
        for line in self.alive().client.do("cluster", "nodes").decode().splitlines():
            words = line.split()
            found.append({"id": words[0], "port": int(words[1].split("@")[0].split(":")[1]),
                          "is_master": "master" in words[2] and "fail" not in words[2], "of": words[3]})
        return found

    def renewed(self):
        self.client.close()
        self.client = Cluster(self.alive().port)
        return self.client

    def many(self, count):
        for _ in range(count):
            self.play.one(self.client)

    def others(self):
        return self.play.others(self.client)


def calls():
    run.play.create(run.client)
    run.many(CALLS)
    ports = {run.client.nodes[slot_of(name)] for name in run.play.caches}
    return tally.differs([len(ports), run.others()], [3, []])


def redirected():
    """A command at another node is sent to its own, and each is found by its declared keys."""
    wrong = Client(next(port for port in run.masters if port != run.client.nodes[slot_of("cache-1")]))
    got = [wrong.call("jc.get", "cache-1", "k").kind, wrong.do("command", "getkeys", "jc.put", "cache-1", "k", "v"),
           wrong.do("command", "getkeys", "jc.behind", "{a}", "{a}:writes", "PUT", "k", "v"),
           wrong.call("jc.behind", "a", "b", "GET", "k").kind]
    return tally.differs(got, ["MOVED", [b"cache-1"], [b"{a}", b"{a}:writes"], "CROSSSLOT"])


def moved_slots():
    """Slots move while calls go on: each reply is the model's, and each cache in the end."""
    first, second = list(run.masters)[:2]
    words = ["redis-cli", "--cluster", "reshard", f"127.0.0.1:{first}", "--cluster-from", run.masters[first]["id"],
             "--cluster-to", run.masters[second]["id"], "--cluster-slots", str(SLOTS), "--cluster-yes"]
    with subprocess.Popen(words, stdout=subprocess.PIPE, stderr=subprocess.STDOUT, text=True) as moving:
        said = []
        reading = threading.Thread(target=lambda: said.append(moving.stdout.read()))
        reading.start()
        while moving.poll() is None:
            run.many(1)
        reading.join()
    if moving.returncode:
        return said[0][-300:]
    run.many(CALLS // 4)
    moves = [name for name in run.play.caches if run.client.nodes[slot_of(name)] != run.renewed().nodes[slot_of(name)]]
    print(f"    {run.play.calls} calls so far")
    return tally.differs([moves, run.others()], [[], []])


def failed_over():
    """A master is killed whose replica has all calls: the replica has the same caches, and goes on."""
    victim = next(it for it in run.servers if it.port == list(run.masters)[1])
    replica = next(it["port"] for it in run.nodes() if it["of"] == run.masters[victim.port]["id"])
    lost = [name for name in run.play.caches if run.renewed().nodes[slot_of(name)] == victim.port]
    assert victim.client.do("wait", 1, 20_000) == 1
    victim.kill()
    wait_until(lambda: any(it["port"] == replica and it["is_master"] for it in run.nodes()))
    wait_until(lambda: b"cluster_state:ok" in run.alive().client.do("cluster", "info"))
    run.renewed()
    others = run.play.others(run.client, lost)
    run.many(CALLS // 2)
    return tally.differs([bool(lost), others, run.others()], [True, [], []])


def restarted():
    """All nodes end and start on their logs."""
    for server in run.servers:
        server.end()
    for server in run.servers:
        server.start()
    for server in run.servers:
        wait_until(lambda: b"cluster_state:ok" in server.client.do("cluster", "info"))
    run.renewed()
    others = run.others()
    run.many(CALLS // 2)
    return tally.differs([others, run.others()], [[], []])


def hashed_away():
    """A cache that is away answers where its slot is being moved to, and nowhere else."""
    name, slot = "cache-2", slot_of("cache-2")
    ids = {it["port"]: it["id"] for it in run.nodes()}
    masters = [it["port"] for it in run.nodes() if it["is_master"]]
    source = run.client.nodes[slot]
    target = next(port for port in masters if port != source)
    there, here = Client(target), Client(source)
    there.do("cluster", "setslot", slot, "importing", ids[source])
    here.do("cluster", "setslot", slot, "migrating", ids[target])
    saved = here.do("jc.save", name)
    assert here.do("migrate", "127.0.0.1", target, name, 0, 10_000) == "OK"
    reply = here.call("jc.get", name, "k")
    there.do("asking")
    got = [isinstance(reply, Error) and reply.kind, there.do("jc.save", name) == saved]
    for client in (there, here):
        client.do("cluster", "setslot", slot, "node", ids[target])
    return tally.differs(got, ["ASK", True])


run = Run()
tally.run((
    ("a cluster of three masters: replies and bytes are the model's", calls),
    ("a cluster's commands are sent to the nodes of their keys", redirected),
    (f"{SLOTS:,} slots of a cluster move under load", moved_slots),
    ("a cache of a slot that moves is asked for where it is", hashed_away),
    ("a master of a cluster is killed, and its replica goes on", failed_over),
    ("all nodes of a cluster are started again", restarted),
))
