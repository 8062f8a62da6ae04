"""What a server keeps of its caches: by RDB, by each form of log, by replicas and theirs; each restart is without a word."""
import random
import sys
import threading
import time

import tally
from playing import NOT_REPLICATED, Play, random_cache, random_call
from servers import LOGGED, QUIET, Server, wait_until

EVERYTHING = "--all" in sys.argv
CALLS = 20_000 if EVERYTHING else 3000
ROUNDS = 5 if EVERYTHING else 1


# A call of a cache from a script.
SCRIPT = "return redis.pcall(ARGV[1], KEYS[1], unpack(ARGV, 2))"


def is_idle(client):
    told = client.information("persistence")
    busy = ("rdb_bgsave_in_progress", "aof_rewrite_in_progress", "aof_rewrite_scheduled")
    return not any(int(told[it]) for it in busy)


def restarted(options, midway):
    """A server that is killed and started again has the same caches, and they go on so."""
    play, server = Play(7), Server(*options)
    play.create(server.client)
    for _ in range(ROUNDS):
        play.many(server.client, CALLS)
        midway(play, server.client)
        digest = server.client.do("debug", "digest")
        server.restart()
        if server.client.do("debug", "digest") != digest or play.others(server.client):
            return f"other caches: {play.others(server.client)}"
        play.many(server.client, CALLS)
        midway(play, server.client)
    return None


def nothing(play, client):
    pass


def saved(play, client):
    client.do("bgsave")
    wait_until(lambda: is_idle(client))


def rewritten(play, client):
    """The log is rewritten while calls go on."""
    client.do("bgrewriteaof")
    while not is_idle(client):
        play.many(client, 100)
    play.many(client, 500)


def other_moments():
    """By the server's own moments, in transactions and scripts too, a log and a replica have the same bytes."""
    server, replica, chance = Server(*LOGGED), Server(), random.Random(9)
    replica.follow(server)
    for i in range(30):
        server.client.do(*random_cache(chance).words(f"c{i}"))
    for _ in range(CALLS // 100):
        calls = [(f"c{chance.randrange(30)}", random_call(chance)) for _ in range(100)]
        batch = [[f"jc.{call[0]}", name, *call[1:]] for name, call in calls]
        batch[70:80] = [["eval", SCRIPT, 1, words[1], words[0], *words[2:]] for words in batch[70:80]]
        batch[50:60] = [["multi"], *batch[50:60], ["exec"]]
        server.client.send_all(batch)
        for _ in batch:
            server.client.read()
        time.sleep(0.002)
    server.client.do("wait", 1, 5000)
    digest = server.client.do("debug", "digest")
    if replica.client.do("debug", "digest") != digest:
        return "the replica has other caches"
    server.restart()
    return None if server.client.do("debug", "digest") == digest else "the log has other caches"


def falling_clock():
    """A server's moment is never below one that a call of the cache had."""
    client = Server().client
    client.do("jc.create", "c", 10, "CREATED", 1000)
    late = int(time.time() * 1000) + 10**9
    client.do("jc.at", "c", late, "PUT", "a", "1")
    client.do("jc.put", "c", "b", "1")
    client.do("restore", "d", 0, client.do("dump", "c"))
    client.do("jc.put", "d", "b", "1")
    got = [client.do("jc.peek", it, "b")[1] - late for it in ("c", "d")]
    return tally.differs(got, [1000, 1000])


def replicas():
    """A replica by a full sync and by the stream, and its own replica, which has a log; then each goes on alone."""
    play, master, second, third = Play(11), Server(), Server(), Server(*LOGGED)
    play.create(master.client)
    play.many(master.client, CALLS)
    second.follow(master)
    third.follow(second)
    play.many(master.client, CALLS)
    offset = int(master.client.information("replication")["master_repl_offset"])
    wait_until(lambda: int(third.client.information("replication")["slave_repl_offset"]) >= offset)
    digests = {it.client.do("debug", "digest") for it in (master, second, third)}
    if len(digests) > 1:
        return "replicas have other caches"
    refused = second.client.call("jc.get", "cache-0", "k1")
    looks = [second.client.call("jc." + it, "cache-0", "k1") for it in ("contains", "peek")]
    looks.append(second.client.call("jc.stats", "cache-0"))
    if refused.kind != "READONLY" or any(isinstance(it, Exception) for it in looks):
        return f"at a replica: {refused}, {looks}"
    master.kill()
    second.kill()
    third.client.do("replicaof", "no", "one")
    wait_until(lambda: is_idle(third.client))
    third.restart()
    play.many(third.client, CALLS)
    return tally.differs(play.others(third.client), [])


def send_until_killed(client, commands):
    try:
        client.send_all(commands)
    except OSError:
        pass


def prefix(way):
    """A master is killed while calls are on their way. Each cache stands at a beginning of its own calls."""
    play = Play(13, 40)
    server = Server(*LOGGED[:5], "everysec") if way == "log" else Server()
    play.create(server.client)
    replica = Server() if way == "replica" else None
    if replica:
        replica.follow(server)
    history = {name: [cache.saved()] for name, cache in play.caches.items()}
    commands = []
    for _ in range(CALLS):
        words, _ = play.next_call()
        commands.append(words)
        if not set(words[3:6]) & set(NOT_REPLICATED):
            history[words[1]].append(play.caches[words[1]].saved())
    sending = threading.Thread(target=lambda: send_until_killed(server.client, commands))
    sending.start()
    time.sleep(CALLS / 500_000)
    server.kill()
    sending.join()
    if replica:
        replica.client.do("replicaof", "no", "one")
    else:
        server.start()
    client = (replica or server).client
    found = {name: client.do("jc.save", name) for name in play.caches}
    stray = [name for name, it in found.items() if it not in history[name]]
    lost = sum(len(history[name]) - 1 - max(i for i, it in enumerate(history[name]) if it == found[name])
               for name in found if name not in stray)
    print(f"    of {CALLS} calls {lost} are lost")
    return tally.differs(stray, [])


def damaged_file():
    """A server whose file was damaged says so, and does not start on it."""
    server = Server(*QUIET, "--rdbchecksum", "no", "--rdbcompression", "no")
    server.client.do("jc.create", "c", 10)
    server.client.do("jc.put", "c", "ann", "Ann Lee")
    server.client.do("save")
    server.kill()
    path = f"{server.folder}/dump.rdb"
    with open(path, "rb") as file:
        whole = file.read()
    with open(path, "wb") as file:
        file.write(whole.replace(b"JCS1", b"JCS2"))
    try:
        server.start()
    except RuntimeError as error:
        return None if "bytes are no cache" in server.said() else str(error)
    return "it has started"


def main():
    as_log = ("--auto-aof-rewrite-percentage", "0", "--save", "", "--appendonly", "yes", "--appendfsync", "always")
    tally.run((
        ("killed, and started on its log", lambda: restarted(LOGGED, nothing)),
        ("killed, and started on a log that begins with an RDB", lambda: restarted(as_log, rewritten)),
        ("killed, and started on a log that was rewritten as commands",
         lambda: restarted((*as_log, "--aof-use-rdb-preamble", "no"), rewritten)),
        ("killed, and started on an RDB", lambda: restarted(QUIET, saved)),
        ("the server's moments are replicated and logged", other_moments),
        ("the server's moments don't fall", falling_clock),
        ("replicas and theirs have the same bytes, and go on", replicas),
        ("a master is killed amid calls: its replica stands at a beginning of each cache's calls", lambda: prefix("replica")),
        ("a master is killed amid calls: so does its log", lambda: prefix("log")),
        ("a damaged RDB is refused", damaged_file),
    ), [it for it in sys.argv[1:] if not it.startswith("--")])


main()
