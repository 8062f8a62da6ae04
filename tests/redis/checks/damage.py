"""Bytes that strangers hand in: damaged saved caches, and damaged dumps under a right checksum."""
import random
import sys

import tally
from playing import Play
from servers import Error, Server

EVERYTHING = "--all" in sys.argv
COUNT = 20_000 if EVERYTHING else 3000


def table_of_crc64():
    """Of the polynomial by which DUMP's checksum is made, its bits mirrored."""
    found = []
    for byte in range(256):
        for _ in range(8):
            byte = byte >> 1 ^ (0x95AC9329AC4BC9B5 if byte & 1 else 0)
        found.append(byte)
    return found


TABLE = table_of_crc64()


def checksum(data):
    crc = 0
    for byte in data:
        crc = TABLE[(crc ^ byte) & 0xFF] ^ crc >> 8
    return crc.to_bytes(8, "little")


def damaged(chance, whole):
    some = bytearray(whole)
    for _ in range(chance.randrange(1, 3)):
        some[chance.randrange(len(some))] = chance.choice((0, 1, 255, chance.randrange(256)))
    if chance.random() < 0.2:
        del some[chance.randrange(len(some)):]
    if chance.random() < 0.1:
        some.insert(chance.randrange(len(some) + 1), chance.randrange(256))
    return bytes(some)


def filled(server):
    play = Play(23, 20)
    play.create(server.client)
    play.many(server.client, 3000)
    return play


def saved_caches():
    """Damaged bytes are refused, or are a cache that saves to them. Every beginning of a cache is refused."""
    server, chance = Server(), random.Random(1)
    play, client = filled(server), server.client
    whole = [client.do("jc.save", name) for name in play.caches]
    beginnings = [whole[0][:i] for i in range(len(whole[0]))]
    refused = 0
    for bytes_ in beginnings + [damaged(chance, chance.choice(whole)) for _ in range(COUNT)]:
        reply = client.call("jc.restore", "new", bytes_)
        if isinstance(reply, Error):
            refused += 1
            if reply.kind not in ("JCBADSAVE", "JCVERSION"):
                return str(reply)
        elif client.do("jc.save", "new") != bytes_ or client.do("del", "new") != 1:
            return "it saves to other bytes"
    print(f"    {refused} of {len(beginnings) + COUNT} refused, the others are caches that save to the same bytes")
    return tally.differs([play.others(client), refused > len(beginnings)], [[], True])


def dumps():
    """Damaged dumps, whose checksum is right: they are refused, or are caches."""
    server, chance = Server("--save", "", "--appendonly", "no", "--rdbcompression", "no"), random.Random(2)
    play, client = filled(server), server.client
    whole = [client.do("dump", name)[:-8] for name in play.caches]
    right = whole[0] + checksum(whole[0])
    if client.do("dump", next(iter(play.caches))) != right:
        return "the checksum is reckoned otherwise"
    refused = 0
    for _ in range(COUNT):
        body = damaged(chance, chance.choice(whole))
        reply = client.call("restore", "new", 0, body + checksum(body))
        refused += isinstance(reply, Error)
        if not isinstance(reply, Error):
            saved = client.call("jc.save", "new")
            if isinstance(saved, bytes) and client.do("jc.restore", "again", saved) == "OK":
                client.do("del", "again")
            client.do("del", "new")
    print(f"    {refused} of {COUNT} refused")
    return tally.differs([play.others(client), refused > COUNT // 2], [[], True])


def newer():
    """A key of a newer version is refused with a message: the version stands in the last ten bits of its type's number."""
    server = Server("--save", "", "--appendonly", "no", "--rdbcompression", "no")
    server.client.do("jc.create", "c", 10)
    body = bytearray(server.client.do("dump", "c")[:-8])
    assert body[0] == 7 and body[1] == 0x81 and body[9] & 3 == 1
    body[9] += 1
    reply = server.client.call("restore", "new", 0, bytes(body) + checksum(body))
    return tally.differs([isinstance(reply, Error), "load a newer one" in server.said()], [True, True])


tally.run((
    ("a key of a newer version is refused with a message", newer),
    ("damaged saved caches are refused", saved_caches),
    ("damaged dumps with a right checksum are refused", dumps),
), [it for it in sys.argv[1:] if not it.startswith("--")])
