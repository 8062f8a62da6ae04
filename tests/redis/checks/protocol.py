"""A client of the server's protocol, RESP2 or RESP3, for one server or a cluster, by sockets alone."""
import socket
import time


class Error(Exception):
    """An error that the server replied."""

    @property
    def kind(self):
        """Its first word."""
        return str(self).split()[0]


class Map(list):
    """A map of RESP3: its keys and values by turns."""


def spelled(words):
    parts = [it if isinstance(it, bytes) else str(it).encode() for it in words]
    return b"*%d\r\n" % len(parts) + b"".join(b"$%d\r\n%s\r\n" % (len(it), it) for it in parts)


class Client:
    def __init__(self, port, newer=False):
        self.port = port
        self.socket = socket.create_connection(("127.0.0.1", port), timeout=120)
        self.socket.setsockopt(socket.IPPROTO_TCP, socket.TCP_NODELAY, 1)
        self.file = self.socket.makefile("rb")
        if newer:
            self.do("hello", 3)

    def send(self, *words):
        self.socket.sendall(spelled(words))

    def send_all(self, commands):
        self.socket.sendall(b"".join(map(spelled, commands)))

    def read(self):
        """The next reply; an error is returned."""
        line = self.file.readline()
        if not line.endswith(b"\r\n"):
            raise EOFError
        kind, rest = line[:1], line[1:-2]
        if kind == b"+":
            return rest.decode()
        if kind == b"-":
            return Error(rest.decode())
        if kind == b":":
            return int(rest)
        if kind == b"_":
            return None
        if kind == b"$":
            return None if rest == b"-1" else self.file.read(int(rest) + 2)[:-2]
        if kind in b"*>~":
            return None if rest == b"-1" else [self.read() for _ in range(int(rest))]
        if kind == b"%":
            return Map(self.read() for _ in range(2 * int(rest)))
        raise ValueError(line)

    def call(self, *words):
        self.send(*words)
        return self.read()

    def do(self, *words):
        """The reply; an error is raised."""
        reply = self.call(*words)
        if isinstance(reply, Error):
            raise reply
        return reply

    def information(self, part):
        """What INFO tells of a part, by name."""
        lines = self.do("info", part).decode().split("\r\n")
        return dict(it.split(":", 1) for it in lines if ":" in it)

    def wait_for(self, part, name, value, seconds=30):
        """Waits until INFO tells this."""
        end = time.time() + seconds
        while self.information(part).get(name) != value:
            if time.time() > end:
                raise TimeoutError(f"{name} is not {value}, but {self.information(part).get(name)}")
            time.sleep(0.02)

    def close(self):
        self.file.close()
        self.socket.close()


def checksum(data):
    """CRC16 by the polynomial of XMODEM, by which a cluster finds a key's slot."""
    crc = 0
    for byte in data:
        crc ^= byte << 8
        for _ in range(8):
            crc = (crc << 1 ^ 0x1021 if crc & 0x8000 else crc << 1) & 0xFFFF
    return crc


def slot_of(key):
    key = key.encode() if isinstance(key, str) else key
    begin = key.find(b"{")
    end = key.find(b"}", begin + 1)
    return checksum(key[begin + 1:end] if 0 <= begin < end - 1 else key) % 16384


class Cluster:
    """A client that goes where the server tells."""

    def __init__(self, port):
        self.clients, self.nodes = {}, {}
        self.moved = self.asked = self.again = 0
        for first, last, master, *_ in self.at(port).do("cluster", "slots"):
            self.nodes |= dict.fromkeys(range(first, last + 1), master[1])

    def at(self, port):
        if port not in self.clients:
            self.clients[port] = Client(port)
        return self.clients[port]

    def call(self, *words, seconds=30):
        """A command whose second word is its key."""
        slot, end = slot_of(words[1]), time.time() + seconds
        port, asks = self.nodes[slot], False
        while True:
            if asks:
                self.at(port).do("asking")
            reply = self.at(port).call(*words)
            kind = reply.kind if isinstance(reply, Error) else ""
            if kind == "MOVED":
                self.moved += 1
                port = self.nodes[slot] = int(str(reply).rsplit(":", 1)[1])
            elif kind == "ASK":
                self.asked += 1
                port = int(str(reply).rsplit(":", 1)[1])
            elif kind in ("TRYAGAIN", "CLUSTERDOWN") and time.time() < end:
                self.again += 1
                time.sleep(0.02)
                port = self.nodes[slot]
            else:
                return reply
            asks = kind == "ASK"

    def do(self, *words):
        reply = self.call(*words)
        if isinstance(reply, Error):
            raise reply
        return reply

    def close(self):
        for client in self.clients.values():
            client.close()
