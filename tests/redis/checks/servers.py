"""Servers on the loopback address, each in a folder of its own, and ended by its own process id."""
import atexit
import ctypes
import os
import random
import shutil
import signal
import socket
import subprocess
import sys
import tempfile
import time

from protocol import Client, Cluster, Error

MODULE = os.environ["JCACHE_MODULE"]
# What a server does without a word of these tests: it saves nothing.
QUIET = ("--save", "", "--appendonly", "no")
LOGGED = ("--save", "", "--appendonly", "yes", "--appendfsync", "always", "--auto-aof-rewrite-percentage", "0")

_folder = tempfile.mkdtemp(prefix="jcache-redis-")
_running = []


def _end_all():
    for server in _running:
        server.kill()
    shutil.rmtree(_folder, ignore_errors=True)


atexit.register(_end_all)
signal.signal(signal.SIGTERM, lambda *_: sys.exit(1))


def _die_with_us():
    """The server ends where this process ends, in whatever way."""
    ctypes.CDLL(None).prctl(1, signal.SIGKILL)


def free_port():
    """One that is free, and below those that the system gives to connections."""
    while True:
        port = random.randrange(12_000, 32_000)
        with socket.socket() as found:
            try:
                found.bind(("127.0.0.1", port))
                return port
            except OSError:
                continue


class Server:
    """A server that is started at once."""

    def __init__(self, *options, modules=(MODULE,)):
        self.port = free_port()
        self.folder = f"{_folder}/{self.port}"
        self.options, self.modules = options or QUIET, modules
        os.mkdir(self.folder)
        _running.append(self)
        self.start()

    def start(self):
        words = ["redis-server", "--port", str(self.port), "--bind", "127.0.0.1", "--dir", self.folder,
                 "--enable-debug-command", "yes", "--repl-diskless-sync-delay", "0"]
        words += [it for module in self.modules for it in ("--loadmodule", module)]
        with open(f"{self.folder}/said.txt", "ab") as said:
            self.process = subprocess.Popen([*words, *self.options], stdout=said, stderr=said, preexec_fn=_die_with_us)
        self.client = self._first_client()

    def _first_client(self):
        end = time.time() + 60
        while time.time() < end:
            try:
                client = Client(self.port)
                if not isinstance(client.call("ping"), Error):
                    return client
            except (OSError, EOFError):
                if self.process.poll() is not None:
                    break
            time.sleep(0.02)
        raise RuntimeError(f"a server did not start: {self.said()[-600:]}")

    def said(self):
        with open(f"{self.folder}/said.txt", errors="replace") as said:
            return said.read()

    def kill(self):
        if self.process.poll() is None:
            self.process.kill()
        self.process.wait()

    def end(self):
        if self.process.poll() is None:
            self.process.terminate()
        self.process.wait()

    def restart(self):
        """Ends it without a word, and starts it on what it has left."""
        self.kill()
        self.start()

    def follow(self, other):
        """Becomes a replica of another, and waits until it has all of it."""
        self.client.do("replicaof", "127.0.0.1", other.port)
        self.client.wait_for("replication", "master_link_status", "up")


def cluster(masters, replicas, *options):
    """Servers that are a cluster of so many masters, each with so many replicas."""
    words = ["--cluster-enabled", "yes", "--cluster-node-timeout", "2000", *(options or QUIET)]
    servers = [Server(*words, "--cluster-port", str(free_port())) for _ in range(masters * (1 + replicas))]
    made = subprocess.run(["redis-cli", "--cluster", "create", *[f"127.0.0.1:{it.port}" for it in servers],
                           "--cluster-replicas", str(replicas), "--cluster-yes"], capture_output=True, text=True, timeout=120)
    if "All 16384 slots covered" not in made.stdout:
        raise RuntimeError(made.stdout[-600:] + made.stderr[-600:])
    for server in servers:
        wait_until(lambda: server.client.do("cluster", "info").startswith(b"cluster_state:ok"))
        wait_until(lambda: server.client.do("cluster", "nodes").count(b"slave ") == masters * replicas)
    for server in servers:
        if server.client.do("role")[0] == b"slave":
            server.client.wait_for("replication", "master_link_status", "up")
    return servers


def wait_until(is_so, seconds=60):
    end = time.time() + seconds
    while not is_so():
        if time.time() > end:
            raise TimeoutError("what was waited for did not come")
        time.sleep(0.02)


__all__ = ["Client", "Cluster", "Error", "LOGGED", "MODULE", "QUIET", "Server", "cluster", "free_port", "wait_until"]
