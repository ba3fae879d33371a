"""Starts a redis-server or our `celery_node serve` on a free port of the loopback, and ends just what was started."""

import os
import socket
import subprocess
import sys
import tempfile
import time

ROOT = os.path.dirname(os.path.dirname(os.path.abspath(__file__)))
sys.path.insert(0, os.path.join(ROOT, "model"))
from replies import NULL_BULK, Problem, Simple  # noqa: E402

PROGRAM = os.path.join(ROOT, "crates", "celery_node", "out", "celery_node")


def free_port():
    with socket.socket() as probe:
        probe.bind(("127.0.0.1", 0))
        return probe.getsockname()[1]


def waits_for(port):
    """Waits until the port is listened on, without a connection to it."""
    wanted = "0100007F:%04X" % port
    for _ in range(600):
        with open("/proc/net/tcp", encoding="ascii") as table:
            if any(wanted == row.split()[1] and row.split()[3] == "0A" for row in list(table)[1:]):
                return
        time.sleep(0.05)
    sys.exit("nothing listens on port %d" % port)


class Server:
    """A server of its own, as long as the `with` lasts; `written` is what it wrote."""

    def __init__(self, words_of):
        self.port = free_port()
        self.folder = tempfile.TemporaryDirectory()
        self.out = tempfile.TemporaryFile()
        self.process = subprocess.Popen(words_of(self.port, self.folder.name), stdout=self.out, stderr=subprocess.STDOUT)
        waits_for(self.port)

    def __enter__(self):
        return self

    def __exit__(self, *_):
        if self.process.poll() is None:
            self.process.terminate()
        self.process.wait()
        self.folder.cleanup()

    def written(self):
        """What it wrote, once it has ended by itself."""
        try:
            self.process.wait(10)
        except subprocess.TimeoutExpired:
            pass
        self.out.seek(0)
        return self.out.read().decode("latin-1")

    def processor_seconds(self):
        """The processor time that it took so far."""
        with open("/proc/%d/schedstat" % self.process.pid, encoding="ascii") as times:
            return int(times.read().split()[0]) / 1e9

    def memory(self):
        """Its resident memory in kB."""
        with open("/proc/%d/status" % self.process.pid, encoding="ascii") as status:
            return int(next(row for row in status if row.startswith("VmRSS")).split()[1])


def redis_server():
    return Server(lambda port, folder: [
        "redis-server", "--port", str(port), "--bind", "127.0.0.1", "--save", "", "--appendonly", "no", "--dir", folder])


def our_server(program, connections):
    return Server(lambda port, _: [program, "serve", "127.0.0.1:%d" % port, "--connections", str(connections)])


def spelled(words):
    """A command as RESP2 has it."""
    return b"*%d\r\n" % len(words) + b"".join(b"$%d\r\n%b\r\n" % (len(word), word) for word in words)


class Cut(Exception):
    """The bytes end inside a value."""


def value_at(data, at):
    """The value that begins at a place, in the form of model/replies.py, and the place after it."""
    end = data.find(b"\r\n", at)
    if end < 0:
        raise Cut
    kind, text, end = data[at:at + 1], data[at + 1:end], end + 2
    if kind == b"+":
        return Simple(text), end
    if kind == b"-":
        return Problem(text), end
    if kind == b":":
        return int(text), end
    if kind == b"$":
        return bulk_at(data, end, int(text))
    if kind not in b"*%":
        sys.exit("no value begins with %r" % data[at:at + 40])
    items = []
    # A map of RESP3, with which Redis greets, has keys and values in turn.
    for _ in range(int(text) * (2 if kind == b"%" else 1)):
        item, end = value_at(data, end)
        items.append(item)
    return None if text == b"-1" else items, end


def bulk_at(data, at, length):
    if length < 0:
        return NULL_BULK, at
    if len(data) < at + length + 2:
        raise Cut
    return data[at:at + length], at + length + 2


class Link:
    """A connection to a server."""

    def __init__(self, port):
        self.socket = socket.create_connection(("127.0.0.1", port), timeout=30)
        self.got = b""

    def send(self, data):
        self.socket.sendall(data)

    def replies(self, count):
        """So many values; fewer where the connection ends before."""
        found, at = [], 0
        while len(found) < count:
            try:
                value, at = value_at(self.got, at)
                found.append(value)
            except Cut:
                more = self.receive()
                if not more:
                    break
                self.got += more
        self.got = self.got[at:]
        return found

    def receive(self):
        try:
            return self.socket.recv(1 << 20)
        except ConnectionError:
            return b""

    def ask(self, *words):
        """The reply to a command; no value where the connection ends."""
        self.send(spelled(words))
        return self.replies(1)

    def is_ended(self):
        """Whether the peer has ended the connection and nothing is left to read."""
        return not self.got and not self.receive()

    def close(self):
        self.socket.close()
