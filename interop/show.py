#!/usr/bin/env python3
"""Feeds what a real redis-server answers through `celery_node show`, and compares with an independent reading.

Run by hand, after ./celery_node build: python3 interop/show.py [--commands N] [--seed N] [--try]
It needs Debian's redis-server (apt-get install redis-server), which it starts on a free port of the loopback without a
disk, and ends by its process. Commands are random over all kinds of values, with transactions and errors among them; the
raw bytes of the replies are kept as they came and shown in one run. With --try the program is run from its sources,
unproved, where it isn't built.
"""

import argparse
import os
import random
import shutil
import socket
import subprocess
import sys
import tempfile
import time
from collections import Counter

ROOT = os.path.dirname(os.path.dirname(os.path.abspath(__file__)))
sys.path.insert(0, os.path.join(ROOT, "bench"))
import wire_reader  # noqa: E402

PROGRAM = os.path.join(ROOT, "crates", "celery_node", "out", "celery_node")


def spelled(words):
    """A command as RESP2 has it."""
    parts = [b"*%d\r\n" % len(words)]
    for word in words:
        parts.append(b"$%d\r\n%b\r\n" % (len(word), word))
    return b"".join(parts)


def free_port():
    with socket.socket() as probe:
        probe.bind(("127.0.0.1", 0))
        return probe.getsockname()[1]


def started(port, folder):
    """A server that answers on the port."""
    server = subprocess.Popen(
        ["redis-server", "--port", str(port), "--bind", "127.0.0.1", "--save", "", "--appendonly", "no", "--dir", folder],
        stdout=subprocess.DEVNULL,
    )
    for _ in range(100):
        try:
            return server, socket.create_connection(("127.0.0.1", port), timeout=5)
        except OSError:
            time.sleep(0.1)
    server.terminate()
    sys.exit("redis-server did not answer")


def word(chance):
    """Random bytes, ends of lines among them."""
    length = chance.choice((0, 1, 3, 8, 40, 300))
    return bytes(chance.randrange(256) for _ in range(length))


def command(chance):
    """A random command: most are lawful, some are not."""
    key = b"k%d" % chance.randrange(12)
    number = b"%d" % chance.randrange(-5, 1000)
    return chance.choice((
        [b"PING"], [b"PING", word(chance)], [b"SET", key, word(chance)], [b"GET", key], [b"DEL", key], [b"INCRBY", key, number],
        [b"LPUSH", key, word(chance), word(chance)], [b"RPOP", key], [b"LRANGE", key, b"0", b"-1"], [b"LLEN", key],
        [b"SADD", key, word(chance)], [b"SMEMBERS", key], [b"HSET", key, word(chance), word(chance)], [b"HGETALL", key],
        [b"ZADD", key, number, word(chance)], [b"ZREVRANGEBYSCORE", key, b"1000", b"0", b"LIMIT", b"0", b"10"],
        [b"BRPOP", b"nothing", b"0.001"], [b"MULTI"], [b"EXEC"], [b"DISCARD"], [b"WATCH", key], [b"UNWATCH"], [b"ECHO", word(chance)],
        [b"NOSUCH", word(chance)], [b"SET", key], [b"CONFIG", b"GET", b"maxmemory"], [b"TYPE", key],
        [b"EVAL", b"return {1,{2,{'a'}},false}", b"0"], [b"KEYS", b"*"],
    ))


def whole(data, count):
    """Whether the bytes are so many values, by the independent reader, and how many bytes these are."""
    at = 0
    for _ in range(count):
        try:
            _, at = wire_reader.value(data, at, 0)
        except wire_reader.Front:
            return False
    return True


def replies(link, chance, count):
    """The raw bytes of the replies to so many commands, and how often each command was said."""
    raw, said = bytearray(), Counter()
    for _ in range(count // 50):
        batch = [command(chance) for _ in range(50)]
        said.update(words[0].decode() for words in batch)
        link.sendall(b"".join(spelled(words) for words in batch))
        piece = bytearray()
        while not whole(bytes(piece), 50):
            got = link.recv(65536)
            if not got:
                sys.exit("redis-server closed the connection")
            piece += got
        raw += piece
    return bytes(raw), said


def deep_reply(link):
    """The raw bytes of a reply whose arrays are nested deeper than four, and of one after it."""
    link.sendall(spelled([b"COMMAND", b"INFO", b"get"]) + spelled([b"PING"]))
    raw = bytearray()
    while not raw.endswith(b"+PONG\r\n"):
        raw += link.recv(65536)
    return bytes(raw)


def shown(raw, unproved):
    """The text and the status of `show` over the bytes."""
    words = [PROGRAM, "show"]
    if unproved and not os.path.exists(PROGRAM):
        words = [os.path.join(ROOT, "celery_node"), "show"]
    done = subprocess.run(words, input=raw, stdout=subprocess.PIPE, stderr=subprocess.DEVNULL, check=False)
    return done.stdout, done.returncode


def main():
    words = argparse.ArgumentParser()
    words.add_argument("--commands", type=int, default=5000)
    words.add_argument("--seed", type=int, default=1)
    words.add_argument("--try", dest="unproved", action="store_true")
    args = words.parse_args()
    if not shutil.which("redis-server"):
        sys.exit("redis-server isn't installed: apt-get install redis-server")
    version = subprocess.run(["redis-server", "--version"], stdout=subprocess.PIPE, check=True).stdout.decode().split()[2]
    with tempfile.TemporaryDirectory() as folder:
        server, link = started(free_port(), folder)
        try:
            raw, said = replies(link, random.Random(args.seed), args.commands)
            deep = deep_reply(link)
        finally:
            link.close()
            server.terminate()
            server.wait()
    want, status, _ = wire_reader.show(raw)
    kinds = Counter(chr(line[0]) for line in want.splitlines())
    print(f"redis-server {version}: {sum(said.values())} commands of {len(said)} names, {len(raw)} bytes of replies")
    print(f"lines by their first byte: {dict(kinds)}")
    print(f"the independent reading: status {status}, {len(want)} bytes of lines")
    found = shown(raw, args.unproved)
    if found != (want, status):
        print(f"show: status {found[1]}, {len(found[0])} bytes of lines, and they differ")
        return 1
    print("show: the same status and the same lines")
    want, status, _ = wire_reader.show(deep)
    found = shown(deep, args.unproved)
    print(f"the reply of COMMAND INFO: {found[0].decode().strip()}, status {found[1]}")
    if found != (want, status):
        print(f"the independent reading: {want.decode().strip()}, status {status}")
        return 1
    return 0


if __name__ == "__main__":
    sys.exit(main())
