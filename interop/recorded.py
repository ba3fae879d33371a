#!/usr/bin/env python3
"""Records what our clients say to a real redis-server, and has the record judged.

Run by hand, after ./celery_node build: /usr/bin/python3 interop/recorded.py [--program PATH] [--keep FILE]
It needs Debian's redis-server, which it starts empty on a free port of the loopback, and a proxy before it that lets one
command through at a time, so that the order of the log is the order in which Redis did them. Two `celery_node publish` of
the seeds 7 and 8 run side by side through the proxy: direct messages, bindings, and messages by them. The log becomes a
record: `celery_node check`, where the program has it, and the judge of model/checks.py must write the same report of it.
Redis gives the members of a set in no order and this project's store in byte order, so the proxy hands them on sorted.
"""

import argparse
import os
import socket
import subprocess
import sys
import threading
import time

ROOT = os.path.dirname(os.path.dirname(os.path.abspath(__file__)))
sys.path.insert(0, os.path.join(ROOT, "interop"))
sys.path.insert(0, os.path.join(ROOT, "model"))
from checks import judged  # noqa: E402
from records import record  # noqa: E402
from replies import spelled as answered  # noqa: E402
from schedules import Client, Entry  # noqa: E402
from servers import PROGRAM, Cut, Link, redis_server, value_at  # noqa: E402


class Log:
    """A history as `records.record` writes it: the clients by their connections, and the entries."""

    def __init__(self):
        self.clients, self.entries = {}, []


class Recorder:
    """A proxy on the loopback: each connection to it is a client of the log, in the order in which they come."""

    def __init__(self, port):
        self.upstream, self.log, self.turn, self.threads = port, Log(), threading.Lock(), []
        self.listener = socket.create_server(("127.0.0.1", 0))
        self.port = self.listener.getsockname()[1]

    def accept(self, seed):
        """Takes the next connection, whose client draws its tags by this seed, and serves it."""
        link, _ = self.listener.accept()
        number = len(self.log.clients) + 1
        self.log.clients[number] = Client(seed)
        self.threads.append(threading.Thread(target=self.serve, args=(link, number)))
        self.threads[-1].start()

    def serve(self, link, number):
        server, got = Link(self.upstream), b""
        with link:
            while True:
                try:
                    words, end = value_at(got, 0)
                except Cut:
                    more = link.recv(1 << 20)
                    if not more:
                        break
                    got += more
                    continue
                got = got[end:]
                link.sendall(answered(self.asked(server, number, words)))
        server.close()

    def asked(self, server, number, words):
        """The reply to a command, which is logged with the moment at which it was said."""
        with self.turn:
            at = int(time.time())
            (answer,) = server.ask(*words)
            if words[0] == b"SMEMBERS" and isinstance(answer, list):
                answer.sort()
            self.log.entries.append(Entry(number, at, words, (), answer))
        return answer

    def close(self):
        for thread in self.threads:
            thread.join()
        self.listener.close()


def script(name):
    """A publish script with all kinds of exchanges."""
    lines = ["celery-publish 1", "declare %s hot - %s.hot" % (name, name), "declare %s - a.*.# shared" % name]
    for number in range(20):
        lines.append("publish - celery %d tasks.add [%d,1]" % (number % 10, number))
        lines.append("publish %s hot 0 tasks.add [%d,2]" % (name, number))
        lines.append("publish %s a.b 3 tasks.add [%d,3]" % (name, number))
        lines.append("publish %s nowhere 0 tasks.add []" % name)
    return "".join(line + "\n" for line in lines).encode()


def publisher(program, port, seed):
    words = [program, "publish", "127.0.0.1:%d" % port, "--seed", str(seed)]
    return subprocess.Popen(words, stdin=subprocess.PIPE, stdout=subprocess.PIPE)


def main():
    words = argparse.ArgumentParser(description=__doc__.split("\n")[0])
    words.add_argument("--program", default=PROGRAM)
    words.add_argument("--keep", help="a file for the record")
    given = words.parse_args()
    with redis_server() as server:
        recorder = Recorder(server.port)
        runs = []
        for seed in (7, 8):
            runs.append(publisher(given.program, recorder.port, seed))
            runs[-1].stdin.write(script("exchange%d" % seed))
            runs[-1].stdin.close()
            recorder.accept(seed)
        for run in runs:
            print("publish: %d lines, status %d" % (len(run.stdout.read().splitlines()), run.wait()))
        recorder.close()
    data = record(recorder.log)
    if given.keep:
        with open(given.keep, "wb") as kept:
            kept.write(data)
    status, text = judged(data)
    print("%d entries of %d clients; the judge in Python: status %d" % (len(recorder.log.entries), len(recorder.log.clients), status))
    print("    " + b"\n    ".join(text.splitlines()[-4:]).decode("latin-1"))
    done = subprocess.run([given.program, "check"], input=data, stdout=subprocess.PIPE, check=False)
    agrees = (done.returncode, done.stdout) == (status, text)
    print("celery_node check: status %d, %s" % (done.returncode, "the same text" if agrees else "another text"))
    sys.exit(0 if agrees and status == 0 else "NOT AS WANTED")


if __name__ == "__main__":
    main()
