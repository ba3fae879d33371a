#!/usr/bin/env python3
"""Times `celery_node serve` beside a real redis-server with redis-benchmark: requests per second of both, and the ratio.

Run by hand, after ./celery_node build: python3 bench/serve.py [--requests N] [--rounds N] [--program PATH]
It needs Debian's redis-server and redis-tools. Each server is started on a free port of the loopback and ended by its
process. One connection, values of 865 bytes, one command in flight and sixteen; the best of some rounds, in which the two
servers take turns. Beside the rates stands the least processor time of each server for a request, which a busy machine
disturbs less. At the end stands the resident memory of both, after the same commands.
"""

import argparse
import os
import re
import subprocess
import sys

ROOT = os.path.dirname(os.path.dirname(os.path.abspath(__file__)))
sys.path.insert(0, os.path.join(ROOT, "interop"))
from servers import PROGRAM, Link, our_server, redis_server  # noqa: E402

SIZE = 865
VALUE = "x" * SIZE
AIMS = {1: 0.8, 16: 0.3}
# The name of a row, the words of its command (a key and a member with __rand_int__ are of 12 digits, of so many values), and
# whether the keys that it made are taken away again.
ROWS = [
    ("PING", ["PING"]),
    ("SET", ["SET", "key:__rand_int__", VALUE]),
    ("GET", ["GET", "key:__rand_int__"]),
    ("LPUSH", ["LPUSH", "list", VALUE]),
    ("RPOP", ["RPOP", "list"]),
    ("SADD", ["SADD", "set", "m__rand_int__"]),
    ("HSET", ["HSET", "hash", "f__rand_int__", VALUE]),
    ("ZADD", ["ZADD", "scores", "5", "m__rand_int__"]),
]
# A set of our store has at most 1,024 members.
SPACE = 1000
RATE = re.compile(r"([0-9.]+) requests per second")


def rate(port, words, requests, depth):
    """Requests per second, or what redis-benchmark says in place of them."""
    asked = ["redis-benchmark", "-h", "127.0.0.1", "-p", str(port), "-c", "1", "-n", str(requests), "-P", str(depth),
             "-r", str(SPACE), "-q", *words]
    done = subprocess.run(asked, stdout=subprocess.PIPE, stderr=subprocess.STDOUT, timeout=300, check=False)
    said = done.stdout.decode("latin-1")
    found = RATE.findall(said)
    return (float(found[-1]), None) if found and done.returncode == 0 else (0.0, said.strip()[-200:])


def measured(servers, words, requests, depth, rounds):
    """The best rate of each server, its least microseconds of processor time a request, and the first thing that went wrong."""
    best, least, wrong = [0.0, 0.0], [float("inf")] * 2, None
    for _ in range(rounds):
        for place, server in enumerate(servers):
            begun = server.processor_seconds()
            got, said = rate(server.port, words, requests, depth)
            best[place] = max(best[place], got)
            least[place] = min(least[place], (server.processor_seconds() - begun) / requests * 1e6)
            wrong = wrong or said
    return best, least, wrong


def settings_reply(port):
    """What a server answers to what redis-benchmark asks first."""
    link = Link(port)
    reply = link.ask(b"CONFIG", b"GET", b"save")[0]
    link.close()
    return reply


def main():
    words = argparse.ArgumentParser()
    words.add_argument("--requests", type=int, default=50_000)
    words.add_argument("--rounds", type=int, default=3)
    words.add_argument("--program", default=PROGRAM)
    words.add_argument("--redis-twice", action="store_true", help="a second redis-server in place of ours: tries the script")
    words.add_argument("--only", action="append", help="a row")
    args = words.parse_args()
    missed = 0
    ours = redis_server() if args.redis_twice else our_server(args.program, 4000)
    with ours, redis_server() as theirs:
        print("CONFIG GET save: ours", settings_reply(ours.port), "Redis", settings_reply(theirs.port))
        print("memory at the start: ours %d kB, Redis %d kB" % (ours.memory(), theirs.memory()))
        print(f"{'command':8} {'in flight':>9} {'ours/s':>10} {'Redis/s':>10} {'ratio':>6} {'ours us':>8} {'Redis us':>8} {'ratio':>6} aim")
        for name, command in ROWS:
            for depth, aim in AIMS.items():
                if args.only and name not in args.only:
                    continue
                (one, other), (cost, due), wrong = measured((ours, theirs), command, args.requests, depth, args.rounds)
                ratio = one / other if other else 0.0
                missed += ratio < aim
                print(f"{name:8} {depth:9} {one:10,.0f} {other:10,.0f} {ratio:6.2f} {cost:8.2f} {due:8.2f} {due / cost:6.2f} "
                      f"{aim}{'' if ratio >= aim else ' missed'}", flush=True)
                if wrong:
                    print("    redis-benchmark said:", wrong)
        print("memory at the end: ours %d kB, Redis %d kB" % (ours.memory(), theirs.memory()))
    return 1 if missed else 0


if __name__ == "__main__":
    sys.exit(main())
