#!/usr/bin/env python3
"""Times `celery_node publish` into a real redis-server, beside Kombu's Producer and Celery's apply_async, in one run.

Run by hand, after ./celery_node build: /usr/bin/python3 bench/publish.py [--messages N] [--rounds N] [--program PATH]
It needs Debian's redis-server and python3-celery; the server is started on a free port of the loopback and ended by its
process. Each way sends the same small task so often, one command in flight, to an empty list; the best of some rounds, in
which the ways take turns. Ours is timed from its start to its end: the reading of its script and its check are in it.
"""

import argparse
import os
import subprocess
import sys
import time

import celery
import kombu

ROOT = os.path.dirname(os.path.dirname(os.path.abspath(__file__)))
sys.path.insert(0, os.path.join(ROOT, "interop"))
from servers import PROGRAM, Link, redis_server  # noqa: E402

AIM = 10.0


def by_ours(program, port, count, named):
    """Seconds of our program for so many messages, on the empty exchange or on one with a name."""
    line = b"publish bench key 0 tasks.add [2,3]\n" if named else b"publish - bench 0 tasks.add [2,3]\n"
    head = b"celery-publish 1\n" + (b"declare bench key - bench\n" if named else b"")
    script = head + line * count
    begun = time.perf_counter()
    done = subprocess.run([program, "publish", "127.0.0.1:%d" % port, "--seed", "7"], input=script, stdout=subprocess.PIPE, check=False)
    taken = time.perf_counter() - begun
    if done.returncode or done.stdout.count(b"\n") != count:
        sys.exit("publish ended %d, wrote %r .. %r" % (done.returncode, done.stdout[:80], done.stdout[-80:]))
    return taken


def by_kombu(port, count):
    """Seconds of Kombu's Producer."""
    headers = {"lang": "py", "task": "tasks.add", "id": "k", "root_id": "k", "parent_id": None, "group": None}
    with kombu.Connection("redis://127.0.0.1:%d/0" % port) as connection, connection.Producer() as producer:
        body = [[2, 3], {}, {"callbacks": None, "chain": None, "chord": None, "errbacks": None}]
        producer.publish(body, exchange="", routing_key="bench", serializer="json", headers=headers)
        begun = time.perf_counter()
        for _ in range(count):
            producer.publish(body, exchange="", routing_key="bench", serializer="json", headers=headers)
        return time.perf_counter() - begun


def by_celery(port, count):
    """Seconds of Celery's apply_async."""
    app = celery.Celery("bench", broker="redis://127.0.0.1:%d/0" % port)
    app.conf.task_ignore_result = True

    @app.task(name="tasks.add")
    def add(a, b):
        return a + b

    with app.pool.acquire(block=True):
        add.apply_async((2, 3), queue="bench")
        begun = time.perf_counter()
        for _ in range(count):
            add.apply_async((2, 3), queue="bench")
        return time.perf_counter() - begun


def main():
    words = argparse.ArgumentParser()
    words.add_argument("--messages", type=int, default=10_000)
    words.add_argument("--rounds", type=int, default=3)
    words.add_argument("--program", default=PROGRAM)
    args = words.parse_args()
    ways = [
        ("celery_node publish", lambda port: by_ours(args.program, port, args.messages, False)),
        ("the same, by a binding", lambda port: by_ours(args.program, port, args.messages, True)),
        ("Kombu's Producer", lambda port: by_kombu(port, args.messages)),
        ("Celery's apply_async", lambda port: by_celery(port, args.messages)),
    ]
    best = [float("inf")] * len(ways)
    with redis_server() as server:
        link = Link(server.port)
        for _ in range(args.rounds):
            for place, (_, way) in enumerate(ways):
                link.ask(b"DEL", b"bench")
                best[place] = min(best[place], way(server.port))
        link.close()
    rates = [args.messages / seconds for seconds in best]
    print("%d messages, the best of %d rounds:" % (args.messages, args.rounds))
    for (name, _), rate in zip(ways, rates):
        print("%-24s %9.0f messages a second" % (name, rate))
    ratio = rates[0] / rates[2]
    print("ours beside Kombu's Producer: %.1f times, the aim %.0f%s" % (ratio, AIM, "" if ratio >= AIM else ": MISSED"))
    sys.exit(0 if ratio >= AIM else 1)


if __name__ == "__main__":
    main()
