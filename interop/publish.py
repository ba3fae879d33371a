#!/usr/bin/env python3
"""Publishes tasks with `celery_node publish` into a real redis-server, where a real Celery worker runs them.

Run by hand, after ./celery_node build: /usr/bin/python3 interop/publish.py [--program PATH]
It needs Debian's redis-server, python3-redis and python3-celery, starts a server on a free port of the loopback and a
worker beside it, and ends both by their processes. It shows: priorities in their order; a task that waits for its eta; one
that expired; an exchange that Kombu bound and our lookup finds; one that we declared and Kombu sends by; a topic exchange
of ours; what Kombu keeps of a topic exchange, which our lookup doesn't read; and what is written where the store refuses a
command.
"""

import argparse
import os
import subprocess
import sys
import tempfile
import time
from datetime import datetime, timedelta, timezone

import kombu
import redis

ROOT = os.path.dirname(os.path.dirname(os.path.abspath(__file__)))
sys.path.insert(0, os.path.join(ROOT, "interop"))
from servers import PROGRAM, redis_server  # noqa: E402

TASKS = '''
import time

import celery
import redis

app = celery.Celery("shown", broker={broker!r})
app.conf.task_ignore_result = True
app.conf.worker_prefetch_multiplier = 1
seen = redis.Redis.from_url({broker!r})


@app.task(name="tasks.seen")
def tell(*args):
    seen.rpush("seen", "%.3f %s" % (time.time(), " ".join(map(str, args))))
'''


def published(program, port, seed, lines):
    """Publishes a script, and gives the status and what was written."""
    script = "".join(line + "\n" for line in ["celery-publish 1", *lines])
    done = subprocess.run([program, "publish", "127.0.0.1:%d" % port, "--seed", str(seed)], input=script.encode(),
                          stdout=subprocess.PIPE, stderr=subprocess.STDOUT, timeout=60, check=False)
    return done.returncode, done.stdout.decode("latin-1")


class Worker:
    """A real worker of Celery over these queues, as long as the `with` lasts."""

    def __init__(self, broker, queues):
        self.folder = tempfile.TemporaryDirectory()
        with open(os.path.join(self.folder.name, "shown.py"), "w", encoding="ascii") as module:
            module.write(TASKS.format(broker=broker))
        self.log = tempfile.TemporaryFile()
        self.process = subprocess.Popen(
            [sys.executable, "-m", "celery", "-A", "shown", "worker", "--pool", "solo", "--loglevel", "info", "-Q", ",".join(queues),
             "--without-gossip", "--without-mingle", "--without-heartbeat"],
            cwd=self.folder.name, stdout=self.log, stderr=subprocess.STDOUT)

    def __enter__(self):
        return self

    def __exit__(self, *_):
        if self.process.poll() is None:
            self.process.terminate()
        try:
            self.process.wait(10)
        except subprocess.TimeoutExpired:
            self.process.kill()
            self.process.wait()
        self.folder.cleanup()

    def lines(self, word):
        """The lines of its log that hold a word."""
        self.log.seek(0)
        return [line.strip() for line in self.log.read().decode("utf-8", "replace").splitlines() if word in line]


def waited(client, count, seconds):
    """What the tasks told, once so many of them did."""
    end = time.time() + seconds
    while client.llen("seen") < count and time.time() < end:
        time.sleep(0.1)
    return [row.decode("ascii").split(" ", 1) for row in client.lrange("seen", 0, -1)]


def main():
    words = argparse.ArgumentParser()
    words.add_argument("--program", default=PROGRAM)
    args = words.parse_args()
    wrong = []

    def check(name, good, shown):
        print("%s: %s%s" % (name, shown, "" if good else "    NOT AS WANTED"))
        wrong.extend([] if good else [name])

    with redis_server() as server:
        broker = "redis://127.0.0.1:%d/0" % server.port
        client = redis.Redis(port=server.port)
        with kombu.Connection(broker) as connection:
            channel = connection.channel()
            bound = kombu.Queue("bound", kombu.Exchange("bydirect", "direct"), routing_key="key")
            bound(channel).declare()
            topic = kombu.Queue("topical", kombu.Exchange("bytopic", "topic"), routing_key="a.*")
            topic(channel).declare()
            later = datetime.now(timezone.utc) + timedelta(seconds=6)
            lines = ["publish - celery %d tasks.seen [\"priority\",%d]" % (step, step) for step in (9, 6, 3, 0)]
            lines += ["eta " + later.isoformat(), "publish - celery 0 tasks.seen [\"eta\"]"]
            lines += ["expires 2020-01-01T00:00:00Z", "publish - celery 0 tasks.seen [\"expired\"]"]
            lines += ["publish bydirect key 0 tasks.seen [\"bound by Kombu\"]"]
            lines += ["declare ours key - declared", "publish ours key 0 tasks.seen [\"declared by us\"]"]
            lines += ["declare topics - a.*.# patterned", "publish topics a.b 0 tasks.seen [\"topic of ours\"]"]
            lines += ["publish topics a 0 tasks.seen [\"too short a key\"]"]
            lines += ["publish nowhere key 0 tasks.seen [\"no binding\"]", "publish bytopic a.b 0 tasks.seen [\"topic\"]"]
            status, text = published(args.program, server.port, 7, lines)
            wanted = "".join("published 7:%d\n" % n for n in range(1, 10)) + "no queue 7:10\nno queue 7:11\nno queue 7:12\n"
            check("publish", (status, text) == (0, wanted), "status %d, wrote %r" % (status, text))
            print("    Kombu's direct binding, as it stands:", sorted(client.smembers("_kombu.binding.bydirect")))
            print("    ours:", sorted(client.smembers("_kombu.binding.ours")))
            print("    Kombu's topic binding, a regular expression, which our lookup reads as plain words:",
                  sorted(client.smembers("_kombu.binding.bytopic")))
            body = client.lindex("celery", 0)
            with connection.Producer() as producer:
                producer.publish([["by Kombu over our exchange"], {}, {}], exchange="ours", routing_key="key", serializer="json",
                                 headers={"lang": "py", "task": "tasks.seen", "id": "k1", "root_id": "k1", "parent_id": None,
                                          "group": None, "argsrepr": "", "kwargsrepr": "{}", "origin": "kombu"}, declare=[])
            check("Kombu sends by the exchange that we declared", client.llen("declared") == 2, "%d messages in its queue" % client.llen("declared"))
            print("    an envelope as it stands:", body.decode("ascii")[:160], "...")
        with Worker(broker, ["celery", "bound", "declared", "patterned"]) as worker:
            rows = waited(client, 9, 40)
            told = [row[1] for row in rows]
            order = [row for row in told if row.startswith("priority")]
            check("priorities", order == ["priority 0", "priority 3", "priority 6", "priority 9"], ", ".join(order))
            at = [float(row[0]) for row in rows if row[1] == "eta"]
            check("eta", len(at) == 1 and at[0] >= later.timestamp(), "ran %s" % ["%.3f s after its eta" % (a - later.timestamp()) for a in at])
            expired = worker.lines("Discarding revoked task")
            check("expires", "expired" not in told and expired, expired[0] if expired else "not told in the worker's log")
            for name in ("bound by Kombu", "declared by us", "topic of ours", "by Kombu over our exchange"):
                check(name, told.count(name) == 1, "ran %d times" % told.count(name))
            for line in worker.lines("ERROR"):
                print("    the worker's log:", line[:200])
        client.set("text", "no list")
        status, text = published(args.program, server.port, 8, ["publish - text 0 tasks.seen []"])
        check("a key of another kind", status == 10 and text.startswith('store refused -"WRONGTYPE'), "status %d, wrote %r" % (status, text))
    status, text = published(args.program, server.port, 9, ["publish - celery 0 tasks.seen []"])
    check("no server", (status, text) == (6, "link fault\n"), "status %d, wrote %r" % (status, text))
    status, text = published(args.program, server.port, 9, ["publish - celery 0 tasks.seen {}"])
    check("a bad line", (status, text) == (3, "bad line 2: json\n"), "status %d, wrote %r" % (status, text))
    sys.exit("NOT AS WANTED: " + ", ".join(wrong) if wrong else 0)


if __name__ == "__main__":
    main()
