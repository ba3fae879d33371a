#!/usr/bin/env python3
"""Runs `celery_node replay` over large schedules; prints time, entries per second and peak memory of each.

Run by hand, after ./celery_node has built the program: python3 bench/replay.py [NAME ..]
Each run's last line and status are compared with what the schedule must give.
"""

import os
import resource
import subprocess
import sys
import tempfile
import time

ROOT = os.path.dirname(os.path.dirname(os.path.abspath(__file__)))
PROGRAM = os.path.join(ROOT, "crates", "celery_node", "out", "celery_node")
HEADER = ["celery-schedule 1", "client 1 seed 7", "client 2 seed 8", "at 100"]


def publications(count, queue_of):
    """Lines by which client 1 publishes so many messages."""
    for number in range(count):
        yield f"begin 1 publish - {queue_of(number)} 0 tasks.add [{number},1]"
        yield "run 1"


def published(count):
    """Messages published to ten queues."""
    yield from HEADER
    yield from publications(count, lambda number: f"queue{number % 10}")


def worked(count):
    """Messages published by one client, then popped and acknowledged by another."""
    yield from HEADER
    yield from publications(count, lambda number: "celery")
    for number in range(1, count + 1):
        yield "begin 2 pop celery"
        yield "run 2"
        yield f"begin 2 ack 7:{number}"
        yield "run 2"


def returned(count):
    """Messages that workers pop, ten each, before they stop; passes return them an hour later, and client 2 pops and ends them."""
    yield from HEADER
    yield from publications(count, lambda number: "celery")
    for worker in range(3, 3 + count // 10):
        yield f"client {worker} seed {worker + 100}"
        for _ in range(10):
            yield f"begin {worker} pop celery"
            yield f"run {worker}"
        yield f"stop {worker}"
    yield "at 3700"
    for _ in range(count // 10):
        yield "begin 2 pass 3600"
        yield "run 2"
    for _ in range(count):
        yield "begin 2 pop celery"
        yield "run 2"
    for number in range(1, count + 1):
        yield f"begin 2 ack 7:{number}"
        yield "run 2"


def exchanged(count):
    """Messages published to two queues by a named exchange, whose bindings are read for each."""
    yield from HEADER
    for queue in ("celery", "copies"):
        yield f"begin 1 declare news hot - {queue}"
        yield "run 1"
    for number in range(count):
        yield f"begin 1 publish news hot 0 tasks.add [{number},1]"
        yield "run 1"


def polled(count):
    """Pops of a queue that has nothing."""
    yield "celery-schedule 1"
    yield "client 1 seed 7"
    for _ in range(count):
        yield "begin 1 pop c"
        yield "run 1"


def totals(lists, ended):
    """The last line of a report whose messages are in lists or ended."""
    return f"total list {lists} unacked 0 hand 0 ended {ended} lost 0 copies 0"


# Each run: its name, its schedule's lines, the entries of its history, its status and its last line.
RUNS = [
    ("published 1000", lambda: published(1_000), 1_000, 0, totals(1_000, 0)),
    ("published 10000", lambda: published(10_000), 10_000, 0, totals(10_000, 0)),
    ("worked 1000", lambda: worked(1_000), 10_000, 0, totals(0, 1_000)),
    ("worked 10000", lambda: worked(10_000), 100_000, 0, totals(0, 10_000)),
    ("returned 1000", lambda: returned(1_000), 22_800, 0, totals(0, 1_000)),
    ("returned 10000", lambda: returned(10_000), 228_000, 0, totals(0, 10_000)),
    ("exchanged 1000", lambda: exchanged(1_000), 3_002, 0, totals(0, 0).replace("copies 0", "copies 1000")),
    ("exchanged 10000", lambda: exchanged(10_000), 30_002, 0, totals(0, 0).replace("copies 0", "copies 10000")),
    ("polled", lambda: polled(1_000_001), 1_000_000, 9, "history full 1000000 83000000"),
]


def measured(lines):
    """The status, the last line, the seconds and the peak memory in MB of a run over these lines."""
    with tempfile.TemporaryFile("w+") as schedule, tempfile.TemporaryFile() as report:
        schedule.writelines(line + "\n" for line in lines)
        schedule.flush()
        schedule.seek(0)
        begun = time.monotonic()
        process = subprocess.Popen([PROGRAM, "replay"], stdin=schedule, stdout=report)
        _, status, usage = os.wait4(process.pid, 0)
        seconds = time.monotonic() - begun
        process.returncode = os.waitstatus_to_exitcode(status)
        size = report.seek(0, os.SEEK_END)
        report.seek(max(0, size - 200))
        last = report.read().decode().splitlines()[-1:]
        return process.returncode, "".join(last), seconds, usage.ru_maxrss / 1024


def main():
    if not os.access(PROGRAM, os.X_OK):
        sys.exit("bench: the program isn't built; run ./celery_node replay < examples/empty.schedule")
    resource.setrlimit(resource.RLIMIT_CORE, (0, 0))
    wanted = sys.argv[1:]
    print(f"{'run':<16} {'entries':>9} {'seconds':>9} {'entries/s':>10} {'peak MB':>8}")
    wrong = 0
    for name, lines, entries, status, last in RUNS:
        if wanted and not any(name.startswith(word) for word in wanted):
            continue
        got_status, got_last, seconds, peak = measured(lines())
        print(f"{name:<16} {entries:>9} {seconds:>9.2f} {entries / seconds:>10.0f} {peak:>8.0f}", flush=True)
        if (got_status, got_last) != (status, last):
            wrong += 1
            print(f"  status {got_status}, {got_last!r} in place of status {status}, {last!r}")
    sys.exit(1 if wrong else 0)


if __name__ == "__main__":
    main()
