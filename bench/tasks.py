#!/usr/bin/env python3
"""Times reading and drafting the task of the usual envelope; prints reads and drafts per second.

Run by hand, after the program task_lines was built by `rt run` in crates/task_lines: python3 bench/tasks.py [ROUNDS]
A read is of the envelope's text and its task; a draft is drafted, sealed and written. The time of a run with no rounds
is taken off.
"""

import os
import subprocess
import sys
import time

ROOT = os.path.dirname(os.path.dirname(os.path.abspath(__file__)))
CRATE = os.path.join(ROOT, "crates", "task_lines")
PROGRAM = os.path.join(CRATE, "out", "task_lines")


def usual():
    """The text of the usual envelope, which the rows of the program's tests have."""
    with open(os.path.join(CRATE, "stdin"), encoding="utf-8") as rows:
        return next(row.split("\t", 1)[1].rstrip("\n") for row in rows if row.startswith("task\t"))


def seconds(word, rounds, text):
    """How long the program takes for so many rounds of a word."""
    line = f"{word}\t{rounds}\t{text}\n".encode()
    begun = time.monotonic()
    done = subprocess.run([PROGRAM], input=line, stdout=subprocess.PIPE, check=True)
    took = time.monotonic() - begun
    if rounds and b"tasks.add" not in done.stdout and not done.stdout.startswith(b"{"):
        sys.exit(f"{word}: {done.stdout[:200]!r}")
    return took


def main():
    """Times both, each three times, and prints the best."""
    rounds = int(sys.argv[1]) if len(sys.argv) > 1 else 100_000
    for word, name in (("rounds", "reads"), ("drafts", "drafts")):
        best = min(seconds(word, rounds, usual()) - seconds(word, 0, usual()) for _ in range(3))
        print(f"{name}: {rounds / best:,.0f} per second, the best of three runs of {rounds}")


main()
