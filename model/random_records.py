#!/usr/bin/env python3
"""Runs `celery_node check` and the judge in `checks.py` over records of random schedules, whole and altered, and compares.

Run by hand, after ./celery_node has built the program: python3 model/random_records.py [--count N] [--seconds N]
A record depends on its seed alone. Of the record of a lawful schedule some lines are dropped, doubled or swapped, or a reply,
a word, a moment or a client is changed. The first difference is printed with its seed and the status is then 1; else how
often each ending came. With --alone the judge runs without the program.
"""

import argparse
import os
import random
import subprocess
import sys
import time
from collections import Counter
from concurrent.futures import ProcessPoolExecutor

import model
from checks import judged
from random_runs import first_difference
from random_schedules import Maker
from records import record

ROOT = os.path.dirname(os.path.dirname(os.path.abspath(__file__)))
PROGRAM = os.path.join(ROOT, "crates", "celery_node", "out", "celery_node")
WORDS = [b"celery", b"MULTI", b"EXEC", b"unacked", b"unacked_index", b"WATCH", b"HGET", b"LPUSH", b"RPUSH", b"PING", b"x", b"\\xff", b"1", b"0"]
VALUES = [b"+\"OK\"", b"+\"QUEUED\"", b"$-", b"*-", b":0", b":1", b":2", b"*[]", b"*[:1, :1]", b"*[:0, :0]", b"-\"ERR syntax\"", b"$\"x\"",
          b"*[$\"celery\", $\"x\"]", b"*[" * 64 + b":1" + b"]" * 64, b"*[" * 66 + b":1" + b"]" * 66]

NOTES = [b"TOOK 1:2", b"TOOK 1", b"FINISHED 1:2 success \"{\\\"a\\\":1}\"", b"FINISHED 1:2 success 5", b"FINISHED 7:1 failure \"\\xff\"",
         b"FINISHED 7:1 retry 5", b"EXPIRED 7:1 -5 6", b"EXPIRED 7:1 5", b"REVOKED 7:1", b"REJECTED 18446744073709551615:0", b"HELD 7:1 -1",
         b"HELD 7:18446744073709551616 1", b"UNREADABLE", b"UNREADABLE 1", b"FINISHED 7:1 success \"\\xc3\\xa9\""]


class Mutator:
    """Alters a record's lines."""

    def __init__(self, seed):
        self.random = random.Random("record %d" % seed)

    def altered(self, lines):
        """The lines with up to two alterations; in one of five records none."""
        for _ in range(self.random.choice((0, 1, 1, 1, 2))):
            way = self.random.choice((self.drop, self.double, self.swap, self.reply, self.reply, self.word, self.moment, self.client, self.bytes, self.note))
            way(lines)
        return lines

    def place(self, lines, first=0):
        return self.random.randrange(first, len(lines)) if len(lines) > first else 0

    def drop(self, lines):
        del lines[self.place(lines)]
        if not lines:
            lines.append(b"")

    def double(self, lines):
        at = self.place(lines)
        lines.insert(self.random.choice((at, at + 1, len(lines))), lines[at])

    def swap(self, lines):
        one = self.place(lines)
        other = self.random.choice((self.place(lines), min(one + 1, len(lines) - 1)))
        lines[one], lines[other] = lines[other], lines[one]

    def reply(self, lines):
        at = self.place(lines, 1)
        front, equals, _ = lines[at].rpartition(b" = ")
        if equals:
            lines[at] = front + equals + self.random.choice(VALUES)
        if equals and self.random.random() < 0.1:
            lines[at] += b" ; " + self.random.choice(VALUES)

    def word(self, lines):
        at = self.place(lines, 1)
        words = lines[at].split(b" ")
        if len(words) > 3:
            words[self.random.randrange(3, len(words))] = b'"%b"' % self.random.choice(WORDS)
        lines[at] = b" ".join(words)

    def moment(self, lines):
        at = self.place(lines, 1)
        words = lines[at].split(b" ")
        if words[0] == b"call":
            words[1] = b"%d" % self.random.choice((0, 1, 99, 400, 3700, 2**40 - 1, 2**40, 2**64))
        lines[at] = b" ".join(words)

    def client(self, lines):
        at = self.place(lines, 1)
        words = lines[at].split(b" ")
        which = 2 if words[0] == b"call" else 1
        if len(words) > which:
            words[which] = self.random.choice((b"1", b"2", b"3", b"4096", b"4097", b"4294967295", b"4294967296", b"01"))
        lines[at] = b" ".join(words)

    def note(self, lines):
        at = self.random.randrange(1, len(lines) + 1)
        lines.insert(at, b"heard %d %b" % (self.random.choice((1, 1, 2, 3, 9)), self.random.choice(NOTES)))

    def bytes(self, lines):
        at = self.place(lines)
        line = bytearray(lines[at])
        if line:
            line[self.random.randrange(len(line))] = self.random.choice(b' "\\x0a\xff\xc3:*-')
        lines[at] = bytes(line).replace(b"\n", b"")


def record_of(seed):
    """The record of a lawful front of a random schedule, altered or not."""
    lines = Maker(seed).schedule().split(b"\n")
    status, text, world = model.replay(b"\n".join(lines))
    if status == 3:
        # The entries before the bad line are lawful, and so is their record.
        assert text.startswith(b"bad line")
    made = record(world).split(b"\n")[:-1]
    end = random.Random("end %d" % seed).choice((b"\n", b"\n", b""))
    return b"\n".join(Mutator(seed).altered(made)) + end


def differs(program, seed):
    """Whether program and judge differ over the record of a seed, and what to print; else what both ended with."""
    data = record_of(seed)
    wanted = judged(data)
    if program:
        done = subprocess.run([program, "check"], input=data, stdout=subprocess.PIPE, check=False)
        given = done.returncode, done.stdout
    else:
        given = wanted
    if wanted == given:
        return None, "report" if wanted[0] == 0 else "full" if wanted[0] == 9 else wanted[1].split(b": ")[1].strip().decode()
    shown = "seed %d\nrecord %r\njudge   status %d\nprogram status %d\n" % (seed, data[:20000], wanted[0], given[0])
    return shown + first_difference(wanted[1], given[1]), None


def main():
    words = argparse.ArgumentParser(description=__doc__.split("\n")[0])
    words.add_argument("--program", default=PROGRAM)
    words.add_argument("--alone", action="store_true", help="the judge alone: how the records end")
    words.add_argument("--count", type=int, default=10_000, help="how many records at most")
    words.add_argument("--seconds", type=float, default=600, help="how long at most")
    words.add_argument("--seed", type=int, default=1, help="the first seed; the others follow it")
    words.add_argument("--jobs", type=int, default=2, help="how many runs side by side")
    given = words.parse_args()
    program = None if given.alone else given.program
    end, endings = time.monotonic() + given.seconds, Counter()
    with ProcessPoolExecutor(given.jobs) as pool:
        for first in range(given.seed, given.seed + given.count, 200):
            seeds = range(first, min(first + 200, given.seed + given.count))
            for difference, ending in pool.map(differs, [program] * len(seeds), seeds, chunksize=10):
                if difference:
                    sys.exit(difference)
                endings[ending] += 1
            if time.monotonic() > end:
                break
    print(endings.total(), "records, no difference:", ", ".join("%s %d" % it for it in sorted(endings.items())))


if __name__ == "__main__":
    main()
