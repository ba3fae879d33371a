#!/usr/bin/env python3
"""Runs `celery_node show` over random streams, cut at random and mutated at random, and compares with `wire_reader.py`.

Run by hand, after ./celery_node has built the program: python3 bench/random_streams.py [--count N] [--seed N]
A stream depends on its seed alone. The first difference is printed with its seed and the status is then 1.
"""

import argparse
import os
import random
import subprocess
import sys
from collections import Counter
from concurrent.futures import ThreadPoolExecutor

import wire_reader

ROOT = os.path.dirname(os.path.dirname(os.path.abspath(__file__)))
PROGRAM = os.path.join(ROOT, "crates", "celery_node", "out", "celery_node")

NUMBERS = [0, 1, -1, 9, 10, -10, 2 ** 63 - 1, -(2 ** 63), 4096, 1048576, 255]
SPLICES = [
    b":+5\r\n", b"$-0\r\n", b":007\r\n", b":-0\r\n", b"$1048577\r\n", b"*4097\r\n", b"*1\r\n" * 5, b"*-1\r\n", b"$-1\r\n",
    b"\r\n", b"\n", b"\r", b"+a\n", b":9223372036854775808\r\n", b":-9223372036854775809\r\n", b"$-2\r\n", b"*-2\r\n", b"$01\r\n",
    b"$-10\r\n", b"$1048576\r\n", b"*4096\r\n", b"*0\r\n", b"$0\r\n\r\n", b"-\r\n", b"+\r\n", b":\r\n", b"$\r\n", b"*\r\n", b":-\r\n",
]


def line(chance):
    return bytes(chance.choice(b"abcXYZ \"\\\x00\xff\x7f~") for _ in range(chance.randrange(0, 12)))


def spell(chance, depth):
    """The spelling of a random value."""
    shape = chance.randrange(9 if depth < 4 else 6)
    if shape == 0:
        return b"+" + line(chance) + b"\r\n"
    if shape == 1:
        return b"-" + line(chance) + b"\r\n"
    if shape == 2:
        return b":%d\r\n" % chance.choice(NUMBERS + [chance.randrange(-(2 ** 63), 2 ** 63)])
    if shape in (3, 4):
        content = bytes(chance.randrange(256) for _ in range(chance.choice((0, 1, 2, 5, 30))))
        return b"$%d\r\n" % len(content) + content + b"\r\n"
    if shape == 5:
        return b"$-1\r\n"
    if shape == 6:
        return b"*-1\r\n"
    items = [spell(chance, depth + 1) for _ in range(chance.choice((0, 1, 2, 3)))]
    return b"*%d\r\n" % len(items) + b"".join(items)


def stream_of(seed):
    """A stream of random values, mostly with some bytes changed, taken out, put in, or cut off."""
    chance = random.Random(seed)
    data = bytearray(b"".join(spell(chance, 0) for _ in range(chance.randrange(0, 6))))
    for _ in range(chance.choice((0, 0, 1, 1, 2, 4))):
        at = chance.randrange(len(data) + 1)
        way = chance.randrange(5)
        if way == 0 and at < len(data):
            data[at] = chance.choice(b"0123456789+-:$*\r\nx\x00\xff")
        elif way == 1 and at < len(data):
            del data[at]
        elif way == 2:
            data[at:at] = bytes((chance.choice(b"0123456789+-:$*\r\nx"),))
        elif way == 3:
            data[at:at] = chance.choice(SPLICES)
        else:
            del data[at:]
    return bytes(data)


def cuts_of(seed, data):
    """The stream in pieces, cut at random."""
    chance = random.Random(-1 - seed)
    cuts = sorted(chance.randrange(len(data) + 1) for _ in range(chance.choice((0, 1, 3, 8))))
    return [data[a:b] for a, b in zip([0] + cuts, cuts + [len(data)]) if a < b]


def shown(seed, data):
    """The text and the status of the program over a stream that comes in pieces."""
    child = subprocess.Popen([PROGRAM, "show"], stdin=subprocess.PIPE, stdout=subprocess.PIPE)
    try:
        for piece in cuts_of(seed, data):
            child.stdin.write(piece)
            child.stdin.flush()
    except BrokenPipeError:
        pass
    text, _ = child.communicate()
    return text, child.returncode


def differs(seed):
    """What the program and the reader say of a stream, where they differ, and the kind of its end."""
    data = stream_of(seed)
    text, status, _ = wire_reader.show(data)
    found = shown(seed, data)
    end = text.splitlines()[-1].split(b" at ")[0].decode() if status else "whole"
    return (None if found == (text, status) else (data, (text, status), found)), end


def main():
    words = argparse.ArgumentParser()
    words.add_argument("--count", type=int, default=20000)
    words.add_argument("--seed", type=int, default=1)
    args = words.parse_args()
    ends = Counter()
    seeds = range(args.seed, args.seed + args.count)
    with ThreadPoolExecutor(os.cpu_count()) as pool:
        for seed, (difference, end) in zip(seeds, pool.map(differs, seeds)):
            ends[end] += 1
            if difference:
                data, wanted, found = difference
                print(f"seed {seed}: stream {data!r}\n  wanted {wanted!r}\n  found {found!r}")
                return 1
    print(f"{args.count} streams from seed {args.seed}: no difference; ends {dict(ends)}")
    return 0


if __name__ == "__main__":
    sys.exit(main())
