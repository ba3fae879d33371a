#!/usr/bin/env python3
"""Runs `celery_node replay` and the model in `model.py` over random schedules, and compares texts and statuses.

Run by hand, after ./celery_node has built the program: python3 model/random_runs.py [--count N] [--seconds N]
First each schedule of examples/ is run, and both are compared with the report beside it. A random schedule depends on its
seed alone. The first difference is printed with its seed and the status is then 1; else how often each ending came, and
in how many schedules each of the things that `reached.py` names. With --alone the model runs without the program.
"""

import argparse
import os
import subprocess
import sys
import time
from collections import Counter
from concurrent.futures import ProcessPoolExecutor

import model
from random_schedules import Maker, crowded_schedule, full_schedule
from reached import Reached

ROOT = os.path.dirname(os.path.dirname(os.path.abspath(__file__)))
PROGRAM = os.path.join(ROOT, "crates", "celery_node", "out", "celery_node")
EXAMPLES = os.path.join(ROOT, "examples")
CROWDED = 400
"""Of so many schedules one has an exchange with as many bindings as there may be."""


def ran(program, data):
    """The status and the text of the program."""
    done = subprocess.run([program, "replay"], input=data, stdout=subprocess.PIPE, check=False)
    return done.returncode, done.stdout


def differing_example(program):
    """The name of an example for which the program or the model writes another report than the one beside it, if there is one."""
    for name in sorted(it[: -len(".schedule")] for it in os.listdir(EXAMPLES) if it.endswith(".schedule")):
        with open(os.path.join(EXAMPLES, name + ".schedule"), "rb") as schedule:
            data = schedule.read()
        with open(os.path.join(EXAMPLES, name + ".report"), "rb") as report:
            wanted = 0, report.read()
        if model.replay(data)[:2] != wanted or (program and ran(program, data) != wanted):
            return name
    return None


def schedule_of(seed, full):
    if full:
        return full_schedule(seed)
    return crowded_schedule(seed) if seed % CROWDED == 0 else Maker(seed).schedule()


def first_difference(wanted, given):
    """The first line in which two texts differ."""
    for number, (one, other) in enumerate(zip(wanted.split(b"\n"), given.split(b"\n")), 1):
        if one != other:
            return (b"line %d\nmodel   %b\nprogram %b" % (number, one[:300], other[:300])).decode("latin-1")
    return "one text is a front of the other"


def differs(program, seed, full):
    """Whether program and model differ over the schedule of a seed, and what to print; else what both ended with and reached."""
    data = schedule_of(seed, full)
    status, text, world = model.replay(data)
    given = ran(program, data) if program else (status, text)
    if (status, text) == given:
        ending = {0: "report", 9: "full"}.get(status) or text.split(b": ")[1].strip().decode()
        return None, ending, len(world.entries), Reached(world).names if not full else set()
    shown = "seed %d\nschedule %r\nmodel   status %d\nprogram status %d\n" % (seed, data[:20000], status, given[0])
    return shown + first_difference(text, given[1]), None, 0, set()


def main():
    words = argparse.ArgumentParser(description=__doc__.split("\n")[0])
    words.add_argument("--program", default=PROGRAM)
    words.add_argument("--alone", action="store_true", help="the model alone: what the schedules reach")
    words.add_argument("--count", type=int, default=10_000, help="how many schedules at most")
    words.add_argument("--seconds", type=float, default=600, help="how long at most")
    words.add_argument("--seed", type=int, default=1, help="the first seed; the others follow it")
    words.add_argument("--full", action="store_true", help="histories filled up instead; each takes a minute")
    words.add_argument("--jobs", type=int, default=2, help="how many runs side by side")
    given = words.parse_args()
    program = None if given.alone else given.program
    wrong_example = differing_example(program)
    if wrong_example:
        sys.exit("examples/%s: the report beside it is another one" % wrong_example)
    end = time.monotonic() + given.seconds
    endings, names, entries = Counter(), Counter(), 0
    with ProcessPoolExecutor(given.jobs) as pool:
        # Few at a time, so that the clock is looked at in between.
        for first in range(given.seed, given.seed + given.count, 200):
            seeds = range(first, min(first + 200, given.seed + given.count))
            runs = pool.map(differs, *zip(*((program, seed, given.full) for seed in seeds)), chunksize=10)
            for difference, ending, length, reached in runs:
                if difference:
                    sys.exit(difference)
                endings[ending] += 1
                names.update(reached)
                entries += length
            if endings.total() % 1000 == 0:
                print(endings.total(), "schedules so far", file=sys.stderr, flush=True)
            if time.monotonic() > end:
                break
    ended = ", ".join("%s %d" % it for it in sorted(endings.items()))
    print(endings.total(), "schedules,", entries, "entries, no difference:", ended)
    print("reached:", ", ".join("%s %d" % it for it in sorted(names.items())))


if __name__ == "__main__":
    main()
