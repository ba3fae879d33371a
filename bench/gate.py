#!/usr/bin/env python3
"""Runs `rt ci`, and prints what it took by crate: its own proof, its tests and its edits, in processor seconds.

Run by hand at the top of the repository: python3 bench/gate.py [WORD ..]
The words go to `rt ci`. With `--watch PID` a run that goes on is looked at in place of a new one, from now on.
Only what is proved in this run counts: what `rt ci` kept of an earlier one takes no time. Processes are looked at five
times a second, so a figure may miss the last fifth of a second of each.
"""

import os
import re
import subprocess
import sys
import time

ROOT = os.path.dirname(os.path.dirname(os.path.abspath(__file__)))
TICKS = os.sysconf("SC_CLK_TCK")
KINDS = ("proof", "tests", "edits", "programs")


def crates_below():
    """Each crate of crates.txt with the crates of the repository that it stands on."""
    found = {}
    with open(os.path.join(ROOT, "crates.txt")) as lines:
        for line in lines:
            head, colon, rest = line.split("#")[0].partition(":")
            if colon:
                found[head.split()[0]] = rest.split()
    return {name: [it for it in below if it in found] for name, below in found.items()}


def functions_of(crate):
    """How many functions a crate's sources have."""
    count = 0
    for folder, _, names in os.walk(os.path.join(ROOT, "crates", crate, "src")):
        for name in names:
            with open(os.path.join(folder, name)) as source:
                count += len(re.findall(r"(?m)^\s*(?:pub(?:\([^)]*\))? )?(?:const )?fn \w", source.read()))
    return count


def processes():
    """Each process by its number: its parent, its beginning, and the seconds that it and its ended children took."""
    found = {}
    for number in filter(str.isdigit, os.listdir("/proc")):
        try:
            with open(f"/proc/{number}/stat") as it:
                fields = it.read().rpartition(")")[2].split()
        except OSError:
            continue
        found[int(number)] = int(fields[1]), fields[19], sum(map(int, fields[11:15])) / TICKS
    return found


def kind_of(number):
    """The crate and the kind of work of a process of rattle; None for another one."""
    try:
        with open(f"/proc/{number}/cmdline") as it:
            words = it.read().split("\0")
        folder = os.readlink(f"/proc/{number}/cwd")
    except OSError:
        return None
    if os.path.basename(words[0]) != "rattle" or "--crate-name" not in words:
        return None
    crate = words[words.index("--crate-name") + 1]
    if re.search(r"/rt-edits?-", folder):
        return crate, "edits"
    if "--crate-checked" in words:
        return crate, "programs"
    return crate, "tests" if "--test" in words else "proof"


class Seen:
    """What was seen of the processes of rattle below a run."""

    def __init__(self):
        self.kinds = {}
        self.seconds = {}

    def look(self, run):
        """Looks once at all that is below the run."""
        found = processes()
        below = {}
        for number, (parent, _, _) in found.items():
            below.setdefault(parent, []).append(number)
        left = list(below.get(run, ()))
        while left:
            number = left.pop()
            name = number, found[number][1]
            if name not in self.kinds:
                self.kinds[name] = kind_of(number)
            if self.kinds[name]:
                seconds = self.whole(number, found, below)
                self.seconds[name] = max(seconds, self.seconds.get(name, 0))
            else:
                # One that has begun may still become a process of rattle.
                del self.kinds[name]
                left += below.get(number, ())

    def whole(self, number, found, below):
        """The seconds of a process with all below it."""
        return found[number][2] + sum(self.whole(it, found, below) for it in below.get(number, ()))

    def table(self):
        """The seconds by crate and kind."""
        sums = {}
        for name, (crate, kind) in ((name, it) for name, it in self.kinds.items() if it):
            sums[crate, kind] = sums.get((crate, kind), 0) + self.seconds[name]
        return sums


def longest(crate, below, sums, known):
    """The longest chain of own proofs that ends with this crate: its seconds and its crates."""
    if crate not in known:
        chains = [longest(it, below, sums, known) for it in below[crate]]
        seconds, names = max(chains, default=(0, []))
        own = sums.get((crate, "proof"), 0)
        known[crate] = seconds + own, names + [crate] * (own > 0)
    return known[crate]


def show(sums, wall):
    below = crates_below()
    print(f"{'crate':<20} {'functions':>9} " + " ".join(f"{kind:>8}" for kind in KINDS) + f" {'all':>8}")
    for crate in [*below, "all"]:
        rows = [it for it in sums if crate in (it[0], "all")]
        each = [sum(sums[it] for it in rows if it[1] == kind) for kind in KINDS]
        if rows:
            functions = sum(map(functions_of, below)) if crate == "all" else functions_of(crate)
            print(f"{crate:<20} {functions:>9} " + " ".join(f"{it:>8.0f}" for it in [*each, sum(each)]))
    seconds, names = max(longest(it, below, sums, known) for known in [{}] for it in below)
    print(f"processor minutes: {sum(sums.values()) / 60:.0f}; minutes of the run: {wall / 60:.0f}")
    print(f"longest chain of own proofs: {seconds / 60:.1f} minutes: {' '.join(names)}")


def main():
    words = sys.argv[1:]
    started = None
    if words[:1] == ["--watch"]:
        run = int(words[1])
    else:
        started = subprocess.Popen(["rt", "ci", *words], cwd=ROOT)
        run = started.pid
    seen, begun = Seen(), time.monotonic()
    try:
        while os.path.exists(f"/proc/{run}") and (started is None or started.poll() is None):
            seen.look(run)
            time.sleep(0.2)
    except KeyboardInterrupt:
        pass
    show(seen.table(), time.monotonic() - begun)
    if started is not None:
        sys.exit(started.wait())


if __name__ == "__main__":
    main()
