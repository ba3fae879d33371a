#!/usr/bin/env python3
"""Tries the edits of bench/edits on a copy of the repository, and prints which of them the prover refuses.

Run by hand: python3 bench/try_edits.py [CRATE ..]
An edit is written as those of must-fail/. The copy's crates have these edits in place of their own, and `rt must-fail`
tries them over what a check of each crate proved. An edit that is still proved ends this with status 1.
"""

import os
import shutil
import subprocess
import sys
import tempfile

ROOT = os.path.dirname(os.path.dirname(os.path.abspath(__file__)))
EDITS = os.path.join(ROOT, "bench", "edits")


def copied(crates, to):
    """Copies what a proof reads, with the edits of these crates in place of those that stand there."""
    for name in ("crates.txt", "HANDLES"):
        shutil.copy(os.path.join(ROOT, name), to)
    leave = shutil.ignore_patterns("out", "must-fail")
    shutil.copytree(os.path.join(ROOT, "crates"), os.path.join(to, "crates"), ignore=leave)
    for crate in crates:
        shutil.copytree(os.path.join(EDITS, crate), os.path.join(to, "crates", crate, "must-fail"))


def main():
    every = sorted(os.listdir(EDITS))
    crates = sys.argv[1:] or every
    for crate in crates:
        if crate not in every:
            sys.exit(f"try_edits: bench/edits has no folder {crate}; it has {' '.join(every)}")
    with tempfile.TemporaryDirectory(prefix="tried-edits-") as copy:
        copied(crates, copy)
        for crate in crates:
            subprocess.run(["rt", "check", "--jobs", "1"], cwd=os.path.join(copy, "crates", crate), stdout=subprocess.DEVNULL, check=True)
        sys.exit(subprocess.run(["rt", "must-fail", *crates], cwd=copy).returncode)


if __name__ == "__main__":
    main()
