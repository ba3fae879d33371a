#!/usr/bin/env python3
"""Lists the public names of definitions that specs of two crates define, each with its places: each name means one thing.

Run by hand at the top of the repository: python3 bench/spec_names.py
"""

import os
import re

ROOT = os.path.dirname(os.path.dirname(os.path.abspath(__file__)))
CRATES = os.path.join(ROOT, "crates")
DEFINED = re.compile(r"^(?:abbrev |unfoldable )?pub (?:record |data )?([^\s:({]+)")
NO_NAMES = {"mod", "use"}


def spec_files():
    """Each file of a crate's specs, with the crate."""
    for crate in sorted(os.listdir(CRATES)):
        for folder, _, files in os.walk(os.path.join(CRATES, crate, "specs")):
            for name in sorted(files):
                yield crate, os.path.join(folder, name)


def main():
    """Prints a line for each name that has more than one crate."""
    places = {}
    for crate, path in spec_files():
        with open(path, encoding="utf-8") as lines:
            found = [DEFINED.match(line) for line in lines]
        for name in {match.group(1) for match in found if match} - NO_NAMES:
            places.setdefault(name, {})[crate] = os.path.basename(path).removesuffix(".antt")
    for name, crates in sorted(places.items()):
        if len(crates) > 1:
            print(name, ", ".join(f"{crate}/{file}" for crate, file in sorted(crates.items())), sep="\t")


if __name__ == "__main__":
    main()
