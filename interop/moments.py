#!/usr/bin/env python3
"""Compares the moments that our code reads and writes with those of Python's datetime.

Run by hand, after the program task_lines was built by `rt run` in crates/task_lines: python3 interop/moments.py [SEED]
Lawful texts in all their forms, broken texts one edit away from a lawful one, and the edges of years, months, offsets.
"""

import datetime
import os
import random
import re
import subprocess
import sys

ROOT = os.path.dirname(os.path.dirname(os.path.abspath(__file__)))
PROGRAM = os.path.join(ROOT, "crates", "task_lines", "out", "task_lines")
UTC = datetime.timezone.utc
EPOCH = datetime.datetime(1970, 1, 1, tzinfo=UTC)
MICROSECOND = datetime.timedelta(microseconds=1)

# The form of a moment's text; which dates and times are real is Python's to say.
FORM = re.compile(r"(\d{4}-\d\d-\d\dT\d\d:\d\d:\d\d)(?:\.(\d{1,6}))?(Z|[+-]\d\d:\d\d)?", re.ASCII)


def wanted(text):
    """The microseconds of a text by Python's datetime, or none."""
    found = FORM.fullmatch(text)
    if not found:
        return "none"
    front, fraction, zone = found.groups()
    try:
        shown = datetime.datetime.strptime(front, "%Y-%m-%dT%H:%M:%S")
    except ValueError:
        return "none"
    if int(front[17:19]) > 59:
        return "none"
    micros = int((fraction or "0").ljust(6, "0"))
    offset = datetime.timedelta(0)
    if zone and zone != "Z":
        hours, minutes = int(zone[1:3]), int(zone[4:6])
        if hours > 23 or minutes > 59:
            return "none"
        offset = datetime.timedelta(hours=hours, minutes=minutes)
        offset = -offset if zone[0] == "-" else offset
    try:
        moment = shown.replace(microsecond=micros) - offset
    except OverflowError:
        return "none"
    return str((moment.replace(tzinfo=UTC) - EPOCH) // MICROSECOND)


def lawful(rng):
    """A text of the form, mostly of a real moment."""
    year = rng.choice([1, 2, 1582, 1900, 1969, 1970, 2000, 2023, 2024, 2100, 9998, 9999, rng.randint(1, 9999)])
    month = rng.choice([1, 2, 2, 12, rng.randint(1, 12)])
    day = rng.choice([1, 28, 29, 30, 31, rng.randint(1, 28)])
    hour, minute, second = (rng.choice([0, top, rng.randint(0, top)]) for top in (23, 59, 59))
    text = f"{year:04}-{month:02}-{day:02}T{hour:02}:{minute:02}:{second:02}"
    digits = rng.choice([0, 0, 1, 2, 3, 4, 5, 6])
    if digits:
        text += "." + "".join(rng.choice("0123456789") for _ in range(digits))
    zone = rng.choice(["", "Z", "+00:00", "-00:00", "offset"])
    if zone == "offset":
        zone = f"{rng.choice('+-')}{rng.choice([0, 23, rng.randint(0, 23)]):02}:{rng.choice([0, 59, rng.randint(0, 59)]):02}"
    return text + zone


def broken(rng):
    """A lawful text with one edit."""
    text = lawful(rng)
    place = rng.randrange(len(text) + 1)
    other = rng.choice("0123456789:-+.,TtZz \u0664")
    edit = rng.choice(["put", "drop", "change"])
    if edit == "put":
        return text[:place] + other + text[place:]
    return text[:place] + ("" if edit == "drop" else other) + text[place + 1:]


# Each alone: the leap years, the edges of years through offsets, and what no moment is.
ALONE = [
    "1970-01-01T00:00:00", "1969-12-31T23:59:59.999999Z", "1970-01-01T01:00:00+01:00", "2024-02-30T00:00:00Z",
    "1900-02-29T00:00:00Z", "2000-02-29T00:00:00Z", "2024-02-29T00:00:00Z", "2023-02-29T00:00:00Z",
    "0001-01-01T00:00:00+00:01", "0001-01-01T00:00:00-00:01", "9999-12-31T23:59:59-00:01", "9999-12-31T23:59:59.999999",
    "0000-01-01T00:00:00Z", "2024-01-01T24:00:00Z", "2024-01-01T00:60:00Z", "2024-01-01T00:00:60Z", "2024-13-01T00:00:00Z",
    "2024-01-01T00:00:00,5Z", "2024-01-01T00:00:00.1234567Z", "2024-01-01T00:00:00.Z", "2024-01-01t00:00:00Z",
    "2024-01-01T00:00:00z", " 2024-01-01T00:00:00Z", "2024-01-01T00:00:00Z ", "2024-01-01 00:00:00", "2024-01-01",
    "2024-01-01T00:00", "2024-01-01T00:00:00+24:00", "2024-01-01T00:00:00+23:60", "2024-01-01T00:00:00+2359", "",
]


def asked(lines):
    """The program's answers; where it isn't built yet, those of its sources, without their proof."""
    command = [PROGRAM] if os.path.exists(PROGRAM) else ["rt", "try"]
    given = "".join(line + "\n" for line in lines).encode()
    done = subprocess.run(command, input=given, stdout=subprocess.PIPE, stderr=subprocess.PIPE, cwd=os.path.join(ROOT, "crates", "task_lines"))
    return done.stdout.decode().split("\n")[: len(lines)]


def compared(word, given, want):
    """Compares answers to lines of one word; the number of lines whose answers are the same."""
    answers = asked([f"{word}\t{text}" for text in given])
    if len(answers) != len(given):
        sys.exit(f"{word}: {len(given)} lines, {len(answers)} answers")
    other = [(text, answer, wish) for text, answer, wish in zip(given, answers, want) if answer != wish]
    for text, answer, wish in other[:20]:
        print(f"{word} {text!r}: {answer}, but {wish} by Python")
    if other:
        sys.exit(1)
    return len(given)


def main():
    """Compares reads and writes, and says how many of each."""
    seed = int(sys.argv[1]) if len(sys.argv) > 1 else 1
    rng = random.Random(seed)
    texts = ALONE + [lawful(rng) for _ in range(12_000)] + [broken(rng) for _ in range(12_000)]
    texts = [text for text in texts if "\n" not in text]
    want = [wanted(text) for text in texts]
    read = compared("moment", texts, want)
    low, high = -62_135_596_800_000_000, 253_402_300_799_999_999
    micros = [0, -1, low, high, low - 1, high + 1] + [rng.randint(low, high) for _ in range(5_000)] + [rng.randint(low // 10**6, high // 10**6) * 10**6 for _ in range(2_000)]
    spelled = ["none" if not low <= m <= high else (EPOCH + m * MICROSECOND).isoformat() for m in micros]
    written = compared("write", micros, spelled)
    print(f"seed {seed}: {read} texts read alike, {sum(w != 'none' for w in want)} of them moments; {written} moments written alike")


if __name__ == "__main__":
    main()
