#!/usr/bin/env python3
"""Compares when our crontabs are due with Python's calendar.

Run by hand, after the program crontab_lines was built by `rt run` in crates/crontab_lines:
python3 interop/crontabs.py [SEED] [COUNT] [PROGRAM]
Random fields, some of them broken, and random spans from seconds to centuries; 1,000 of the short spans are also gone
through minute by minute. A last part times 1,000 entries after a gap of a year.
"""

import calendar
import datetime
import os
import random
import re
import subprocess
import sys
import time

ROOT = os.path.dirname(os.path.dirname(os.path.abspath(__file__)))
PROGRAM = os.path.join(ROOT, "crates", "crontab_lines", "out", "crontab_lines")
EPOCH = datetime.datetime(1970, 1, 1)
LAST_MINUTE = 4223371679
BOUNDS = [(0, 59), (0, 23), (1, 31), (1, 12), (0, 6)]

NUMBER = re.compile(r"0|[1-9][0-9]*", re.ASCII)


def number(text, low, high):
    """The number that a text spells within bounds, or none."""
    if not NUMBER.fullmatch(text) or not low <= int(text) <= high:
        return None
    return int(text)


def numbers(text, low, high):
    """The numbers of a field, or none where it is broken."""
    chosen = set()
    for part in text.split(","):
        span, slash, step = part.partition("/")
        if slash:
            if not NUMBER.fullmatch(step) or int(step) == 0 or not (span == "*" or "-" in span):
                return None
            step = int(step)
        else:
            step = 1
        if span == "*":
            first, last = low, high
        elif "-" in span:
            first, _, last = span.partition("-")
            first, last = number(first, low, high), number(last, low, high)
            if first is None or last is None or first > last:
                return None
        else:
            first = last = number(span, low, high)
            if first is None:
                return None
        chosen.update(range(first, last + 1, step))
    return chosen


def is_due(fields, second, now):
    """Whether a matching minute begins after a second and at or before another; the calendar ends with the year 9999."""
    minutes, hours, days, months, weekdays = fields
    start = second // 60 + 1
    try:
        moment = EPOCH + datetime.timedelta(minutes=start)
    except OverflowError:
        return False
    end = EPOCH + datetime.timedelta(minutes=min(now // 60, LAST_MINUTE))
    day, floor = moment.date(), moment.hour * 60 + moment.minute
    times = sorted(h * 60 + m for h in hours for m in minutes)
    year, month = day.year, day.month
    while (year, month) <= (end.year, end.month):
        if month in months:
            for number_of_day in range(1, calendar.monthrange(year, month)[1] + 1):
                date = datetime.date(year, month, number_of_day)
                if date < day or number_of_day not in days or date.isoweekday() % 7 not in weekdays:
                    continue
                for minute in times:
                    if date > day or minute >= floor:
                        return (date - EPOCH.date()).days * 86400 + minute * 60 <= now
        year, month = (year, month + 1) if month < 12 else (year + 1, 1)
    return False


def walked(fields, last, now):
    """The same by each minute of the span."""
    minutes, hours, days, months, weekdays = fields
    for minute in range(last // 60 + 1, now // 60 + 1):
        at = EPOCH + datetime.timedelta(minutes=minute)
        if at.minute in minutes and at.hour in hours and at.day in days and at.month in months and at.isoweekday() % 7 in weekdays:
            return True
    return False


def field(rng, low, high):
    """A field, now and then a broken one."""
    def part():
        kind = rng.randrange(6)
        a, b = sorted((rng.randint(low, high), rng.randint(low, high)))
        return ["*", f"*/{rng.randint(1, high + 3)}", str(a), f"{a}-{b}", f"{a}-{b}/{rng.randint(1, 9)}", str(b)][kind]

    text = "*" if rng.random() < 0.3 else ",".join(part() for _ in range(rng.choice([1, 1, 1, 2, 3])))
    if rng.random() < 0.02:
        place = rng.randrange(len(text) + 1)
        text = text[:place] + rng.choice("0123456789,-/*x") + text[place:]
    return text


def span(rng):
    """A last moment and the present one."""
    last = rng.choice([0, 951782400, 1709164800, 4107542400, rng.randrange(2**32), rng.randrange(253402300800)])
    last += rng.choice([0, 0, -1, 1, rng.randrange(86400)])
    gap = rng.choice([1, 59, 60, 61, 3600, 86400, 86400 * 31, 86400 * 366, 86400 * 366 * 8])
    return max(last, 0), max(last, 0) + rng.randrange(gap + 1)


def answers(lines):
    """What the program answers."""
    program = sys.argv[3] if len(sys.argv) > 3 else PROGRAM
    told = subprocess.run([program], input="\n".join(lines) + "\n", capture_output=True, text=True, check=True).stdout
    return told.split("\n")[:-1]


def main():
    seed = int(sys.argv[1]) if len(sys.argv) > 1 else 1
    count = int(sys.argv[2]) if len(sys.argv) > 2 else 20000
    rng = random.Random(seed)
    lines, wanted, walks = [], [], 0
    for _ in range(count):
        texts = [field(rng, low, high) for low, high in BOUNDS]
        last, now = span(rng)
        fields = [numbers(text, low, high) for text, (low, high) in zip(texts, BOUNDS)]
        lines.append(f"{last} {now} {' '.join(texts)}")
        if None in fields:
            wanted.append("bad")
            continue
        due = is_due(fields, last, now)
        if walks < 1000 and now - last <= 3 * 86400 and now < 253402300800:
            walks += 1
            if walked(fields, last, now) != due:
                sys.exit(f"crontabs: Python's two ways differ at {lines[-1]}")
        wanted.append("due" if due else "idle")
    told = answers(lines)
    differences = [(line, a, b) for line, a, b in zip(lines, wanted, told) if a != b]
    for line, a, b in differences[:20]:
        print(f"{line}: wanted {a}, told {b}")
    kinds = {kind: wanted.count(kind) for kind in ("due", "idle", "bad")}
    print(f"seed {seed}: {count} entries, {kinds}, {walks} of them minute by minute, {len(differences)} differences")

    year = [f"1714564800 {1714564800 + 366 * 86400} {fields}" for fields in ("0 0 31 * 1", "0 0 29 2 1", "59 23 13 * 5", "7 7 7 7 7")] * 250
    begun = time.perf_counter()
    answers(["x"] * 1000)
    idle = time.perf_counter() - begun
    begun = time.perf_counter()
    answers(year)
    spent = time.perf_counter() - begun
    print(f"1,000 entries after a year: {1000 * (spent - idle):.1f} ms with their reading")
    sys.exit(1 if differences or len(told) != count else 0)


if __name__ == "__main__":
    main()
