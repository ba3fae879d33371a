#!/usr/bin/env python3
"""An independent model of `celery_node replay`, which `random_runs.py` compares with the program byte by byte.

It is written from the formats alone, not from the program's code. As a command it does what the program does:
python3 model/model.py < SCHEDULE
"""

import sys

from reports import report
from schedules import Bad, Full, World, check_text, needs

INPUT_LIMIT = 67_108_864
sys.set_int_max_str_digits(0)


def replay(data):
    """The status and the text for the bytes of a schedule, and the world to which they lead."""
    lines = data.split(b"\n")
    if not lines[-1] and len(lines) > 1:
        lines.pop()
    past = data[:INPUT_LIMIT].count(b"\n") if len(data) > INPUT_LIMIT else None
    world = World()
    for place, line in enumerate(lines):
        try:
            needs(place != past, "long")
            if place == 0:
                check_text(line)
                needs(line == b"celery-schedule 1", "header")
            else:
                world.line(line)
        except Bad as bad:
            return 3, b"bad line %d: %s\n" % (place + 1, str(bad).encode()), world
        except Full:
            return 9, b"history full %d %d\n" % (len(world.entries), world.cost), world
    return 0, report(world), world


def main():
    status, text, _ = replay(sys.stdin.buffer.read())
    sys.stdout.buffer.write(text)
    sys.exit(status)


if __name__ == "__main__":
    main()
