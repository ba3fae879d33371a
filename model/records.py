#!/usr/bin/env python3
"""Records of histories, and made schedules, from the formats alone.

python3 model/records.py < SCHEDULE writes the record of the history that a schedule determines;
python3 model/records.py --make N writes the made schedule of N messages.
"""

import sys

from model import replay
from replies import NULL_BULK, Problem, Simple
from short_forms import quoted


def value_form(value):
    """A value in value form: None is the null array."""
    if value is None:
        return "*-"
    if isinstance(value, list):
        return "*[%s]" % ", ".join(map(value_form, value))
    if isinstance(value, int):
        return ":%d" % value
    if value is NULL_BULK:
        return "$-"
    return {Simple: "+", Problem: "-"}.get(type(value), "$") + quoted(bytes(value))


def entry_line(entry):
    if entry.words is None:
        return "stop %d" % entry.conn
    words = "".join(quoted(word) + " " for word in entry.words)
    values = " ; ".join(map(value_form, [*entry.pushed, entry.answer]))
    return "call %d %d %s= %s" % (entry.moment, entry.conn, words, values)


def record(world):
    """The record of the history that a schedule's lines led to."""
    clients = ["client %d seed %d" % (conn, world.clients[conn].seed) for conn in sorted(world.clients)]
    return "\n".join(["celery-record 1", *clients, *map(entry_line, world.entries), ""]).encode()


def made(count):
    """The made schedule of so many messages."""
    lines = ["celery-schedule 1", *("client %d seed %d" % (c, c) for c in (1, 2, 3))]
    for i in range(1, count + 1):
        popper = 2 + i % 2
        lines += ["at %d" % i, "begin 1 publish - celery %d tasks.add [%d,1]" % (i % 10, i), "run 1"]
        lines += ["begin %d pop celery" % popper, "run %d" % popper]
        if i % 10:
            lines += ["begin %d ack 1:%d" % (popper, i), "run %d" % popper]
    return "\n".join([*lines, "at 100000", "begin 3 pass 3600", "run 3", ""]).encode()


def main():
    if sys.argv[1:2] == ["--make"]:
        sys.stdout.buffer.write(made(int(sys.argv[2])))
        return
    status, text, world = replay(sys.stdin.buffer.read())
    sys.stdout.buffer.write(text if status else record(world))
    sys.exit(status)


if __name__ == "__main__":
    main()
