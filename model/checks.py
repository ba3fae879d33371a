#!/usr/bin/env python3
"""An independent judge of records, written from the formats alone: what `celery_node check` must write.

python3 model/checks.py < RECORD writes the report of the history that a record spells, or its first bad line with its
reason, or the two numbers of a full history.
"""

import re
import sys

from manners import Client
from replies import NULL_BULK, Problem, Simple, bulks
from reports import report
from schedules import COST_LIMIT, DECIMAL, ENTRY_LIMIT, MOMENT_LIMIT, Bad, Entry, Full, needs
from short_forms import quoted
from store import Store

INPUT_LIMIT = 67_108_864
LINE_LIMIT = 8_388_608
BULK_LIMIT, WORDS_LIMIT, VALUE_LIMIT, DEPTH_LIMIT = 1_048_576, 4096, 8_388_608, 64
PLAIN = re.compile(rb'"((?:[\x20\x21\x23-\x5b\x5d-\x7e]|\\["\\]|\\x[0-9a-f]{2})*)"')
ESCAPE = re.compile(rb'\\(["\\]|x[0-9a-f]{2})')
INTEGER = re.compile(rb"0|-?[1-9][0-9]*")
WORD = re.compile(rb"[A-Za-z]+")
# Each note with what stands after its name.
NOTES = {
    "TOOK": ("tag",), "FINISHED": ("tag", "outcome"), "EXPIRED": ("tag", "integer", "integer"), "REVOKED": ("tag",),
    "REJECTED": ("tag",), "HELD": ("tag", "integer"), "UNREADABLE": (),
}
sys.set_int_max_str_digits(0)


class Note(Entry):
    """What a client noted, with its text in a report."""

    def __init__(self, conn, note):
        super().__init__(conn)
        self.note = note


class Text:
    """What is left of a line."""

    def __init__(self, line):
        self.line, self.place = line, 0

    def is_at(self, front):
        return self.line.startswith(front, self.place)

    def skip(self, front):
        needs(self.is_at(front), "syntax")
        self.place += len(front)

    def pattern(self, pattern):
        found = pattern.match(self.line, self.place)
        needs(found, "syntax")
        self.place = found.end()
        return found[0]

    def number(self, limit=None):
        number = int(self.pattern(DECIMAL))
        needs(limit is None or number < limit, "syntax")
        return number

    def quoted(self):
        """The bytes of a quoted form, of which each byte has one spelling."""
        found = PLAIN.match(self.line, self.place)
        needs(found, "syntax")
        self.place = found.end()
        hexes = [it for it in ESCAPE.findall(found[1]) if it.startswith(b"x")]
        needs(not any(0x20 <= int(it[1:], 16) <= 0x7E for it in hexes), "syntax")
        return ESCAPE.sub(lambda it: bytes([int(it[1][1:], 16)]) if it[1].startswith(b"x") else it[1], found[1])

    def value(self, depth=0):
        needs(depth <= DEPTH_LIMIT, "syntax")
        for front, made in ((b"*-", None), (b"$-", NULL_BULK)):
            if self.is_at(front):
                self.skip(front)
                return made
        for front, made in ((b"+", Simple), (b"-", Problem), (b"$", bytes)):
            if self.is_at(front):
                self.skip(front)
                return made(self.quoted())
        if self.is_at(b":"):
            self.skip(b":")
            return self.integer()
        self.skip(b"*[")
        items = []
        while not self.is_at(b"]"):
            if items:
                self.skip(b", ")
            items.append(self.value(depth + 1))
        self.skip(b"]")
        return items

    def integer(self):
        number = int(self.pattern(INTEGER))
        needs(-(2**63) <= number < 2**63, "syntax")
        return number

    def tag(self):
        seed = self.number(2**64)
        self.skip(b":")
        return "%d:%d" % (seed, self.number(2**64))

    def note(self):
        """A note, as a report shows it."""
        name = self.pattern(WORD).decode()
        needs(name in NOTES, "syntax")
        shown = [name]
        for part in NOTES[name]:
            self.skip(b" ")
            shown.append(str(getattr(self, part)()))
        return " ".join(shown)

    def outcome(self):
        """How a task ended; a success text is shown as it is."""
        name = self.pattern(WORD).decode()
        needs(name in ("success", "failure", "retry"), "syntax")
        self.skip(b" ")
        if name == "retry":
            return "retry %d" % self.number(2**64)
        text = self.quoted()
        return "%s %s" % (name, text.decode("latin-1") if name == "success" else quoted(text))

    def ends(self):
        needs(self.place == len(self.line), "syntax")


def same(one, other):
    """Whether two values are the same, kinds and all."""
    if isinstance(one, list) and isinstance(other, list):
        return len(one) == len(other) and all(map(same, one, other))
    return type(one) is type(other) and one == other


def fits(words):
    """Whether words are within the limits of a command."""
    spelled = sum(len(b"$%d\r\n" % len(word)) + len(word) + 2 for word in words) + len(b"*%d\r\n" % len(words))
    return 1 <= len(words) <= WORDS_LIMIT and all(len(word) <= BULK_LIMIT for word in words) and spelled <= VALUE_LIMIT


class Judged:
    """The clients, the store and the history that a record's lines led to."""

    def __init__(self):
        self.clients, self.stopped, self.store, self.entries, self.cost = {}, set(), Store(), [], 0

    def line(self, line):
        try:
            line.decode()
        except UnicodeDecodeError:
            raise Bad("text") from None
        text = Text(line)
        if text.is_at(b"client "):
            self.client(text)
        elif text.is_at(b"stop "):
            self.stop(text)
        elif text.is_at(b"heard "):
            self.heard(text)
        else:
            self.call(text)

    def client(self, text):
        text.skip(b"client ")
        conn = text.number(2**32)
        text.skip(b" seed ")
        seed = text.number(2**64)
        text.ends()
        needs(not self.entries and all(conn >= other for other in self.clients), "syntax")
        needs(conn not in self.clients and all(seed != other.seed for other in self.clients.values()), "repeated")
        self.clients[conn] = Client(seed)

    def going(self, conn):
        needs(conn in self.clients, "unknown client")
        needs(conn not in self.stopped, "stopped")

    def room(self):
        if len(self.entries) >= ENTRY_LIMIT or self.cost >= COST_LIMIT:
            raise Full

    def stop(self, text):
        text.skip(b"stop ")
        conn = text.number(2**32)
        text.ends()
        self.going(conn)
        self.room()
        self.store.gone(conn)
        self.stopped.add(conn)
        self.entries.append(Entry(conn))
        self.cost += 64

    def heard(self, text):
        text.skip(b"heard ")
        conn = text.number(2**32)
        text.skip(b" ")
        note = text.note()
        text.ends()
        self.going(conn)
        self.room()
        self.entries.append(Note(conn, note))
        self.cost += 64

    def call(self, text):
        text.skip(b"call ")
        at = text.number()
        text.skip(b" ")
        conn = text.number(2**32)
        text.skip(b" ")
        words = []
        while not text.is_at(b"= "):
            words.append(text.quoted())
            text.skip(b" ")
        text.skip(b"= ")
        values = [text.value()]
        while text.is_at(b" ; "):
            text.skip(b" ; ")
            values.append(text.value())
        text.ends()
        needs(fits(words), "syntax")
        self.going(conn)
        needs(at < MOMENT_LIMIT, "moment")
        self.room()
        pushed, answer = self.store.apply(at, conn, words)
        needs(same([*pushed, answer], values), "illegal")
        needs(self.clients[conn].call(at, words, answer), "unmannered")
        self.entries.append(Entry(conn, at, words, pushed, answer))
        self.cost += 64 + sum(map(len, words)) + bulks(pushed) + bulks(answer)


def judged(data):
    """The status and the text for the bytes of a record."""
    lines = data.split(b"\n")
    if not lines[-1] and len(lines) > 1:
        lines.pop()
    past = data[:INPUT_LIMIT].count(b"\n") if len(data) > INPUT_LIMIT else None
    found = Judged()
    for place, line in enumerate(lines):
        try:
            needs(place != past and len(line) <= LINE_LIMIT, "long")
            if place == 0:
                needs(line == b"celery-record 1", "header")
            else:
                found.line(line)
        except Bad as bad:
            return 3, b"bad line %d: %s\n" % (place + 1, str(bad).encode())
        except Full:
            return 9, b"history full %d %d\n" % (len(found.entries), found.cost)
    return 0, report(found)


def main():
    status, text = judged(sys.stdin.buffer.read())
    sys.stdout.buffer.write(text)
    sys.exit(status)


if __name__ == "__main__":
    main()
