"""Where each accepted message of a history is, and the text that is written of the history."""

from bindings import split_key
from blocks import EXEC, INDEX, MULTI, TABLE
from collections import deque
from envelopes import read_envelope, read_tag, tag_text
from short_forms import short, short_reply
from store import Scores

PLACES = ("list", "unacked", "hand", "ended", "lost", "copies")


class Seen:
    """What the entries of a history tell of its messages."""

    def __init__(self, entries):
        self.accepted, self.copied, self.ended = {}, set(), {}
        self.hands, self.stopped, self.since = {}, set(), {}
        for entry in entries:
            self.add(entry)

    def add(self, entry):
        conn, words, answer = entry.conn, entry.words, entry.answer
        if hasattr(entry, "note"):
            return
        if words is None:
            self.stopped.add(conn)
            self.since.pop(conn, None)
        elif words == MULTI:
            self.since[conn] = []
        elif words == EXEC:
            self.hands.pop(conn, None)
            if isinstance(answer, list):
                self.ran(self.since.get(conn, []), answer)
            self.since.pop(conn, None)
        elif conn in self.since:
            self.since[conn].append(words)
        elif words[0] == b"BRPOP" and answer and split_key(answer[0]):
            found = read_envelope(answer[1])
            self.hands[conn] = found and found[0]
        else:
            self.pushed(words, answer)

    def pushed(self, words, answer):
        """A direct push."""
        tag = pushed_tag(words) if words[0] == b"LPUSH" and isinstance(answer, int) else None
        if tag in self.accepted:
            self.copied.add(tag)
        elif tag:
            self.accepted[tag] = True

    def ran(self, commands, answers):
        """A transaction that ran."""
        pushes = [tag for tag in map(pushed_tag, commands) if tag]
        self.copied.update(tag for tag in pushes if pushes.count(tag) > 1)
        for words, answer in zip(commands, answers):
            if words[:2] == [b"HDEL", TABLE] and answer == 1 and read_tag(words[2]) not in pushes:
                tag = read_tag(words[2])
                self.ended[tag] = self.ended.get(tag, 0) + 1

    def holders(self, tag, stopped):
        """The clients in whose hand a message is or was at their stop."""
        return sorted(conn for conn, held in self.hands.items() if held == tag and (conn in self.stopped) == stopped)


def pushed_tag(words):
    """The tag of the message that a push to a queue's key has."""
    if words[0] not in (b"LPUSH", b"RPUSH") or len(words) != 3 or not split_key(words[1]):
        return None
    found = read_envelope(words[2])
    return found and found[0]


def listed_tags(store):
    """The keys of queues in whose lists a message stands, once for each time that it does."""
    found = {}
    for key, held in store.keys.items():
        if isinstance(held, deque) and split_key(key):
            for element in held:
                envelope = read_envelope(element)
                if envelope:
                    found.setdefault(envelope[0], []).append(key)
    return found


class Unplaced(Exception):
    """A message is in no place or in two: the model itself is wrong, or the theorem."""


def placed(seen, lists, store, tag):
    """Where an accepted message is; one that is single is in exactly one place."""
    if tag in seen.copied:
        return "copies"
    text = tag_text(tag)
    table, index = store.keys.get(TABLE, {}), store.keys.get(INDEX, Scores())
    counts = [len(lists.get(tag, ())), int(text in table and text in index), len(seen.holders(tag, False)),
              seen.ended.get(tag, 0), len(seen.holders(tag, True))]
    if sum(counts) != 1 or (text in table) != (text in index):
        raise Unplaced(tag, counts)
    if counts[0]:
        queue, step = split_key(min(lists[tag]))
        return "list %s %d" % (short(queue), step)
    if counts[1]:
        return "unacked"
    if counts[2]:
        return "hand %d" % seen.holders(tag, False)[0]
    return "ended" if counts[3] else "lost %d" % seen.holders(tag, True)[0]


def places(world):
    """The accepted tags in the order of their first push, each with its place."""
    seen, lists = Seen(world.entries), listed_tags(world.store)
    return [(tag, placed(seen, lists, world.store, tag)) for tag in seen.accepted]


def row(number, entry):
    """The line of an entry."""
    if hasattr(entry, "note"):
        return "%d - %d %s" % (number, entry.conn, entry.note)
    if entry.words is None:
        return "%d - %d STOP" % (number, entry.conn)
    values = " ; ".join(map(short_reply, [*entry.pushed, entry.answer]))
    return "%d %d %d %s = %s" % (number, entry.moment, entry.conn, " ".join(map(short, entry.words)), values)


def report(world):
    rows = ["celery-report 1"] + [row(number, entry) for number, entry in enumerate(world.entries, 1)]
    found = places(world)
    rows += ["place %d:%d %s" % (*tag, place) for tag, place in found]
    kinds = [place.split()[0] for _, place in found]
    rows.append("total " + " ".join("%s %d" % (kind, kinds.count(kind)) for kind in PLACES))
    return "\n".join(rows).encode("latin-1") + b"\n"
