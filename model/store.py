"""The store: a state of keys and connections, and what each command does to it."""

import re
from collections import deque

from replies import NULL_BULK, OK, QUEUED, Problem, Simple

QUEUE_LIMIT = 4096
SET_LIMIT = 1024
MEMBER_LIMIT = 1024
PENDING_LIMIT = 1024
RANGE_LIMIT = 4096
INTEGER = re.compile(rb"0|-?[1-9][0-9]*")
ANY = float("inf")


class Refused(Exception):
    """The command is answered by the error of this text."""


class Scores(dict):
    """A sorted set: the score of each member."""


def integer(word, low=-(2**63), high=2**63 - 1):
    """The integer that a word spells, within bounds."""
    if not INTEGER.fullmatch(word) or len(word) > 20 or not low <= int(word) <= high:
        raise Refused(b"ERR integer")
    return int(word)


def seconds(word):
    return integer(word, 1, 2**32 - 1)


def fixed(word, wanted):
    if word != wanted:
        raise Refused(b"ERR syntax")


# --- The commands' spellings: each gives the arguments by which the command runs, or refuses

def words_as_they_are(*words):
    return words


def key_and_more(key, *more):
    return key, more


def all_words(*words):
    return (words,)


def number_alone(word):
    return (integer(word),)


def set_words(key, value, *options):
    """The key, the value, whether it must be absent, and the seconds to live or None."""
    if len(options) in (1, 3):
        fixed(options[0], b"NX")
    if len(options) in (2, 3):
        fixed(options[-2], b"EX")
    live = seconds(options[-1]) if len(options) > 1 else None
    return key, value, len(options) in (1, 3), live


def expire_words(key, live):
    return key, seconds(live)


def wait_words(*words):
    integer(words[-1], 0)
    return (words[:-1],)


def score_words(key, score, member):
    return key, integer(score), member


def range_words(key, high, low, *limit):
    if limit:
        fixed(limit[0], b"LIMIT")
    bounds = integer(high), integer(low)
    past, most = (integer(limit[1], 0), integer(limit[2], 0)) if limit else (0, ANY)
    return key, *bounds, past, most


def range_count(count):
    return count in (3, 6)


# Name, whether a transaction may hold it, how many words may follow the name, and the reading of these.
SPELLINGS = {
    "PING": (True, 0, 0, words_as_they_are), "SELECT": (False, 1, 1, number_alone),
    "GET": (False, 1, 1, words_as_they_are), "SET": (True, 2, 5, set_words), "DEL": (True, 1, ANY, all_words),
    "EXPIRE": (True, 2, 2, expire_words), "LPUSH": (True, 2, ANY, key_and_more), "RPUSH": (True, 2, ANY, key_and_more),
    "RPOP": (False, 1, 1, words_as_they_are), "BRPOP": (False, 2, ANY, wait_words),
    "LLEN": (True, 1, 1, words_as_they_are), "HLEN": (True, 1, 1, words_as_they_are),
    "ZCARD": (True, 1, 1, words_as_they_are), "SADD": (True, 2, ANY, key_and_more), "SREM": (True, 2, ANY, key_and_more),
    "SMEMBERS": (False, 1, 1, words_as_they_are), "HSET": (True, 3, 3, words_as_they_are),
    "HGET": (False, 2, 2, words_as_they_are), "HDEL": (True, 2, ANY, key_and_more), "ZADD": (True, 3, 3, score_words),
    "ZREM": (True, 2, ANY, key_and_more), "ZREVRANGEBYSCORE": (False, 3, 6, range_words),
    "WATCH": (False, 1, ANY, all_words), "UNWATCH": (False, 0, 0, words_as_they_are),
    "MULTI": (False, 0, 0, words_as_they_are), "EXEC": (False, 0, 0, words_as_they_are),
    "DISCARD": (False, 0, 0, words_as_they_are), "PUBLISH": (True, 2, 2, words_as_they_are),
    "SUBSCRIBE": (False, 1, 1, words_as_they_are), "UNSUBSCRIBE": (False, 1, 1, words_as_they_are),
}
WHEN_SUBSCRIBED = ("SUBSCRIBE", "UNSUBSCRIBE", "PING")


class Conn:
    """What is known of a connection."""

    def __init__(self):
        self.queue, self.broken = None, False
        self.watched, self.marked = set(), False
        self.channels, self.pending = set(), []

    def clear(self):
        self.queue, self.broken, self.watched, self.marked = None, False, set(), False


class Store:
    """The keys with what they hold, when they expire, and the connections."""

    def __init__(self):
        self.keys, self.expiries, self.conns = {}, {}, {}

    def of_kind(self, key, kind):
        """What a key holds, None where it is absent."""
        held = self.keys.get(key)
        if held is not None and not isinstance(held, kind):
            raise Refused(b"WRONGTYPE")
        return held

    def apply(self, at, number, words):
        """The values that are pushed to a connection, and then the answer to its command."""
        self.settle(at)
        conn = self.conns.setdefault(number, Conn())
        pushed, conn.pending = conn.pending, []
        return pushed, self.answer(at, conn, words)

    def gone(self, number):
        """A connection goes, with all that it has."""
        self.conns.pop(number, None)

    def settle(self, at):
        for key in [key for key, end in self.expiries.items() if end <= at]:
            self.drop(key)
            self.alter(key)

    def drop(self, key):
        del self.keys[key]
        self.expiries.pop(key, None)

    def alter(self, key):
        """Marks each connection that watches an altered key."""
        for conn in self.conns.values():
            conn.marked = conn.marked or key in conn.watched

    def answer(self, at, conn, words):
        within = conn.queue is not None
        try:
            name, arguments = self.read(conn, words)
        except Refused as refused:
            conn.broken = conn.broken or within
            return Problem(refused.args[0])
        if within and name not in ("EXEC", "DISCARD"):
            conn.queue.append((name, arguments))
            return QUEUED
        return self.run(at, conn, name, arguments)

    def read(self, conn, words):
        """The name and the arguments of a command that may be said here."""
        name = words[0].decode("latin-1").upper() if words and words[0].isascii() else ""
        if conn.channels and name not in WHEN_SUBSCRIBED:
            raise Refused(b"ERR subscribed")
        if name not in SPELLINGS:
            raise Refused(b"ERR command")
        queued, least, most, reading = SPELLINGS[name]
        count = len(words) - 1
        if not least <= count <= most or (name == "ZREVRANGEBYSCORE" and not range_count(count)):
            raise Refused(b"ERR arity")
        arguments = reading(*words[1:])
        if conn.queue is not None and not queued and name not in ("EXEC", "DISCARD"):
            raise Refused(b"ERR inside")
        if conn.queue is not None and queued and len(conn.queue) >= QUEUE_LIMIT:
            raise Refused(b"ERR full")
        return name, arguments

    def run(self, at, conn, name, arguments):
        """The answer of a command that is carried out now."""
        try:
            return getattr(self, "do_" + name.lower())(at, conn, *arguments)
        except Refused as refused:
            return Problem(refused.args[0])

    # --- Texts and keys of any kind

    def do_ping(self, _at, conn):
        return [b"pong", b""] if conn.channels else Simple(b"PONG")

    def do_select(self, _at, _conn, number):
        if number != 0:
            raise Refused(b"ERR database")
        return OK

    def do_get(self, _at, _conn, key):
        held = self.of_kind(key, bytes)
        return NULL_BULK if held is None else held

    def do_set(self, at, _conn, key, value, absent, live):
        if absent and key in self.keys:
            return NULL_BULK
        self.keys[key] = value
        self.expiries.pop(key, None)
        if live is not None:
            self.expiries[key] = at + live
        self.alter(key)
        return OK

    def do_del(self, _at, _conn, keys):
        gone = [key for key in dict.fromkeys(keys) if key in self.keys]
        for key in gone:
            self.drop(key)
            self.alter(key)
        return len(gone)

    def do_expire(self, at, _conn, key, live):
        if key not in self.keys:
            return 0
        self.expiries[key] = at + live
        self.alter(key)
        return 1

    # --- Lists

    def push(self, key, values, put):
        held = self.of_kind(key, deque)
        if held is None:
            held = self.keys[key] = deque()
        for value in values:
            put(held, value)
        self.alter(key)
        return len(held)

    def do_lpush(self, _at, _conn, key, values):
        return self.push(key, values, deque.appendleft)

    def do_rpush(self, _at, _conn, key, values):
        return self.push(key, values, deque.append)

    def do_rpop(self, _at, _conn, key):
        held = self.of_kind(key, deque)
        if held is None:
            return NULL_BULK
        value = held.pop()
        self.changed(key, held)
        return value

    def do_brpop(self, at, conn, keys):
        for key in keys:
            if key in self.keys:
                return [key, self.do_rpop(at, conn, key)]
        return None

    def changed(self, key, held):
        """A key's value lost something: an emptied one is gone."""
        if not held:
            self.drop(key)
        self.alter(key)

    # --- Sizes

    def size(self, key, kind):
        return len(self.of_kind(key, kind) or ())

    def do_llen(self, _at, _conn, key):
        return self.size(key, deque)

    def do_hlen(self, _at, _conn, key):
        if isinstance(self.keys.get(key), Scores):
            raise Refused(b"WRONGTYPE")
        return self.size(key, dict)

    def do_zcard(self, _at, _conn, key):
        return self.size(key, Scores)

    # --- Sets

    def do_sadd(self, _at, _conn, key, members):
        held = self.of_kind(key, set) or set()
        new = set(members) - held
        if len(held) + len(new) > SET_LIMIT or any(len(member) > MEMBER_LIMIT for member in members):
            raise Refused(b"ERR full")
        self.keys[key] = held | new
        if new:
            self.alter(key)
        return len(new)

    def do_srem(self, _at, _conn, key, members):
        return self.take_out(key, self.of_kind(key, set), members)

    def take_out(self, key, held, members):
        """Takes members or fields out of what a key holds, and tells how many were there."""
        gone = [member for member in dict.fromkeys(members) if held and member in held]
        for member in gone:
            held.remove(member) if isinstance(held, set) else held.pop(member)
        if gone:
            self.changed(key, held)
        return len(gone)

    def do_smembers(self, _at, _conn, key):
        return sorted(self.of_kind(key, set) or ())

    # --- Hashes

    def hash(self, key):
        if isinstance(self.keys.get(key), Scores):
            raise Refused(b"WRONGTYPE")
        return self.of_kind(key, dict)

    def do_hset(self, _at, _conn, key, field, value):
        held = self.hash(key)
        if len(field) > MEMBER_LIMIT:
            raise Refused(b"ERR full")
        new = held is None or field not in held
        self.keys.setdefault(key, {})[field] = value
        self.alter(key)
        return int(new)

    def do_hget(self, _at, _conn, key, field):
        return (self.hash(key) or {}).get(field, NULL_BULK)

    def do_hdel(self, _at, _conn, key, fields):
        return self.take_out(key, self.hash(key), fields)

    # --- Sorted sets

    def do_zadd(self, _at, _conn, key, score, member):
        held = self.of_kind(key, Scores)
        if len(member) > MEMBER_LIMIT:
            raise Refused(b"ERR full")
        before = None if held is None else held.get(member)
        if before != score:
            self.keys.setdefault(key, Scores())[member] = score
            self.alter(key)
        return int(before is None)

    def do_zrem(self, _at, _conn, key, members):
        return self.take_out(key, self.of_kind(key, Scores), members)

    def do_zrevrangebyscore(self, _at, _conn, key, high, low, past, most):
        held = self.of_kind(key, Scores) or {}
        found = sorted(((score, member) for member, score in held.items() if low <= score <= high), reverse=True)
        return [member for _, member in found[past:]][:min(most, RANGE_LIMIT)]

    # --- Watches and transactions

    def do_watch(self, _at, conn, keys):
        conn.watched.update(keys)
        return OK

    def do_unwatch(self, _at, conn):
        conn.watched, conn.marked = set(), False
        return OK

    def do_multi(self, _at, conn):
        conn.queue, conn.broken = [], False
        return OK

    def do_exec(self, at, conn):
        if conn.queue is None:
            raise Refused(b"ERR outside")
        queue, broken, marked = conn.queue, conn.broken, conn.marked
        conn.clear()
        if broken:
            return Problem(b"EXECABORT")
        return None if marked else [self.run(at, conn, *command) for command in queue]

    def do_discard(self, _at, conn):
        if conn.queue is None:
            raise Refused(b"ERR outside")
        conn.clear()
        return OK

    # --- Messages

    def do_publish(self, _at, _conn, channel, message):
        got = [it for it in self.conns.values() if channel in it.channels and len(it.pending) < PENDING_LIMIT]
        for conn in got:
            conn.pending.append([b"message", channel, message])
        return len(got)

    def do_subscribe(self, _at, conn, channel):
        conn.channels.add(channel)
        return [b"subscribe", channel, len(conn.channels)]

    def do_unsubscribe(self, _at, conn, channel):
        conn.channels.discard(channel)
        return [b"unsubscribe", channel, len(conn.channels)]
