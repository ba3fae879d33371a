"""Random commands of one connection, over all commands of our store, in the forms in which Redis means the same.

A model of our store runs along: it tells which commands may come next, and what our store must answer to each. What is left
out, since the two differ there, stands in `store_differences.py`.
"""

import random
from collections import deque

from replies import NULL_BULK, Problem
from store import Scores, Store

KINDS = {bytes: b"t", deque: b"l", set: b"s", dict: b"h", Scores: b"z"}
CHANNELS = (b"c", b"news", b"")
EMPTY_WAITS = 5
"""How many waits of a second at most, each for a list that isn't there."""


def alike(reply):
    """A reply without what Redis words or orders otherwise: the texts of errors."""
    if isinstance(reply, Problem):
        return "an error"
    if isinstance(reply, list):
        return [alike(item) for item in reply]
    return (type(reply).__name__, None if reply is NULL_BULK else reply)


def is_same(words, ours, theirs):
    """Whether two replies to a command are the same, where members of a set have no order."""
    if words[0].upper() == b"SMEMBERS" and isinstance(ours, list) and isinstance(theirs, list):
        return sorted(ours) == sorted(theirs)
    return alike(ours) == alike(theirs)


class Commands:
    """Gives commands, each with what our store must answer."""

    def __init__(self, seed):
        self.random, self.store, self.waits = random.Random(seed), Store(), 0
        self.conn = None

    def next(self):
        """The words of a command and the reply of the model."""
        words = self.words()
        return words, self.said(words)

    def said(self, words):
        _, answer = self.store.apply(0, 1, words)
        self.conn = self.store.conns[1]
        return answer

    def words(self):
        if self.conn and self.conn.channels:
            return self.when_subscribed()
        if self.conn and self.conn.queue is not None:
            return self.in_transaction()
        kind = self.random.random()
        if kind < 0.07:
            return self.refused()
        if kind < 0.2:
            return self.of_connection()
        return self.random.choice((self.of_text, self.of_list, self.of_set, self.of_hash, self.of_scores, self.of_any))()

    # --- Words

    def key(self, kind):
        """A key that most often has values of this kind alone."""
        kind = self.random.choice(list(KINDS)) if self.random.random() < 0.08 else kind
        return KINDS[kind] + b"%d" % self.random.randrange(4)

    def word(self):
        """Random bytes, ends of lines among them."""
        length = self.random.choice((0, 1, 1, 1, 2, 8, 40, 300))
        return bytes(self.random.choice(b"ab\r\n\x00\xff0") if length < 3 else self.random.randrange(256) for _ in range(length))

    def some(self, most=4):
        return [self.word() for _ in range(self.random.randint(1, most))]

    def score(self):
        return b"%d" % self.random.choice((0, 1, -1, self.random.randint(-9, 9), self.random.randint(-(2**53), 2**53)))

    def seconds(self):
        return b"%d" % self.random.choice((1000, 1001, 2**31, 2**32 - 1))

    def cased(self, name):
        return self.random.choice((name, name, name.lower(), name.title()))

    # --- Commands by kind

    def of_text(self):
        key = self.key(bytes)
        options = self.random.choice(([], [], [b"NX"], [b"EX", self.seconds()], [b"NX", b"EX", self.seconds()]))
        return self.random.choice(([self.cased(b"SET"), key, self.word(), *options], [self.cased(b"GET"), key]))

    def of_list(self):
        key = self.key(deque)
        return self.random.choice((
            [b"LPUSH", key, *self.some()], [self.cased(b"RPUSH"), key, *self.some()], [b"RPOP", key], [b"LLEN", key], self.wait()))

    def wait(self):
        """A BRPOP, which seldom finds no list."""
        keys = [self.key(deque) for _ in range(self.random.randint(1, 3))]
        if not any(key in self.store.keys for key in keys):
            self.waits += 1
            if self.waits > EMPTY_WAITS:
                return [b"LPUSH", keys[0], self.word()]
        return [b"BRPOP", *keys, b"1"]

    def of_set(self):
        key = self.key(set)
        return self.random.choice((
            [b"SADD", key, *self.some()], [b"SADD", key, *self.some(9)], [b"SREM", key, *self.some()], [b"SMEMBERS", key]))

    def of_hash(self):
        key = self.key(dict)
        return self.random.choice((
            [b"HSET", key, self.word(), self.word()], [b"HSET", key, self.word(), self.word()], [b"HGET", key, self.word()],
            [b"HDEL", key, *self.some()], [b"HLEN", key]))

    def of_scores(self):
        key = self.key(Scores)
        limit = [b"LIMIT", b"%d" % self.random.randint(0, 3), b"%d" % self.random.choice((0, 1, 2, 10, 2**31))]
        high, low = self.score(), self.score()
        return self.random.choice((
            [b"ZADD", key, self.score(), self.word()], [b"ZADD", key, self.score(), self.word()],
            [b"ZREM", key, *self.some()], [b"ZCARD", key], [b"ZREVRANGEBYSCORE", key, high, low],
            [b"ZREVRANGEBYSCORE", key, b"9007199254740992", b"-9007199254740992"],
            [b"ZREVRANGEBYSCORE", key, b"9007199254740992", low, *limit]))

    def any_key(self):
        return self.key(self.random.choice(list(KINDS)))

    def of_any(self):
        keys = [self.any_key() for _ in range(self.random.choice((1, 1, 2, 3)))]
        return self.random.choice((
            [b"DEL", *keys], [b"EXPIRE", keys[0], self.seconds()], [b"PING"], [b"SELECT", b"0"],
            [b"PUBLISH", self.random.choice(CHANNELS), self.word()]))

    def of_connection(self):
        keys = [self.any_key() for _ in range(self.random.randint(1, 3))]
        return self.random.choice((
            [b"MULTI"], [b"MULTI"], [b"WATCH", *keys], [b"WATCH", *keys], [b"UNWATCH"], [b"EXEC"], [b"DISCARD"],
            [b"SUBSCRIBE", self.random.choice(CHANNELS)], [b"UNSUBSCRIBE", self.random.choice(CHANNELS)]))

    def refused(self):
        """What both answer by an error, outside a transaction."""
        key, text = self.any_key(), self.random.choice((b"x", b"", b"1x", b" 1", b"9" * 30, b"--1"))
        return self.random.choice((
            self.unknown(), self.unknown(), [b"SET", self.key(bytes), b"v", b"FOO"], [b"SET", self.key(bytes), b"v", b"EX", text],
            [b"SET", self.key(bytes), b"v", b"EX", b"0"], [b"EXPIRE", key, text], [b"SELECT", text], [b"SELECT", b"99"],
            [b"BRPOP", key, text.replace(b" 1", b"x").replace(b"9" * 30, b"-1") or b"x"], [b"BRPOP", key, b"-1"],
            [b"ZADD", key, text.replace(b"9" * 30, b"x").replace(b" 1", b"x"), b"m"],
            [b"ZREVRANGEBYSCORE", key, b"x", b"0"], [b"ZREVRANGEBYSCORE", key, b"1", b"0", b"FOO", b"0", b"1"],
            [b"ZREVRANGEBYSCORE", key, b"1", b"0", b"LIMIT", b"x", b"1"]))

    def unknown(self):
        """An unknown command, or too few words, which break a transaction too."""
        return self.random.choice((
            [b"NOSUCH"], [b"FOO", b"x"], [b"GET"], [b"SET", b"t0"], [b"DEL"], [b"LPUSH", b"l0"], [b"SADD", b"s0"],
            [b"HSET", b"h0", b"f"], [b"HGET", b"h0"], [b"ZADD", b"z0", b"1"], [b"ZREM", b"z0"], [b"EXPIRE", b"t0"],
            [b"PUBLISH", b"c"], [b"LLEN"], [b"LLEN", b"l0", b"l1"], [b"MULTI", b"x"], [b"WATCH"], [b"UNWATCH", b"x"],
            [b"BRPOP", b"l0"], [b"ZREVRANGEBYSCORE", b"z0", b"1"], [b"\xff"], [b""]))

    def in_transaction(self):
        """What both queue, what both refuse, or the end of the transaction."""
        kind = self.random.random()
        if kind < 0.15:
            return [self.random.choice((b"EXEC", b"EXEC", b"EXEC", b"DISCARD"))]
        if kind < 0.17:
            return self.unknown()
        for _ in range(20):
            words = self.random.choice((self.of_text, self.of_list, self.of_set, self.of_hash, self.of_scores, self.of_any))()
            if words[0].upper() not in (b"GET", b"RPOP", b"BRPOP", b"SMEMBERS", b"HGET", b"ZREVRANGEBYSCORE", b"SELECT"):
                return words
        return [b"PING"]

    def when_subscribed(self):
        channel = self.random.choice(sorted(self.conn.channels))
        return self.random.choice((
            [b"PING"], [b"SUBSCRIBE", self.random.choice(CHANNELS)], [b"UNSUBSCRIBE", channel], [b"UNSUBSCRIBE", channel],
            [b"UNSUBSCRIBE", self.random.choice(CHANNELS)], [b"GET", b"t0"], [b"SET", b"t0", b"x"], [b"MULTI"]))

    # --- At the end

    def closing(self):
        """Leaves transactions and channels, and then tells of everything that is kept."""
        if self.conn.queue is not None:
            yield [b"DISCARD"]
        for channel in sorted(self.conn.channels):
            yield [b"UNSUBSCRIBE", channel]
        for key, held in sorted(self.store.keys.items()):
            if isinstance(held, bytes):
                yield [b"GET", key]
            elif isinstance(held, deque):
                yield from [[b"RPOP", key]] * (len(held) + 1)
            elif isinstance(held, set):
                yield [b"SMEMBERS", key]
            elif isinstance(held, Scores):
                yield [b"ZREVRANGEBYSCORE", key, b"9007199254740992", b"-9007199254740992"]
            else:
                yield [b"HLEN", key]
                yield from [[b"HGET", key, field] for field in sorted(held)]
