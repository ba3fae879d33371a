"""The manner of a client: whether its calls, with their answers, are a front of a concatenation of blocks.

The first words of a block tell which block it is. A call whose words a block allows and whose answer isn't listed there is
in the client's manner too, but nothing may follow it.
"""

from bindings import STEPS, bindings_key, is_name, is_reserved, lookup, queue_key, step_of
from blocks import EXEC, INDEX, MULTI, MUTEX, TABLE, TRIES, UNWATCH
from blocks import integers_or_null, is_array_of, is_integer, is_pair_of_bulks, is_simple, two_integers
from envelopes import entry_of, items_of_entry, priority_of, read_entry, read_envelope, read_tag, redelivered, tag_text
from json_texts import read_json, write_json
from replies import NULL_BULK, OK, QUEUED, Problem, is_bulk

COUNTER_LIMIT = 2**64
KEYS_LIMIT = 4094
PIDBOX = b"/0.celery.pidbox"
REPLY = b".reply.celery.pidbox"


class Unmannered(Exception):
    """No block allows these words here."""


class Unlisted(Exception):
    """The words are allowed, their answer isn't listed."""


def allows(truth):
    if not truth:
        raise Unmannered


def lists(truth):
    if not truth:
        raise Unlisted


def is_free(text):
    """Whether a text may be a part of a binding or of an exchange's key."""
    return b"\x06" not in text and b"\x16" not in text and len(text) <= 255


def ok(answer):
    return is_simple(answer, OK)


def queued(answer):
    return is_simple(answer, QUEUED)


def bulk_or_null(answer):
    return answer is NULL_BULK or is_bulk(answer)


class Client:
    """The calls of a client as far as they went; `call` takes the next one, and tells whether it is in the client's manner."""

    def __init__(self, seed):
        self.seed, self.drawn, self.passes = seed, 0, 0
        self.calls, self.is_over = self.blocks(), False
        next(self.calls)

    def call(self, at, words, answer):
        if self.is_over:
            return False
        try:
            self.calls.send((at, words, answer))
        except Unlisted:
            self.is_over = True
        except Unmannered:
            return False
        return True

    def blocks(self):
        """Takes call after call; a block gives back the call that is none of it any more, if it read one."""
        ahead = None
        while True:
            begun = ahead or (yield)
            ahead = yield from self.block(*begun)

    def block(self, at, words, answer):
        name = words[0]
        if words == MULTI:
            lists(ok(answer))
            yield from self.acknowledgement()
        elif words == [b"WATCH", TABLE]:
            lists(ok(answer))
            yield from self.tries(None, None, is_watched=True)
        elif words[:2] == [b"SET", MUTEX]:
            yield from self.sweep(words, answer)
        elif name == b"SMEMBERS":
            return (yield from self.named(words, answer))
        elif name in (b"SADD", b"SREM"):
            allows(is_declaration(words))
            lists(is_integer(answer))
        elif name == b"BRPOP" and not is_neutral(words):
            yield from self.pop(words, answer)
        elif name == b"LPUSH" and not is_neutral(words):
            self.direct(words, answer)
        else:
            allows(is_neutral(words))
            lists(not isinstance(answer, Problem))

    # --- Publications

    def is_own(self, word, exchange):
        """Whether a word is the envelope of the client's next tag, written as the compact text, on this exchange."""
        found = read_envelope(word)
        if not found or found[0] != (self.seed, self.drawn + 1) or self.drawn + 1 >= COUNTER_LIMIT:
            return False
        tree = read_json(word)
        return write_json(tree) == word and tree["properties"]["delivery_info"]["exchange"].encode() == exchange

    def keys(self, word, members):
        """The keys to which an envelope is pushed, over these members of its exchange's set."""
        tree = read_json(word)
        info, step = tree["properties"]["delivery_info"], step_of(priority_of(tree))
        return [queue_key(queue, step) for queue in queues_of(info["exchange"].encode(), info["routing_key"].encode(), members)]

    def direct(self, words, answer):
        allows(len(words) == 3 and self.is_own(words[2], b"") and self.keys(words[2], []) == [words[1]])
        self.drawn += 1
        lists(is_integer(answer))

    def named(self, words, members):
        """A publication by an exchange with a name. Gives back the call after it where it pushed nothing."""
        exchange = words[1][len(bindings_key(b"")):] if len(words) == 2 else b""
        allows(len(words) == 2 and words[1] == bindings_key(exchange) and exchange and len(exchange) <= 255 and is_text(exchange))
        allows(self.drawn + 1 < COUNTER_LIMIT)
        lists(is_array_of(is_bulk, members))
        at, words, answer = yield
        if words[0] != b"LPUSH" or len(words) != 3 or not self.is_own(words[2], exchange):
            self.drawn += 1
            return at, words, answer
        self.drawn += 1
        envelope, keys = words[2], self.keys(words[2], members)
        allows(keys)
        for number, key in enumerate(keys):
            if number:
                at, words, answer = yield
            allows(words == [b"LPUSH", key, envelope])
            lists(is_integer(answer))

    # --- Pops and acknowledgements

    def says(self, words, test):
        """The next call must have these words, and an answer that passes a test."""
        at, said, answer = yield
        allows(said == [word(at) if callable(word) else word for word in words])
        lists(test(answer))
        return answer

    def pop(self, words, answer):
        allows(is_pop(words))
        lists(answer is None or is_pair_of_bulks(answer))
        found = answer and read_envelope(answer[1])
        if not found:
            return
        tag, entry = tag_text(found[0]), entry_of(read_json(answer[1]))
        yield from self.says(MULTI, ok)
        yield from self.says([b"ZADD", INDEX, lambda at: b"%d" % at, tag], queued)
        yield from self.says([b"HSET", TABLE, tag, entry], queued)
        yield from self.says(EXEC, two_integers)

    def acknowledgement(self):
        _, words, answer = yield
        allows(len(words) == 3 and words[:2] == [b"ZREM", INDEX] and read_tag(words[2]))
        lists(queued(answer))
        yield from self.says([b"HDEL", TABLE, words[2]], queued)
        yield from self.says(EXEC, two_integers)

    # --- Returns and passes

    def tries(self, tag, side, is_watched=False):
        """The tries of a return; tells whether all were contended. Where the first WATCH was taken already, the tag and the side
        are still to be told."""
        for _ in range(TRIES):
            if not is_watched:
                yield from self.says([b"WATCH", TABLE], ok)
            is_watched = False
            _, words, entry = yield
            allows(len(words) == 3 and words[:2] == [b"HGET", TABLE])
            allows(words[2] == tag if tag else read_tag(words[2]))
            tag = words[2]
            lists(bulk_or_null(entry))
            side, is_over = yield from self.attempt(tag, side, entry)
            if is_over:
                return False
        return True

    def attempt(self, tag, side, entry):
        """A try after its entry was read: the side of its pushes, and whether the return is over."""
        keys, envelope = [], None
        if entry is not NULL_BULK and (read_entry(entry) or (None,))[0] == read_tag(tag):
            tree, exchange, routing_key = items_of_entry(entry)
            members = []
            if exchange:
                members = yield from self.says([b"SMEMBERS", bindings_key(exchange.encode())], lambda it: is_array_of(is_bulk, it))
            step, envelope = step_of(priority_of(tree)), write_json(redelivered(tree))
            keys = [queue_key(queue, step) for queue in queues_of(exchange.encode(), routing_key.encode(), members)]
        if not keys:
            yield from self.says(UNWATCH, ok)
            return side, True
        yield from self.says(MULTI, ok)
        yield from self.says([b"ZREM", INDEX, tag], queued)
        yield from self.says([b"HDEL", TABLE, tag], queued)
        for key in keys:
            _, words, answer = yield
            allows(words[0] in ([side] if side else [b"LPUSH", b"RPUSH"]) and words[1:] == [key, envelope])
            side = words[0]
            lists(queued(answer))
        return side, (yield from self.says(EXEC, integers_or_null)) is not None

    def sweep(self, words, answer):
        self.passes += 1
        token = b"%d:%d" % (self.seed, min(self.passes, COUNTER_LIMIT - 1))
        allows(words == [b"SET", MUTEX, token, b"NX", b"EX", b"300"])
        lists(answer is NULL_BULK or ok(answer))
        if answer is NULL_BULK:
            return
        at, words, due = yield
        allows(len(words) == 7 and words[:2] == [b"ZREVRANGEBYSCORE", INDEX])
        allows(is_bound(at, words[2]) and words[3:] == [b"0", b"LIMIT", b"0", b"10"])
        lists(is_array_of(is_bulk, due))
        for tag in filter(read_tag, due):
            if (yield from self.tries(tag, b"RPUSH")):
                break
        yield from self.says([b"WATCH", MUTEX], ok)
        held = yield from self.says([b"GET", MUTEX], bulk_or_null)
        if held is not NULL_BULK and held == token:
            yield from self.says(MULTI, ok)
            yield from self.says([b"DEL", MUTEX], queued)
            yield from self.says(EXEC, lambda it: it is None or isinstance(it, list))
        else:
            yield from self.says(UNWATCH, ok)


def is_text(word):
    try:
        word.decode()
    except UnicodeDecodeError:
        return False
    return True


def queues_of(exchange, routing_key, members):
    """The queues to which a message of an exchange and a routing key goes."""
    if exchange:
        return lookup(members, routing_key)
    return [routing_key] if is_lawful(routing_key) else []


def is_lawful(queue):
    """Whether a queue may have this name."""
    return is_name(queue) and not is_reserved(queue)


def is_declaration(words):
    """Whether the words add or take out one binding of an exchange."""
    if len(words) != 3 or not words[1].startswith(bindings_key(b"")):
        return False
    parts = words[2].split(b"\x06\x16")
    exchange = words[1][len(bindings_key(b"")):]
    return len(parts) == 3 and all(map(is_free, [exchange, *parts])) and is_lawful(parts[2])


def is_pop(words):
    """Whether the words pop from the keys of some queues, by steps and then by queues."""
    keys = words[1:-1]
    count, rest = divmod(len(keys), len(STEPS))
    if rest or not 1 <= count or len(keys) > KEYS_LIMIT or words[-1] != b"1":
        return False
    queues = keys[:count]
    return all(map(is_lawful, queues)) and keys == [queue_key(queue, step) for step in STEPS for queue in queues]


def is_bound(at, word):
    """Whether a word is the moment less a visibility."""
    digits = word[1:] if word.startswith(b"-") else word
    if not digits.isdigit() or len(digits) > 20 or b"%d" % int(word) != word:
        return False
    return 0 <= at - int(word) < 2**32


def is_neutral(words):
    """Whether the words concern no message."""
    name, rest = words[0], words[1:]
    if words in ([b"PING"], [b"SELECT", b"0"]):
        return True
    if name == b"LLEN":
        return len(rest) == 1
    if name in (b"SUBSCRIBE", b"UNSUBSCRIBE"):
        return rest == [PIDBOX]
    if name == b"PUBLISH":
        return len(rest) == 2 and rest[0] == PIDBOX
    if name in (b"BRPOP", b"EXPIRE"):
        return len(rest) == 2 and rest[0].endswith(REPLY)
    return name == b"LPUSH" and len(rest) >= 2 and rest[0].endswith(REPLY)
