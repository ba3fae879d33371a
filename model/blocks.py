"""Blocks of commands: each yields its commands and is sent their answers.

A word of a command may be a function of the moment at which the command is said. A block that meets an answer that isn't
listed raises `Unlisted`. What a block yields as its end is of no use to a schedule, but for a pass, whose returns tell
whether they were contended.
"""

from bindings import STEPS, bindings_key, is_name, is_reserved, lookup, queue_key, step_of
from envelopes import entry_of, items_of_entry, priority_of, read_entry, read_envelope, read_tag, redelivered, tag_text
from json_texts import read_json, write_json
from replies import NULL_BULK, OK, QUEUED, Simple, is_bulk

INDEX, TABLE, MUTEX = b"unacked_index", b"unacked", b"unacked_mutex"
MULTI, EXEC, UNWATCH = [b"MULTI"], [b"EXEC"], [b"UNWATCH"]
TRIES = 8


class Unlisted(Exception):
    """The answer is none that the block goes on with."""


def wants(truth):
    if not truth:
        raise Unlisted


def is_simple(answer, text):
    return isinstance(answer, Simple) and answer == text


def is_integer(answer):
    return isinstance(answer, int)


def is_array_of(test, answer):
    return isinstance(answer, list) and all(map(test, answer))


def says(words, test):
    """Says one command; gives its answer, which must pass a test."""
    answer = yield words
    wants(test(answer))
    return answer


def agrees(words):
    """Says one command that is answered OK."""
    yield from says(words, lambda answer: is_simple(answer, OK))


def transaction(commands, test):
    """Says commands between MULTI and EXEC; gives the answer to EXEC."""
    yield from agrees(MULTI)
    for words in commands:
        yield from says(words, lambda answer: is_simple(answer, QUEUED))
    return (yield from says(EXEC, test))


def two_integers(answer):
    return is_array_of(is_integer, answer) and len(answer) == 2


def is_pair_of_bulks(answer):
    return is_array_of(is_bulk, answer) and len(answer) == 2


def integers_or_null(answer):
    return answer is None or is_array_of(is_integer, answer)


def declare(name, exchange, member):
    """A binding is added by SADD, or taken out by SREM."""
    yield from says([name, bindings_key(exchange), member], is_integer)


def looked_up(exchange, routing_key):
    """Reads the bindings of an exchange; gives the queues of a routing key."""
    members = yield from says([b"SMEMBERS", bindings_key(exchange)], lambda answer: is_array_of(is_bulk, answer))
    return lookup(members, routing_key)


def publish(exchange, routing_key, priority, envelope):
    queues = [routing_key]
    if exchange:
        queues = yield from looked_up(exchange, routing_key)
    for queue in queues:
        yield from says([b"LPUSH", queue_key(queue, step_of(priority)), envelope], is_integer)


def pop(queues):
    keys = [queue_key(queue, step) for step in STEPS for queue in queues]
    popped = yield from says([b"BRPOP", *keys, b"1"], lambda it: it is None or is_pair_of_bulks(it))
    found = popped and read_envelope(popped[1])
    if not found:
        return
    tag, entry = tag_text(found[0]), entry_of(read_json(popped[1]))
    yield from transaction([[b"ZADD", INDEX, lambda at: b"%d" % at, tag], [b"HSET", TABLE, tag, entry]], two_integers)


def removal(tag):
    return [[b"ZREM", INDEX, tag_text(tag)], [b"HDEL", TABLE, tag_text(tag)]]


def end(tag):
    yield from transaction(removal(tag), two_integers)


def give_back(tag, side):
    """A return of a message to the side of its queues that RPUSH or LPUSH names; tells whether all tries were contended."""
    for _ in range(TRIES):
        if (yield from is_over(tag, side)):
            return False
    return True


def is_over(tag, side):
    """One try of a return; tells whether the return is over by it."""
    yield from agrees([b"WATCH", TABLE])
    entry = yield from says([b"HGET", TABLE, tag_text(tag)], lambda answer: answer is NULL_BULK or is_bulk(answer))
    queues = []
    if entry is not NULL_BULK and (read_entry(entry) or (None,))[0] == tag:
        tree, exchange, routing_key = items_of_entry(entry)
        queues = yield from queues_of(exchange.encode(), routing_key.encode())
    if not queues:
        yield from agrees(UNWATCH)
        return True
    step, envelope = step_of(priority_of(tree)), write_json(redelivered(tree))
    pushes = [[side, queue_key(queue, step), envelope] for queue in queues]
    return (yield from transaction(removal(tag) + pushes, integers_or_null)) is not None


def queues_of(exchange, routing_key):
    """The queues to which a message of an exchange and a routing key goes back."""
    if not exchange:
        return [routing_key] if is_name(routing_key) and not is_reserved(routing_key) else []
    return (yield from looked_up(exchange, routing_key))


def sweep(visibility, token):
    """A pass over the messages that are due, under the mutex."""
    took = yield from says(
        [b"SET", MUTEX, token, b"NX", b"EX", b"300"], lambda answer: answer is NULL_BULK or is_simple(answer, OK))
    if took is NULL_BULK:
        return
    due = yield from says(
        [b"ZREVRANGEBYSCORE", INDEX, lambda at: b"%d" % (at - visibility), b"0", b"LIMIT", b"0", b"10"],
        lambda answer: is_array_of(is_bulk, answer))
    for tag in filter(None, map(read_tag, due)):
        if (yield from give_back(tag, b"RPUSH")):
            break
    yield from release(token)


def release(token):
    yield from agrees([b"WATCH", MUTEX])
    held = yield from says([b"GET", MUTEX], lambda answer: answer is NULL_BULK or is_bulk(answer))
    if held is not NULL_BULK and held == token:
        yield from transaction([[b"DEL", MUTEX]], lambda answer: answer is None or isinstance(answer, list))
    else:
        yield from agrees(UNWATCH)
