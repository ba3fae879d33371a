"""Lines of a schedule, and the clients, the store and the history to which they lead."""

import re

import blocks
from bindings import is_name, is_reserved, member_of
from envelopes import read_envelope, seal
from json_texts import NotJson, depth_of, has_float, read_json, write_json
from replies import bulks
from store import Store

LINE_LIMIT = 65_536
ENTRY_LIMIT = 1_000_000
COST_LIMIT = 2**30
MOMENT_LIMIT = 2**40
DECIMAL = re.compile(rb"0|[1-9][0-9]*")
NAME = re.compile(rb"[\x21-\x7e]+")


class Bad(Exception):
    """A line breaks a rule; the first argument is the reason."""


class Full(Exception):
    """The history stands at a limit and was to grow."""


def needs(truth, reason):
    if not truth:
        raise Bad(reason)


# --- Words

def check_text(line):
    """The words of a line that isn't too long and is a text."""
    needs(len(line) <= LINE_LIMIT, "long")
    try:
        line.decode()
    except UnicodeDecodeError:
        raise Bad("text") from None
    return line.split(b" ")


def number(word, low, high):
    needs(DECIMAL.fullmatch(word) and low <= int(word) <= high, "syntax")
    return int(word)


def names(words):
    needs(all(map(NAME.fullmatch, words)), "syntax")
    return words


def dashed(word):
    """A name, where a dash stands for the empty one."""
    return b"" if word == b"-" else names([word])[0]


def tag_of(words):
    """The tag that is the one word left."""
    needs(len(words) == 1 and words[0].count(b":") == 1, "syntax")
    return tuple(number(part, 0, 2**64 - 1) for part in words[0].split(b":"))


def check_queues(queues):
    needs(all(map(is_name, queues)), "name")
    needs(not any(map(is_reserved, queues)), "reserved")


def read_args(text):
    """The arguments of a task, which end a publish line."""
    try:
        args = read_json(text)
    except NotJson:
        raise Bad("json") from None
    needs(isinstance(args, list) and not has_float(args) and depth_of(args) <= 90, "json")
    return args


# --- What a line begins: each reading checks the form of the words and gives what makes the block of a client at rest

def read_publish(words, text):
    words = text.split(b" ", 7)[3:]
    needs(len(words) == 5, "syntax")
    exchange, routing_key = dashed(words[0]), dashed(words[1])
    priority, (task,) = number(words[2], 0, 255), names(words[3:4])

    def begun(client):
        if not exchange:
            check_queues([routing_key])
        args = read_args(words[4])
        needs(len(exchange) <= 255 and len(routing_key) <= 255, "task")
        tag = client.seed, client.sent + 1
        envelope = write_json(seal(tag, exchange.decode(), routing_key.decode(), priority, task.decode(), args))
        needs(read_envelope(envelope), "task")
        client.sent += 1
        return blocks.publish(exchange, routing_key, priority, envelope)

    return begun


def read_declare(name, words):
    needs(len(words) == 4, "syntax")
    exchange, routing_key, pattern, (queue,) = dashed(words[0]), dashed(words[1]), dashed(words[2]), names(words[3:])
    needs(exchange, "syntax")

    def begun(_):
        needs(all(len(text) <= 255 for text in (exchange, routing_key, pattern)), "name")
        check_queues([queue])
        return blocks.declare(name, exchange, member_of(routing_key, pattern, queue))

    return begun


def read_pop(words, _):
    queues = names(words)
    needs(1 <= len(queues) <= 1023, "syntax")

    def begun(_):
        check_queues(queues)
        return blocks.pop(queues)

    return begun


def read_tagged(block, words):
    tag = tag_of(words)
    return lambda _: block(tag)


def read_pass(words, _):
    needs(len(words) == 1, "syntax")
    visibility = number(words[0], 0, 2**32 - 1)

    def begun(client):
        client.passes += 1
        return blocks.sweep(visibility, b"%d:%d" % (client.seed, client.passes))

    return begun


BEGINNINGS = {
    b"publish": read_publish,
    b"declare": lambda words, _: read_declare(b"SADD", words),
    b"undeclare": lambda words, _: read_declare(b"SREM", words),
    b"pop": read_pop,
    b"ack": lambda words, _: read_tagged(blocks.end, words),
    b"restore": lambda words, _: read_tagged(lambda tag: blocks.give_back(tag, b"RPUSH"), words),
    b"requeue": lambda words, _: read_tagged(lambda tag: blocks.give_back(tag, b"LPUSH"), words),
    b"pass": read_pass,
}


# --- Clients and the world

class Client:
    def __init__(self, seed):
        self.seed, self.sent, self.passes = seed, 0, 0
        self.block, self.command, self.stopped = None, None, False

    def begin(self, block):
        self.block, self.command = block, next(block)

    def took(self, answer):
        """Goes on to the block's next command, if there is one; after an answer that isn't listed there is none ever."""
        try:
            self.command = self.block.send(answer)
        except StopIteration:
            self.block = None
        except blocks.Unlisted:
            self.block, self.stopped = None, True


class Entry:
    """A command with its answer, or the stop of a client, whose words are None."""

    def __init__(self, conn, moment=None, words=None, pushed=(), answer=None):
        self.conn, self.moment, self.words, self.pushed, self.answer = conn, moment, words, pushed, answer


class World:
    """The clients, the store and the history that a schedule's lines lead to."""

    def __init__(self):
        self.clients, self.store, self.moment = {}, Store(), 0
        self.entries, self.cost = [], 0

    def line(self, text):
        """Does one line after the header; a bad one changes nothing."""
        words = check_text(text)
        lines = {b"client": self.client, b"at": self.at, b"begin": self.begin, b"step": self.step_line, b"run": self.run,
                 b"stop": self.stop}
        needs(words[0] in lines, "syntax")
        lines[words[0]](words, text)

    def client(self, words, _):
        needs(len(words) == 4 and words[2] == b"seed", "syntax")
        conn, seed = number(words[1], 1, 4096), number(words[3], 1, 2**62)
        needs(conn not in self.clients or not self.clients[conn].stopped, "stopped")
        needs(conn not in self.clients, "repeated")
        needs(all(seed != other.seed for other in self.clients.values()), "repeated")
        self.clients[conn] = Client(seed)

    def at(self, words, _):
        needs(len(words) == 2, "syntax")
        moment = number(words[1], 0, float("inf"))
        needs(self.moment <= moment < MOMENT_LIMIT, "moment")
        self.moment = moment

    def begin(self, words, text):
        needs(len(words) > 2 and words[2] in BEGINNINGS, "syntax")
        conn = number(words[1], 1, 4096)
        begun = BEGINNINGS[words[2]](words[3:], text)
        client = self.going(conn)
        needs(not client.block, "busy")
        client.begin(begun(client))

    def going(self, conn):
        """The client of a line that wants it not to have stopped."""
        needs(conn in self.clients, "unknown client")
        needs(not self.clients[conn].stopped, "stopped")
        return self.clients[conn]

    def one_client(self, words):
        """The number of the client that is the one word of a line."""
        needs(len(words) == 2, "syntax")
        conn = number(words[1], 1, 4096)
        self.going(conn)
        return conn

    def working(self, words):
        conn = self.one_client(words)
        needs(self.clients[conn].block, "idle")
        return conn

    def step_line(self, words, _):
        self.step(self.working(words))

    def run(self, words, _):
        conn = self.working(words)
        while self.clients[conn].block:
            self.step(conn)

    def stop(self, words, _):
        conn = self.one_client(words)
        self.room()
        self.store.gone(conn)
        self.clients[conn].stopped, self.clients[conn].block = True, None
        self.entries.append(Entry(conn))
        self.cost += 64

    def room(self):
        if len(self.entries) >= ENTRY_LIMIT or self.cost >= COST_LIMIT:
            raise Full

    def step(self, conn):
        self.room()
        client = self.clients[conn]
        words = [word(self.moment) if callable(word) else word for word in client.command]
        pushed, answer = self.store.apply(self.moment, conn, words)
        self.entries.append(Entry(conn, self.moment, words, pushed, answer))
        self.cost += 64 + sum(map(len, words)) + bulks(pushed) + bulks(answer)
        client.took(answer)
