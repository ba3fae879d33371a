"""Kombu over our store: messages published with priorities and consumed, and which commands it says that the store refuses.

Between Kombu and the store stands a relay that keeps what goes by on each connection. A second kind of relay says what comes
on all connections on one connection to the store, a burst of whole commands at a time: Kombu holds two connections at once,
and the store may serve one after the other.
"""

import socket
import threading

import kombu
import redis

from replies import Problem, spelled
from servers import Cut, Link, free_port, value_at

PRIORITIES = (0, 9, 3, 6, 0, 9)


class Relay:
    """Hands on what comes at a port of its own; `heard` has, for each connection, both streams of bytes."""

    def __init__(self, port):
        self.port, self.behind, self.heard = free_port(), port, []
        self.listener = socket.create_server(("127.0.0.1", self.port))
        threading.Thread(target=self.accept, daemon=True).start()

    def accept(self):
        while True:
            try:
                near, _ = self.listener.accept()
            except OSError:
                return
            self.heard.append((bytearray(), bytearray()))
            self.begin(near, *self.heard[-1])

    def begin(self, near, asked, told):
        far = socket.create_connection(("127.0.0.1", self.behind))
        threading.Thread(target=self.carry, args=(near, far, asked), daemon=True).start()
        threading.Thread(target=self.carry, args=(far, near, told), daemon=True).start()

    @staticmethod
    def carry(one, other, kept):
        try:
            while piece := one.recv(65536):
                kept += piece
                other.sendall(piece)
        except OSError:
            pass
        for end in (one, other):
            try:
                end.shutdown(socket.SHUT_RDWR)
            except OSError:
                pass

    def close(self):
        self.listener.close()


class SharedRelay(Relay):
    """Says everything on one connection to the store."""

    def __init__(self, port):
        self.link, self.turn = Link(port), threading.Lock()
        super().__init__(port)

    def begin(self, near, asked, told):
        threading.Thread(target=self.answer, args=(near, asked, told), daemon=True).start()

    def answer(self, near, asked, told):
        begun = 0
        try:
            while piece := near.recv(65536):
                asked += piece
                whole = values(asked[begun:])
                if not whole:
                    continue
                data = b"".join(map(spelled, whole))
                begun += len(data)
                with self.turn:
                    self.link.send(data)
                    answers = b"".join(map(spelled, self.link.replies(len(whole))))
                told += answers
                near.sendall(answers)
        except OSError:
            pass
        near.close()

    def close(self):
        super().close()
        self.link.close()


def values(data):
    """The whole values at the beginning of some bytes."""
    found, at = [], 0
    while at < len(data):
        try:
            value, at = value_at(bytes(data), at)
        except Cut:
            break
        found.append(value)
    return found


def told(heard):
    """The names of the commands that were said, and those that were refused with their words and the error."""
    said, refused = {}, []
    for asked, answers in heard:
        commands, replies = values(asked), values(answers)
        for command in commands:
            said[command[0].decode()] = said.get(command[0].decode(), 0) + 1
        for command, reply in zip(commands, replies):
            if isinstance(reply, Problem):
                refused.append((b" ".join(word[:40] for word in command).decode("latin-1"), reply.decode()))
    return said, refused


def connection(port):
    options = {"socket_timeout": 4, "socket_connect_timeout": 4, "max_connections": 4, "priority_steps": [0, 3, 6, 9],
               "queue_order_strategy": "priority", "visibility_timeout": 3600}
    return kombu.Connection("redis://127.0.0.1:%d/0" % port, transport_options=options)


def published(link):
    """Publishes a message of each priority."""
    with link.channel() as channel:
        queue = kombu.Queue("celery", kombu.Exchange("celery", type="direct"), routing_key="celery", channel=channel)
        queue.declare()
        producer = kombu.Producer(channel, serializer="json")
        for number, priority in enumerate(PRIORITIES):
            producer.publish({"number": number}, exchange="celery", routing_key="celery", priority=priority)
    return "%d messages published" % len(PRIORITIES)


def got(link, no_ack):
    """The numbers of the messages that are asked for one by one."""
    found = []
    with link.channel() as channel:
        queue = kombu.Queue("celery", kombu.Exchange("celery", type="direct"), routing_key="celery", channel=channel)
        for _ in PRIORITIES:
            message = queue.get(no_ack=no_ack)
            if message is None:
                break
            found.append(message.payload["number"])
            if not no_ack:
                message.ack()
    return "got %s" % found


def consumed(link, no_ack):
    """The numbers of the messages that a consumer is handed."""
    found = []

    def hand(body, message):
        found.append(body["number"])
        if not no_ack:
            message.ack()

    queue = kombu.Queue("celery", kombu.Exchange("celery", type="direct"), routing_key="celery")
    with link.Consumer(queue, callbacks=[hand], no_ack=no_ack, accept=["json"]):
        for _ in PRIORITIES:
            link.drain_events(timeout=3)
    return "consumed %s" % found


PARTS = (
    ("publishing", published),
    ("asking without acknowledgement", lambda link: got(link, True)),
    ("publishing", published),
    ("asking with acknowledgement", lambda link: got(link, False)),
    ("publishing", published),
    ("a consumer without acknowledgement", lambda link: consumed(link, True)),
    ("publishing", published),
    ("a consumer with acknowledgement", lambda link: consumed(link, False)),
)


def outcomes(port, kind):
    """For each part: its name, what came of it, the commands said and those refused. Each part has a relay and a link of its own."""
    for name, part in PARTS:
        relay = kind(port)
        link = connection(relay.port)
        try:
            came = part(link)
        except (redis.RedisError, OSError, kombu.exceptions.KombuError) as fault:
            came = "%s: %s" % (type(fault).__name__, fault)
        try:
            link.close()
        except (redis.RedisError, OSError):
            pass
        relay.close()
        yield (name, came, *told(relay.heard), len(relay.heard))
