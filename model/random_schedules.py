"""Random schedules over all lines: clients whose steps interleave, stops at any place, races and moments that jump.

A schedule depends on its seed alone. The model's world says which lines can come next, and what a client is about to say.
"""

import random

from blocks import EXEC, INDEX, MUTEX, TABLE
from bindings import bindings_key
from envelopes import read_tag
from faults import Faults
from odd_words import EXCHANGES, QUEUES, TASKS
from random_json import JsonMaker
from schedules import Bad, World

LIVE = 300
JUMPS = (0, 0, 1, 1, 60, LIVE - 1, LIVE, LIVE + 1, 3600, 2**20)
VISIBILITIES = (0, 0, 1, 60, 3600, 2**32 - 1)
# How often a line of each kind is made, by what a schedule is most about.
MOODS = {
    "messages": {"publish": 6, "pop": 5, "ack": 3, "declare": 1, "give_back": 1, "sweep": 1},
    "returns": {"publish": 4, "pop": 5, "ack": 1, "declare": 1, "give_back": 6, "sweep": 2, "contend": 1, "rebound": 1},
    "races": {"publish": 2, "pop": 3, "ack": 1, "give_back": 3, "sweep": 1, "contend": 4},
    "passes": {"publish": 2, "pop": 3, "ack": 1, "declare": 1, "give_back": 1, "sweep": 6, "many": 1, "handover": 2},
    "bindings": {"publish": 4, "pop": 4, "ack": 1, "declare": 6, "undeclare": 3, "give_back": 4, "sweep": 1, "rebound": 3},
}


class Maker(Faults, JsonMaker):
    """Makes one random schedule."""

    def __init__(self, seed):
        self.random = random.Random(seed)
        self.world = World()
        self.lines = [b"celery-schedule 1"]
        self.queues = self.random.sample(QUEUES, 2) + [b"celery"]
        self.exchanges = self.random.sample(EXCHANGES, 2)
        self.mood = MOODS[self.random.choice(list(MOODS))]
        # How likely a line is to stop a client, and to move the clock.
        self.stopping = self.random.choice((0.0, 0.02, 0.1))
        self.moving = self.random.choice((0.02, 0.1, 0.3))
        # How likely a block is to be said in one go.
        self.whole = self.random.choice((0.1, 0.5, 0.9))

    def schedule(self):
        """The bytes of a schedule, with no, one or two faults put in."""
        faults = self.random.choice((0, 0, 0, 1, 2))
        for part in range(faults + 1):
            for _ in range(self.random.choice((3, 10, 25, 60))):
                self.add(self.lawful_line(), False)
            if part < faults:
                self.spoil()
        text = b"\n".join(self.lines)
        if self.random.random() < 0.03:
            text = self.spoilt_bytes(text)
        return text + self.random.choice((b"\n",) * 15 + (b"", b"\n\n"))

    def add(self, line, always):
        """Adds a line; where it can't come next, only if it is always to be added. Tells whether it could come next."""
        try:
            self.world.line(line)
        except Bad:
            if always:
                self.lines.append(line)
            return False
        self.lines.append(line)
        return True

    def says(self, text, *words):
        return self.add(text % words, False)

    # --- Which clients there are, and what they are about to say

    def going(self):
        return {conn: client for conn, client in self.world.clients.items() if not client.stopped}

    def resting(self):
        return [conn for conn, client in self.going().items() if not client.block]

    def working(self):
        return [conn for conn, client in self.going().items() if client.block]

    def held(self, key):
        return self.world.store.keys.get(key, {})

    def steps_to(self, conn, words):
        """Has a client say all that comes before these words; tells whether it came to them."""
        while self.world.clients[conn].block and self.world.clients[conn].command != words:
            self.says(b"step %d", conn)
        return bool(self.world.clients[conn].block)

    # --- Lines

    def lawful_line(self):
        """A line that can often come next."""
        going = self.going()
        if len(going) < 2 or self.random.random() < 0.03:
            seed = self.random.choice((self.random.randint(1, 40), 2**62, 2**32))
            return b"client %d seed %d" % (self.random.choice((*range(1, 12), 4096)), seed)
        if self.random.random() < self.moving:
            return b"at %d" % self.moment()
        if self.random.random() < self.stopping:
            return b"stop %d" % self.random.choice(self.working() * 3 + list(going))
        working = self.working()
        if working and (self.random.random() < 0.7 or not self.resting()):
            conn = self.random.choice(working)
            return (b"run %d" if self.random.random() < self.whole else b"step %d") % conn
        kind = self.random.choices(list(self.mood), list(self.mood.values()))[0]
        asked = getattr(self, kind)()
        resting = self.resting()
        if not resting:
            return b"at %d" % self.moment()
        return b"begin %d %b" % (self.random.choice(resting), asked)

    def moment(self):
        """A moment that is near, far, or about that at which the mutex expires or a message becomes due."""
        ends = [self.world.store.expiries.get(MUTEX, 0)]
        dues = [score + self.random.choice(VISIBILITIES) for score in self.held(INDEX).values()]
        found = self.world.moment + self.random.choice(JUMPS)
        if self.random.random() < 0.4:
            found = self.random.choice(ends + dues) + self.random.choice((-1, 0, 1))
        return found if found >= self.world.moment else self.world.moment + 1

    def publish(self):
        priority = self.random.choice((0, 0, 0, 3, 6, 9, 255, self.random.randint(0, 12)))
        args = self.json(self.random.choice((1, 1, 2, 4)), 0.0)
        exchange, routing_key = b"-", self.queue()
        if self.random.random() < (0.6 if "undeclare" in self.mood else 0.15):
            exchange, routing_key = self.exchange(), self.routing_key()
        return b"publish %b %b %d %b %b" % (exchange, routing_key, priority, self.random.choice(TASKS), args.encode())

    def queue(self):
        return self.random.choice(self.queues)

    def exchange(self):
        return self.random.choice(self.exchanges + [b"ex"])

    def dotted(self, letters):
        """A few words of few letters, parted by dots; a dash where there is none."""
        lengths = self.random.choices((0, 1, 1, 1, 2), k=self.random.randint(1, 4))
        return b".".join(b"".join(self.random.choices(letters, k=length)) for length in lengths) or b"-"

    def routing_key(self):
        return self.random.choice((b"rk", b"a.b", b"a", self.dotted([b"a", b"b"]), self.queue()))

    def pattern(self):
        return self.random.choice((b"-", b"a.*.#", b"#", b"*", b"*.b", b"a.#", self.dotted([b"a", b"b", b"*", b"#"])))

    def declare(self):
        """Most often a new binding; else one that a key leads to directly."""
        pattern = self.pattern() if self.random.random() < 0.7 else b"-"
        return b"declare %b %b %b %b" % (self.exchange(), self.routing_key(), pattern, self.queue())

    def undeclare(self):
        """Most often of a binding that stands."""
        exchange = self.exchange()
        members = sorted(self.held(bindings_key(exchange)) or ())
        if members and self.random.random() < 0.8:
            words = [part or b"-" for part in self.random.choice(members).split(b"\x06\x16")]
            return b"undeclare %b %b %b %b" % (exchange, *words)
        return b"un" + self.declare()

    def pop(self):
        return b"pop " + b" ".join(self.queue() for _ in range(self.random.choice((1, 1, 2, 5))))

    def tag(self):
        """Most often that of a message in the table."""
        tags = [read_tag(tag) for tag in self.held(TABLE)]
        if tags and self.random.random() < 0.9:
            return self.random.choice(tags)
        seeds = [client.seed for client in self.world.clients.values()] + [7]
        return self.random.choice(seeds), self.random.randint(0, 9)

    def ack(self):
        return b"ack %d:%d" % self.tag()

    def give_back(self):
        return self.random.choice((b"restore", b"requeue")) + b" %d:%d" % self.tag()

    def sweep(self):
        return b"pass %d" % self.random.choice((*VISIBILITIES, self.world.moment, self.world.moment + 1))

    # --- Several lines for what chance alone seldom comes to; each gives one more begin

    def two_resting(self):
        resting = self.resting()
        return self.random.sample(resting, 2) if len(resting) > 1 else None

    def unacked(self, conn):
        """Has a client put one message more into the table."""
        queue = self.queue()
        self.says(b"begin %d publish - %b 0 t []", conn, queue)
        self.says(b"run %d", conn)
        self.says(b"begin %d pop %b", conn, queue)
        self.says(b"run %d", conn)

    def contend(self):
        """A return or a pass whose transactions are disturbed, some times or all eight."""
        pair = self.two_resting()
        if pair:
            one, other = pair
            self.unacked(other)
            self.says(b"begin %d %b", one, self.random.choice((self.give_back(), self.give_back(), b"pass 0")))
            for _ in range(self.random.choice((1, 2, 7, 8, 8, 9))):
                if not self.steps_to(one, EXEC):
                    break
                self.disturb(other)
                self.says(b"step %d", one)
        return self.pop()

    def disturb(self, conn):
        """Has a client alter the table, most often."""
        kind = self.random.random()
        if kind < 0.85:
            self.unacked(conn)
        else:
            self.says(b"begin %d %b", conn, self.ack() if kind < 0.95 else self.give_back())
            self.says(b"run %d", conn)

    def rebound(self):
        """A message's exchange gains or loses a binding while it is in the table, and then it is given back."""
        resting = self.resting()
        if not resting:
            return self.pop()
        conn, exchange, key, queue = resting[0], self.exchange(), self.routing_key(), self.queue()
        bound = b"declare %b %b - %b" % (exchange, key, queue)
        for block in (bound, b"publish %b %b 6 t []" % (exchange, key), b"pop %b" % queue):
            self.says(b"begin %d %b", conn, block)
            self.says(b"run %d", conn)
        for _ in range(self.random.randint(0, 2)):
            change = self.random.choice((b"declare %b %b # %b", b"declare %b %b - %b", b"undeclare %b %b - %b"))
            self.says(b"begin %d %b", conn, change % (exchange, key, self.random.choice((queue, queue, self.queue()))))
            self.says(b"run %d", conn)
        client = self.world.clients[conn]
        return self.random.choice((b"restore", b"requeue")) + b" %d:%d" % (client.seed, client.sent)

    def many(self):
        """More due messages than a pass reads, at equal and at different moments."""
        for conn in self.resting()[:1]:
            for _ in range(self.random.randint(8, 13)):
                self.unacked(conn)
                if self.random.random() < 0.4:
                    self.says(b"at %d", self.world.moment + 1)
        return b"pass 0"

    def handover(self):
        """A pass during which the mutex expires, is taken by another client, and perhaps given back."""
        pair = self.two_resting()
        if pair:
            one, other = pair
            self.says(b"begin %d pass %d", one, self.random.choice(VISIBILITIES))
            for _ in range(self.random.randint(1, 6)):
                self.says(b"step %d", one)
            if self.random.random() < 0.3:
                self.steps_to(one, [b"DEL", MUTEX])
            self.says(b"at %d", self.world.moment + self.random.choice((0, LIVE - 1, LIVE, LIVE + 1)))
            self.says(b"begin %d pass %d", other, self.random.choice(VISIBILITIES))
            self.says(self.random.choice((b"step %d", b"run %d")), other)
            self.says(b"run %d", one)
        return self.sweep()


def full_schedule(seed):
    """A history that is filled up: its text tells the exact length of all its envelopes and entries."""
    maker = Maker(seed)
    # A publication to "-" is one to the empty name.
    maker.queues = [queue for queue in maker.queues if queue != b"-"]
    lines = [b"celery-schedule 1", b"client 1 seed 7"]
    for number in range(1, 3001):
        for block in (direct(maker), maker.pop(), b"ack 7:%d" % number):
            lines += [b"begin 1 " + block, b"run 1"]
    lines += [b"begin 1 pop empty", b"run 1"] * 1_000_000
    return b"\n".join(lines)


def direct(maker):
    """A publication to a queue."""
    words = maker.publish().split(b" ", 3)
    return b"publish - %b %b" % (maker.queue(), words[3])


def crowded_schedule(seed):
    """An exchange with all the bindings that a set may have, and more declarations; few of them have patterns."""
    maker = Maker(seed)
    chance = maker.random
    lines = [b"celery-schedule 1", b"client 1 seed 7", b"client 2 seed 8", b"client 3 seed 9"]
    for number in range(chance.choice((1023, 1024))):
        pattern = chance.choice((b"-",) * 9 + (b"a.*",))
        lines += [b"begin 1 declare ex rk%d %b q%d" % (number % 300, pattern, number), b"run 1"]
    for _ in range(chance.randint(1, 4)):
        conn = chance.randint(2, 3)
        lines += [b"begin %d declare ex rk - last%d" % (conn, chance.randint(1, 2)), b"run %d" % conn]
        if chance.random() < 0.3:
            lines += [b"begin 1 undeclare ex rk1 - q1", b"run 1"]
    lines += [b"begin 1 publish ex %b 0 t []" % chance.choice((b"rk1", b"a.b", b"rk")), b"run 1"]
    lines += [b"begin 1 pop q1", b"run 1", b"begin 1 requeue 7:1", b"run 1"]
    return b"\n".join(lines) + b"\n"
