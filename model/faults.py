"""Faults that are put into a random schedule, or what is nearly one."""

from odd_words import BAD_QUEUES, EXCHANGES, LONG_NAMES, NUMBERS, ODD_LINES, QUEUES, TAGS


class Faults:
    """What a maker of schedules puts into the lines that it has; `random`, `world`, `lines` and `add` are the maker's."""

    def spoil(self):
        """Puts a fault in, or something that is nearly one."""
        made = self.random.choice((
            self.wrong_word, self.wrong_word, self.wrong_queue, self.wrong_queue, self.wrong_args, self.wrong_args,
            self.wrong_args, self.wrong_length, self.wrong_moment, self.wrong_blank, self.wrong_client, self.wrong_pop,
            self.wrong_tag, self.wrong_exchange, self.wrong_exchange, self.wrong_declare, self.wrong_declare,
            self.of_stopped, self.of_stopped, self.some_line,
        ))()
        chance = self.random.random()
        if chance < 0.02:
            header = self.lines[0]
            self.lines[0] = self.random.choice((b"celery-schedule 2", header + b" ", header + b"\r", b"", made))
        elif chance < 0.08:
            self.add(self.random.choice(ODD_LINES), True)
        elif chance < 0.25:
            self.lines.insert(self.random.randint(1, len(self.lines)), made)
        else:
            self.add(made, True)

    def some_line(self):
        return self.random.choice(self.lines)

    def conn(self):
        """The number of a client, which mostly is there and has no block."""
        resting = [b"%d" % conn for conn in self.resting()]
        return self.random.choice(resting * 9 + [b"%d" % conn for conn in self.world.clients] + [b"77"])

    def wrong_word(self):
        words = self.some_line().split(b" ")
        place = self.random.randrange(len(words))
        words[place] = self.random.choice(NUMBERS + TAGS + BAD_QUEUES + LONG_NAMES + [words[place]])
        self.random.choice((lambda: None, lambda: None, words.pop, lambda: words.append(words[0])))()
        return b" ".join(words)

    def args(self):
        return self.random.choice((b"[]", b"[1.5]", b"{"))

    def wrong_queue(self):
        queue = self.random.choice(BAD_QUEUES + QUEUES)
        priority = self.random.choice((b"0", b"255", b"256"))
        return b"begin %b publish - %b %b t %b" % (self.conn(), queue, priority, self.args())

    def wrong_exchange(self):
        """A publication to an exchange, whose names may be too long, and whose key isn't a queue's name."""
        exchange = self.random.choice(EXCHANGES + BAD_QUEUES + LONG_NAMES)
        key = self.random.choice(BAD_QUEUES + LONG_NAMES + QUEUES)
        return b"begin %b publish %b %b 0 t %b" % (self.conn(), exchange, key, self.args())

    def wrong_declare(self):
        """A declaration with names at the edge or past it."""
        words = [self.exchange(), self.routing_key(), self.pattern(), self.queue()]
        for _ in range(self.random.choice((1, 1, 2))):
            words[self.random.randrange(4)] = self.random.choice(BAD_QUEUES + LONG_NAMES + QUEUES + [b"-"])
        name = self.random.choice((b"declare", b"undeclare"))
        return b"begin %b %b %b" % (self.conn(), name, b" ".join(words))

    def of_stopped(self):
        """A line for a client that has stopped, if there is one."""
        stopped = [conn for conn, client in self.world.clients.items() if client.stopped] or [77]
        conn = self.random.choice(stopped)
        line = self.random.choice((
            b"client %d seed 99", b"client %d seed 0", b"begin %d pop celery", b"begin %d pop unacked", b"step %d",
            b"run %d", b"stop %d", b"begin %d pass 1", b"begin %d nothing",
        ))
        return line % conn

    def wrong_args(self):
        return b"begin %b publish - %b 0 t %b" % (self.conn(), self.queue(), self.spoilt_json().encode())

    def wrong_length(self):
        """A line near its limit; perhaps no text too."""
        start = b"begin %b publish - %b 0 t [" % (self.conn(), self.queue())
        size = 65_536 + self.random.choice((-1, 0, 0, 1, 2))
        line = start + b" " * (size - len(start) - 1) + b"]"
        return line.replace(b"[ ", b"[\xff") if self.random.random() < 0.2 else line

    def wrong_moment(self):
        return b"at " + self.random.choice(NUMBERS + [b"%d" % max(0, self.world.moment - 1), b"%d" % self.world.moment])

    def wrong_blank(self):
        line = self.some_line()
        within = [line.replace(b" ", blank, 1) for blank in (b"  ", b"\t")]
        return self.random.choice([line + b" ", b" " + line, line + b"\r"] + within)

    def wrong_client(self):
        number = self.random.choice(NUMBERS + [b"%d" % self.random.randint(1, 5)])
        line = b"client %b seed %b" % (number, self.random.choice(NUMBERS + [b"%d" % self.random.randint(1, 9)]))
        number = self.random.choice((number, self.conn()))
        verb = self.random.choice((b"step", b"run", b"step", b"run", b"begin", b"stop"))
        return self.random.choice((line, b"%b %b" % (verb, number), b"begin %b pop celery" % number))

    def wrong_pop(self):
        count = self.random.choice((0, 1, 2, 1022, 1023, 1024))
        queues = [b"q"] * count
        for _ in range(min(count, 2)):
            queues[self.random.randrange(count)] = self.random.choice(BAD_QUEUES + QUEUES[:5])
        return b" ".join([b"begin", self.conn(), b"pop"] + queues)

    def wrong_tag(self):
        name = self.random.choice((b"ack", b"restore", b"requeue"))
        return b"begin %b %b %b" % (self.conn(), name, self.random.choice(TAGS))

    def spoilt_bytes(self, text):
        """A few bytes changed, taken out or put in."""
        data = bytearray(text)
        for _ in range(self.random.randint(1, 3)):
            place = self.random.randrange(len(data))
            byte = self.random.choice(b"\x00\t\n\n\r \"-0:[]{}\\\x7f\x80\xc3\xed\xff" + data[:1])
            end = place + self.random.choice((0, 1))
            data[place:end] = self.random.choice((b"", bytes([byte])))
        return bytes(data)
