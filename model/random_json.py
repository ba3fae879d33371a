"""Random JSON texts, good ones and spoilt ones."""

from odd_words import ATOMS, BAD_ATOMS


class JsonMaker:
    """Makes texts by a source of chance of its own."""

    def __init__(self, random):
        self.random = random

    def json(self, depth, fault):
        """An array; each atom in it is a bad one with the chance `fault`."""
        return self.blank() + self.array(depth, fault) + self.blank()

    def array(self, depth, fault):
        items = [self.value(depth - 1, fault) for _ in range(self.random.randint(0, 3))]
        return "[" + ",".join(self.blank() + item + self.blank() for item in items) + "]"

    def value(self, depth, fault):
        kind = self.random.random()
        if depth <= 0 or kind < 0.4:
            return self.random.choice(BAD_ATOMS if self.random.random() < fault else ATOMS)
        if kind < 0.7:
            return self.array(depth, fault)
        keys = self.random.choices(('"a"', '"b"', '"\\u0061"', '"\u00e9"', '""'), k=self.random.randint(0, 3))
        return "{" + ",".join(key + self.blank() + ":" + self.value(depth - 1, fault) for key in keys) + "}"

    def blank(self):
        return self.random.choice(("", "", "", "", "", " ", "\t", "\r", " \r\t"))

    def deep(self):
        """Many arrays or objects inside one another; perhaps in a member that another one replaces."""
        depth = self.random.choice((89, 90, 91, 126, 127, 128, 129))
        opens, closes = self.random.choice((("[", "]"), ('{"a":', "}")))
        dropped = self.random.random() < 0.5
        inner = opens * (depth - 1 - dropped) + "0" + closes * (depth - 1 - dropped)
        return '[{"a":%s,"a":0}]' % inner if dropped else "[%s]" % inner

    def spoilt_json(self):
        kind = self.random.random()
        if kind < 0.3:
            return self.deep()
        if kind < 0.5:
            pair = [self.random.choice(BAD_ATOMS + ATOMS), "1"]
            self.random.shuffle(pair)
            return '[{"k":%s,"k":%s}]' % tuple(pair)
        if kind < 0.6:
            text = self.json(3, 0.02)
            place = self.random.randrange(len(text) + 1)
            put_in = self.random.choice('[]{},:"\\09.eE+-tu \x00')
            return text[:place] + put_in + text[place + self.random.randint(0, 1):]
        if kind < 0.75:
            return self.random.choice(("[]]", "[] 1", "", " ", "{}", "1", "null", "[]\r", "[]\x00", "[]\u00a0", '""'))
        return self.json(3, 0.5)
