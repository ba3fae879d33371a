"""JSON texts, as serde_json reads and writes them."""

import json
import re


class NotJson(Exception):
    """The text is no JSON."""


SPACE = re.compile(r"[ \t\n\r]*")
NUMBER = re.compile(r"(-?(?:0|[1-9][0-9]*))((?:\.[0-9]+)?(?:[eE][+-]?[0-9]+)?)")
STRING = re.compile(r'"((?:[^"\\\x00-\x1f]|\\(?:["\\/bfnrt]|u[0-9a-fA-F]{4}))*)"')
LONE_SURROGATE = re.compile("[\ud800-\udfff]")
WORDS = {"true": True, "false": False, "null": None}


class JsonReader:
    """Reads one JSON text into Python's values; a `float` is each number that isn't held as a whole one."""

    def __init__(self, text):
        self.text, self.at = text, 0

    def whole(self):
        value = self.value(0)
        self.skip()
        if self.at != len(self.text):
            raise NotJson
        return value

    def skip(self):
        self.at = SPACE.match(self.text, self.at).end()

    def takes(self, piece):
        """Whether the piece comes next, after blanks; if so it is passed."""
        self.skip()
        found = self.text.startswith(piece, self.at)
        self.at += len(piece) if found else 0
        return found

    def wants(self, piece):
        if not self.takes(piece):
            raise NotJson

    def value(self, depth):
        self.skip()
        head = self.text[self.at:self.at + 1]
        if head in ("[", "{") and depth == 127:
            raise NotJson
        if self.takes("["):
            return self.items("]", lambda: self.value(depth + 1))
        if self.takes("{"):
            return dict(self.items("}", lambda: self.member(depth + 1)))
        if head == '"':
            return self.string()
        for word, value in WORDS.items():
            if self.takes(word):
                return value
        return self.number()

    def items(self, end, item):
        found = []
        if self.takes(end):
            return found
        while True:
            found.append(item())
            if self.takes(end):
                return found
            self.wants(",")

    def member(self, depth):
        self.skip()
        key = self.string()
        self.wants(":")
        return key, self.value(depth)

    def string(self):
        found = STRING.match(self.text, self.at)
        if not found:
            raise NotJson
        self.at = found.end()
        text = json.loads(found.group())
        if LONE_SURROGATE.search(text):
            raise NotJson
        return text

    def number(self):
        found = NUMBER.match(self.text, self.at)
        if not found:
            raise NotJson
        self.at = found.end()
        digits, rest = found.groups()
        return real_number(found.group()) if rest else whole_number(digits)


def whole_number(digits):
    """The value of a number without a fraction or an exponent."""
    return int(digits) if digits != "-0" and -(2**63) <= int(digits) < 2**64 else real_number(digits)


def real_number(text):
    value = float(text)
    if abs(value) == float("inf"):
        raise NotJson
    return value


def no_json(_):
    raise NotJson


PYTHON = json.JSONDecoder(parse_int=whole_number, parse_float=real_number, parse_constant=no_json)


def is_plain(text):
    """Whether Python's reader takes the text for the same: it can't nest too deep, and spells no character by its number."""
    return "\\u" not in text and text.count("[") + text.count("{") <= 127


def read_json(data):
    """The tree of these bytes."""
    try:
        text = data.decode()
        return PYTHON.decode(text) if is_plain(text) else JsonReader(text).whole()
    except ValueError:
        raise NotJson from None


def write_json(tree):
    """The compact text of a tree, the members of each object in byte order."""
    return json.dumps(tree, ensure_ascii=False, sort_keys=True, separators=(",", ":")).encode()


def parts(tree):
    """The items or members' values right inside a tree."""
    return tree if isinstance(tree, list) else tree.values() if isinstance(tree, dict) else ()


def depth_of(tree):
    """How many arrays and objects stand inside one another."""
    return isinstance(tree, (list, dict)) + max(map(depth_of, parts(tree)), default=0)


def has_float(tree):
    return isinstance(tree, float) or any(map(has_float, parts(tree)))
