"""An independent reader of RESP2 in this project's limits, for random runs: what `celery_node show` must write of a stream.

It works on the whole stream at once, by the rules of docs/FORMATS.md and nothing of the decoder's code.
"""

TEXT, LENGTH, COUNT, DEPTH, VALUE, INPUT = 65536, 1048576, 4096, 4, 8388608, 67108864
PLAIN = set(range(0x20, 0x7F)) - {0x22, 0x5C}


class Front(Exception):
    """The bytes end inside a value."""


class Fault(Exception):
    """A byte with which no value goes on: its kind and its place."""


def quoted(data):
    """The quoted form of bytes."""
    out = bytearray(b'"')
    for byte in data:
        if byte in PLAIN:
            out.append(byte)
        elif byte in (0x22, 0x5C):
            out += bytes((0x5C, byte))
        else:
            out += b"\\x%02x" % byte
    return bytes(out) + b'"'


def byte_at(data, at):
    if at >= len(data):
        raise Front
    return data[at]


def must(data, at, byte):
    if byte_at(data, at) != byte:
        raise Fault("NoCrLf", at)
    return at + 1


def line_end(data, at):
    return must(data, must(data, at, 13), 10)


def text(data, at):
    """A text and the place after its line."""
    begin = at
    while byte_at(data, at) != 13:
        if data[at] == 10:
            raise Fault("NoCrLf", at)
        if at - begin == TEXT:
            raise Fault("TooLong", at)
        at += 1
    return data[begin:at], must(data, at + 1, 10)


def integer(data, at, least, most, over):
    """An integer between two bounds, and the place after its line; `over` is the kind where a digit passes `most`."""
    begin = at
    if byte_at(data, at) == ord("-"):
        at += 1
    digits = at
    while True:
        byte = byte_at(data, at)
        if byte == 13 and at > digits:
            break
        if not 0x30 <= byte <= 0x39:
            raise Fault("BadInteger", at)
        if at > digits and data[digits] == 0x30:
            raise Fault("BadInteger", at)
        if begin < digits and at == digits and byte == 0x30:
            raise Fault("BadInteger", at)
        number = int(data[begin:at + 1])
        if number > most:
            raise Fault(over, at)
        if number < least:
            raise Fault("BadInteger", at)
        at += 1
    return int(data[begin:at]), must(data, at + 1, 10)


def value(data, at, depth):
    """The value form of the value at a place, inside so many arrays, and the place after it."""
    head = byte_at(data, at)
    if head in b"+-":
        found, end = text(data, at + 1)
        return bytes((head,)) + quoted(found), end
    if head == ord(":"):
        number, end = integer(data, at + 1, -(2 ** 63), 2 ** 63 - 1, "BadInteger")
        return b":%d" % number, end
    if head == ord("$"):
        length, end = integer(data, at + 1, -1, LENGTH, "TooLong")
        if length < 0:
            return b"$-", end
        if len(data) < end + length:
            raise Front
        return b"$" + quoted(data[end:end + length]), line_end(data, end + length)
    if head == ord("*"):
        if depth == DEPTH:
            raise Fault("TooDeep", at)
        count, end = integer(data, at + 1, -1, COUNT, "TooLong")
        if count < 0:
            return b"*-", end
        items = []
        for _ in range(count):
            item, end = value(data, end, depth + 1)
            items.append(item)
        return b"*[" + b", ".join(items) + b"]", end
    raise Fault("BadKind", at)


def show(stream):
    """What `show` writes of a stream, its status and its place."""
    data = stream[:INPUT]
    lines, at = [], 0
    while at < len(data):
        piece = data[at:at + VALUE]
        try:
            line, end = value(piece, 0, 0)
        except Fault as fault:
            kind, place = fault.args
            return b"".join(lines) + b"fault %b at %d\n" % (kind.encode(), at + place), 3, at + place
        except Front:
            if len(piece) == VALUE:
                return b"".join(lines) + b"fault TooLong at %d\n" % (at + VALUE), 3, at + VALUE
            if len(stream) > INPUT:
                break
            return b"".join(lines) + b"unfinished at %d\n" % at, 3, at
        lines.append(line + b"\n")
        at += end
    if len(stream) > INPUT:
        return b"".join(lines) + b"long at %d\n" % INPUT, 3, INPUT
    return b"".join(lines), 0, 0
