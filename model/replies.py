"""Values of RESP2 as replies: bytes are a bulk string, a list an array, an int an integer, None the null array."""


class Simple(bytes):
    """The text of a simple string, as OK."""


class Problem(bytes):
    """The text of an error."""


class NullBulk:
    """The null bulk string."""


NULL_BULK = NullBulk()
OK, QUEUED = Simple(b"OK"), Simple(b"QUEUED")


def is_bulk(reply):
    """Whether a value is a bulk string, and not a null one."""
    return isinstance(reply, bytes) and not isinstance(reply, (Simple, Problem))


def bulks(reply):
    """The length of all bulk strings of a value."""
    if isinstance(reply, list):
        return sum(map(bulks, reply))
    return len(reply) if is_bulk(reply) else 0


def spelled(reply):
    """The bytes of a value on the wire."""
    if reply is None:
        return b"*-1\r\n"
    if reply is NULL_BULK:
        return b"$-1\r\n"
    if isinstance(reply, list):
        return b"*%d\r\n" % len(reply) + b"".join(map(spelled, reply))
    if isinstance(reply, int):
        return b":%d\r\n" % reply
    if isinstance(reply, Simple):
        return b"+%b\r\n" % reply
    if isinstance(reply, Problem):
        return b"-%b\r\n" % reply
    return b"$%d\r\n%b\r\n" % (len(reply), reply)
