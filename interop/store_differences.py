"""Where our store and Redis answer otherwise: each row is tried on both, on a connection of its own.

A row has a name, the bytes or commands that are sent, and the last reply of ours and of Redis; `ENDED` stands where the
connection ends without a reply.
"""

import time

from replies import NULL_BULK, OK, QUEUED, Problem, Simple
from servers import Link, spelled

NO_WORDS = b"*0\r\n"
ENDED = "the connection ends"
ERROR = "an error"
ANYTHING = "a reply"
PONG = Simple(b"PONG")
ABORTED = Problem(b"EXECABORT")


def error(text):
    return Problem(text.encode())


def line(text):
    """A command whose words are parted by blanks."""
    return spelled([word.encode() for word in text.split(" ")])


def many(first, count, word):
    return spelled([*first, *(word % number for number in range(count))])


REFUSED = [
    ("a greeting for RESP3", "HELLO 3", "ERR command", [b"server", b"redis"]),
    ("a client's name", "CLIENT SETNAME worker", "ERR command", OK),
    ("a client's library", "CLIENT SETINFO lib-name py", "ERR command", ERROR),
    ("the server's settings", "CONFIG GET save", "ERR command", [b"save", b""]),
    ("a command that Celery's worker says", "LRANGE l 0 -1", "ERR command", []),
    ("a key's presence", "EXISTS k", "ERR command", 0),
    ("a script", "EVAL return{} 0", "ERR command", []),
    ("what the server tells of itself", "INFO clients", "ERR command", ANYTHING),
    ("a password", "AUTH x", "ERR command", ERROR),
    ("another database", "SELECT 1", "ERR database", OK),
    ("PING with a text", "PING hello", "ERR arity", b"hello"),
    ("SET in the order of redis-py", "SET k1 v EX 10 NX", "ERR syntax", OK),
    ("SET with small letters", "SET k2 v nx", "ERR syntax", OK),
    ("SET with milliseconds", "SET k3 v PX 1000", "ERR syntax", OK),
    ("SET of a present key alone", "SET k4 v XX", "ERR syntax", NULL_BULK),
    ("SET that keeps the time to live", "SET k5 v KEEPTTL", "ERR syntax", OK),
    ("SET that gives what was there", "SET k8 v GET", "ERR syntax", NULL_BULK),
    ("SET with too many words", "SET k9 v NX EX 10 GET", "ERR arity", NULL_BULK),
    ("a time to live of less than nothing", "EXPIRE k -1", "ERR integer", 0),
    ("a time to live of nothing", "EXPIRE k 0", "ERR integer", 0),
    ("a time to live above 32 bits", "SET k6 v EX 4294967296", "ERR integer", OK),
    ("a condition on a time to live", "EXPIRE k 10 NX", "ERR arity", 0),
    ("several elements popped", "RPOP l 2", "ERR arity", None),
    ("a wait of parts of a second", "BRPOP l 0.01", "ERR integer", None),
    ("several fields", "HSET h1 f v g w", "ERR arity", 2),
    ("a score with a fraction", "ZADD z1 1.5 m", "ERR integer", 1),
    ("a score with a plus sign", "ZADD z2 +5 m", "ERR integer", 1),
    ("a score without an end", "ZADD z3 inf m", "ERR integer", 1),
    ("several members with scores", "ZADD z4 1 a 2 b", "ERR arity", 2),
    ("a condition on a score", "ZADD z5 NX 1 a", "ERR arity", 1),
    ("a range without ends", "ZREVRANGEBYSCORE z +inf -inf", "ERR integer", []),
    ("a range without its end", "ZREVRANGEBYSCORE z (5 0", "ERR integer", []),
    ("a range with its scores", "ZREVRANGEBYSCORE z 5 0 WITHSCORES", "ERR arity", []),
    ("a range with small letters", "ZREVRANGEBYSCORE z 5 0 limit 0 1", "ERR syntax", []),
    ("a range without a limit", "ZREVRANGEBYSCORE z 5 0 LIMIT 0 -1", "ERR integer", []),
    ("several channels", "SUBSCRIBE c d", "ERR arity", [b"subscribe", b"c", 1]),
    ("all channels left", "UNSUBSCRIBE", "ERR arity", [b"unsubscribe", NULL_BULK, 0]),
    ("channels by pattern", "PSUBSCRIBE c*", "ERR command", [b"psubscribe", b"c*", 1]),
    ("a farewell", "QUIT", "ERR command", OK),
]

BEYOND = b"x" * 1025
ROWS = [(name, [line(text)], error(ours), theirs) for name, text, ours, theirs in REFUSED] + [
    ("a line of its own in place of an array", [b"PING\r\n"], ENDED, PONG),
    ("an array of no words", [NO_WORDS, line("PING")], ENDED, PONG),
    ("an array of another value", [b"*1\r\n:1\r\n"], ENDED, ERROR),
    ("a read in a transaction", [line("MULTI"), line("GET k")], error("ERR inside"), QUEUED),
    ("its end", [line("MULTI"), line("GET k"), line("EXEC")], ABORTED, [NULL_BULK]),
    ("a transaction in a transaction, at its end", [line("MULTI"), line("MULTI"), line("PING"), line("EXEC")], ABORTED, [PONG]),
    ("a watch in a transaction, at its end", [line("MULTI"), line("WATCH k"), line("PING"), line("EXEC")], ABORTED, [PONG]),
    ("a wrong integer in a transaction", [line("MULTI"), line("EXPIRE k x")], error("ERR integer"), QUEUED),
    ("its end", [line("MULTI"), line("EXPIRE k x"), line("EXEC")], ABORTED, [ERROR]),
    ("an aborted transaction", [line("MULTI"), line("FOO"), line("EXEC")], ABORTED, error(
        "EXECABORT Transaction discarded because of previous errors.")),
    ("QUIT while subscribed", [line("SUBSCRIBE c"), line("QUIT")], error("ERR subscribed"), OK),
    ("scores that a float can't tell apart", [
        line("ZADD z6 9007199254740993 b"), line("ZADD z6 9007199254740992 a"),
        line("ZREVRANGEBYSCORE z6 9007199254740993 9007199254740993")], [b"b"], [b"b", b"a"]),
    ("members in order", [line("SADD s1 c a b"), line("SMEMBERS s1")], [b"a", b"b", b"c"], "in any order"),
    ("a set of 1,025 members", [many([b"SADD", b"s2"], 1025, b"m%d")], error("ERR full"), 1025),
    ("a member of 1,025 bytes", [spelled([b"SADD", b"s3", BEYOND])], error("ERR full"), 1),
    ("a field of 1,025 bytes", [spelled([b"HSET", b"h2", BEYOND, b"v"])], error("ERR full"), 1),
    ("a sorted set's member of 1,025 bytes", [spelled([b"ZADD", b"z7", b"1", BEYOND])], error("ERR full"), 1),
    ("4,097 commands in a transaction", [line("MULTI"), *[line("PING")] * 4097], error("ERR full"), QUEUED),
    ("a word of 1,048,577 bytes", [spelled([b"SET", b"k7", b"x" * 1048577])], ENDED, OK),
    ("4,097 words", [many([b"DEL"], 4096, b"m%d")], ENDED, 0),
    ("a number's other spelling on the wire", [b"*1\r\n$04\r\nPING\r\n"], ENDED, ERROR),
]


def shown(reply):
    """A reply as a row tells it."""
    if isinstance(reply, str):
        return reply
    if isinstance(reply, Problem):
        return "-" + reply.decode()
    if isinstance(reply, Simple):
        return "+" + reply.decode()
    if isinstance(reply, list):
        return "[%s]" % ", ".join(map(shown, reply))
    if reply is NULL_BULK or reply is None:
        return "null"
    return reply.split(b"\r\n")[0].decode() if isinstance(reply, bytes) else ":%d" % reply


def last_reply(port, pieces):
    """The reply to the last of these pieces, each of which has one reply, but for the array of no words."""
    link = Link(port)
    count = len(pieces) - pieces.count(NO_WORDS)
    try:
        link.send(b"".join(pieces))
        got = link.replies(count)
        return got[-1] if len(got) == count else ENDED
    except ConnectionError:
        return ENDED
    finally:
        link.close()


def is_as_told(told, reply):
    """Whether a reply is the one that a row tells, or an error where it tells no more."""
    if told == ERROR:
        return isinstance(reply, Problem)
    if told == ANYTHING:
        return not isinstance(reply, (str, Problem))
    if told == "in any order":
        return sorted(reply) == [b"a", b"b", b"c"]
    if isinstance(told, list) and isinstance(reply, list):
        # Of a greeting's answer only the beginning is told.
        return all(map(is_as_told, told, reply)) and (len(told) == len(reply) or told[:1] == [b"server"])
    return type(told) is type(reply) and told == reply


def compared(our_port, their_port, alone):
    """Each row's name and the two replies; what isn't as the rows tell, of Redis alone perhaps, has a mark before its name."""
    for name, pieces, ours, theirs in ROWS:
        got, gave = last_reply(our_port, pieces), last_reply(their_port, pieces)
        wrong = not (alone or is_as_told(ours, got)) or not is_as_told(theirs, gave)
        yield ("WRONG " if wrong else "") + name, shown(got)[:60], shown(gave)[:60]


def expiries(link):
    """What GET answers over a key that lives one second, soon after the next second began, and one second later."""
    time.sleep(1 - time.time() % 1 + 0.8)
    link.ask(b"SET", b"short", b"v", b"EX", b"1")
    time.sleep(1 - time.time() % 1 + 0.1)
    early = link.ask(b"GET", b"short")
    time.sleep(1)
    return [*early, *link.ask(b"GET", b"short")]


def empty_wait(link):
    """How long a wait of one second takes for a list that isn't there."""
    begun = time.monotonic()
    link.ask(b"BRPOP", b"nothing", b"1")
    return time.monotonic() - begun
