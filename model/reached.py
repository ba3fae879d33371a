"""What a history reaches, told by its entries alone: the names of things that random schedules are to come to."""

from blocks import EXEC, MULTI, MUTEX, TABLE, TRIES, UNWATCH
from replies import NULL_BULK, OK, Problem


class Reached:
    """Goes through the entries of a history and gathers names."""

    def __init__(self, world):
        self.names, self.seeds = set(), {conn: client.seed for conn, client in world.clients.items()}
        self.watched, self.open, self.nulls, self.last = {}, {}, {}, {}
        for entry in world.entries:
            self.names.update(self.told(entry))
            self.last[entry.conn] = entry

    def told(self, entry):
        """The names that one entry adds."""
        conn, words, answer = entry.conn, entry.words, entry.answer
        if words is None:
            yield from self.stopped(conn)
            return
        if isinstance(answer, Problem):
            yield "error " + answer.decode()
        if words[0] == b"WATCH":
            self.watched[conn] = words[1]
            if words[1] == MUTEX and self.nulls.get(conn) == TRIES:
                yield "pass contended"
        elif words == MULTI:
            self.open[conn] = 0
        elif words == EXEC:
            yield from self.ran(conn, answer)
        elif conn in self.open:
            self.open[conn] += words[0] in (b"LPUSH", b"RPUSH")
        elif words == UNWATCH:
            yield from self.given_up(conn)
        else:
            yield from self.said(words, answer)

    def stopped(self, conn):
        yield "stop"
        before = self.last.get(conn)
        if conn in self.open:
            yield "stop in a transaction"
        elif conn in self.watched:
            yield "stop while watching"
        elif before and before.words[0] == b"BRPOP" and before.answer:
            yield "stop with a message in hand"
        elif before and before.words[0] in (b"SET", b"ZREVRANGEBYSCORE") and before.answer is not NULL_BULK:
            yield "stop with the mutex"

    def ran(self, conn, answer):
        key, pushes = self.watched.pop(conn, None), self.open.pop(conn, 0)
        if answer is None:
            self.nulls[conn] = self.nulls.get(conn, 0) + (key == TABLE)
            yield "mutex lost before its release" if key == MUTEX else "null EXEC of a return"
            if key == TABLE and self.nulls[conn] == TRIES:
                yield "eight null EXEC in a row"
            return
        if key == TABLE:
            yield "returned after %s null EXEC" % ("a" if self.nulls.get(conn) else "no")
            if pushes > 1:
                yield "returned to several queues"
        elif key is None and 0 in answer:
            yield "acknowledged what was gone"
        self.nulls[conn] = 0

    def given_up(self, conn):
        key, before = self.watched.pop(conn, None), self.last[conn]
        self.nulls[conn] = 0
        if key == MUTEX:
            yield "mutex gone at the release" if before.answer is NULL_BULK else "mutex of another at the release"
        else:
            yield "return gone" if before.words[0] == b"HGET" else "return stayed"

    def said(self, words, answer):
        if words[0] == b"SET":
            yield "mutex taken" if answer == OK else "mutex held"
        elif words[0] == b"ZREVRANGEBYSCORE" and len(answer) > 1:
            yield "pass over %s" % ("ten" if len(answer) == 10 else "several")
        elif words[0] == b"SMEMBERS" and len(answer) > 1:
            yield "several bindings"
        elif words[0] == b"BRPOP" and answer and answer[0][-2:-1] == b"\x16":
            yield "popped at a higher step"
