"""Every command of our store by redis-cli and by Python's `redis` package, on our store and on Redis."""

import subprocess

import redis

CLI_LINES = """PING
SELECT 0
SET t one
SET t two NX
SET u three EX 1000
SET v four NX EX 1000
GET t
GET missing
DEL t u missing
EXPIRE v 500
EXPIRE missing 500
LPUSH l a b c
RPUSH l d
LLEN l
RPOP l
BRPOP l missing 1
SADD s b a
SADD s a
SREM s b missing
SMEMBERS s
HSET h f one
HSET h f two
HGET h f
HGET h missing
HLEN h
HDEL h f missing
ZADD z 5 a
ZADD z 5 b
ZADD z 7 b
ZADD z 1 c
ZCARD z
ZREVRANGEBYSCORE z 6 0
ZREVRANGEBYSCORE z 10 0 LIMIT 1 1
ZREM z a missing
WATCH z
MULTI
PING
LPUSH l e
LLEN z
EXEC
WATCH l
LPUSH l f
MULTI
LLEN l
EXEC
UNWATCH
MULTI
DISCARD
PUBLISH c hello
LLEN s
GET l
EXEC
NOSUCH
"""


def by_cli(port):
    """What redis-cli prints for each line, on one connection."""
    words = ["redis-cli", "-h", "127.0.0.1", "-p", str(port), "--no-raw"]
    done = subprocess.run(words, input=CLI_LINES.encode(), stdout=subprocess.PIPE, stderr=subprocess.STDOUT, timeout=60, check=False)
    return [row for row in done.stdout.decode().splitlines() if row]


def without_texts(rows):
    """Printed rows without the texts of errors."""
    return ["(error)" if "(error)" in row else row for row in rows]


def in_transaction(client):
    with client.pipeline(transaction=True) as pipe:
        return pipe.ping().lpush("pl", "a").llen("pl").zadd("pz", {"m": 3}).hset("ph", "f", "v").zrem("pz", "m").execute()


def watched(client, disturbed):
    """A transaction over a watched key, which the same connection alters before or not."""
    with client.pipeline() as pipe:
        pipe.watch("pw")
        if disturbed:
            pipe.set("pw", "x")
        pipe.multi()
        pipe.set("pw", "y")
        try:
            return pipe.execute()
        except redis.WatchError:
            return "WatchError"


def discarded(client):
    """A transaction that is given up, and what its command left: nothing."""
    with client.client() as one:
        told = [one.execute_command(*words) for words in (["MULTI"], ["SET", "pd", "y"], ["DISCARD"])]
    return told, client.get("pd")


def subscribed(client):
    """What a subscriber is told."""
    channels = client.pubsub()
    channels.subscribe("c")
    told = [channels.get_message(timeout=5)["type"]]
    channels.unsubscribe("c")
    told.append(channels.get_message(timeout=5)["type"])
    channels.close()
    return told


CALLS = [
    ("PING", lambda it: it.ping()),
    ("SELECT", lambda it: it.execute_command("SELECT", 0)),
    ("SET", lambda it: it.set("a", "1")), ("SET NX", lambda it: it.set("a", "2", nx=True)),
    ("SET EX", lambda it: it.set("b", "2", ex=1000)), ("GET", lambda it: it.get("a")), ("GET none", lambda it: it.get("none")),
    ("SET NX EX", lambda it: it.execute_command("SET", "c", "3", "NX", "EX", 1000)),
    ("DEL", lambda it: it.delete("a", "none")), ("EXPIRE", lambda it: it.expire("b", 500)),
    ("LPUSH", lambda it: it.lpush("l", "a", b"\x00\xff\r\n", "")), ("RPUSH", lambda it: it.rpush("l", "z")),
    ("LLEN", lambda it: it.llen("l")), ("RPOP", lambda it: it.rpop("l")), ("BRPOP", lambda it: it.brpop(["none", "l"], timeout=1)),
    ("SADD", lambda it: it.sadd("s", "b", "a")), ("SMEMBERS", lambda it: it.smembers("s")),
    ("SREM", lambda it: it.srem("s", "a", "none")),
    ("HSET", lambda it: it.hset("h", "f", "v")), ("HGET", lambda it: it.hget("h", "f")), ("HLEN", lambda it: it.hlen("h")),
    ("HDEL", lambda it: it.hdel("h", "f", "none")),
    ("ZADD", lambda it: it.zadd("z", {"m": 5})), ("ZCARD", lambda it: it.zcard("z")),
    ("ZREVRANGEBYSCORE", lambda it: it.zrevrangebyscore("z", 10, 0, start=0, num=10)),
    ("ZREM", lambda it: it.zrem("z", "m", "none")),
    ("MULTI and EXEC", in_transaction), ("WATCH", lambda it: watched(it, False)),
    ("WATCH, altered", lambda it: watched(it, True)), ("MULTI and DISCARD", discarded), ("UNWATCH", lambda it: it.execute_command("UNWATCH")),
    ("PUBLISH", lambda it: it.publish("c", "m")), ("SUBSCRIBE and UNSUBSCRIBE", subscribed),
    ("WRONGTYPE", lambda it: it.get("l")),
]


def by_package(port):
    """The name of each call with what the package makes of the reply."""
    client = redis.Redis(host="127.0.0.1", port=port, socket_timeout=20, max_connections=1)
    found = []
    for name, call in CALLS:
        try:
            found.append((name, call(client)))
        except redis.ResponseError:
            found.append((name, "ResponseError"))
        except (redis.ConnectionError, redis.TimeoutError) as lost:
            found.append((name, type(lost).__name__))
            break
    client.close()
    client.connection_pool.disconnect()
    return found
