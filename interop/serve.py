#!/usr/bin/env python3
"""Compares `celery_node serve` with a real redis-server, by redis-cli, by Python's `redis`, by random commands and by Kombu.

Run by hand, after ./celery_node build: /usr/bin/python3 interop/serve.py [--commands N] [--seed N] [--program PATH]
It needs Debian's redis-server, redis-tools, python3-redis and python3-celery, and starts each server on a free port of the
loopback, without a disk; what it started it ends by its process. Random replies of ours are also compared with the model
in model/store.py, byte by byte. With --redis-twice a second redis-server stands in for ours: the script itself is tried.
"""

import argparse
import os
import shutil
import subprocess
import sys
from collections import Counter

ROOT = os.path.dirname(os.path.dirname(os.path.abspath(__file__)))
sys.path.insert(0, os.path.join(ROOT, "model"))

import kombu_messages  # noqa: E402
import redis_clients  # noqa: E402
import store_differences  # noqa: E402
from random_commands import Commands, is_same  # noqa: E402
from replies import spelled as spelled_reply  # noqa: E402
from servers import PROGRAM, Link, our_server, redis_server, spelled  # noqa: E402

BATCH = 40


def one_each(args, connections):
    """Our server and a real one."""
    return redis_server() if args.redis_twice else our_server(args.program, connections), redis_server()


def tell_cli(args):
    ours, theirs = one_each(args, 1)
    with ours, theirs:
        got, gave = redis_clients.by_cli(ours.port), redis_clients.by_cli(theirs.port)
        written = "" if args.redis_twice else ours.written()
    same = redis_clients.without_texts(got) == redis_clients.without_texts(gave)
    print(f"redis-cli: {redis_clients.CLI_LINES.count(chr(10))} commands, {len(got)} lines printed, {'the same' if same else 'NOT THE SAME'}")
    for row, other in zip(got, gave):
        if row != other:
            print(f"    {row}    Redis: {other}")
    print("    serve wrote:", written.strip() or "nothing")
    return same


def tell_package(args):
    # Each lost connection would be made again; a few more are allowed for than a good run has.
    ours, theirs = one_each(args, 20)
    with ours, theirs:
        got, gave = redis_clients.by_package(ours.port), redis_clients.by_package(theirs.port)
    wrong = [pair for pair in zip(got, gave) if pair[0] != pair[1]]
    print(f"redis {redis_clients.redis.__version__}: {len(got)} of {len(redis_clients.CALLS)} calls, {len(wrong)} NOT THE SAME" if wrong else
          f"redis {redis_clients.redis.__version__}: {len(got)} of {len(redis_clients.CALLS)} calls, all the same")
    for one, other in wrong:
        print("    ours", one, "Redis", other)
    return not wrong and len(got) == len(redis_clients.CALLS)


def tell_random(args):
    ours, theirs = one_each(args, 1)
    commands, names, errors, count = Commands(args.seed), Counter(), 0, 0
    with ours, theirs:
        links = Link(ours.port), Link(theirs.port)
        closing = None
        while closing is None or closing:
            batch = [commands.next() for _ in range(min(BATCH, args.commands - count))]
            if count >= args.commands:
                batch = [(words, commands.said(words)) for words in list(commands.closing())]
                closing = batch and closing is None
            for link in links:
                link.send(b"".join(spelled(words) for words, _ in batch))
            got, gave = (link.replies(len(batch)) for link in links)
            for place, (words, wanted) in enumerate(batch):
                count += 1
                names[words[0].decode("latin-1").upper()] += 1
                fault = fault_of(args, words, wanted, got[place:place + 1], gave[place:place + 1])
                if fault:
                    print(f"random commands: command {count}, {words}: {fault}")
                    print(f"    wanted {wanted}, ours {got[place:place + 1]}, Redis {gave[place:place + 1]}")
                    return False
                errors += isinstance(wanted, store_differences.Problem)
        for link in links:
            link.close()
        written = "" if args.redis_twice else ours.written()
    like = "Redis as the model" if args.redis_twice else "ours as the model, byte by byte, and as Redis"
    print(f"random commands: {count} on one connection, seed {args.seed}, {errors} answered by errors: {like}")
    print("    " + ", ".join("%s %d" % it for it in names.most_common() if it[0].isalpha() and it[1] > 9))
    print("    serve wrote:", written.strip() or "nothing")
    return True


def fault_of(args, words, wanted, got, gave):
    """What is wrong with the two replies to a command, if anything."""
    if not got or not gave:
        return "no reply of " + ("ours" if not got else "Redis")
    if not args.redis_twice and spelled_reply(got[0]) != spelled_reply(wanted):
        return "ours is not the model's"
    return None if is_same(words, wanted, gave[0]) else "Redis has another reply"


def tell_differences(args):
    ours, theirs = one_each(args, len(store_differences.ROWS) + 2)
    wrong = 0
    with ours, theirs:
        print("where they differ, each row tried on both:")
        for name, one, other in store_differences.compared(ours.port, theirs.port, args.redis_twice):
            wrong += name.startswith("WRONG")
            print(f"    {name:44} ours {one:28} Redis {other}")
        links = Link(ours.port), Link(theirs.port)
        early = [list(map(store_differences.shown, store_differences.expiries(link))) for link in links]
        waits = [store_differences.empty_wait(link) for link in links]
        for link in links:
            link.close()
    print(f"    a key of one second, 0.3 and 1.3 seconds later: ours {early[0]}, Redis {early[1]}")
    print("    a BRPOP of one second without a list takes: ours %.3f s, Redis %.3f s" % tuple(waits))
    return not wrong and early == [["null", "null"], ["v", "null"]] and waits[0] < 0.5 < waits[1]


def tell_kombu(args):
    ours, theirs = one_each(args, 4000)
    relays = kombu_messages.Relay, kombu_messages.SharedRelay
    with ours, theirs:
        for name, server, kind in (("Redis", theirs, relays[0]), ("ours", ours, relays[0]), ("ours, all on one connection", ours, relays[1])):
            print(f"Kombu {kombu_messages.kombu.__version__} over {name}:")
            for part, came, said, refused, links in kombu_messages.outcomes(server.port, kind):
                print(f"    {part}: {came} ({links} connections)")
                print("        said:", ", ".join("%s %d" % it for it in sorted(said.items())))
                for words, error in list(dict.fromkeys(refused))[:6]:
                    print(f"        refused: {words[:100]}: {error}")
                if came.startswith("TimeoutError"):
                    print("        the store doesn't serve two connections at once; the other parts are left out")
                    break
    return True


def main():
    words = argparse.ArgumentParser()
    words.add_argument("--commands", type=int, default=5000)
    words.add_argument("--seed", type=int, default=1)
    words.add_argument("--program", default=PROGRAM)
    words.add_argument("--redis-twice", action="store_true")
    words.add_argument("--only", help="one part: cli, package, random, differences or kombu")
    args = words.parse_args()
    if not shutil.which("redis-server"):
        sys.exit("redis-server isn't installed: apt-get install redis-server redis-tools python3-redis python3-celery")
    version = subprocess.run(["redis-server", "--version"], stdout=subprocess.PIPE, check=True).stdout.decode().split()[2]
    print(f"redis-server {version}")
    parts = {"cli": tell_cli, "package": tell_package, "random": tell_random, "differences": tell_differences, "kombu": tell_kombu}
    good = [part(args) for name, part in parts.items() if args.only in (None, name)]
    return 0 if all(good) else 1


if __name__ == "__main__":
    sys.exit(main())
