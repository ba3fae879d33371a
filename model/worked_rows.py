#!/usr/bin/env python3
"""Histories worked out by hand, to which the model, and the program where one is given, must come line by line.

Run by hand: python3 model/worked_rows.py [--program PATH]
A row has the lines of a schedule after its header and the lines that its report must have: entries and places as they
stand, a line `total` by its beginning, `entries N` as their number, `bad line ..` as the whole text, and `no WORDS` for
words that stand in no line.
"""

import argparse
import subprocess
import sys

import model

K = r'celery "celery\x06\x163" "celery\x06\x166" "celery\x06\x169"'
CLIENTS = ["client 1 seed 7", "client 2 seed 8", "client 3 seed 9", "client 4 seed 10"]
SENT = ["at 100", "begin 1 publish - celery 0 tasks.add [2,3]", "run 1"]
POPPED = ["begin 2 pop celery", "run 2"]
PRELUDE = CLIENTS + SENT + POPPED
PRELUDE_ENTRIES = [
    "1 100 1 LPUSH celery env(7:1) = :1",
    "2 100 2 BRPOP K 1 = *[$celery, $env(7:1)]",
    "3 100 2 MULTI = +OK",
    "4 100 2 ZADD unacked_index 100 tag(7:1) = +QUEUED",
    "5 100 2 HSET unacked tag(7:1) entry(7:1) = +QUEUED",
    "6 100 2 EXEC = *[:1, :1]",
]
PASS_BY_3 = ["begin 3 pass 3600", "run 3"]
ENDED = [
    "7 100 2 MULTI = +OK",
    "8 100 2 ZREM unacked_index tag(7:1) = +QUEUED",
    "9 100 2 HDEL unacked tag(7:1) = +QUEUED",
    "10 100 2 EXEC = *[:1, :1]",
]
PASSED = [
    "7 - 2 STOP",
    "8 3700 3 SET unacked_mutex 9:1 NX EX 300 = +OK",
    "9 3700 3 ZREVRANGEBYSCORE unacked_index 100 0 LIMIT 0 10 = *[$tag(7:1)]",
    "10 3700 3 WATCH unacked = +OK",
    "11 3700 3 HGET unacked tag(7:1) = $entry(7:1)",
    "12 3700 3 MULTI = +OK",
    "13 3700 3 ZREM unacked_index tag(7:1) = +QUEUED",
    "14 3700 3 HDEL unacked tag(7:1) = +QUEUED",
    "15 3700 3 RPUSH celery env(7:1)* = +QUEUED",
    "16 3700 3 EXEC = *[:1, :1, :1]",
    "17 3700 3 WATCH unacked_mutex = +OK",
    "18 3700 3 GET unacked_mutex = $9:1",
    "19 3700 3 MULTI = +OK",
    "20 3700 3 DEL unacked_mutex = +QUEUED",
    "21 3700 3 EXEC = *[:1]",
]


def total(**counts):
    names = ("list", "unacked", "hand", "ended", "lost", "copies")
    return "total " + " ".join("%s %d" % (name, counts.get(name, 0)) for name in names)


def priorities():
    """Six messages of falling priority, popped by rising step."""
    sent = [f"begin 1 publish - celery {priority} t []" for priority in (12, 9, 8, 3, 2, 0)]
    lines = CLIENTS + [line for begin in sent for line in (begin, "run 1")] + POPPED * 6
    keys = ["celery", r'"celery\x06\x163"', r'"celery\x06\x166"', r'"celery\x06\x169"']
    gave = [(5, 0), (6, 0), (4, 1), (3, 2), (1, 3), (2, 3)]
    pops = [f"{7 + 5 * n} 0 2 BRPOP K 1 = *[${keys[step]}, $env(7:{tag})]" for n, (tag, step) in enumerate(gave)]
    return lines, pops + ["total list 0 unacked 6"]


def eleven_due():
    """Eleven messages are due, and a pass takes ten of them."""
    lines = CLIENTS + ["begin 1 publish - celery 0 t []", "run 1"] * 11
    for moment in [*range(100, 110), 109]:
        lines += [f"at {moment}"] + POPPED
    lines += ["at 4000"] + PASS_BY_3
    read = ", ".join(f"$tag(7:{tag})" for tag in range(11, 1, -1))
    wanted = [f"68 4000 3 ZREVRANGEBYSCORE unacked_index 400 0 LIMIT 0 10 = *[{read}]", "place 7:1 unacked"]
    first = (lines, wanted + ["total list 10 unacked 1"])
    count = 11 + 11 * 5 + 2 + 10 * 7 + 5
    return first, (lines + ["begin 4 pop celery", "run 4"], [f"{count + 1} 4000 4 BRPOP K 1 = *[$celery, $env(7:2)*]"])


STEPPED_RESTORE = ["begin 3 restore 7:1"] + ["step 3"] * 6
BINDING = r'*[$"rk\x06\x16\x06\x16celery"]'
ROWS = {
    "one publication": (["client 1 seed 7"] + SENT, [
        "1 100 1 LPUSH celery env(7:1) = :1", "place 7:1 list celery 0", total(list=1), "entries 1"]),
    "a header alone": ([], [total(), "entries 0"]),
    "the prelude": (PRELUDE, PRELUDE_ENTRIES + ["place 7:1 unacked", "entries 6"]),
    "an acknowledgement": (PRELUDE + ["begin 2 ack 7:1", "run 2"], ENDED + ["place 7:1 ended", total(ended=1), "entries 10"]),
    "priorities": priorities(),
    "a stop with a message in hand": (
        CLIENTS + SENT + ["begin 1 publish - celery 0 t []", "run 1", "begin 2 pop celery", "step 2", "stop 2"],
        ["3 100 2 BRPOP K 1 = *[$celery, $env(7:1)]", "4 - 2 STOP", "place 7:1 lost 2", "place 7:2 list celery 0",
         total(list=1, lost=1)]),
    "the same without the stop": (
        CLIENTS + SENT + ["begin 1 publish - celery 0 t []", "run 1", "begin 2 pop celery", "step 2"],
        ["place 7:1 hand 2", "place 7:2 list celery 0", total(list=1, hand=1)]),
    "a stop before EXEC": (
        CLIENTS + SENT + ["begin 2 pop celery"] + ["step 2"] * 4 + ["stop 2"],
        PRELUDE_ENTRIES[:5] + ["6 - 2 STOP", "place 7:1 lost 2", "entries 6"]),
    "a pass after a stop": (
        PRELUDE + ["stop 2", "at 3700"] + PASS_BY_3, PASSED + ["place 7:1 list celery 0", "entries 21"]),
    "a pass too early": (PRELUDE + ["at 3699"] + PASS_BY_3, [
        "8 3699 3 ZREVRANGEBYSCORE unacked_index 99 0 LIMIT 0 10 = *[]", "13 3699 3 EXEC = *[:1]", "place 7:1 unacked",
        "entries 13"]),
    "a second pass in time": (PRELUDE + ["at 3699"] + PASS_BY_3 + ["at 3700"] + PASS_BY_3, [
        "14 3700 3 SET unacked_mutex 9:2 NX EX 300 = +OK",
        "15 3700 3 ZREVRANGEBYSCORE unacked_index 100 0 LIMIT 0 10 = *[$tag(7:1)]", "place 7:1 list celery 0", "entries 27"]),
    "eleven due": eleven_due()[0],
    "the next pop after a pass": eleven_due()[1],
    "two restores": (PRELUDE + STEPPED_RESTORE + ["begin 4 restore 7:1", "run 4", "run 3"], [
        "19 100 4 EXEC = *[:1, :1, :1]", "20 100 3 EXEC = *-", "21 100 3 WATCH unacked = +OK",
        "22 100 3 HGET unacked tag(7:1) = $-", "23 100 3 UNWATCH = +OK", "place 7:1 list celery 0", "entries 23"]),
    "a late acknowledgement": (PRELUDE + ["begin 3 restore 7:1", "run 3", "begin 2 ack 7:1", "run 2"], [
        "17 100 2 EXEC = *[:0, :0]", "place 7:1 list celery 0", "entries 17"]),
    "an acknowledgement of another's delivery": (
        PRELUDE + ["begin 3 restore 7:1", "run 3", "begin 2 ack 7:1", "run 2", "begin 3 pop celery", "run 3",
                   "begin 2 ack 7:1", "run 2"], ["26 100 2 EXEC = *[:1, :1]", "place 7:1 ended", "entries 26"]),
    "a requeue": (PRELUDE + ["begin 2 requeue 7:1", "run 2", "begin 3 pop celery", "run 3"], [
        "12 100 2 LPUSH celery env(7:1)* = +QUEUED", "place 7:1 unacked", "entries 18"]),
    "a mutex held, then expired": (
        CLIENTS[2:] + ["at 100", "begin 3 pass 3600", "step 3", "begin 4 pass 3600", "run 4", "at 400", "begin 4 pass 3600",
                       "step 4", "run 3"], [
        "1 100 3 SET unacked_mutex 9:1 NX EX 300 = +OK", "2 100 4 SET unacked_mutex 10:1 NX EX 300 = $-",
        "3 400 4 SET unacked_mutex 10:2 NX EX 300 = +OK",
        "4 400 3 ZREVRANGEBYSCORE unacked_index -3200 0 LIMIT 0 10 = *[]", "5 400 3 WATCH unacked_mutex = +OK",
        "6 400 3 GET unacked_mutex = $10:2", "7 400 3 UNWATCH = +OK", "entries 7"]),
    "a task delivered twice": (PRELUDE + ["at 3700"] + PASS_BY_3 + POPPED, [
        "21 3700 2 BRPOP K 1 = *[$celery, $env(7:1)*]", "place 7:1 unacked", "entries 25"]),
    "a kept name": (["client 1 seed 7", "begin 1 publish - unacked 0 t []"], ["bad line 3: reserved"]),
    "no bindings": (["client 1 seed 7", "begin 1 publish ex rk 0 t []", "run 1"], [
        "1 0 1 SMEMBERS _kombu.binding.ex = *[]", "no place", total(), "entries 1"]),
    "a binding taken out": (
        CLIENTS + ["begin 1 declare ex rk - celery", "run 1", "begin 1 publish ex rk 0 t []", "run 1"] + POPPED
        + ["begin 1 undeclare ex rk - celery", "run 1", "begin 3 restore 7:1", "run 3"], [
            f"2 0 1 SMEMBERS _kombu.binding.ex = {BINDING}", "3 0 1 LPUSH celery env(7:1) = :1",
            "10 0 3 WATCH unacked = +OK", "11 0 3 HGET unacked tag(7:1) = $entry(7:1)",
            "12 0 3 SMEMBERS _kombu.binding.ex = *[]", "13 0 3 UNWATCH = +OK", "place 7:1 unacked", "entries 13"]),
}


def stopped(lines, conn, steps):
    """The lines without their last, which is a run of a client that makes so many steps and stops instead."""
    return lines[:-1] + ["step %d" % conn] * steps + ["stop %d" % conn]


for steps, place in enumerate(["list celery 0"] + ["lost 2"] * 4 + ["unacked"]):
    ROWS[f"a pop stopped after {steps}"] = stopped(PRELUDE, 2, steps), [f"place 7:1 {place}"]
for steps, place in enumerate(["unacked"] * 4 + ["ended"]):
    ROWS[f"an acknowledgement stopped after {steps}"] = (
        stopped(PRELUDE + ["begin 2 ack 7:1", "run 2"], 2, steps), [f"place 7:1 {place}"])
for steps, place in enumerate(["unacked"] * 9 + ["list celery 0"] * 6):
    ROWS[f"a pass stopped after {steps}"] = (
        stopped(PRELUDE + ["stop 2", "at 3700"] + PASS_BY_3, 3, steps), [f"place 7:1 {place}"])


def lacks(text, wanted):
    """What a text lacks of the lines that it must have."""
    lines = text.split("\n")
    count = sum(line[:1].isdigit() for line in lines)
    for line in wanted:
        line = line.replace(" K ", f" {K} ")
        if line.startswith("entries "):
            holds = line == f"entries {count}"
        elif line.startswith("no "):
            holds = not any(it.startswith(line[3:]) for it in lines)
        elif line.startswith("bad line"):
            holds = text == line + "\n"
        else:
            holds = any(it == line or (line.startswith("total") and it.startswith(line)) for it in lines)
        if not holds:
            return line
    return None


def main():
    words = argparse.ArgumentParser(description=__doc__.split("\n")[0])
    words.add_argument("--program", help="the program celery_node, which must write the same as the model")
    given = words.parse_args()
    for name, (lines, wanted) in ROWS.items():
        data = "\n".join(["celery-schedule 1"] + lines + [""]).encode()
        status, text, _ = model.replay(data)
        missing = lacks(text.decode(), wanted)
        if missing:
            sys.exit(f"{name}: the model lacks '{missing}'\n{text.decode()}")
        if given.program:
            done = subprocess.run([given.program, "replay"], input=data, stdout=subprocess.PIPE, check=False)
            if (done.returncode, done.stdout) != (status, text):
                sys.exit(f"{name}: the program writes, with status {done.returncode},\n{done.stdout.decode()}")
    print(len(ROWS), "worked rows hold")


if __name__ == "__main__":
    main()
