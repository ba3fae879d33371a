#!/usr/bin/env python3
"""Writes the rows that task_lines is tested by: crates/task_lines/stdin and what it must answer, crates/task_lines/stdout.

Run by hand where a row is added: python3 interop/task_rows.py. The answers come from here, by Celery's message protocol and
Python's datetime, never from our own code.
"""

import base64
import copy
import json
import os

import moments

ROOT = os.path.dirname(os.path.dirname(os.path.abspath(__file__)))
CRATE = os.path.join(ROOT, "crates", "task_lines")
EMBED = {"callbacks": None, "errbacks": None, "chain": None, "chord": None}
ETA = 1714564980500000
rows = []

# More moments: each edge of the years by a microsecond and by a minute of the offset, the days about each leap day, and what no moment is.
EDGES = [
    "0001-01-01T00:01:00+00:01", "0001-01-01T00:00:59.999999+00:01", "9999-12-31T23:58:59.999999-00:01", "9999-12-31T23:59:00-00:01",
    "0000-12-31T23:59:00-00:01", "0001-01-01T00:00:00-23:59", "9999-12-31T23:59:59.999999+23:59", "2024-01-01T00:00:00+00:01",
    "2023-12-31T23:59:59.999999-23:59", "1900-02-28T23:59:59.999999Z", "1900-03-01T00:00:00Z", "2000-02-29T23:59:59.999999Z",
    "2000-03-01T00:00:00Z", "2024-02-29T23:59:59.999999Z", "2024-03-01T00:00:00Z", "2000-02-30T00:00:00Z", "2016-12-31T23:59:60Z",
    "2024-01-01T24:00:00+23:59", "2024-01-01T00:00:00.5z", "2024-01-01T00:00:00.1234567", "2024-01-01T00:00:00 Z",
    "2024-01-01T00:00:00 +00:00", "2024-01-01T00:00:00\t", "2024-01-01T 0:00:00Z", "2024-01-01T00:00:00.1Z",
    "2024-01-01T00:00:00.000001Z", "2024-01-01T00:00:00.123456-00:00", "2024-01-01T00:00:00,5", "2024-00-01T00:00:00Z",
    "2024-01-00T00:00:00Z",
]


def compact(tree):
    """A tree as our code writes it."""
    return json.dumps(tree, sort_keys=True, separators=(",", ":"), ensure_ascii=False)


def envelope(headers, content):
    """An envelope of headers and a content's text, as Kombu writes it."""
    return {
        "body": base64.b64encode(content.encode()).decode(), "content-encoding": "utf-8", "content-type": "application/json", "headers": headers,
        "properties": {"correlation_id": "c1", "reply_to": "r1", "delivery_mode": 2, "delivery_info": {"exchange": "", "routing_key": "celery"},
                       "priority": 0, "body_encoding": "base64", "delivery_tag": "00000000-0000-0007-0000-000000000001"},
    }


def usual():
    """The headers and the content of a usual message of version 2."""
    headers = {"lang": "py", "task": "tasks.add", "id": "c1", "shadow": None, "eta": "2024-05-01T12:00:00.500000+00:00", "expires": None, "group": None,
               "group_index": None, "retries": 0, "timelimit": [None, None], "root_id": "c1", "parent_id": None, "argsrepr": "(2, 2)", "kwargsrepr": "{}",
               "origin": "gen1@host", "ignore_result": False, "replaced_task_nesting": 0, "stamped_headers": None, "stamps": {}}
    return headers, [[2, 2], {}, dict(EMBED)]


def first():
    """The same in version 1."""
    return {}, {"task": "tasks.add", "id": "c1", "args": [2, 2], "kwargs": {}, "retries": 1, "eta": None, "expires": "2024-05-01T12:00:00+02:00", "utc": True}


def row(word, text, want):
    """Adds a line with its answer."""
    rows.append((f"{word}\t{text}", want))


def task(headers, content, want):
    """Adds the row of a message; a content may be a text or a tree."""
    text = content if isinstance(content, str) else json.dumps(content)
    row("task", json.dumps(envelope(headers, text)), want)


# The faults in their order, each with what brings it about: in headers h and content c, which may become a text.
SECOND = [
    ("bad Body", lambda h, c: "[" + json.dumps(c)),
    ("float", lambda h, c: [c[0] + [2.5]] + c[1:]),
    ("bad Body", lambda h, c: c[:-1] if isinstance(c, list) else c),
    ("bad Name", lambda h, c: h.update(task="")),
    ("bad Id", lambda h, c: h.update(id=5)),
    ("bad Args", lambda h, c: c.__setitem__(0, {"a": 1})),
    ("bad Kwargs", lambda h, c: c.__setitem__(1, [])),
    ("bad Embed", lambda h, c: c.__setitem__(2, None)),
    ("bad Retries", lambda h, c: h.update(retries=-1)),
    ("bad moment", lambda h, c: h.update(eta="2024-02-30T00:00:00Z")),
    ("bad moment", lambda h, c: h.update(expires=5)),
]
FIRST = [
    ("bad Body", lambda h, c: "{" + json.dumps(c)),
    ("float", lambda h, c: c.update(more=1e2)),
    ("no task", lambda h, c: c.update(task=None)),
    ("bad Name", lambda h, c: c.update(task="")),
    ("bad Id", lambda h, c: c.pop("id") and None),
    ("bad Args", lambda h, c: c.update(args="x")),
    ("bad Kwargs", lambda h, c: c.update(kwargs=None)),
    ("bad Retries", lambda h, c: c.update(retries="1")),
    ("bad moment", lambda h, c: c.update(eta="later")),
    ("bad moment", lambda h, c: c.update(expires="2024-05-01")),
]


def faulty(faults, parts, indices):
    """A message with these faults, the later ones put in first."""
    headers, content = copy.deepcopy(parts)
    for index in sorted(indices, reverse=True):
        changed = faults[index][1](headers, content)
        content = content if changed is None else changed
    return headers, content


def small_tasks():
    """Adds tasks with few members, in both versions: the least that is a task, and what is one member or one level off."""
    told = '{"task":"tasks.add","id":"a1","args":[2,3],"kwargs":{}}'
    named = {"task": "tasks.add", "id": "c1"}
    task({}, told, "1\ttasks.add\ta1\t0\tnone\tnone\t[2,3]\t{}")
    task({}, told.replace("[2,3]", "[2.5]"), "float")
    task({"compression": "application/x-gzip"}, told, "no envelope")
    task({}, {k: v for k, v in first()[1].items() if k != "task"}, "no task")
    deep = "[" * 100 + "[2.5]" + "]" * 100
    task({}, deep, "bad Body")
    task(usual()[0], deep, "bad Body")
    task(usual()[0], "[" * 101 + "]" * 101, "bad Body")
    task(named, "[[2,2],{},{}]", "2\ttasks.add\tc1\t0\tnone\tnone\t[2,2]\t{}")
    task({**named, "retries": None, "eta": None, "expires": "2024-05-01T12:00:00Z"}, '[[2,2],{"k":[1]},{}]', "2\ttasks.add\tc1\t0\tnone\t1714564800000000\t[2,2]\t{\"k\":[1]}")
    task(named, "[[2,2],{},{},{}]", "bad Body")
    task(named, told, "bad Body")
    task({}, "[[2,2],{},{}]", "no task")


def small_again():
    """Adds those that are sent again, and what isn't: an eta after the year 9999, a number of retries that is the last."""
    told = '{"task":"tasks.add","id":"a1","args":[2,3],"kwargs":{}}'
    named = {"task": "tasks.add", "id": "c1"}
    eta = "2024-05-01T12:03:00.500000+00:00"
    headers, content = usual()
    plain = json.dumps(envelope(headers, json.dumps(content)))
    want = envelope({**headers, "retries": 1, "eta": eta}, json.dumps(content))
    want["properties"]["delivery_tag"] = "00000000-0000-0008-0000-000000000001"
    row("again", f"{ETA}\t{plain}", compact(want))
    row("task", compact(want), "2\ttasks.add\tc1\t1\t1714564980500000\tnone\t[2,2]\t{}")
    want = envelope({**named, "retries": 1, "eta": eta}, "[[2,2],{},{}]")
    want["properties"]["delivery_tag"] = "00000000-0000-0008-0000-000000000001"
    row("again", f"{ETA}\t{json.dumps(envelope(named, '[[2,2],{},{}]'))}", compact(want))
    want = envelope({}, compact({**json.loads(told), "retries": 1, "eta": eta}))
    want["properties"]["delivery_tag"] = "00000000-0000-0008-0000-000000000001"
    row("again", f"{ETA}\t{json.dumps(envelope({}, told))}", compact(want))
    row("again", f"253402300800000000\t{plain}", "none")
    row("again", f"{ETA}\t{json.dumps(envelope({**headers, 'retries': 2**32 - 1, 'eta': None}, json.dumps(content)))}", "none")


def deep_drafts():
    """Adds arguments that nest as deep as a draft takes, and one level deeper."""
    named = {"task": "tasks.add", "id": "c1"}
    row("drafts", f"1\t{json.dumps(envelope(named, '[' + '[' * 91 + ']' * 91 + ',{},{}]'))}", "no draft")
    args = "[" * 90 + "]" * 90
    want = envelope({"argsrepr": args, "eta": None, "expires": None, "group": None, "id": "c1", "kwargsrepr": "{}", "lang": "py", "origin": "node",
                     "parent_id": None, "retries": 0, "root_id": "c1", "task": "tasks.add", "timelimit": [None, None]},
                    '[' + args + ',{},{"callbacks":null,"chain":null,"chord":null,"errbacks":null}]')
    want["properties"]["reply_to"] = ""
    row("drafts", f"1\t{json.dumps(envelope(named, '[' + args + ',{},{}]'))}", compact(want))


def main():
    """Gathers the rows and writes them."""
    for text in moments.ALONE + EDGES:
        row("moment", text, moments.wanted(text))
    for minutes in (1, 59, 23 * 60 + 59):
        for sign in "+-":
            text = f"2024-03-01T00:00:00.25{sign}{minutes // 60:02}:{minutes % 60:02}"
            row("moment", text, moments.wanted(text))
    low, high = -62_135_596_800_000_000, 253_402_300_799_999_999
    for micros in (0, -1, 500_000, 1714564980500000, 951_782_400_000_000, low, high, low - 1, high + 1):
        row("write", micros, "none" if not low <= micros <= high else (moments.EPOCH + micros * moments.MICROSECOND).isoformat())

    headers, content = usual()
    task(headers, content, "2\ttasks.add\tc1\t0\t1714564800500000\tnone\t[2,2]\t{}")
    task(headers, content[:2] + [{}], "2\ttasks.add\tc1\t0\t1714564800500000\tnone\t[2,2]\t{}")
    task({**headers, "retries": 2**32 - 1, "eta": None}, content, "2\ttasks.add\tc1\t4294967295\tnone\tnone\t[2,2]\t{}")
    task({**headers, "retries": 2**32}, content, "bad Retries")
    task({**headers, "retries": None, "task": None}, content, "bad Name")
    none, told = first()
    task(none, told, "1\ttasks.add\tc1\t1\tnone\t1714557600000000\t[2,2]\t{}")
    task(none, {k: v for k, v in told.items() if k not in ("retries", "eta", "expires", "utc")}, "1\ttasks.add\tc1\t0\tnone\tnone\t[2,2]\t{}")
    task(none, {**told, "args": [2.5]}, "float")
    row("task", json.dumps(envelope({"compression": "application/x-gzip"}, json.dumps(told))), "no envelope")
    task(none, [], "no task")
    task(none, "[" * 101 + "]" * 101, "bad Body")
    task(none, "[" * 100 + "]" * 100, "no task")
    small_tasks()
    for faults, parts in ((SECOND, usual()), (FIRST, first())):
        for index, (name, _) in enumerate(faults):
            task(*faulty(faults, parts, [index]), name)
            after = index + (2 if name == "no task" else 1)  # where no name is told, none is bad
            if after < len(faults):
                task(*faulty(faults, parts, [index, after]), name)

    marks = envelope(headers, json.dumps(content))
    marks["headers"]["redelivered"] = True
    marks["properties"]["delivery_info"]["redelivered"] = True
    want = envelope({**headers, "retries": 1, "eta": "2024-05-01T12:03:00.500000+00:00"}, json.dumps(content))
    want["headers"].pop("redelivered", None)
    want["properties"]["delivery_tag"] = "00000000-0000-0008-0000-000000000001"
    row("again", f"{ETA}\t{json.dumps(marks)}", compact(want))
    want = envelope({}, compact({**told, "retries": 2, "eta": "2024-05-01T12:03:00.500000+00:00"}))
    want["properties"]["delivery_tag"] = "00000000-0000-0008-0000-000000000001"
    row("again", f"{ETA}\t{json.dumps(envelope(none, json.dumps(told)))}", compact(want))
    marks = envelope({"redelivered": True}, json.dumps(told))
    marks["properties"]["delivery_info"]["redelivered"] = False
    row("again", f"{ETA}\t{json.dumps(marks)}", compact(want))
    row("task", compact(want), "1\ttasks.add\tc1\t2\t1714564980500000\t1714557600000000\t[2,2]\t{}")
    row("again", f"{ETA}\t{json.dumps(envelope(none, '[]'))}", "no task")
    small_again()

    # Drafts of what was read, under the tag 7:1. The body of version 2 is written out.
    want = envelope({"argsrepr": "[2,3]", "eta": headers["eta"], "expires": None, "group": None, "id": "c1", "kwargsrepr": "{}", "lang": "py", "origin": "node",
                     "parent_id": None, "retries": 0, "root_id": "c1", "task": "tasks.add", "timelimit": [None, None]}, "")
    want["body"] = "W1syLDNdLHt9LHsiY2FsbGJhY2tzIjpudWxsLCJjaGFpbiI6bnVsbCwiY2hvcmQiOm51bGwsImVycmJhY2tzIjpudWxsfV0="
    want["properties"]["reply_to"] = ""
    row("drafts", f"1\t{json.dumps(envelope(headers, json.dumps([[2, 3]] + content[1:])))}", compact(want))
    row("task", compact(want), "2\ttasks.add\tc1\t0\t1714564800500000\tnone\t[2,3]\t{}")
    want = envelope({}, compact({**told, "expires": "2024-05-01T10:00:00+00:00"}))
    want["properties"]["reply_to"] = ""
    row("drafts", f"1\t{json.dumps(envelope(none, json.dumps(told)))}", compact(want))
    row("task", compact(want), "1\ttasks.add\tc1\t1\tnone\t1714557600000000\t[2,2]\t{}")
    deep_drafts()

    with open(os.path.join(CRATE, "stdin"), "w", encoding="utf-8") as lines:
        lines.writelines(line + "\n" for line, _ in rows)
    with open(os.path.join(CRATE, "stdout"), "w", encoding="utf-8") as answers:
        answers.writelines(want + "\n" for _, want in rows)
    print(f"{len(rows)} rows")


main()
