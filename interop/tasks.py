#!/usr/bin/env python3
"""Compares our reading, sending again and drafting of tasks with Celery's own code.

Run by hand, with Debian's python3-celery and python3-redis, after the program task_lines was built by `rt run` in
crates/task_lines: /usr/bin/python3 interop/tasks.py
Celery's client publishes to a fake connection of Redis that keeps what is pushed; each message is read by our program,
what our program sends again is read by Celery's code as the same call with one retry more, and what it drafts as the same call.
"""

import datetime
import json
import os
import subprocess
import sys

from celery import Celery
from celery.worker.request import Request
from celery.worker.strategy import proto1_to_proto2
from kombu.transport.virtual import Message

ROOT = os.path.dirname(os.path.dirname(os.path.abspath(__file__)))
PROGRAM = os.path.join(ROOT, "crates", "task_lines", "out", "task_lines")
UTC = datetime.timezone.utc
EPOCH = datetime.datetime(1970, 1, 1, tzinfo=UTC)
AT = datetime.datetime(2030, 5, 1, 12, 0, 0, 500000, tzinfo=UTC)
LATER = datetime.datetime(2031, 1, 2, 3, 4, 5, tzinfo=datetime.timezone(datetime.timedelta(hours=5, minutes=30)))


def micros(moment):
    """A moment in microseconds since 1970."""
    return (moment - EPOCH) // datetime.timedelta(microseconds=1)


def client(version):
    """An app of Celery over a broker in memory, and what it pushes."""
    app = Celery("node", broker="memory://", set_as_current=False)
    app.conf.update(task_protocol=version, task_serializer="json", accept_content=["json"], enable_utc=True)
    pushed = []
    with app.connection_for_write() as connection:
        kind = type(connection.default_channel)

    def put(self, queue, message, **kwargs):
        pushed.append(json.dumps(message))

    kind._put = put
    app.reading = app.connection_for_read().default_channel

    @app.task(name="tasks.add")
    def add(*args, **kwargs):
        return None

    return app, add, pushed


CALLS = [
    ((), {}, {}),
    ((2, 2), {}, {}),
    (([1, [2, {"a": None}]], "\u00e9\u4e16"), {"k": True, "m": {"n": [1, 2]}}, {}),
    ((1,), {}, {"eta": AT}),
    ((1,), {}, {"eta": LATER}),
    ((1,), {}, {"expires": AT}),
    ((1,), {}, {"eta": AT, "expires": LATER}),
    ((1,), {}, {"retries": 3}),
    ((1,), {}, {"retries": 4_000_000_000}),
    ((1,), {}, {"priority": 6}),
    ((), {"x": 1, "y": "z"}, {}),
    ((1,), {}, {"task_id": "own-id"}),
    ((1,), {}, {"time_limit": 10, "soft_time_limit": 5}),
    ((1,), {}, {"link": "link"}),
    ((1,), {}, {"link_error": "link"}),
    ((1,), {}, {"chain": "chain"}),
    ((1,), {}, {"headers": {"mine": "x"}}),
    ((1,), {}, {"shadow": "other"}),
    ((-(2**63), 2**64 - 1), {}, {}),
    ((1,), {}, {"countdown": 30}),
    ((1,), {}, {"expires": 60}),
]


def published(app, add, pushed, call, version):
    """The text that Celery pushes for a call, with what was asked."""
    args, kwargs, options = call
    options = dict(options)
    if options.get("link") == "link":
        options["link"] = add.si(9)
    if options.get("link_error") == "link":
        options["link_error"] = add.si(9)
    if options.pop("chain", None):
        options["chain"] = [add.si(8)] if version == 2 else None
    if options.get("headers") and version == 1:
        options.pop("headers")
    pushed.clear()
    sent = app.send_task("tasks.add", args, kwargs, **{k: v for k, v in options.items() if v is not None})
    return pushed[-1], sent.id, options


def asked(lines):
    """The program's answers; where it isn't built yet, those of its sources, without their proof."""
    command = [PROGRAM] if os.path.exists(PROGRAM) else ["rt", "try"]
    given = "".join(line + "\n" for line in lines).encode()
    done = subprocess.run(command, input=given, stdout=subprocess.PIPE, stderr=subprocess.PIPE, cwd=os.path.join(ROOT, "crates", "task_lines"))
    return done.stdout.decode().split("\n")[: len(lines)]


def request_of(app, text):
    """What Celery's worker reads of an envelope's text."""
    payload = json.loads(text)
    message = Message(payload, channel=app.reading)
    if "task" in message.headers:
        return message, None
    body, headers, decoded, utc = proto1_to_proto2(message, message.decode())
    return message, (body, headers)


def call_of(app, text):
    """The call that Celery's worker reads: name, id, args, kwargs, retries, eta and expires."""
    message, first = request_of(app, text)
    task = app.tasks["tasks.add"]
    if first is None:
        request = Request(message, app=app, task=task, decoded=False)
        args, kwargs, _ = message.decode()
    else:
        body, headers = first
        request = Request(message, app=app, task=task, body=body, headers=headers, decoded=True)
        args, kwargs, _ = body
    retries = request.request_dict["retries"] or 0
    return [request.type, request.id, list(args), kwargs, retries, micros(request.eta) if request.eta else None, micros(request.expires) if request.expires else None]


def told(line):
    """The same of our program's line."""
    version, name, ident, retries, eta, expires, args, kwargs = line.split("\t")
    return [name, ident, json.loads(args), json.loads(kwargs), int(retries), None if eta == "none" else int(eta), None if expires == "none" else int(expires)], int(version)


NEXT_ETA = 1714564980500000
TAGS = {"again": "00000000-0000-0008-0000-000000000001", "drafts": "00000000-0000-0007-0000-000000000001"}


def wrong(version, call, what, *shown):
    """Ends with what was not alike."""
    sys.exit("\n".join([f"version {version}, {call}: {what}", *map(str, shown)]))


def compared(app, version, call, text, ident, answers):
    """Compares one message as it is read, sent again and drafted with what Celery reads."""
    read, again, drafted = answers
    if "\t" not in read:
        wrong(version, call, read, text)
    ours, our_version = told(read)
    theirs = call_of(app, text)
    if our_version != version or ours != theirs or ours[1] != ident:
        wrong(version, call, "read", ours, theirs, text)
    retried = theirs[:4] + [theirs[4] + 1, NEXT_ETA, theirs[6]]
    for word, made, want in (("again", again, retried), ("drafts", drafted, theirs)):
        if not made.startswith("{"):
            wrong(version, call, word, made)
        if call_of(app, made) != want or json.loads(made)["properties"]["delivery_tag"] != TAGS[word]:
            wrong(version, call, word, call_of(app, made), want, made)


def main():
    """Compares both versions, and says how many messages were alike."""
    messages = []
    for version in (2, 1):
        app, add, pushed = client(version)
        for call in CALLS:
            text, ident, _ = published(app, add, pushed, call, version)
            messages.append((app, version, call, text, ident))
    lines = []
    for _, _, _, text, _ in messages:
        lines += [f"task\t{text}", f"again\t{NEXT_ETA}\t{text}", f"drafts\t1\t{text}"]
    answers = asked(lines)
    if len(answers) != len(lines):
        sys.exit(f"{len(lines)} lines, {len(answers)} answers")
    for place, (app, version, call, text, ident) in enumerate(messages):
        compared(app, version, call, text, ident, answers[3 * place: 3 * place + 3])
    print(f"{len(messages)} messages of Celery's client read alike, sent again and drafted; Celery reads these as the same calls")


if __name__ == "__main__":
    main()
