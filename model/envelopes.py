"""Delivery tags, envelopes and entries of the table of unacknowledged messages; a tag is the pair of its seed and its counter."""

import base64
import functools
import re

from json_texts import NotJson, depth_of, has_float, read_json, write_json

UUID = re.compile(rb"([0-9a-f]{8})-([0-9a-f]{4})-([0-9a-f]{4})-([0-9a-f]{4})-([0-9a-f]{12})")


def tag_text(tag):
    digits = "%016x%016x" % tag
    return "-".join((digits[:8], digits[8:12], digits[12:16], digits[16:20], digits[20:])).encode()


def read_tag(word):
    found = UUID.fullmatch(word)
    digits = b"".join(found.groups()) if found else None
    return digits and (int(digits[:16], 16), int(digits[16:], 16))


def seal(tag, exchange, routing_key, priority, task, args):
    """The tree of the envelope of a task of version 2."""
    name = tag_text(tag).decode()
    embed = {"callbacks": None, "chain": None, "chord": None, "errbacks": None}
    content = write_json([args, {}, embed])
    return {
        "body": base64.b64encode(content).decode(),
        "content-encoding": "utf-8",
        "content-type": "application/json",
        "headers": {
            "lang": "py", "task": task, "id": name, "root_id": name, "parent_id": None, "group": None,
            "eta": None, "expires": None, "retries": 0, "timelimit": [None, None],
            "argsrepr": write_json(args).decode(), "kwargsrepr": "{}", "origin": "node",
        },
        "properties": {
            "correlation_id": name, "reply_to": "", "delivery_mode": 2,
            "delivery_info": {"exchange": exchange, "routing_key": routing_key}, "priority": priority,
            "body_encoding": "base64", "delivery_tag": name,
        },
    }


def is_text(value):
    return isinstance(value, str)


def body_is_good(body):
    """Whether a body is canonical padded base64 of a text in UTF-8."""
    try:
        content = base64.b64decode(body, validate=True)
        content.decode()
    except ValueError:
        return False
    return base64.b64encode(content).decode() == body


def envelope_of(tree, size):
    """The tag of the envelope that a tree is, and whether it is marked; None where the tree is no envelope.

    Some text of the tree has this size; a compact one isn't longer, and both marks add less than 100 bytes.
    """
    if depth_of(tree) > 100 or has_float(tree) or not isinstance(tree, dict):
        return None
    headers, properties = tree.get("headers"), tree.get("properties")
    if not isinstance(headers, dict) or not isinstance(properties, dict):
        return None
    info, tag = properties.get("delivery_info"), properties.get("delivery_tag")
    tag = read_tag(tag.encode()) if is_text(tag) else None
    encoding = tree.get("content-encoding")
    lawful = (
        tag and is_text(tree.get("body")) and isinstance(info, dict)
        and is_text(encoding) and encoding.isascii() and encoding.lower() == "utf-8"
        and tree.get("content-type") == "application/json" and properties.get("body_encoding") == "base64"
        and all(is_text(info.get(key)) and len(info[key].encode()) <= 255 for key in ("exchange", "routing_key"))
        and headers.get("compression") is None and body_is_good(tree["body"])
    )
    if not lawful:
        return None
    if size > 999_900 and len(write_json(redelivered(tree))) > 1_000_000:
        return None
    return tag, headers.get("redelivered") is True and info.get("redelivered") is True


def redelivered(tree):
    """The tree with both marks of a message that is delivered again."""
    properties = dict(tree["properties"])
    properties["delivery_info"] = dict(properties["delivery_info"], redelivered=True)
    return dict(tree, headers=dict(tree["headers"], redelivered=True), properties=properties)


def priority_of(tree):
    """The priority of an envelope, held within 0 to 9."""
    priority = tree["properties"].get("priority")
    whole = isinstance(priority, int) and not isinstance(priority, bool)
    return max(0, min(priority, 9)) if whole else 0


@functools.lru_cache(maxsize=4096)
def read_envelope(word):
    """As `envelope_of`, of a word."""
    try:
        return envelope_of(read_json(word), len(word)) if len(word) <= 1_040_000 else None
    except NotJson:
        return None


@functools.lru_cache(maxsize=4096)
def items_of_entry(word):
    """The envelope's tree, exchange and routing key in an entry of the table; None where it is none that can be read."""
    try:
        items = read_json(word) if len(word) <= 1_048_576 else None
    except NotJson:
        return None
    if not isinstance(items, list) or len(items) != 3 or not envelope_of(items[0], len(word)):
        return None
    if any(not is_text(text) or len(text.encode()) > 255 for text in items[1:]):
        return None
    return items


@functools.lru_cache(maxsize=4096)
def read_entry(word):
    """As `envelope_of`, of the envelope in an entry."""
    items = items_of_entry(word)
    return items and envelope_of(items[0], len(word))


def entry_of(tree):
    """The entry of an envelope."""
    info = tree["properties"]["delivery_info"]
    return write_json([tree, info["exchange"], info["routing_key"]])
