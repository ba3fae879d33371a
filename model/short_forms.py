"""Short forms of words and of replies."""

import functools
import re

from envelopes import read_entry, read_envelope, read_tag
from replies import NULL_BULK, Problem, Simple

BARE = re.compile(rb"[A-Za-z0-9_.:/-]{1,255}")


def quoted(word):
    plain = {ord('"'): '\\"', ord("\\"): "\\\\"}
    return '"%s"' % "".join(plain.get(b, chr(b) if 0x20 <= b <= 0x7E else "\\x%02x" % b) for b in word)


@functools.lru_cache(maxsize=4096)
def short(word):
    for name, reads in (("env", read_envelope), ("entry", read_entry)):
        found = reads(word)
        if found:
            return "%s(%d:%d)%s" % (name, *found[0], "*" if found[1] else "")
    tag = read_tag(word)
    if tag:
        return "tag(%d:%d)" % tag
    return word.decode() if BARE.fullmatch(word) else quoted(word)


def short_reply(reply):
    """The short form of a reply: None is the null array."""
    if reply is None:
        return "*-"
    if isinstance(reply, list):
        return "*[%s]" % ", ".join(map(short_reply, reply))
    if isinstance(reply, int):
        return ":%d" % reply
    if reply is NULL_BULK:
        return "$-"
    return {Simple: "+", Problem: "-"}.get(type(reply), "$") + short(bytes(reply))
