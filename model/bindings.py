"""Names of queues, priority steps and keys, bindings of exchanges and the patterns of topics."""

import functools

SEPARATOR = b"\x06\x16"
STEPS = (0, 3, 6, 9)


def is_name(queue):
    """Whether a queue may have this name, be it one that is kept or not."""
    return 1 <= len(queue) <= 255 and b"\x06" not in queue and b"\x16" not in queue


def is_reserved(queue):
    return (
        queue in (b"unacked", b"unacked_index", b"unacked_mutex")
        or queue.startswith((b"_kombu.binding.", b"celery-task-meta-"))
        or queue.endswith(b".reply.celery.pidbox")
    )


def step_of(priority):
    """The greatest step that isn't above a priority, which is held within 0 to 9."""
    return max(step for step in STEPS if step <= max(0, min(priority, 9)))


def queue_key(queue, step):
    return queue + SEPARATOR + b"%d" % step if step else queue


def split_key(key):
    """The queue and the step whose key this is; None where it is the key of no queue."""
    for step in STEPS[1:]:
        end = queue_key(b"", step)
        if key.endswith(end):
            queue = key[: -len(end)]
            break
    else:
        queue, step = key, 0
    return (queue, step) if is_name(queue) and not is_reserved(queue) else None


def bindings_key(exchange):
    return b"_kombu.binding." + exchange


def member_of(routing_key, pattern, queue):
    """The member of an exchange's set for a binding."""
    return SEPARATOR.join((routing_key, pattern, queue))


def binding_of(member):
    """The routing key, pattern and queue of a member; None where it is no binding."""
    parts = member.split(SEPARATOR)
    return parts if len(parts) == 3 and is_name(parts[2]) and not is_reserved(parts[2]) else None


def lookup(members, routing_key):
    """The queues that a routing key leads to."""
    found = set()
    for binding in filter(None, map(binding_of, members)):
        bound, pattern, queue = binding
        if matches(pattern, routing_key) if pattern else bound == routing_key:
            found.add(queue)
    return sorted(found)


def matches(pattern, routing_key):
    """Whether a pattern of words takes a routing key: a star is one word, a hash any number of them."""
    words, wanted = routing_key.split(b"."), pattern.split(b".")

    @functools.cache
    def from_here(place, word):
        if place == len(wanted):
            return word == len(words)
        if wanted[place] == b"#":
            return from_here(place + 1, word) or (word < len(words) and from_here(place, word + 1))
        return word < len(words) and wanted[place] in (b"*", words[word]) and from_here(place + 1, word + 1)

    return from_here(0, 0)
