#!/usr/bin/env python3
"""Times the decoder and `show` over 64 MiB of small replies and 60 bulk strings of a megabyte, in pieces of some sizes.

Run by hand, after `rt run` in crates/wire_bench has built the decoder's program, and ./celery_node build the other one:
python3 bench/decode.py. Where Debian's libhiredis-dev is installed, hiredis' reader runs over the same pieces beside it.
Each line has megabytes a second, as the best of three runs, and the most memory; the time of the same program over no
input and the reading of the input are in it. Growth: the same over an eighth, a quarter and a half of the stream.
"""

import os
import resource
import shutil
import subprocess
import sys
import tempfile
import time

ROOT = os.path.dirname(os.path.dirname(os.path.abspath(__file__)))
DECODER = os.path.join(ROOT, "crates", "wire_bench", "out", "wire_bench")
PROGRAM = os.path.join(ROOT, "crates", "celery_node", "out", "celery_node")
SIZE = 64 << 20


# Replies as a broker gives them: statuses, integers, short bulk strings and arrays of two.
SMALL = b"+OK\r\n:1\r\n$5\r\nhello\r\n*2\r\n$6\r\ncelery\r\n$12\r\n{\"body\":\"\"}a\r\n$-1\r\n:1234567\r\n"
BULK = b"$1048576\r\n" + b"x" * 1048576 + b"\r\n"


def written(path, unit, count):
    """Writes so many times a unit, and answers how many bytes these are. No more than a few are held: a child counts the
    memory of the process that made it as its own."""
    part = unit * max(1, (1 << 18) // len(unit))
    with open(path, "wb") as out:
        for _ in range(count * len(unit) // len(part)):
            out.write(part)
    return os.path.getsize(path)


def timed(words, path):
    """The least seconds of three runs and the most kilobytes that one took."""
    best, memory = None, 0
    for _ in range(3):
        with open(path, "rb") as given:
            began = time.perf_counter()
            child = subprocess.Popen(words, stdin=given, stdout=subprocess.DEVNULL)
            _, status, used = os.wait4(child.pid, 0)
            took = time.perf_counter() - began
        if os.waitstatus_to_exitcode(status) != 0:
            sys.exit(f"{words} ended with {os.waitstatus_to_exitcode(status)}")
        best = took if best is None else min(best, took)
        memory = max(memory, used.ru_maxrss)
    return best, memory


def hiredis(folder):
    """hiredis' reader as a program, where it can be built."""
    if not shutil.which("cc") or not os.path.exists("/usr/include/hiredis/hiredis.h"):
        return None
    made = os.path.join(folder, "hiredis_reader")
    subprocess.run(["cc", "-O2", "-o", made, os.path.join(ROOT, "bench", "hiredis_reader.c"), "-lhiredis"], check=True)
    return made


def line(name, words, path, size):
    took, memory = timed(words, path)
    print(f"{name:44} {size / took / 1e6:8.0f} MB/s {memory / 1024:8.0f} MB", flush=True)


def main():
    resource.setrlimit(resource.RLIMIT_CORE, (0, 0))
    with tempfile.TemporaryDirectory() as folder:
        other = hiredis(folder)
        path = os.path.join(folder, "stream")
        for name, unit, count in (("small replies", SMALL, SIZE // len(SMALL)), ("bulk strings", BULK, 60)):
            size = written(path, unit, count)
            for piece in (1, 7, 4096, 65536):
                line(f"{name}, pieces of {piece}: decoder", [DECODER, str(piece)], path, size)
                if other:
                    line(f"{name}, pieces of {piece}: hiredis", [other, str(piece)], path, size)
            if os.path.exists(PROGRAM):
                line(f"{name}: show", [PROGRAM, "show"], path, size)
        for part in (8, 4, 2, 1):
            size = written(path, SMALL, SIZE // len(SMALL) // part)
            line(f"small replies, 1/{part} of them: decoder", [DECODER, "4096"], path, size)


if __name__ == "__main__":
    main()
