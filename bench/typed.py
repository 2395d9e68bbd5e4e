#!/usr/bin/env python3
"""Times reading, typing and writing of saves by families, on a stack of 8 MiB.

usage: bench/typed.py [PROGRAM]

PROGRAM is the built program; `rt run` in crates/typed_times leaves it at crates/typed_times/out/typed_times. Each kind of save comes in
three sizes, each twice the one before it. A part's time is that of the run that ends with it, less that of the run that ends before it;
each run is the best of three. A run that doesn't end with status 0 is shown with its status.
"""
import os
import resource
import struct
import subprocess
import sys
import tempfile
import time

STACK = 8 * 1024 * 1024
HERE = os.path.dirname(os.path.abspath(__file__))
BUILT = os.path.join(HERE, "..", "crates", "typed_times", "out", "typed_times")
PARTS = ["read", "type", "write"]


def text(s):
    return struct.pack(">H", len(s)) + s


def listed(item):
    """A save with a list of these compounds under `list`; `item(k)` has the bytes of the k-th, with its end."""
    def make(n):
        items = b"".join(item(k) for k in range(n))
        return b"\x0a\x00\x00" + b"\x09" + text(b"list") + b"\x0a" + struct.pack(">i", n) + items + b"\x00"
    return make


def record(k):
    return b"\x03" + text(b"id") + struct.pack(">i", k) + b"\x00"


def few_of_many(k):
    """One of the fields that may be away."""
    return b"\x03" + text(b"f%05d" % (k * 7919 % 10_000)) + struct.pack(">i", k) + b"\x00"


def nothing(_):
    return b"\x00"


def levels(n):
    """Compounds to level n, each under `in`; an array in the innermost, which is an unknown field."""
    array = b"\x07" + text(b"a") + struct.pack(">i", 8_000_000) + bytes(8_000_000)
    return b"\x0a\x00\x00" + (b"\x0a" + text(b"in")) * (n - 1) + array + b"\x00" * n


CASES = [
    ("list of records", "records", listed(record), [250_000, 500_000, 1_000_000]),
    ("list of empty maps, 10,000 fields", "optional", listed(nothing), [250_000, 500_000, 1_000_000]),
    ("list of maps of one of 10,000 fields", "optional", listed(few_of_many), [250_000, 500_000, 1_000_000]),
    ("typed levels and an array", "levels", levels, [128, 256, 511]),
]


def limit_stack():
    resource.setrlimit(resource.RLIMIT_STACK, (STACK, STACK))


def seconds(program, part, shape, folder):
    best = None
    for _ in range(3):
        begin = time.monotonic()
        status = subprocess.run([program, part, shape, folder, "save.dat"], preexec_fn=limit_stack).returncode
        taken = time.monotonic() - begin
        if status != 0:
            return None, status
        best = taken if best is None else min(best, taken)
    return best, 0


def main():
    program = os.path.abspath(sys.argv[1] if len(sys.argv) > 1 else BUILT)
    print("%-38s %10s %8s   %s" % ("save", "size", "MB", "   ".join("%-14s" % part for part in PARTS)))
    with tempfile.TemporaryDirectory() as folder:
        for name, shape, make, sizes in CASES:
            for size in sizes:
                save = make(size)
                with open(os.path.join(folder, "save.dat"), "wb") as out:
                    out.write(save)
                before, columns = 0.0, []
                for part in PARTS:
                    taken, status = seconds(program, part, shape, folder)
                    if taken is None:
                        columns.append("%-14s" % ("status %d" % status))
                        continue
                    columns.append("%6.3f s %5.0f/s" % (max(taken - before, 0.0), len(save) / 1e6 / max(taken - before, 1e-3)))
                    before = taken
                print("%-38s %10d %8.1f   %s" % (name, size, len(save) / 1e6, "   ".join(columns)))


if __name__ == "__main__":
    main()
