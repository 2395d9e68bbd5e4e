#!/usr/bin/env python3
"""Times lift_saves on large saves of its own making, on a stack of 8 MiB.

usage: bench/bench.py [PROGRAM]

PROGRAM is the built program; `rt run lift_saves` leaves it at crates/lift_saves/out/lift_saves. For each kind of save three
sizes are lifted, each twice the one before it: the last column shows how the time per byte grows. A run that doesn't end
with status 0 is shown with its status.
"""
import os
import random
import resource
import struct
import subprocess
import sys
import tempfile
import time

STACK = 8 * 1024 * 1024
HERE = os.path.dirname(os.path.abspath(__file__))
BUILT = os.path.join(HERE, "..", "crates", "lift_saves", "out", "lift_saves")

CHAIN = """form {form}; version "DataVersion"; schema 100;
type player = {{ "name": text, .. }}; root player;
fix 101 seq(rename "name" "Name", add "Health" = {health});
schema 101; type player = {{ "Health": {kind}, "Name": text, .. }}; root player;
"""


def text(s):
    return struct.pack(">H", len(s)) + s


def nbt_save(tag, payload):
    """A save with one large tag under `big`."""
    return (b"\x0a\x00\x00" + b"\x03" + text(b"DataVersion") + struct.pack(">i", 100) + b"\x08" + text(b"name") + text(b"Ann")
            + bytes([tag]) + text(b"big") + payload + b"\x00")


def compound(order):
    def make(n):
        numbers = list(range(n))
        if order == "descending":
            numbers.reverse()
        elif order == "random":
            random.Random(1).shuffle(numbers)
        return nbt_save(10, b"".join(b"\x01" + text(b"%07d" % k) + b"\x07" for k in numbers) + b"\x00")
    return make


def byte_items(n):
    return nbt_save(9, b"\x01" + struct.pack(">i", n) + bytes(n))


def nested(n):
    """Compounds to level 512, and an array of n bytes in the innermost."""
    inner = b"\x07" + text(b"a") + struct.pack(">i", n) + bytes(n)
    return nbt_save(10, (b"\x0a" + text(b"")) * 510 + inner + b"\x00" * 511)


def json_object(n):
    keys = ",".join('"k%06d":%d' % (k, k) for k in range(n))
    return ('{"DataVersion":100,"name":"Ann","big":{%s}}' % keys).encode()


CASES = [
    ("compound, descending", "nbt", compound("descending"), [250_000, 500_000, 1_000_000]),
    ("compound, random", "nbt", compound("random"), [250_000, 500_000, 1_000_000]),
    ("compound, ascending", "nbt", compound("ascending"), [250_000, 500_000, 1_000_000]),
    ("list of Byte items", "nbt", byte_items, [1_000_000, 2_000_000, 4_000_000]),
    ("512 levels and an array", "nbt", nested, [4_000_000, 8_000_000, 16_700_000]),
    ("JSON object", "json", json_object, [125_000, 250_000, 500_000]),
]


def limit_stack():
    resource.setrlimit(resource.RLIMIT_STACK, (STACK, STACK))


def lift(program, form, save):
    """Seconds and status of one run."""
    with tempfile.TemporaryDirectory() as folder:
        health, kind = ("int 20", "int") if form == "nbt" else ("whole 20", "whole")
        with open(os.path.join(folder, "a.mig"), "w") as chain:
            chain.write(CHAIN.format(form=form, health=health, kind=kind))
        os.mkdir(os.path.join(folder, "in"))
        with open(os.path.join(folder, "in", "a.dat" if form == "nbt" else "a.json"), "wb") as file:
            file.write(save)
        start = time.perf_counter()
        run = subprocess.run([program, "lift", "a.mig", "in", "out", "101"], cwd=folder, stdout=subprocess.PIPE, preexec_fn=limit_stack)
        return time.perf_counter() - start, run.returncode


def main():
    program = os.path.abspath(sys.argv[1] if len(sys.argv) > 1 else BUILT)
    if not os.path.exists(program):
        sys.exit(f"{program} isn't there: build it first, as `rt run lift_saves` does")
    print(f"{'save':26} {'number':>11} {'MB':>7} {'s':>7} {'MB/s':>7} {'ns/byte':>8}")
    for name, form, make, sizes in CASES:
        for n in sizes:
            save = make(n)
            seconds, status = lift(program, form, save)
            ending = "" if status == 0 else f"  status {status}"
            print(f"{name:26} {n:>11,} {len(save) / 1e6:7.1f} {seconds:7.2f} {len(save) / 1e6 / seconds:7.1f} {seconds * 1e9 / len(save):8.1f}{ending}", flush=True)


if __name__ == "__main__":
    main()
