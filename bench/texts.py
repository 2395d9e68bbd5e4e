#!/usr/bin/env python3
"""Times a million new names or constants that lend their bytes, and a million that have copies of them.

usage: bench/texts.py [PROGRAM]

PROGRAM is the built program; `rt run` in crates/typed_times leaves it at crates/typed_times/out/typed_times. Each run is the best of five, less that of a
run that makes none. Texts of up to sixteen bytes stand in the text itself.
"""
import os
import subprocess
import sys
import tempfile
import time

HERE = os.path.dirname(os.path.abspath(__file__))
BUILT = os.path.join(HERE, "..", "crates", "typed_times", "out", "typed_times")
LENGTHS = [6, 16, 17, 60]


def seconds(program, part, folder):
    best = None
    for _ in range(5):
        begin = time.monotonic()
        subprocess.run([program, part, "records", folder, "name"])
        taken = time.monotonic() - begin
        best = taken if best is None else min(best, taken)
    return best


def main():
    program = os.path.abspath(sys.argv[1] if len(sys.argv) > 1 else BUILT)
    with tempfile.TemporaryDirectory() as folder:
        for length in LENGTHS:
            with open(os.path.join(folder, "name"), "wb") as out:
                out.write(b"n" * length)
            none = seconds(program, "none", folder)
            lent, copied = (max(seconds(program, part, folder) - none, 0.0) for part in ("lend", "copy"))
            print("%3d bytes: lent %4.0f ns, copied %4.0f ns for each text" % (length, lent * 1e3, copied * 1e3))


if __name__ == "__main__":
    main()
