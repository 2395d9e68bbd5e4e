#!/usr/bin/env python3
"""Lifts the shipped example with the N-th allocation failing, for each N, and shows how each run ends.

usage: bench/fail_alloc.py [PROGRAM]

PROGRAM is the built program; `rt run` in crates/lift_saves leaves it at crates/lift_saves/out/lift_saves. A library that
stands before the C library's malloc and realloc makes one call answer null; `cc` builds it. Each run has to end with status
0 and the lifted save, or with status 5 and a lifted save that is whole or not there.
"""
import os
import shutil
import subprocess
import sys
import tempfile

HERE = os.path.dirname(os.path.abspath(__file__))
CRATE = os.path.join(HERE, "..", "crates", "lift_saves")

SHIM = """
#include <stddef.h>
#include <stdlib.h>
extern void *__libc_malloc(size_t size);
extern void *__libc_realloc(void *old, size_t size);
static long calls = 0, at = -1;
static int fails(void) {
    if (at < 0) { const char *word = getenv("FAIL_AT"); at = word ? strtol(word, 0, 10) : 0; }
    return ++calls == at;
}
void *malloc(size_t size) { return fails() ? 0 : __libc_malloc(size); }
void *realloc(void *old, size_t size) { return fails() ? 0 : __libc_realloc(old, size); }
"""


def run(program, folder, environment):
    """The status of one run, the report, and the lifted save or None."""
    shutil.rmtree(os.path.join(folder, "out"), ignore_errors=True)
    done = subprocess.run([program, "lift", "a.mig", "in", "out", "101"], cwd=folder, stdout=subprocess.PIPE, stderr=subprocess.DEVNULL,
                          env=environment)
    lifted = os.path.join(folder, "out", "a.dat")
    if not os.path.exists(lifted):
        return done.returncode, done.stdout, None
    with open(lifted, "rb") as file:
        return done.returncode, done.stdout, file.read()


def main():
    program = os.path.abspath(sys.argv[1] if len(sys.argv) > 1 else os.path.join(CRATE, "out", "lift_saves"))
    if not os.path.exists(program):
        sys.exit(f"{program} isn't there: build it first, as `rt run` in crates/lift_saves does")
    with tempfile.TemporaryDirectory() as folder:
        shutil.copytree(os.path.join(CRATE, "data"), folder, dirs_exist_ok=True)
        with open(os.path.join(folder, "shim.c"), "w") as source:
            source.write(SHIM)
        shim = os.path.join(folder, "shim.so")
        subprocess.run(["cc", "-O1", "-shared", "-fPIC", "-o", shim, source.name], check=True)
        status, report, whole = run(program, folder, os.environ)
        if status != 0:
            sys.exit(f"the example ends with status {status}")
        number, bad, ample = 0, 0, False
        while not ample:
            number += 1
            status, lines, lifted = run(program, folder, {**os.environ, "LD_PRELOAD": shim, "FAIL_AT": str(number)})
            ample = (status, lines, lifted) == (0, report, whole)
            if not ample and not (status == 5 and lifted in (None, whole)):
                bad += 1
                print(f"allocation {number}: status {status}, {lines!r}")
        print(f"{number - 1} allocations, each of which failed once: {bad} runs ended otherwise than with status 5")
        sys.exit(1 if bad else 0)


if __name__ == "__main__":
    main()
