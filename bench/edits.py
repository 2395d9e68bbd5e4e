#!/usr/bin/env python3
"""Tries wrong bodies that the proof must refuse, beside those that the gate tries.

usage: bench/edits.py [CRATE..]

Each crate's own must-fail/ has those that tell most; bench/edits/CRATE/ has others, in the same form. This copies the repository without
what checks left, puts them into the copy's must-fail/ folders, and has `rt must-fail` try them. Each crate costs a check first.
"""
import os
import shutil
import subprocess
import sys
import tempfile

HERE = os.path.dirname(os.path.abspath(__file__))
EDITS = os.path.join(HERE, "edits")


def main():
    crates = sys.argv[1:] or sorted(os.listdir(EDITS))
    unknown = [crate for crate in crates if not os.path.isdir(os.path.join(EDITS, crate))]
    if unknown:
        sys.exit("no edits of " + " ".join(unknown))
    with tempfile.TemporaryDirectory() as folder:
        copy = os.path.join(folder, "copy")
        shutil.copytree(os.path.dirname(HERE), copy, ignore=shutil.ignore_patterns("out"))
        for crate in crates:
            shutil.copytree(os.path.join(EDITS, crate), os.path.join(copy, "crates", crate, "must-fail"), dirs_exist_ok=True)
        return subprocess.run(["rt", "must-fail", *crates], cwd=copy, check=False).returncode


if __name__ == "__main__":
    sys.exit(main())
