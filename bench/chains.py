#!/usr/bin/env python3
"""How long `check` takes on large chain texts, on a stack of 8 MiB.

Usage: bench/chains.py [PROGRAM]. PROGRAM is the built program, by default crates/lift_saves/out/lift_saves, which `rt run` makes.
Each line: the text, its bytes, the seconds, and what `check` said.
"""
import os
import resource
import subprocess
import sys
import tempfile
import time

HEAD = 'form json; version "v"; schema 0;'


def fixes_and_schemas():
    """4,096 fixes and 1,024 schemas, in a text of as many bytes as may be."""
    fields = "".join(', "field%d": whole' % number for number in range(200))
    text = [HEAD, 'type p = { "a": whole%s, .. }; root p;' % fields]
    for version in range(1, 1024):
        for turn in range(4):
            names = ('"a"', '"b"') if turn % 2 == 0 else ('"b"', '"a"')
            text.append("fix %d rename %s %s;" % ((version,) + names))
        text.append("schema %d follows;" % version)
    text = "\n".join(text)
    return text + " " * (1048576 - len(text))


def many_types():
    """512 types, and for each a fix that fits it alone."""
    text = [HEAD]
    for number in range(512):
        text.append('type t%d = { "n": whole, .. };' % number)
    text.append("root t0;")
    for number in range(512):
        text.append('fix 1 on t%d rename "n" "m";' % number)
    text.append("schema 1 follows;")
    return "\n".join(text)


def one_large_family():
    """512 types, and 1,024 fixes that fit one of them."""
    text = [HEAD]
    for number in range(512):
        fields = "".join('"f%d": whole, ' % field for field in range(60))
        text.append("type t%d = { %s.. };" % (number, fields))
    text.append("root t0;")
    for turn in range(1024):
        text.append("fix 1 on t0 nop;")
    text.append("schema 1 follows;")
    return "\n".join(text)


def nested_everywhere(count, depth):
    """`everywhere` nested so often, over a record nested so deep."""
    template = '{ "a": ' * depth + "whole" + " }" * depth
    text = [HEAD, "type p = %s; root p;" % template, "fix 1 " + "everywhere " * count + 'map "a" plus 1;', "schema 1 follows;"]
    return "\n".join(text)


def long_path(steps):
    """A `deep` path of so many steps."""
    text = [HEAD, 'type p = { "l": list p, "n": whole, .. }; root p;', "fix 1 deep " + '"l" each ' * (steps // 2) + '"n" : plus 1;', "schema 1 follows;"]
    return "\n".join(text)


def many_type_names():
    """As many types under one schema as a text can hold."""
    text = [HEAD]
    number = 0
    size = len(HEAD)
    while size < 1040000:
        line = "type t%d = { .. };" % number
        text.append(line)
        size += len(line) + 1
        number += 1
    text.append("root t0;")
    return "\n".join(text)


def seconds(program, text, limit):
    """The seconds that `check` takes, and its line."""
    with tempfile.TemporaryDirectory() as folder:
        with open(os.path.join(folder, "c.mig"), "w") as file:
            file.write(text)
        begin = time.time()
        try:
            run = subprocess.run(
                [program, "check", "c.mig"],
                cwd=folder,
                capture_output=True,
                timeout=limit,
                preexec_fn=lambda: resource.setrlimit(resource.RLIMIT_STACK, (8 << 20, 8 << 20)),
            )
            said = run.stdout.decode().strip() or "status %d" % run.returncode
        except subprocess.TimeoutExpired:
            said = "not ended"
        return time.time() - begin, said


def main():
    here = os.path.dirname(os.path.dirname(os.path.abspath(__file__)))
    program = sys.argv[1] if len(sys.argv) > 1 else os.path.join(here, "crates/lift_saves/out/lift_saves")
    texts = [
        ("4,096 fixes, 1,024 schemas", fixes_and_schemas()),
        ("512 types, a fix for each", many_types()),
        ("512 types, 1,024 fixes of one", one_large_family()),
        ("types as many as fit", many_type_names()),
        ("everywhere 6 times, 14 deep", nested_everywhere(6, 14)),
        ("everywhere 14 times, 14 deep", nested_everywhere(14, 14)),
        ("a path of 200,000 steps", long_path(200000)),
    ]
    for name, text in texts:
        took, said = seconds(program, text, 60)
        print("%-32s %8d bytes %7.2f s  %s" % (name, len(text), took, said), flush=True)


if __name__ == "__main__":
    main()
