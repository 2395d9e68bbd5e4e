#!/usr/bin/env python3
"""Lifts a folder into itself while it is killed, while files may not grow, and with odd entries, and shows what is left.

usage: bench/kill.py [PROGRAM [NUMBER]]

PROGRAM is the built program; `rt run` in crates/lift_saves leaves it at crates/lift_saves/out/lift_saves. NUMBER is how
often it is killed, 200 where it isn't given. After each run every save has its old or its new bytes, nothing but files
`moxaldiz-N.new` has come, and a second run gives the whole result. The status is 0 where all that holds.
"""
import os
import random
import resource
import shutil
import signal
import struct
import subprocess
import sys
import tempfile
import time

HERE = os.path.dirname(os.path.abspath(__file__))
BUILT = os.path.join(HERE, "..", "crates", "lift_saves", "out", "lift_saves")
SAVES = 40
KILLS = 200
PATIENCE = 120

CHAIN = """form nbt; version "DataVersion"; schema 100;
type player = { "name": text, .. }; root player;
fix 101 seq(rename "name" "Name", add "Health" = int 20);
schema 101; type player = { "Health": int, "Name": text, .. }; root player;
"""


def text(s):
    return struct.pack(">H", len(s)) + s


def save(number):
    """A save of 1,000 bytes times its number."""
    size = 1000 * number
    return (b"\x0a\x00\x00\x03" + text(b"DataVersion") + struct.pack(">i", 100) + b"\x08" + text(b"name") + text(b"Ann")
            + b"\x07" + text(b"big") + struct.pack(">i", size) + bytes([number]) * size + b"\x00")


OLD = {f"{number:03}.dat": save(number) for number in range(SAVES)}


class Trial:
    """A folder `in` of the old saves, and one run of the program."""

    def __init__(self, program, top):
        self.program, self.top = program, top
        self.folder = os.path.join(top, "in")
        with open(os.path.join(top, "a.mig"), "w") as chain:
            chain.write(CHAIN)

    def reset(self):
        shutil.rmtree(self.folder, ignore_errors=True)
        os.mkdir(self.folder)
        for name, content in OLD.items():
            with open(os.path.join(self.folder, name), "wb") as file:
                file.write(content)

    def start(self, to="in", source="in", **more):
        more.setdefault("stdout", subprocess.PIPE)
        return subprocess.Popen([self.program, "lift", "a.mig", source, to, "101"], cwd=self.top, stderr=subprocess.PIPE, **more)

    def run(self, **more):
        """The status, the lines of the report and those of standard error of a whole run."""
        process = self.start(**more)
        try:
            report, errors = process.communicate(timeout=PATIENCE)
        except subprocess.TimeoutExpired:
            process.kill()
            process.communicate()
            return "hangs", [], []
        return process.returncode, (report or b"").decode().splitlines(), errors.decode().splitlines()

    def held(self, folder="in"):
        found = {}
        for name in os.listdir(os.path.join(self.top, folder)):
            path = os.path.join(self.top, folder, name)
            if os.path.isfile(path):
                with open(path, "rb") as file:
                    found[name] = file.read()
        return found


class Count:
    """How many checks were made, and how many failed."""

    def __init__(self):
        self.bad = 0

    def expect(self, holds, what):
        if not holds:
            self.bad += 1
            print(f"NOT SO: {what}", flush=True)


def look(trial, new, count, what):
    """Whether each save is old or new. It answers how many are new, and how many files are left over."""
    held = trial.held()
    lifted, strays = 0, 0
    for name, old in OLD.items():
        count.expect(held.get(name) in (old, new[name]), f"{what}: {name} is old or new")
        lifted += held.get(name) == new[name]
    for name in set(held) - set(OLD):
        count.expect(name.startswith("moxaldiz-") and name.endswith(".new"), f"{what}: {name} is no save")
        strays += 1
    return lifted, strays


def mend(trial, new, count, what):
    """A second run gives the whole result."""
    status, report, errors = trial.run()
    count.expect(status == 0 and len(report) == SAVES and not errors, f"{what}: a second run ends well, not with {status} {errors}")
    held = trial.held()
    count.expect({name: held.get(name) for name in OLD} == new, f"{what}: a second run gives the whole result")


def killed(trial, new, count, number):
    trial.reset()
    begin = time.perf_counter()
    trial.run()
    length = time.perf_counter() - begin
    ended, between, left = 0, 0, 0
    for _ in range(number):
        trial.reset()
        process = trial.start()
        time.sleep(random.uniform(0, length))
        process.kill()
        process.communicate()
        lifted, strays = look(trial, new, count, "killed")
        count.expect(strays <= 1, f"killed: {strays} files are left over")
        ended += process.returncode == 0
        between += 0 < lifted < SAVES
        left += strays
        mend(trial, new, count, "killed")
    print(f"killed {number} times: {ended} runs had ended, {between} were between two saves, {left} files were left over", flush=True)


def limit(size, ignored):
    """Files may not grow past this size; the signal that says so ends the program, or is ignored."""
    def prepare():
        resource.setrlimit(resource.RLIMIT_FSIZE, (size, size))
        signal.signal(signal.SIGXFSZ, signal.SIG_IGN if ignored else signal.SIG_DFL)
    return prepare


def limited(trial, new, count):
    for size in range(0, 1000 * SAVES, 3700):
        for ignored in (True, False):
            what = f"files of at most {size} bytes"
            trial.reset()
            status, _, errors = trial.run(preexec_fn=limit(size, ignored))
            _, strays = look(trial, new, count, what)
            if ignored:
                told = len(errors) == 1 and errors[0].startswith("lift_saves: write in/") and errors[0].endswith(": File too large")
                count.expect(status == 3 and told and strays == 0, f"{what}: status 3, a line and nothing left over, not {status} {errors} {strays}")
            else:
                count.expect(status == -signal.SIGXFSZ, f"{what}: the signal ends it, not {status}")
            mend(trial, new, count, what)
    print("files may not grow: looked at", flush=True)


def odd(trial, new, count):
    trial.reset()
    os.mkfifo(os.path.join(trial.folder, "000a.dat"))
    os.mkdir(os.path.join(trial.folder, "000b.dat"))
    os.symlink("nowhere", os.path.join(trial.folder, "000c.dat"))
    os.symlink("000d.dat", os.path.join(trial.folder, "000d.dat"))
    with open(os.path.join(os.fsencode(trial.folder), b"\xe9.dat"), "wb") as file:
        file.write(b"")
    status, report, errors = trial.run()
    absent = [line for line in report if not line.endswith(" to 101")]
    due = ["000c.dat: refused absent", "000d.dat: refused absent", "%EF%BF%BD.dat: refused absent"]
    count.expect(status == 1 and absent == due and not errors, f"odd entries stop nothing, not {status} {absent} {errors}")
    held = trial.held()
    count.expect({name: held.get(name) for name in OLD} == new, "odd entries: all saves are lifted")
    print("a pipe, a folder, links that lead nowhere and a name that isn't UTF-8: looked at", flush=True)


def told(trial, count):
    """Each failure is told in one line of standard error."""
    cases = []
    trial.reset()
    cases.append(("no folder", trial.run(source="no"), 3, "lift_saves: list no: No such file or directory"))
    with open("/dev/full", "wb") as full:
        cases.append(("/dev/full", trial.run(stdout=full), 4, "lift_saves: the report couldn't be written: No space left on device"))
    trial.reset()
    closed = trial.run(stdout=None, preexec_fn=lambda: os.close(1))
    cases.append(("a closed output", closed, 4, "lift_saves: the report couldn't be written: Bad file descriptor"))
    trial.reset()
    os.mkdir(os.path.join(trial.top, "aim"))
    os.mkdir(os.path.join(trial.top, "aim", "000.dat"))
    cases.append(("a folder under the name", trial.run(to="aim"), 3, "lift_saves: write aim/000.dat: Is a directory"))
    count.expect(os.listdir(os.path.join(trial.top, "aim")) == ["000.dat"], "a folder under the name: nothing is left over")
    for what, (status, report, errors), due, line in cases:
        count.expect((status, report, errors) == (due, [], [line]), f"{what}: status {due} and a line, not {status} {report} {errors}")
    print("failures: looked at", flush=True)


def main():
    program = os.path.abspath(sys.argv[1] if len(sys.argv) > 1 else BUILT)
    if not os.path.exists(program):
        sys.exit(f"{program} isn't there: build it first, as `rt run` in crates/lift_saves does")
    count = Count()
    with tempfile.TemporaryDirectory() as top:
        trial = Trial(program, top)
        trial.reset()
        status, _, errors = trial.run(to="out")
        if status != 0:
            sys.exit(f"the saves aren't lifted: status {status}, {errors}")
        new = trial.held("out")
        count.expect(trial.held() == OLD and set(new) == set(OLD), "the other folder stays, and all saves are lifted")
        odd(trial, new, count)
        told(trial, count)
        limited(trial, new, count)
        killed(trial, new, count, int(sys.argv[2]) if len(sys.argv) > 2 else KILLS)
    print(f"{count.bad} checks failed")
    sys.exit(1 if count.bad else 0)


if __name__ == "__main__":
    main()
