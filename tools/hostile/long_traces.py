#!/usr/bin/env python3
"""Plays trees of 64 extenders whose links lose, repeat and delay control frames, in an order drawn from a number, and has two judges
read the traces: `exbr audit`, and the judge of crates/exb_cases/world.

    tools/hostile/long_traces.py [--program FILE] [--runs N] [--lines N] [--changes N] [--seed N] [--room FOLDER] [--keep FOLDER]

An input is drawn as those of crates/exb_cases are: any tree of 64 extenders, any rules, twenty commands, and frames; and letters of a
fate, 500, 5,000 or 60,000, until the trace has so many lines as --lines says. Both judges have to find it legal, and the captures have to
be those that the plain bridge in Python sends over the journal. Then --changes of each kind of tools/hostile/changes.py are made in it,
and both judges have to say the same of each.

The last line is `long traces: N traces of M lines, L changes, 0 differences`; the status is 0 where there is none, 1 where there is
one, and 2 for words that are not as above. Python 3.11 or later.
"""
import argparse
import os
import random
import shutil
import subprocess
import sys
import tempfile
import time

sys.dont_write_bytecode = True
HERE = os.path.dirname(os.path.abspath(__file__))
sys.path[:0] = [HERE, os.path.join(os.path.dirname(os.path.dirname(HERE)), "crates", "exb_cases")]
import bridge
import generated
from changes import JOURNAL, KINDS, TOPOLOGY, TRACE, Base, Worker, drawn, number
from folders import held, program_of, write
from world.judge import trace_of

EXTENDERS, LETTERS = 64, 60_000


class Taken:
    """Takes what the generator of crates/exb_cases would make a case of."""

    def plays(self, name, topology, captures, options="", seed=None, **_):
        self.topology, self.captures = topology.replace("FOLDER/", ""), captures


def played(program, folder, files, seed):
    """The files of a run with a trace, and its summary."""
    shutil.rmtree(folder, ignore_errors=True)
    for name, data in files.items():
        write(os.path.join(folder, name), data)
    words = [program, "run", TOPOLOGY, "--trace", "--seed", str(seed)]
    ran = subprocess.run(words, cwd=folder, stdin=subprocess.DEVNULL, capture_output=True, text=True, check=False)
    return held(folder), ran.returncode, ran.stdout + ran.stderr


def long_run(program, folder, chance, least):
    """An input whose trace has so many lines, as the files of its run, and what was drawn. One that doesn't come to so many is none."""
    while True:
        taken, seed = Taken(), chance.getrandbits(64)
        generated.at_random(taken, chance.getrandbits(32), EXTENDERS, chance.choice([14, 20, 40]))
        verdicts = chance.choice(["PLTD", "LLLP", "TTTP", "DDDP", "LTD"])
        letters = "".join(chance.choices(verdicts, k=LETTERS))
        for count in (500, 5_000, LETTERS):
            text = taken.topology.replace("\n", f"\nlinks = {{ fate = '{letters[:count]}' }}\n", 1)
            files, status, said = played(program, folder, {TOPOLOGY: text.encode(), **taken.captures}, seed)
            lines = files.get(TRACE, b"").count(b"\n")
            if status or lines >= least:
                return files, status, said, f"{count:,} letters of {verdicts}, seed {seed}, {lines:,} lines"


def faults_of(files, said):
    """What is wrong with the files of a run: by the plain bridge over its journal, and by the second judge."""
    text, given = files[TOPOLOGY].decode(), {name: data for name, data in files.items() if not name.startswith("out-")}
    wanted, summary = bridge.run(text, given, files[JOURNAL].decode().splitlines())
    for name, data in wanted.items():
        if not name.endswith("counters.txt") and files.get(name) != data:
            yield f"{name} isn't what the plain bridge comes to"
    if said != f"{summary}\n":
        yield f"it printed {said!r}, where the plain bridge comes to {summary!r}"
    broken = trace_of(text, given, {name: data for name, data in files.items() if name.startswith("out-")}).breaks()
    if broken:
        yield f"the second judge says that rule {broken[0]} is broken at line {broken[1] + 1}"


def audited(program, folder, lines):
    ran = subprocess.run([program, "audit", TOPOLOGY], cwd=folder, stdin=subprocess.DEVNULL, capture_output=True, text=True, check=False)
    if (ran.returncode, ran.stdout, ran.stderr) != (0, f"legal {lines}\n", ""):
        yield f"exbr audit: status {ran.returncode}, {ran.stdout}{ran.stderr}"


def changed(name, files, chance, many):
    """Changes of each kind: how many, and what is different."""
    base, count, wrong = Base(name, files), 0, []
    base.keep(10 * many)
    for kind, (things, does, _) in KINDS.items():
        for place in drawn(things, does, base, chance, many):
            _, fault = Worker.one(base, kind, place, False)
            count += 1
            wrong += [f"{kind} {place}: {fault}"] if fault else []
    return count, wrong


def one(words, program, room, index):
    """A run and changes of it: how many lines and changes, and what is wrong."""
    chance, folder, name = random.Random(f"{words.seed} {index}"), os.path.join(room, "it"), f"input {index}"
    begun = time.monotonic()
    files, status, said, drawn_so = long_run(program, folder, chance, words.lines)
    if status:
        return 0, 0, [f"{name}, {drawn_so}: status {status}, {said!r}"]
    lines = files[TRACE].count(b"\n")
    wrong = [*faults_of(files, said), *audited(program, folder, lines)]
    count, different = (0, []) if wrong else changed(name, files, chance, words.changes)
    print(f"{name}: {drawn_so}; {count} changes, {len(wrong) + len(different)} differences, {time.monotonic() - begun:.0f} s", flush=True)
    return lines, count, [f"{name}, {drawn_so}: {it}" for it in [*wrong, *different]]


def parsed():
    form = argparse.ArgumentParser(description=__doc__, formatter_class=argparse.RawDescriptionHelpFormatter)
    form.add_argument("--program", metavar="FILE", help="the program to try")
    form.add_argument("--runs", type=number(1), default=20, metavar="N", help="how many runs (20)")
    form.add_argument("--lines", type=number(1), default=100_000, metavar="N", help="how many lines a trace has at least (100,000)")
    form.add_argument("--changes", type=number(0), default=1, metavar="N", help="how many changes of each kind are made in each (1)")
    form.add_argument("--seed", type=number(0), default=1, metavar="N", help="what is drawn (1)")
    form.add_argument("--room", metavar="FOLDER", help="where the runs have their folders, as /dev/shm, which is faster than a disk")
    form.add_argument("--keep", metavar="FOLDER", help="where the files of each change are put of which the judges differ")
    words = form.parse_args()
    if words.room and not os.path.isdir(words.room):
        form.error(f"there is no folder {words.room}")
    return words


def main():
    words = parsed()
    program, all_lines, changes, wrong = program_of(words.program), 0, 0, []
    with tempfile.TemporaryDirectory(prefix="exbr-long-", dir=words.room) as room:
        Worker.begin({}, program, room, words.keep)
        for index in range(words.runs):
            lines, count, faults = one(words, program, room, index)
            all_lines, changes, wrong = all_lines + lines, changes + count, wrong + faults
            for fault in faults:
                print(f"DIFFERS: {fault}", flush=True)
            shutil.rmtree(Worker.room, ignore_errors=True)
    print(f"long traces: {words.runs} traces of {all_lines:,} lines, {changes} changes, {len(wrong)} differences")
    return 1 if wrong else 0


if __name__ == "__main__":
    sys.exit(main())
