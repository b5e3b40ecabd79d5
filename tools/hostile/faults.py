#!/usr/bin/env python3
"""Plays runs of the built program under each fault that only a system has, and looks at what each answered and left.

    tools/hostile/faults.py [--program FILE] [--only WORD] [--room FOLDER] [--list] [--table]

Each run has to end with a status that fits, print its line or a front of it, leave what it read as it was, and leave each output absent, as
it was before, or a front of what it holds where nothing fails. Then the next run, without the fault, has to be whole. The program is
the one that ./exbr runs, if none is named. It runs on Linux, with Python 3.9 or later. What needs root, or what
this system lacks, is skipped with the reason. `--table` prints the results as a table. The last line counts; the status is 0 where none
is wrong, 1 where one is, and 2 for words that are not as above.
"""
import argparse
import os
import shutil
import sys
import tempfile
import time

sys.dont_write_bytecode = True
sys.path.insert(0, os.path.dirname(os.path.abspath(__file__)))
import faults_at_ends
import faults_of_calls
import faults_of_names
import faults_under_way
from folders import Input, Skipped, Wrong, frames, program_of
from runs import RUNS

FAULTS = [*faults_of_names.FAULTS, *faults_under_way.FAULTS, *faults_at_ends.FAULTS, *faults_of_calls.FAULTS]


class Place:
    """The program, the inputs of which a fault takes one, and a folder of its own for each."""

    def __init__(self, program, room):
        self.room, self.folder = room, os.path.join(room, "it")
        # A copy that any user may run.
        self.program = os.path.join(room, "exbr")
        shutil.copy(program, self.program)
        os.chmod(self.program, 0o755)
        os.chmod(room, 0o755)
        self.inputs = {name: Input(files, words) for name, words, files in RUNS}
        text = "bridge.ports = 3\n[captures]\nb1 = 'a.pcap'\n"
        self.inputs["middling"] = Input({"t.toml": text.encode(), "a.pcap": frames(400, 1000)}, ["run", "t.toml"])
        self.inputs["longest"] = Input({"t.toml": text.encode(), "a.pcap": frames(1_000_000)}, ["run", "t.toml"])
        self.inputs["long"] = Input({"t.toml": text.encode(), "a.pcap": frames(200_000)}, ["run", "t.toml"])
        apart = "bridge = {ports = 3, out = 'made/out-'}\n[captures]\nb1 = 'a.pcap'\n"
        self.inputs["apart"] = Input({"t.toml": apart.encode(), "a.pcap": frames(200_000), "made/keep": b""}, ["run", "t.toml"])

    def clear(self):
        shutil.rmtree(self.folder, ignore_errors=True)
        os.mkdir(self.folder)
        os.chmod(self.folder, 0o777)

    def input(self, name):
        """An input, of which it is known what comes of it, in a folder that is empty again."""
        it = self.inputs[name]
        if it.whole is None:
            it.learn(self.program, self.folder)
        self.clear()
        return it


def chosen_by(word):
    """The faults whose name has this word."""
    return [it for it in FAULTS if word in it.name]


def tried(place, fault):
    """What a fault answered and left, or what is wrong."""
    try:
        return True, fault.run(place)
    except Skipped as why:
        return None, str(why)
    except Wrong as why:
        return False, str(why)


def show(name, fine, told, as_table):
    word = {True: "as it must be", False: "WRONG", None: "skipped"}[fine]
    print(f"| {name} | {told if fine else f'{word}: {told}'} |" if as_table else f"{word}: {name}: {told}", flush=True)


def main():
    words = argparse.ArgumentParser(description=__doc__, formatter_class=argparse.RawDescriptionHelpFormatter)
    words.add_argument("--program", metavar="FILE", help="the program to try")
    words.add_argument("--only", default="", metavar="WORD", help="the faults whose name has this word")
    words.add_argument("--room", metavar="FOLDER", help="where the runs have their folders, as /dev/shm, which is faster than a disk")
    words.add_argument("--list", action="store_true", help="print the faults' names")
    words.add_argument("--table", action="store_true", help="print the results as a table")
    words = words.parse_args()
    if words.room and not os.path.isdir(words.room):
        print(f"faults.py: there is no folder {words.room}", file=sys.stderr)
        return 2
    chosen = chosen_by(words.only)
    if not chosen:
        print(f"faults.py: no fault has {words.only!r} in its name; --list prints the names", file=sys.stderr)
        return 2
    if words.list:
        print("\n".join(it.name for it in chosen))
        return 0
    program, counts, begun = program_of(words.program), {True: 0, False: 0, None: 0}, time.monotonic()
    if words.table:
        print("| Fault | What the run answered and left |\n|---|---|")
    with tempfile.TemporaryDirectory(prefix="exbr-faults-", dir=words.room) as room:
        place = Place(program, room)
        for fault in chosen:
            fine, told = tried(place, fault)
            counts[fine] += 1
            show(fault.name, fine, told, words.table)
    print(f"\n{counts[True]} faults as they must be, {counts[False]} wrong, {counts[None]} skipped, {time.monotonic() - begun:.0f} s")
    return 1 if counts[False] else 0


if __name__ == "__main__":
    sys.exit(main())
