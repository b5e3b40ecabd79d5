#!/usr/bin/env python3
"""Runs at random: any tree, any rules, twenty commands, frames at eight ports, and a third of them with a seed.

    tools/desk/tests/random_runs.py [COUNT] [--from N] [--program EXBR] [--no-faults]

Of each run the second reading has to agree with the files, trace among them; of each fault that is planted into its files it has to
name the file. The inputs are those of the cases' generator (crates/exb_cases/generated.py). The files are written by the program
(--program, or EXBR_PROGRAM), or, where there is none, by the tree over links in Python (crates/exb_cases/world).
"""
from __future__ import annotations

import argparse
import os
import random
import shutil
import subprocess
import sys
import tempfile
import time
from collections import Counter

sys.dont_write_bytecode = True
HERE = os.path.dirname(os.path.abspath(__file__))
CASES = os.path.join(HERE, "..", "..", "..", "crates", "exb_cases")
sys.path[:0] = [os.path.join(HERE, ".."), HERE, CASES]
import generated
from exbr_desk import choose, runs, why
from planted import PLANTED
from world.schedule import run as run_world


class Given:
    """What the generator of the cases gives: a topology and captures, by `plays` as the cases have it."""

    def plays(self, name, topology, captures, options="", seed=None):
        self.topology, self.captures, self.seed = topology.replace("FOLDER/", ""), captures, seed


def given_of(number: int) -> Given:
    """The input of a number: the trees grow and shrink with it, and each third run has a seed."""
    given = Given()
    count = (1, 2, 3, 4, 5, 6, 8, 12)[number % 8]
    groups = (3, 6, 10, 20, 60, 12288)[number // 8 % 6]
    generated.at_random(given, number, count, groups, order=number if number % 3 == 0 else None)
    return given


def write_run(given: Given, folder: str, program: str | None) -> runs.Run:
    """Writes the input and has it run, with its trace."""
    files = {"topology.toml": given.topology.encode(), **given.captures}
    if program is None:
        written, _, _ = run_world(given.topology, given.captures, given.seed)
        files |= written
    for name, data in files.items():
        with open(os.path.join(folder, name), "wb") as out:
            out.write(data)
    if program is not None:
        words = [program, "run", "topology.toml", "--trace"] + ([f"--seed={given.seed}"] if given.seed is not None else [])
        subprocess.run(words, cwd=folder, check=True, stdout=subprocess.DEVNULL)
    return runs.whole(folder)


def looked_at(run: runs.Run) -> why.Why:
    """The way of each frame of a run."""
    found = why.Why(run, choose.Choice(words={}), 1 << 30)
    found.go(quiet=True)
    why.in_words(found)
    return found


def named_by(found: why.Why) -> set[str]:
    """The files that are named as not agreeing."""
    texts = found.elsewhere + [text for it in found.answers for text in it.faults]
    return {text.split(": ")[0] for text in texts}


def plant(folder: str, what: str, chance: random.Random) -> tuple[str | None, set[str]]:
    """The file into which a fault was put, in a copy of a run, and the files that are named."""
    with tempfile.TemporaryDirectory() as other:
        # The trace has each frame once more, and would find the fault by itself.
        shutil.copytree(folder, other, dirs_exist_ok=True, ignore=shutil.ignore_patterns("out-trace.txt"))
        path = PLANTED[what](runs.whole(other), chance)
        if path is None:
            return None, set()
        return os.path.basename(path), {os.path.basename(it) for it in named_by(looked_at(runs.whole(other)))}


def one(number: int, program: str | None, faults: bool, told: Counter) -> None:
    """A run by its number, and the faults that are planted into it."""
    with tempfile.TemporaryDirectory() as folder:
        run = write_run(given_of(number), folder, program)
        found = looked_at(run)
        if not found.agrees:
            sys.exit(f"run {number} doesn't agree: {(found.elsewhere + [it.faults for it in found.answers])[:3]}")
        told["runs"] += 1
        told["frames"] += found.count
        told["copies that left"] += found.left
        for what in PLANTED if faults else ():
            path, named = plant(folder, what, random.Random(f"{number} {what}"))
            if path is None:
                continue
            if path not in named:
                sys.exit(f"run {number}: {what} in {path}, and named are {named or 'none'}")
            told[f"{what}: found"] += 1
            told[f"{what}: no other file is named"] += named == {path}


def main() -> None:
    parser = argparse.ArgumentParser(description=__doc__, formatter_class=argparse.RawDescriptionHelpFormatter)
    parser.add_argument("count", nargs="?", type=int, default=2000)
    parser.add_argument("--from", dest="first", type=int, default=1)
    parser.add_argument("--program", default=os.environ.get("EXBR_PROGRAM"))
    parser.add_argument("--no-faults", action="store_true")
    asked = parser.parse_args()
    told, begun = Counter(), time.monotonic()
    for number in range(asked.first, asked.first + asked.count):
        one(number, asked.program, not asked.no_faults, told)
        if number % 100 == 0:
            print(f"{number} after {time.monotonic() - begun:.0f} s", file=sys.stderr, flush=True)
    for what, count in told.items():
        print(f"{what}: {count:,}")


if __name__ == "__main__":
    main()
