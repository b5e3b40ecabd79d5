#!/usr/bin/env python3
"""Has the program play four whole runs again and again, and refuses it memory: each time it asks, that time alone, and then that
time and all later ones. Each run has to end with status 1, or with 0 where it could do without; to print the line of its status,
or a front of it; and to leave each of its output files absent, as it was, or a front of what it holds where nothing is refused.

    tools/hostile/refused_memory.py [--program FILE] [RUN ..]

The program is the one that ./exbr runs, if none is named, and the runs are bare, tree, lossy and net. It needs gcc or clang and the
GNU C library. In the second series the output files are there before each run, with other texts.
"""
import argparse
import os
import shutil
import subprocess
import sys
import tempfile
import time

from folders import program_of
from runs import RUNS

HERE = os.path.dirname(os.path.abspath(__file__))
NO_MEMORY = b"exbr: out of memory\n"
BEFORE = b"This was here before, and is longer than most of what is written in its place.\n"


def built(folder):
    """The library that refuses memory."""
    library = os.path.join(folder, "refuse.so")
    compiler = shutil.which("gcc") or "clang"
    subprocess.run([compiler, "-O2", "-shared", "-fPIC", "-o", library, os.path.join(HERE, "refuse.c")], check=True)
    return library


def put(folder, files):
    for name, data in files.items():
        with open(os.path.join(folder, name), "wb") as out:
            out.write(data)


def held(folder):
    """The files of a folder."""
    files = {}
    for name in os.listdir(folder):
        with open(os.path.join(folder, name), "rb") as file:
            files[name] = file.read()
    return files


class Run:
    """A run in a folder of its own, with what it prints and writes where nothing is refused."""

    def __init__(self, program, library, folder, words, files):
        self.program, self.words = program, words
        self.folder, self.count = os.path.join(folder, "run"), os.path.join(folder, "count")
        self.environment = {"LD_PRELOAD": library, "REFUSE_COUNT": self.count}
        self.given = files
        self.whole = {}
        status, self.summary, files = self.play(0, False, {})
        if status != 0:
            sys.exit(f"status {status} where nothing is refused")
        self.whole = {name: data for name, data in files.items() if name not in self.given}
        with open(self.count, encoding="utf-8") as file:
            self.asks = int(file.read())

    def play(self, at, rest, before):
        """Status, print and files of the run where memory is refused at that number, or from it on."""
        shutil.rmtree(self.folder, ignore_errors=True)
        os.mkdir(self.folder)
        put(self.folder, {**self.given, **before})
        environment = {**self.environment, "REFUSE_AT": str(at), **({"REFUSE_REST": "1"} if rest else {})}
        ended = subprocess.run([self.program, *self.words], cwd=self.folder, env=environment, capture_output=True, timeout=60)
        if ended.stderr:
            sys.exit(f"at {at}: on standard error {ended.stderr}")
        return ended.returncode, ended.stdout, held(self.folder)

    def fault(self, at, rest, before):
        """The status where memory is refused there, and what is wrong with the answer, if anything is."""
        status, printed, files = self.play(at, rest, before)
        whole = self.summary if status == 0 else NO_MEMORY
        if status not in (0, 1) or not whole.startswith(printed) or (status == 0 and printed != whole):
            return status, f"status {status} prints {printed}"
        for name, data in self.given.items():
            if files.pop(name, None) != data:
                return status, f"{name} has changed"
        for name, text in self.whole.items():
            data = files.pop(name, None)
            is_front = data == before.get(name) or (data is not None and text.startswith(data))
            if not is_front or (status == 0 and data != text):
                return status, f"{name} holds {data}"
        return status, f"there are {sorted(files)}" if files else None

    def series(self, rest):
        """Refuses each number in turn. How many runs ended with each status."""
        before = {name: BEFORE for name in self.whole} if rest else {}
        statuses = {0: 0, 1: 0}
        for at in range(1, self.asks + 1):
            status, fault = self.fault(at, rest, before)
            if fault:
                sys.exit(f"at {at}{' and later' if rest else ''}: {fault}")
            statuses[status] += 1
        return statuses


def main():
    parser = argparse.ArgumentParser(description=__doc__, formatter_class=argparse.RawDescriptionHelpFormatter)
    parser.add_argument("--program", metavar="FILE")
    parser.add_argument("runs", metavar="RUN", nargs="*", help="all of them, if none is named")
    asked = parser.parse_args()
    known = [name for name, _its, _files in RUNS]
    for name in asked.runs:
        if name not in known:
            parser.error(f"{name} is no run: there are {', '.join(known)}")
    program = program_of(asked.program)
    with tempfile.TemporaryDirectory() as folder:
        library = built(folder)
        for name, its, files in RUNS:
            if asked.runs and name not in asked.runs:
                continue
            run = Run(program, library, folder, its, files)
            for rest in (False, True):
                start = time.monotonic()
                statuses = run.series(rest)
                which = "each and all later" if rest else "each alone"
                seconds = time.monotonic() - start
                print(f"{name}: asks {run.asks}, refused {which}: status 1 {statuses[1]}, status 0 {statuses[0]}, {seconds:.0f} s", flush=True)


if __name__ == "__main__":
    main()
