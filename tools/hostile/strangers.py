#!/usr/bin/env python3
"""Folders as a stranger would send them: links at the outputs' names, and a process that puts them there while a run is under way.

    tools/hostile/strangers.py [--program FILE] [--tries N] [--room FOLDER]

races against runs with hundreds of outputs: a second process waits for an output to be there, and puts a link to another file in its
place at once. That file, and the capture, have to be as they were after each of N tries (100 if left out). `swap.c` plays the same between
any two calls of the system, without a race. test_strangers.py makes both, with fewer tries.
"""
import argparse
import os
import struct
import subprocess
import sys
import tempfile
import time

sys.dont_write_bytecode = True
HERE = os.path.dirname(os.path.abspath(__file__))
sys.path.insert(0, HERE)
from folders import BEFORE, end, program_of, read, start, write
from runs import BROADCAST, FIRST, PLAIN, capture

VICTIM = b"# The operator's own file, which no run is to touch.\n"
# Once the output is there: keeps it open, so that its number isn't given anew, and puts a link in its place.
RACER = """
import os, sys, time
name, target, until = sys.argv[1], sys.argv[2], time.monotonic() + 30
print("ready", flush=True)
while not os.path.lexists(name):
    if time.monotonic() > until:
        sys.exit(3)
held = os.open(name, os.O_RDONLY)
os.symlink(target, ".link")
os.rename(".link", name)
sys.stdin.read()
"""


def topology(folder, ports=2, extenders=0, of=16, more=""):
    """A bridge whose first port has a capture of broadcasts, and extenders from its last port down."""
    text = f"[bridge]\nports = {ports}\n{more}[captures]\nb1 = 'in.pcap'\n"
    text += "".join(f"[[extender]]\nnumber = {it}\non = 'b{ports + 1 - it}'\nports = {of}\n" for it in range(1, extenders + 1))
    write(os.path.join(folder, "t.toml"), text.encode())


def put(folder, frames=3, **shape):
    """A folder with a topology and a capture, beside a folder with a file of the operator."""
    topology(folder, **shape)
    write(os.path.join(folder, "in.pcap"), capture(*[(100 + at, BROADCAST + FIRST + PLAIN + struct.pack(">I", at)) for at in range(frames)]))
    write(os.path.join(folder, "../home/own"), VICTIM)


def race(program, room, target, output="out-b20.pcap"):
    """Whether the racer was there in time. What its target held before has to be there afterwards."""
    folder = tempfile.mkdtemp(prefix="case-", dir=room)
    put(folder, frames=2000, ports=64, extenders=16)
    path = os.path.join(folder, target)
    before = read(path)
    racer = subprocess.Popen([sys.executable, "-c", RACER, output, target], cwd=folder, stdin=subprocess.PIPE, stdout=subprocess.PIPE)
    try:
        racer.stdout.readline()
        ran = end(start(program, folder, ["run", "t.toml"]))
    finally:
        racer.communicate()
    if read(path) != before:
        raise AssertionError(f"{target} has changed: status {ran.status}, {ran.printed!r}")
    if ran.status not in (0, 6, 7, 10):
        raise AssertionError(f"status {ran.status}, {ran.printed!r} {ran.said!r}")
    return os.path.islink(os.path.join(folder, output)), ran.status


def main():
    words = argparse.ArgumentParser(description=__doc__, formatter_class=argparse.RawDescriptionHelpFormatter)
    words.add_argument("--program", metavar="FILE", help="the program to try")
    words.add_argument("--tries", type=int, default=100, metavar="N", help="how often to race; 100 if left out")
    words.add_argument("--room", metavar="FOLDER", help="where the runs have their folders, as /dev/shm")
    words = words.parse_args()
    program, won, statuses, begun = program_of(words.program), 0, {}, time.monotonic()
    for at in range(words.tries):
        with tempfile.TemporaryDirectory(prefix="exbr-race-", dir=words.room) as room:
            try:
                in_time, status = race(program, room, ("../home/own", "in.pcap")[at % 2])
            except AssertionError as why:
                print(f"WRONG: try {at + 1}: {why}")
                return 1
        won += in_time
        statuses[status] = statuses.get(status, 0) + 1
    told = ", ".join(f"{count} with status {status}" for status, count in sorted(statuses.items()))
    print(f"{words.tries} races, {won} with the link in place before the run ended: {told}; no file of others was touched, {time.monotonic() - begun:.0f} s")
    return 0


if __name__ == "__main__":
    sys.exit(main())
