#!/usr/bin/env python3
"""Plays nets drawn from numbers, and holds the program to the second player (crates/exb_cases/nets.py), byte for byte: the captures of each
port, the journals, the counters and the summary.

    tools/hostile/random_nets.py [--program FILE] [--nets N] [--faults N] [--seed N] [--jobs N] [--room FOLDER] [--keep FOLDER] [--quiet]
    tools/hostile/random_nets.py --players [--nets N] [--seed N] [--jobs N]

A net has 1 to 16 bridges with trees of their own, wires between ports of bridges and of extenders, commands, ageing times, frames of both
formats of captures, and fates. Beside each net --faults nets are made of it in which one or two things are another, be it of its file, of a
topology or of a capture: then the status and the line have to be those of the second reader (crates/exb_cases/net_faults.py), and no file may be made
or changed; or, where that finds no fault, the files and the line those of the second player. --keep has the files of each difference.

--players asks no program: it plays each net by the second player once more with one thing wrong in it, and says in how many nets each
of these wrong players is seen.

The last line is `nets: N nets of B bridges, F frames across wires, M with a fault, 0 differences`; the status is 0 where there is none, 1 where
there is one, and 2 for words that are not as above. Python 3.11 or later.
"""
import argparse
import collections
import multiprocessing
import os
import random
import shutil
import subprocess
import sys
import tempfile
import time

sys.dont_write_bytecode = True
HERE = os.path.dirname(os.path.abspath(__file__))
sys.path[:0] = [HERE, os.path.join(os.path.dirname(os.path.dirname(HERE)), "crates", "exb_cases")]
import net_faults
import nets
from changes import number
from folders import SECONDS, held, program_of, read, write
from net_changes import changed, flaws_of

FILE = "net.toml"


class Played:
    """What the second player makes of a net: its files, its line, and how many frames crossed wires."""

    def __init__(self, text, files):
        net, self.files, self.line = nets.played(text, files)
        self.bridges, self.crossed = len(net.bridges), sum(map(len, net.crossed.values()))


class Worker:
    """What each process plays."""

    program = room = keep = None
    faults = seed = 0

    @staticmethod
    def begin(program, room, keep, faults, seed):
        Worker.program, Worker.room, Worker.keep, Worker.faults, Worker.seed = program, room, keep, faults, seed

    @staticmethod
    def differs(files, words, status, line, outputs):
        """What the program does otherwise, or None."""
        with tempfile.TemporaryDirectory(prefix="net-", dir=Worker.room) as folder:
            for name, data in files.items():
                write(os.path.join(folder, name), data)
            try:
                ran = subprocess.run([Worker.program, "net", FILE, *words], cwd=folder, stdin=subprocess.DEVNULL, capture_output=True, timeout=SECONDS)
            except subprocess.TimeoutExpired:
                return f"it had not ended after {SECONDS} seconds"
            said, there = ran.stdout.decode(errors="replace"), held(folder)
        if (ran.returncode, said) != (status, f"{line}\n") or ran.stderr:
            return f"status {ran.returncode}, {said!r} {ran.stderr[:200]!r}, where {status} and {line!r} are wanted"
        wanted = files | outputs
        other = [name for name in sorted(wanted.keys() | there.keys()) if wanted.get(name) != there.get(name)]
        return f"{', '.join(other[:5])}: not as wanted" if other else None

    @staticmethod
    def judged(name, files, words=("--counters",)):
        """A net of whatever kind: whether it is played, its frames, and what is different."""
        fault = net_faults.fault_of(FILE, files, flaws_of(files))
        played = None if fault else Played(files[FILE].decode(), files)
        status, line = fault or (0, played.line)
        outputs = {} if fault else {it: data for it, data in played.files.items() if words or not it.endswith("counters.txt")}
        found = Worker.differs(files, words, status, line, outputs)
        if found and Worker.keep:
            for it, data in {**files, **{f"wanted/{it}": data for it, data in outputs.items()}}.items():
                write(os.path.join(Worker.keep, name, it), data)
        return line if fault else None, played, found and f"{name}: {found}"

    @staticmethod
    def one(at):
        """A net of that number, and those that are made of it: bridges, frames that crossed, faults by their lines, and differences."""
        text, files = nets.drawn(at)
        files = files | {FILE: text.encode()}
        _, played, wrong = Worker.judged(f"net-{at}", files, ("--counters",) if at % 4 else ())
        crossed, lines, differences = played.crossed, collections.Counter(), [wrong] if wrong else []
        chance = random.Random(f"{Worker.seed} {at}")
        for which in range(Worker.faults):
            line, other, wrong = Worker.judged(f"net-{at}-{which}", changed(files, chance))
            lines["none" if line is None else kind_of(line)] += 1
            crossed += other.crossed if other else 0
            differences += [wrong] if wrong else []
        return played.bridges, crossed, lines, differences


def kind_of(line):
    """A fault's line without numbers and names."""
    words = line.removeprefix("exbr: ").split()
    if words[0] == "missing":
        return "missing"
    if words[0] in ("capture", "topology"):
        return f"{words[0]}: {words[2]}"
    key = words[-1].split("[")[0] + "[]." + words[-1].split(".")[-1] if "[" in words[-1] else words[-1]
    return f"{words[1]} at {key}" if "at" in words else words[1]


# ---- wrong players


def seen(at):
    """The names of the wrong players that do something else of a net."""
    from net_players import PLAYERS

    text, files = nets.drawn(at)
    right = nets.played(text, files)[1:]
    found = []
    for name, player in PLAYERS.items():
        try:
            if nets.played(text, files, player)[1:] != right:
                found.append(name)
        except Exception as fault:
            found.append(name)
            print(f"net {at}: {name}: {type(fault).__name__} {fault}", file=sys.stderr)
    return found


def players(words):
    from net_players import PLAYERS, UNSEEN

    counts = collections.Counter()
    with multiprocessing.get_context("fork").Pool(words.jobs) as pool:
        for found in pool.imap_unordered(seen, range(words.seed, words.seed + words.nets)):
            counts.update(found)
    for name in PLAYERS:
        print(f"{name}: seen in {counts[name]} of {words.nets} nets")
    wrong = [name for name in PLAYERS if (counts[name] == 0) != (name in UNSEEN)]
    print(f"players: {len(PLAYERS)} wrong ones, {sum(1 for it in PLAYERS if counts[it])} seen, {len(UNSEEN)} that no file can show, {len(wrong)} otherwise")
    return 1 if wrong else 0


# ---- the sweep


def parsed():
    form = argparse.ArgumentParser(description=__doc__, formatter_class=argparse.RawDescriptionHelpFormatter)
    form.add_argument("--program", metavar="FILE", help="the program to try")
    form.add_argument("--nets", type=number(1), default=300, metavar="N", help="how many nets are drawn (300)")
    form.add_argument("--faults", type=number(0), default=10, metavar="N", help="how many are made of each with something else in it (10)")
    form.add_argument("--seed", type=number(0), default=0, metavar="N", help="the number of the first net, and what is changed (0)")
    form.add_argument("--jobs", type=number(1), default=len(os.sched_getaffinity(0)), metavar="N", help="how many at a time")
    form.add_argument("--room", metavar="FOLDER", help="where the runs have their folders, as /dev/shm, which is faster than a disk")
    form.add_argument("--keep", metavar="FOLDER", help="where the files of each difference are put")
    form.add_argument("--players", action="store_true", help="no program: in how many nets each wrong player is seen")
    form.add_argument("--quiet", action="store_true", help="no progress and no table")
    words = form.parse_args()
    if words.room and not os.path.isdir(words.room):
        form.error(f"there is no folder {words.room}")
    return words


def swept(words, program, room):
    """Plays them all: bridges, frames across wires, faults by their kinds, and how many differences."""
    bridges = crossed = wrong = done = 0
    lines, begun = collections.Counter(), time.monotonic()
    said = begun
    with multiprocessing.get_context("fork").Pool(words.jobs, Worker.begin, (program, room, words.keep, words.faults, words.seed)) as pool:
        for its, frames, faults, differences in pool.imap_unordered(Worker.one, range(words.seed, words.seed + words.nets)):
            bridges, crossed, wrong, done = bridges + its, crossed + frames, wrong + len(differences), done + 1
            lines.update(faults)
            for it in differences:
                print(f"DIFFERS: {it}", flush=True)
            if not words.quiet and time.monotonic() - said > 15:
                said = time.monotonic()
                print(f"{said - begun:.0f} s: {done} of {words.nets} nets, {wrong} differences", flush=True)
    return bridges, crossed, lines, wrong


def main():
    words = parsed()
    if words.players:
        return players(words)
    program = program_of(words.program)
    room = tempfile.mkdtemp(prefix="exbr-nets-", dir=words.room)
    try:
        bridges, crossed, lines, wrong = swept(words, program, room)
    finally:
        shutil.rmtree(room, ignore_errors=True)
    faults = lines.total() - lines["none"]
    if not words.quiet:
        for line, count in sorted(lines.items(), key=lambda it: (-it[1], it[0])):
            print(f"    {line}: {count}")
    print(f"nets: {words.nets + lines['none']} nets of {bridges} bridges, {crossed:,} frames across wires, {faults} with a fault, {wrong} differences")
    return 1 if wrong else 0


if __name__ == "__main__":
    sys.exit(main())
