#!/usr/bin/env python3
"""Intents at random, each written as NX-OS, as Junos, as the answers of a Linux bridge and as a plan, with a change in each.

    tools/desk/tests/random_intents.py [COUNT] [--from N] [--program EXBR]

exbr-import reads all four. The topologies have to mean the same before the change and after it, by the rules (`ends.differences`) and, where
there is a program, by what leaves each port when it plays them with probes. The change of each has to lead to its later configuration, which
exbr-import looks at itself, and no command may be refused.
"""
from __future__ import annotations

import argparse
import os
import random
import shutil
import sys
import tempfile
import time

sys.dont_write_bytecode = True
HERE = os.path.dirname(os.path.abspath(__file__))
sys.path[:0] = [os.path.join(HERE, ".."), HERE]
import ground
import intents
from exbr_desk import names, plain, play, progress, topology
from exbr_import import ends

SPELLINGS = ("nxos", "junos", "linux", "plan")


class Made:
    """A topology that was made of a spelling, with the port of each key."""

    def __init__(self, path: str, called: names.Names, keys: dict[str, intents.Key]):
        self.given = topology.read(path)
        self.ports = {plain.number_of(place): keys[it.interface] for place, it in called.ports.items() if it.interface in keys}
        self.ports |= {plain.number_of(place): key for place, key in keys.items() if plain.is_port(place)} if not self.ports else {}

    def at_start(self) -> topology.Topology:
        """The topology without the commands of the change."""
        tables = {key: it for key, it in self.given.tables.items() if key != "command"}
        first = [it for it in self.given.tables.get("command", []) if it["at"] == 0]
        return topology.of_text(play.written(tables | ({"command": first} if first else {})))


def made(folder: str, spelling: str, words: list[str], intent: intents.Intent, exbr: str | None) -> tuple[Made | None, str]:
    """What comes of one spelling, or what is wrong."""
    out = os.path.join(folder, f"{spelling}-out")
    os.makedirs(out)
    done = ground.tool("exbr-import", *words, "--at", "60", "-o", os.path.join(out, "topology.toml"), *(["--program", exbr] if exbr else ["--no-play"]))
    if done.returncode:
        return None, f"{spelling}: status {done.returncode}: {done.stderr.strip()[-400:]}"
    return Made(os.path.join(out, "topology.toml"), names.of(out), intents.called(spelling, intent)), ""


def trial(folder: str, number: int, exbr: str | None) -> str:
    """What is wrong with one intent, or nothing."""
    draw = random.Random(number)
    before = intents.drawn(draw)
    after = intents.changed(draw, before)
    words = intents.write(folder, draw, before, after)
    found = {}
    for spelling in SPELLINGS:
        found[spelling], fault = made(folder, spelling, words[spelling], before, exbr)
        if fault:
            return fault
        if set(found[spelling].ports.values()) != set(before.keys):
            return f"{spelling}: its ports are {sorted(found[spelling].ports.values())}, and not {before.keys}"
    return differ(found) or (differ_played(folder, found, exbr) if exbr else "")


def differ(found: dict[str, Made]) -> str:
    """Where the rules of two spellings differ, before the change or after it."""
    first = found["nxos"]
    for spelling in SPELLINGS[1:]:
        other = found[spelling]
        for when, mine, its in (("before", first.at_start(), other.at_start()), ("after", first.given, other.given)):
            told = ends.differences(mine, its, {port: str(key) for port, key in first.ports.items()}, {port: str(key) for port, key in other.ports.items()})
            if told:
                return f"{when}: nxos and {spelling}: {told[0]}"
    return ""


def differ_played(folder: str, found: dict[str, Made], exbr: str) -> str:
    """Where what leaves differs when the program plays the spellings with the same probes."""
    frames = ends.probes([found["nxos"].given, found["nxos"].at_start()])
    by_key = {found["nxos"].ports[port]: records for port, records in frames.items() if port in found["nxos"].ports}
    outs = {}
    for spelling, it in found.items():
        os.makedirs(os.path.join(folder, "played", spelling))
        port_of = {key: port for port, key in it.ports.items()}
        mine = {port_of[key]: records for key, records in by_key.items()}
        for port, records in mine.items():
            with open(os.path.join(folder, "played", spelling, f"p-{plain.name_of(port)}.pcap"), "wb") as file:
                file.write(plain.capture_of(records))
        left = ends.run(it.given, os.path.join(folder, "played", spelling, "run"), mine, exbr)
        outs[spelling] = {key: left[plain.name_of(port)] for key, port in port_of.items()}
    wrong = [(spelling, key) for spelling in SPELLINGS[1:] for key in outs["nxos"] if outs["nxos"][key] != outs[spelling][key]]
    return f"nxos and {wrong[0][0]}: what leaves port {wrong[0][1]} differs" if wrong else ""


def main() -> int:
    form = argparse.ArgumentParser(description=__doc__, formatter_class=argparse.RawDescriptionHelpFormatter)
    form.add_argument("count", nargs="?", type=int, default=200)
    form.add_argument("--from", dest="first", type=int, default=1)
    form.add_argument("--program", metavar="EXBR")
    asked = form.parse_args()
    exbr = play.program(asked.program)
    line, begun, wrong = progress.Progress("intents", asked.count), time.monotonic(), 0
    for number in range(asked.first, asked.first + asked.count):
        folder = tempfile.mkdtemp(prefix="exbr-intent-", dir=ends.MEMORY if os.access(ends.MEMORY, os.W_OK) else None)
        try:
            fault = trial(folder, number, exbr)
        finally:
            shutil.rmtree(folder, True)
        wrong += bool(fault)
        if fault:
            print(f"{number}: {fault}")
        line.at(number - asked.first)
    line.end()
    print(f"{asked.count} intents in four spellings, {wrong} of them wrong, in {time.monotonic() - begun:.0f} s")
    return 1 if wrong else 0


if __name__ == "__main__":
    sys.exit(main())
