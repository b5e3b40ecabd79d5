#!/usr/bin/env python3
"""A row of extenders of 48 ports with many VLANs and commands, and what both tools take for it.

    tools/desk/tests/large_row.py [--extenders 64] [--vlans 1000] [--commands 100] [--keep FILE] [--program EXBR]

Of each extender ports 1 to 32 are access ports of half of its VLANs, 33 to 44 trunks of all of its VLANs, the others are spare; three
extenders hang below others; uplinks are tagged in all VLANs. Commands move access ports, isolate them and take them down. Times are those
of the processor, the program's among them, and by the clock.
"""
from __future__ import annotations

import argparse
import os
import random
import resource
import subprocess
import sys
import tempfile
import time

sys.dont_write_bytecode = True
sys.path.insert(0, os.path.dirname(os.path.abspath(__file__)))
import desk_help

FIRST = 100


def listed(words: list[str]) -> str:
    return "[" + ", ".join(f'"{word}"' for word in words) + "]"


class Row:
    """The row as it is set up."""

    def __init__(self, extenders: int, vlans: int):
        below = {extenders - 2: "x1.47", extenders - 1: "x1.48", extenders: "x2.48"} if extenders > 8 else {}
        self.on = {number: below.get(number) or f"b{number}" for number in range(1, extenders + 1)}
        used = set(self.on.values())
        self.uplinks = [f"b{port}" for port in range(1, 65) if f"b{port}" not in used][:4]
        self.vids = list(range(FIRST, FIRST + vlans))
        self.access: dict[str, int] = {}
        self.trunks: dict[str, list[int]] = {}
        each = vlans // extenders
        for number in self.on:
            own = self.vids[each * (number - 1):each * number]
            for port in range(1, 45):
                name = f"x{number}.{port}"
                if name not in used and port <= 32:
                    self.access[name] = own[(port - 1) % max(1, each // 2)]
                elif name not in used:
                    self.trunks[name] = own

    def text(self) -> str:
        lines = ["[bridge]", "ports = 64"]
        for number, on in self.on.items():
            lines += ["[[extender]]", f"number = {number}", f'on = "{on}"', "ports = 48"]
        rules = [(name, 'accept = "tagged"\nfilter = true') for name in self.uplinks]
        rules += [(name, f'pvid = {vid}\naccept = "untagged"') for name, vid in self.access.items()]
        rules += [(name, f"pvid = {vids[0]}\nfilter = true") for name, vids in self.trunks.items()]
        lines += [f'[[port]]\nname = "{name}"\n{rest}' for name, rest in rules]
        return "\n".join(lines + list(self._vlans())) + "\n"

    def _vlans(self):
        tagged, untagged = {vid: list(self.uplinks) for vid in self.vids}, {vid: [] for vid in self.vids}
        for name, vid in self.access.items():
            untagged[vid].append(name)
        for name, vids in self.trunks.items():
            untagged[vids[0]].append(name)
            for vid in vids[1:]:
                tagged[vid].append(name)
        return (f"[[vlan]]\nvid = {vid}\ntagged = {listed(tagged[vid])}\nuntagged = {listed(untagged[vid])}" for vid in self.vids)


def commands(row: Row, count: int) -> str:
    """Access ports that move to another VLAN, are isolated, or go down."""
    chance, told, at = random.Random(7), [], 300
    access = dict(row.access)
    while len(told) < count:
        at += 5
        port, vid = chance.choice(list(access)), chance.choice(row.vids)
        draw = chance.random()
        if draw < 0.6 and len(told) + 3 <= count:
            told += [f'at = {at}\nop = "unmember"\nvid = {access[port]}\nport = "{port}"', f'at = {at}\nop = "member"\nvid = {vid}\nport = "{port}"\nkind = "untagged"',
                     f'at = {at}\nop = "pvid"\nvid = {vid}\nport = "{port}"']
            access[port] = vid
        elif draw < 0.8:
            told.append(f'at = {at}\nop = "isolate"\nport = "{port}"\nisolated = true')
        else:
            told.append(f'at = {at}\nop = "down"\nport = "{port}"')
    return "".join(f"[[command]]\n{it}\n" for it in told)


def measured(words: list[str]) -> str:
    """What a tool takes, with all that it runs."""
    before, begun = resource.getrusage(resource.RUSAGE_CHILDREN), time.monotonic()
    done = subprocess.run(words, stdout=subprocess.PIPE, stderr=subprocess.STDOUT, text=True, check=False)
    after = resource.getrusage(resource.RUSAGE_CHILDREN)
    seconds = after.ru_utime + after.ru_stime - before.ru_utime - before.ru_stime
    return (f"{os.path.basename(words[0])} {' '.join(words[2:-2])}: status {done.returncode}, {seconds:.1f} s of a processor, {time.monotonic() - begun:.1f} s by the clock, "
            f"{after.ru_maxrss // 1024} MB at the most so far\n  {(done.stdout.splitlines() or [''])[0][:300]}\n  {(done.stdout.splitlines() or [''])[-1][:300]}")


def main() -> None:
    parser = argparse.ArgumentParser(description=__doc__, formatter_class=argparse.RawDescriptionHelpFormatter)
    for name, count in (("extenders", 64), ("vlans", 1000), ("commands", 100)):
        parser.add_argument(f"--{name}", type=int, default=count)
    parser.add_argument("--keep", metavar="FILE")
    parser.add_argument("--program", default=desk_help.program())
    asked = parser.parse_args()
    row = Row(asked.extenders, asked.vlans)
    with tempfile.TemporaryDirectory() as folder:
        path = asked.keep or os.path.join(folder, "topology.toml")
        with open(path, "w", encoding="utf-8") as out:
            out.write(row.text() + commands(row, asked.commands))
        print(f"{os.path.getsize(path):,} bytes of topology", flush=True)
        for words in (["exbr-preflight"], ["exbr-reach", "--brief"], ["exbr-reach", "--brief", "--leaks"], ["exbr-reach", "--brief", "--fail", "each-extender", "--jobs", "1"]):
            print(measured([os.path.join(desk_help.TOOLS, words[0]), path, *words[1:], "--program", asked.program]), flush=True)


if __name__ == "__main__":
    main()
