#!/usr/bin/env python3
"""Counts the instructions that a frame takes in exbr, and in a plain learning bridge in C (bench/flat.c) on the same captures.

    bench/instructions.py                  each case of the table
    bench/instructions.py --case one       the cases whose name has this word
    bench/instructions.py -- --counters    with further options of `exbr run`, as a column of its own
    bench/instructions.py --markdown       the table as a page has it

A count is the difference of two runs under callgrind, one with more frames than the other, divided by how many more: what opening,
reading the topology and ending take falls out. The same program on the same captures gives the same count whatever else the machine
does, where times are noise. The program is the one that ./exbr runs, or the one that is named by EXBR=FILE. It needs valgrind and
a C compiler, and works in a folder of its own under the system's folder for such, which it takes away at the end.
"""
import argparse
import concurrent.futures
import os
import re
import shutil
import subprocess
import sys
import tempfile
from dataclasses import dataclass
from typing import Callable

sys.dont_write_bytecode = True
sys.path.insert(0, os.path.dirname(os.path.abspath(__file__)))
import frames
from frames import Tree, beside, chain, flooded, learned, one_extender

FEW, MANY = 1_000, 6_000


@dataclass
class Case:
    """A tree, and frames at its first ports."""

    name: str
    tree: Tree
    made: Callable[[int], list]
    active: int = 0

    def ports(self):
        return self.active or len(self.tree.ports)


def to_one(ports, size=64):
    return lambda count: learned(count, ports, size, None, ports)


def to_all(ports, size=64):
    return lambda count: flooded(count, ports, size)


def besides(count):
    """A tree of which x1 alone has traffic, its ports first."""
    tree = beside(count)
    tree.ports.sort(key=lambda port: not port.startswith("x1."))
    return tree


def cases():
    extender = one_extender(48)
    return [
        Case("48 ports of the bridge, to one", Tree(48, []), to_one(48)),
        Case("one extender of 48 ports, to one", extender, to_one(48)),
        Case("chain of eight extenders, to one", chain(8), to_one(2)),
        Case("one extender of 48 ports, to all", extender, to_all(48)),
        Case("one extender, 1,500 bytes, to one", extender, to_one(48, 1_500)),
        Case("an extender of 2 ports, to one", besides(0), to_one(2), 2),
        Case("the same beside 63 extenders", besides(63), to_one(2), 2),
    ]


def instructions(words, folder):
    """How many instructions a command takes."""
    ran = subprocess.run(["valgrind", "--tool=callgrind", "--callgrind-out-file=/dev/null", *words], cwd=folder, capture_output=True, text=True, check=False)
    found = re.search(r"Collected : (\d+)", ran.stderr)
    if ran.returncode or not found:
        sys.exit(f"{words[0]} ended with {ran.returncode}: {ran.stdout.strip()} {ran.stderr.strip()[-200:]}")
    return int(found.group(1))


def captured(case, count, folder):
    """Writes the topology and the captures of a case, of so many frames, into a new folder."""
    os.makedirs(folder)
    os.chdir(folder)
    frames.write_topology(case.tree)
    frames.write_captures(case.tree.ports, case.made(count), case.ports())
    return folder


def counted(case, top, flat, options):
    """The instructions a frame: of exbr, of exbr with these options, and of the plain bridge."""
    slug = re.sub(r"\W+", "-", case.name)
    folders = [captured(case, count, f"{top}/{slug}-{count}") for count in (FEW, MANY)]
    more = len(case.made(MANY)) - len(case.made(FEW))
    own = [frames.program(), "run", "topology.toml"]
    plain = [flat, "1", "flat-"] + [f"in-{port}.pcap" for port in case.tree.ports]
    ways = [own, own + options, plain] if options else [own, plain]
    # Two runs at once in one folder would write over each other's files.
    with concurrent.futures.ThreadPoolExecutor(len(folders)) as pool:
        low, high = pool.map(lambda folder: [instructions(way, folder) for way in ways], folders)
    return [(most - least) / more for least, most in zip(low, high)]


def table(rows, options, markdown):
    """Prints the rows as they come."""
    heads = ["Case", "exbr", *([f"with {' '.join(options)}"] if options else []), "plain C bridge"]
    if markdown:
        print("| " + " | ".join(heads) + " |\n|" + "---|" * len(heads))
    else:
        print(f"{heads[0]:36}" + "".join(f"{head:>20}" for head in heads[1:]))
    for case, counts in rows:
        if markdown:
            print(f"| {case.name} | " + " | ".join(f"{count:,.0f}" for count in counts) + " |", flush=True)
        else:
            print(f"{case.name:36}" + "".join(f"{count:20,.0f}" for count in counts), flush=True)


def main():
    parser = argparse.ArgumentParser(description=__doc__, formatter_class=argparse.RawDescriptionHelpFormatter)
    parser.add_argument("--case", default="", metavar="WORD", help="only cases whose name has this word")
    parser.add_argument("--markdown", action="store_true", help="the table as a page has it")
    parser.add_argument("options", nargs="*", help="further options of exbr run, after --")
    asked = parser.parse_args()
    for tool in ("valgrind", "cc"):
        if not shutil.which(tool):
            sys.exit(f"instructions.py: there is no {tool} in the path")
    chosen = [case for case in cases() if asked.case in case.name]
    if not chosen:
        parser.error(f"no case has the word {asked.case}: " + "; ".join(case.name for case in cases()))
    frames.program()
    top = tempfile.mkdtemp(prefix="exbr-instructions-")
    try:
        flat = f"{top}/flat"
        subprocess.run(["cc", "-O2", "-o", flat, f"{frames.TOP}/bench/flat.c"], check=True)
        table(((case, counted(case, top, flat, asked.options)) for case in chosen), asked.options, asked.markdown)
    finally:
        os.chdir("/")
        shutil.rmtree(top)


if __name__ == "__main__":
    main()
