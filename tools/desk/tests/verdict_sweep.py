#!/usr/bin/env python3
"""Whether and where: what exbr-preflight reads of a file, held against what the program says of it.

    tools/desk/tests/verdict_sweep.py [CHANGED] [--program EXBR]

Goes over each file of the verdict rows (crates/exb_cases/verdicts), files of nets and their topologies among them, and over 2,000 copies
of topologies with small changes. Each file has to get the same verdict, the first fault and its key; where the two readers of TOML
differ the tool has to say so.
"""
from __future__ import annotations

import argparse
import os
import sys
import tempfile
from collections import Counter

sys.dont_write_bytecode = True
sys.path.insert(0, os.path.dirname(os.path.abspath(__file__)))
import desk_help
import test_preflight
import verdicts
from exbr_desk import errors
from exbr_preflight import show, verdict

CHANGED_FROM = ("campus", "night", "static-group", "too-few-groups", "private-hosts", "lossy-links", "office")


def files() -> list[bytes]:
    """The files of all rows: those of topologies, and those of nets with their topologies."""
    found = [data for _, table in verdicts.topologies() for data, _ in table]
    found += [data for _, table in verdicts.files_of_nets() for data, _ in table]
    for _, table in verdicts.nets_with_topologies():
        found += [data for file, texts, _ in table for data in (file, *texts)]
    return found


def changed(count: int) -> list[bytes]:
    """Copies of the examples' topologies with small changes."""
    texts = []
    for at, name in enumerate(CHANGED_FROM):
        with open(os.path.join(desk_help.TOP, "examples", name, "topology.toml"), encoding="utf-8") as file:
            texts += test_preflight.changed(file.read(), -(-count // len(CHANGED_FROM)), 1000 + at)
    return [text.encode() for text in texts[:count]]


def held(program: str, them: list[bytes], told: Counter) -> None:
    with tempfile.TemporaryDirectory() as folder:
        for data in them:
            path = os.path.join(folder, "t.toml")
            with open(path, "wb") as out:
                out.write(data)
            told[_one(program, path)] += 1


def _one(program: str, path: str) -> str:
    try:
        it = verdict.of_file(path, program)
    except errors.DeskError as fault:
        return f"the program alone reads it: {str(fault).rpartition(': ')[2]}"
    if not it.agrees:
        print(f"differ: the tool {it.own}, the program {it.words}; said: {show.disagreement(it)}", flush=True)
        return "differ, and the tool says so"
    return "the same fault at the same key" if it.words else "no fault"


def main() -> None:
    parser = argparse.ArgumentParser(description=__doc__, formatter_class=argparse.RawDescriptionHelpFormatter)
    parser.add_argument("count", nargs="?", type=int, default=2000)
    parser.add_argument("--program", default=desk_help.program())
    asked = parser.parse_args()
    for name, them in (("rows", files()), ("changed topologies", changed(asked.count))):
        told: Counter = Counter()
        held(asked.program, them, told)
        print(f"{name}: {len(them):,} files")
        for what, count in sorted(told.items()):
            print(f"  {what}: {count:,}")
        sys.stdout.flush()


if __name__ == "__main__":
    main()
