#!/usr/bin/env python3
"""Measures the learned table beside a plain hash table in C (bench/learned.c) in the same run: an address that is known is
seen and another one looked up, with 10 to 1,000,000 addresses, by chance and with addresses that are alike. Then, measured in
the program itself, a tick in which none dies, and forgetting a port with ten addresses, beside 10 and 1,000,000 others.

    bench/learned.py      (the program is the crate exb_bench, which is built where that is needed)
"""
import argparse
import os
import shutil
import subprocess
import tempfile
import time

TOP = os.path.dirname(os.path.dirname(os.path.abspath(__file__)))
TURNS = 3  # each run is made so often, and the best time counts
TIMES = 2_000_000
TICKS = 2_000_000
FORGETS = 20_000


def built():
    """The program, proved and built where that is needed."""
    folder = os.path.join(TOP, "crates", "exb_bench")
    subprocess.run(["rt", "run", "--", "spread", "10", "1"], cwd=folder, stdout=subprocess.DEVNULL, check=True)
    return os.path.join(folder, "out", "exb_bench")


def seconds(program, what, count, times):
    best = None
    for _turn in range(TURNS):
        start = time.monotonic()
        subprocess.run([program, what, str(count), str(times)], check=True)
        taken = time.monotonic() - start
        best = taken if best is None else min(best, taken)
    return best


def of_one(program, what, count, times):
    """The nanoseconds of one turn, without those of filling the table."""
    return (seconds(program, what, count, times) - seconds(program, what, count, 1)) / times * 1e9


def told(program, what, count, times):
    """The nanoseconds of one call, as the program itself tells them, in the best of some runs."""
    runs = [subprocess.run([program, what, str(count), str(times)], check=True, capture_output=True, text=True) for _turn in range(TURNS)]
    return min(int(run.stdout) for run in runs) / times


def main():
    argparse.ArgumentParser(description=__doc__, formatter_class=argparse.RawDescriptionHelpFormatter).parse_args()
    program = built()
    folder = tempfile.mkdtemp(prefix="exbr-bench-")
    try:
        plain = f"{folder}/learned"
        subprocess.run(["cc", "-O2", "-o", plain, f"{TOP}/bench/learned.c"], check=True)
        for what in ("spread", "alike"):
            for count in (10, 1_000, 100_000, 1_000_000):
                own, other = of_one(program, what, count, TIMES), of_one(plain, what, count, TIMES)
                print(f"{what:6} {count:9,} addresses: {1e9 / own:12,.0f} frames/s, {own:7.1f} ns | plain {other:7.1f} ns | ratio {own / other:5.1f}", flush=True)
        for what, times in (("tick", TICKS), ("forget", FORGETS)):
            for count in (10, 1_000_000):
                print(f"{what:6} {count:9,} addresses: {told(program, what, count, times):7.1f} ns", flush=True)
    finally:
        shutil.rmtree(folder)


if __name__ == "__main__":
    main()
