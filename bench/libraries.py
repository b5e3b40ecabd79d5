#!/usr/bin/env python3
"""Measures calls of libraries by themselves: the time of one call, and its instructions where
valgrind is there.

    bench/libraries.py      (the program is the crate exb_bench, which is built where that is needed)

`take` is an extender that takes a group's word for 1, 8 and 64 ports; `rows` are the rows of a set of 4,033 ports; `member` is a
port that becomes a member of a VLAN and then none any more, where there are 10 and 4,094 VLANs; `port` is a port in 4,094 VLANs
that goes down and up. The last line is the memory of number spaces for 64 ports of the bridge.
"""
import argparse
import os
import re
import shutil
import subprocess
import time

TOP = os.path.dirname(os.path.dirname(os.path.abspath(__file__)))
# what is called, of how much, and how often
CALLS = [
    ("take", 1, 2_000_000),
    ("take", 8, 2_000_000),
    ("take", 64, 500_000),
    ("rows", 4033, 20_000),
    ("member", 10, 200),
    ("member", 4094, 20),
    ("port", 4094, 5),
]


def built():
    """The program, proved and built where that is needed."""
    folder = os.path.join(TOP, "crates", "exb_bench")
    subprocess.run(["rt", "run", "--", "rows", "0", "1"], cwd=folder, stdout=subprocess.DEVNULL, check=True)
    return os.path.join(folder, "out", "exb_bench")


def seconds(program, what, ports, times):
    """The best of three runs."""
    best = None
    for _turn in range(3):
        start = time.monotonic()
        subprocess.run([program, what, str(ports), str(times)], check=True)
        taken = time.monotonic() - start
        best = taken if best is None else min(best, taken)
    return best


def instructions(program, what, ports, times):
    """By callgrind, or None where it isn't there."""
    if shutil.which("valgrind") is None:
        return None
    command = ["valgrind", "--tool=callgrind", "--callgrind-out-file=/dev/null"]
    run = subprocess.run(command + [program, what, str(ports), str(times)], capture_output=True, text=True, check=True)
    return int(re.search(r"Collected : (\d+)", run.stderr).group(1))


def instructions_of_one(program, what, count):
    """The instructions of one call, as text."""
    few = instructions(program, what, count, 1)
    if few is None or what in ("member", "port"):
        return ""
    return f", {(instructions(program, what, count, 1001) - few) // 1000:,} instructions"


def memory(program):
    """The peak memory of a run that makes number spaces at their limits, in kilobytes."""
    run = subprocess.Popen([program, "spaces", "64", "1"])
    _, _, usage = os.wait4(run.pid, 0)
    return usage.ru_maxrss


def main():
    argparse.ArgumentParser(description=__doc__, formatter_class=argparse.RawDescriptionHelpFormatter).parse_args()
    program = built()
    for what, count, times in CALLS:
        one = seconds(program, what, count, 1)
        microseconds = (seconds(program, what, count, times + 1) - one) / times * 1e6
        print(f"{what} {count:,}: {microseconds:,.3f} microseconds{instructions_of_one(program, what, count)}")
    print(f"spaces 64: {memory(program):,} kB")


if __name__ == "__main__":
    main()
