#!/usr/bin/env python3
"""Measures how long exbr takes to read topology files, and how much memory: one at the limits of the format, and with
--hostile files of up to 16 MB: many small tables, many static entries, and a long prefix with thousands of ports. What is
measured is `exbr check`, which plays nothing: it reads the file and, where that has no fault, counts what is needed.

    bench/topology.py [--hostile]    (in a folder for its files; the program is the one that ./exbr runs, or named by EXBR=FILE)
"""
import argparse
import os
import resource
import subprocess
import sys
import time

sys.dont_write_bytecode = True
from program import program


def at_the_limits():
    """64 extenders of 64 ports in a chain of four each, 4,094 VLANs by ranges, and 65,536 commands."""
    lines = ["[bridge]", "ports = 64"] + tree()
    lines += ["[[vlan]]", "vid = 1", "last = 2000", 'untagged = ["*"]']
    lines += ["[[vlan]]", "vid = 2001", "last = 4094", 'tagged = ["x64.*", "b17-64"]']
    for number in range(65536):
        lines += ["[[command]]", f"at = {number}", 'op = "up"', 'port = "x64.1"']
    return "\n".join(lines) + "\n"


def tree():
    """64 extenders of 64 ports in a chain of four each, below 64 ports of the bridge."""
    lines = []
    for number in range(1, 65):
        on = f"b{number}" if number <= 16 else f"x{number - 16}.64"
        lines += ["[[extender]]", f"number = {number}", f'on = "{on}"', "ports = 64"]
    return lines


def static_entries():
    """Hundreds of thousands of static entries, no two for one address."""
    entries = ",".join(
        "{vid=1,mac='%s',ports=[]}" % number.to_bytes(6, "big").hex("-") for number in range(360_000)
    )
    return f"bridge = {{ports = 1}}\nstatic = [{entries}]\n"


def long_prefix():
    """Output files of 4,096 ports with a prefix of 16 MB, and a capture that has the name of none."""
    lines = ["[bridge]", "ports = 64", f"out = '{'a' * 16_700_000}'"] + tree()
    lines += ["[captures]", '"b64" = "a.pcap"']
    return "\n".join(lines) + "\n"


def hostile():
    """Millions of small tables, up to 16 MB."""
    lines = ["[bridge]", "ports = 1"]
    lines += ["[[port]]"] * ((16_777_216 - 100) // 9)
    return "\n".join(lines) + "\n"


def measure(name, text):
    with open(name, "w", encoding="utf-8") as file:
        file.write(text)
    before = time.monotonic()
    ran = subprocess.run([program(), "check", name], capture_output=True, text=True, check=False)
    seconds = time.monotonic() - before
    peak = resource.getrusage(resource.RUSAGE_CHILDREN).ru_maxrss // 1024
    print(f"{name}: {len(text)} bytes, status {ran.returncode} ({ran.stdout.strip()}), {seconds:.2f} s, peak so far {peak} MB")


def main():
    parser = argparse.ArgumentParser(description=__doc__, formatter_class=argparse.RawDescriptionHelpFormatter)
    parser.add_argument("--hostile", action="store_true", help="files of up to 16 MB too")
    is_hostile = parser.parse_args().hostile
    program()
    measure("limits.toml", at_the_limits())
    if is_hostile:
        measure("static.toml", static_entries())
        measure("prefix.toml", long_prefix())
        measure("hostile.toml", hostile())


if __name__ == "__main__":
    main()
