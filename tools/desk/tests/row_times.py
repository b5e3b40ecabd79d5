#!/usr/bin/env python3
"""How long the tools take over a row of racks, and how much memory: one line for each tool, as a table.

    tools/desk/tests/row_times.py FOLDER [--frames N] [--tools FOLDER] [--only WORD]

It makes the row in FOLDER by row.py, runs the program there, and then each tool. --tools takes those of another clone, to compare.
"""
from __future__ import annotations

import argparse
import os
import shlex
import subprocess
import sys
import time

HERE = os.path.dirname(os.path.abspath(__file__))
TOOLS = os.path.normpath(os.path.join(HERE, "..", ".."))
sys.path.insert(0, HERE)
sys.dont_write_bytecode = True
import row

STEPS = (
    ("run --counters", "{exbr} run topology.toml --counters"),
    ("exbr-why, one frame, the first question", "{tools}/exbr-why b1:100"),
    ("exbr-why, one frame, again", "{tools}/exbr-why b1:200"),
    ("exbr-why --all", "{tools}/exbr-why --all"),
    ("exbr-report", "{tools}/exbr-report . -o report.html --quiet"),
    ("exbr-compare --without 39,40", "{tools}/exbr-compare topology.toml --without 39,40 --brief"),
    ("exbr-compare --without all", "{tools}/exbr-compare topology.toml --without all --brief"),
    ("exbr-compare --without all --html", "{tools}/exbr-compare topology.toml --without all --html changes.html"),
    ("run --trace", "{exbr} run topology.toml --trace"),
    ("trace to pcapng", "{tools}/{pcapng} out-trace.txt trace.pcapng"),
)


def measured(command: str, folder: str) -> tuple[float, float, int, int]:
    """Seconds by the clock, seconds of a processor, the most bytes of memory, and the status, of a command and what it starts."""
    begun = time.monotonic()
    with subprocess.Popen(shlex.split(command), cwd=folder, stdin=subprocess.DEVNULL, stdout=subprocess.DEVNULL, stderr=subprocess.PIPE) as process:
        said = process.stderr.read().decode(errors="replace")
        _, status, used = os.wait4(process.pid, 0)
        process.returncode = os.waitstatus_to_exitcode(status)
    if process.returncode not in (0, 1):
        print(f"  {command}: {said.strip()[-200:]}", file=sys.stderr)
    return time.monotonic() - begun, used.ru_utime + used.ru_stime, 1024 * used.ru_maxrss, process.returncode


def main() -> None:
    parser = argparse.ArgumentParser(description=__doc__, formatter_class=argparse.RawDescriptionHelpFormatter)
    parser.add_argument("folder", metavar="FOLDER", help="where the row is made, if it isn't there")
    parser.add_argument("--frames", metavar="N", type=int, default=120_000, help="about so many frames (120,000)")
    parser.add_argument("--tools", metavar="FOLDER", default=TOOLS, help="the tools to measure (those beside this file)")
    parser.add_argument("--only", metavar="WORD", default="", help="the steps whose name has the word")
    asked = parser.parse_args()
    if not os.path.exists(os.path.join(asked.folder, "topology.toml")):
        row.make(asked.folder, asked.frames)
    tools = os.path.abspath(asked.tools)
    exbr = os.environ.get("EXBR") or os.path.join(tools, "..", "dist", "exbr")
    print("| Step | Seconds | Of a processor | Memory |\n|---|---|---|---|")
    # What runs of the program need for a while stands beside the row, since it may be larger than the memory that /tmp is.
    os.environ["TMPDIR"] = os.path.abspath(asked.folder)
    for name, command in STEPS:
        if asked.only not in name:
            continue
        words = command.format(exbr=exbr, tools=tools, pcapng="exbr-trace-to-pcapng" if os.path.exists(f"{tools}/exbr-trace-to-pcapng") else "trace_to_pcapng.py")
        wall, used, memory, status = measured(words, asked.folder)
        print(f"| {name} | {wall:.1f} | {used:.1f} | {memory / 1e6:,.0f} MB |" + ("" if status in (0, 1) else f" status {status}"), flush=True)


if __name__ == "__main__":
    main()
