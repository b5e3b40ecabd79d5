#!/usr/bin/env python3
"""Measures nets: bridges in a row, and bridges beside one another that a frame doesn't touch.

    bench/nets.py                   frames a second through 1, 4 and 16 bridges in a row, and beside it one bridge by `exbr run`
    bench/nets.py --instructions    instructions a frame, by callgrind as the difference of two runs (as bench/instructions.py): the
                                    same rows, and a frame through one bridge beside none, 1, 3 and 15 others that have no traffic
    bench/nets.py --markdown        the tables as a page has them
    bench/nets.py --frames N        so many frames for frames a second (100,000)

In a row each bridge has three ports: one to the bridge before, one to the next, and one for a station. A station at the first and one at the last
speak once, and then frames of 64 bytes go from the first to the last, a microsecond apart; what leaves there is compared with what was sent. The
program is the one that ./exbr runs, or EXBR=FILE. It works in a folder of its own, which it takes away at the end.
"""
import argparse
import concurrent.futures
import os
import shutil
import struct
import sys
import tempfile

sys.dont_write_bytecode = True
sys.path.insert(0, os.path.dirname(os.path.abspath(__file__)))
import frames
from instructions import FEW, MANY, instructions

ROWS, BESIDES = (1, 4, 16), (0, 1, 3, 15)
SIZE = 64
CAPTURES = {"first": '"b3" = "in-first.pcap"\n', "last": '"b3" = "in-last.pcap"\n', "only": '"b3" = "in-first.pcap"\n"b2" = "in-last.pcap"\n'}


def write_captured(name, records):
    with open(f"in-{name}.pcap", "wb") as file:
        file.write(frames.HEADER)
        for moment, data in records:
            second, rest = divmod(moment * 1000, 1_000_000_000)
            file.write(struct.pack("<IIII", second, rest, len(data), len(data)) + data)


def write_net(count, others=0):
    """A row of so many bridges, and others beside it."""
    names = [f"n{at}" for at in range(1, count + 1)]
    kinds = {name: "middle" for name in names} | ({names[0]: "first", names[-1]: "last"} if count > 1 else {names[0]: "only"})
    kinds |= {f"o{at}": "middle" for at in range(1, others + 1)}
    lines = [line for name, kind in kinds.items() for line in ("[[bridge]]", f'name = "{name}"', f'topology = "{kind}.toml"')]
    for a, b in zip(names, names[1:]):
        lines += ["[[wire]]", f'a = "{a}:b2"', f'b = "{b}:b1"']
    with open("net.toml", "w", encoding="utf-8") as file:
        file.write("\n".join(lines) + "\n")
    for kind in set(kinds.values()):
        with open(f"{kind}.toml", "w", encoding="utf-8") as file:
            file.write("[bridge]\nports = 3\n[captures]\n" + CAPTURES.get(kind, ""))
    return f"{names[-1]}-{'b2' if count == 1 else 'b3'}.pcap"


def write_frames(count):
    """What the two stations send."""
    hello, answer = frames.frame(frames.BROADCAST, frames.address(1), None, SIZE), frames.frame(frames.address(1), frames.address(2), None, SIZE)
    sent = [(0, hello)] + [(2 + at, frames.frame(frames.address(2), frames.address(1), None, SIZE)) for at in range(count)]
    write_captured("first", sent)
    write_captured("last", [(1, answer)])
    return frames.bridge.capture_of([(moment * 1000, data) for moment, data in sent])


def arranged(folder, count, others, many):
    """A folder with a net and its captures, the file of what must leave the last bridge, and that file's bytes."""
    os.makedirs(folder)
    os.chdir(folder)
    return write_net(count, others), write_frames(many)


def holds(folder, name, wanted):
    with open(f"{folder}/{name}", "rb") as file:
        if file.read() != wanted:
            sys.exit(f"{folder}/{name} is not what was sent")


def timed(words, folder):
    """The best of some runs: seconds and megabytes."""
    os.chdir(folder)
    return min(frames.run(words) for _ in range(frames.TURNS))


def rates(top, many):
    """Rows of frames a second."""
    for count in ROWS:
        folder = f"{top}/row-{count}"
        name, wanted = arranged(folder, count, 0, many)
        seconds, peak = timed([frames.program(), "net", "net.toml"], folder)
        holds(folder, name, wanted)
        yield f"{count} bridge{'s' if count > 1 else ''} in a row", f"{seconds:.2f} s", f"{many / seconds:,.0f}", f"{count * many / seconds:,.0f}", f"{peak:.0f} MB"
    seconds, peak = timed([frames.program(), "run", "only.toml"], f"{top}/row-1")
    yield "one bridge, by `exbr run`", f"{seconds:.2f} s", f"{many / seconds:,.0f}", f"{many / seconds:,.0f}", f"{peak:.0f} MB"


def counted(top, count, others, words):
    """Instructions a frame."""
    folders = []
    for many in (FEW, MANY):
        folder = f"{top}/{words[0]}-{count}-{others}-{many}"
        name, wanted = arranged(folder, count, others, many)
        folders.append((folder, name, wanted))
    with concurrent.futures.ThreadPoolExecutor(2) as pool:
        low, high = pool.map(lambda it: instructions([frames.program(), *words], it[0]), folders)
    if words[0] == "net":
        for it in folders:
            holds(*it)
    return (high - low) / (MANY - FEW)


def costs(top):
    """Rows of instructions a frame."""
    one = counted(top, 1, 0, ["run", "only.toml"])
    yield "one bridge, by `exbr run`", f"{one:,.0f}", ""
    for count in ROWS:
        found = counted(top, count, 0, ["net", "net.toml"])
        yield f"{count} bridge{'s' if count > 1 else ''} in a row", f"{found:,.0f}", f"{found / count:,.0f} a bridge"
        if count == 1:
            alone = found
    for others in BESIDES[1:]:
        found = counted(top, 1, others, ["net", "net.toml"])
        yield f"one bridge beside {others} without traffic", f"{found:,.0f}", f"{(found - alone) / others:+,.1f} for each"


def table(heads, rows, markdown):
    """Prints the rows as they come."""
    if markdown:
        print("| " + " | ".join(heads) + " |\n|" + "---|" * len(heads))
    else:
        print(f"{heads[0]:42}" + "".join(f"{it:>18}" for it in heads[1:]))
    for row in rows:
        print("| " + " | ".join(row) + " |" if markdown else f"{row[0]:42}" + "".join(f"{it:>18}" for it in row[1:]), flush=True)


def main():
    form = argparse.ArgumentParser(description=__doc__, formatter_class=argparse.RawDescriptionHelpFormatter)
    form.add_argument("--instructions", action="store_true", help="instructions a frame, by callgrind")
    form.add_argument("--markdown", action="store_true", help="the table as a page has it")
    form.add_argument("--frames", type=int, default=100_000, metavar="N", help="frames for frames a second (100,000)")
    asked = form.parse_args()
    if asked.instructions and not shutil.which("valgrind"):
        sys.exit("nets.py: there is no valgrind in the path")
    frames.program()
    top = tempfile.mkdtemp(prefix="exbr-nets-")
    try:
        if asked.instructions:
            table(["Case", "instructions", ""], costs(top), asked.markdown)
        else:
            table(["Case", "time", "frames a second", "bridges passed a second", "memory"], rates(top, asked.frames), asked.markdown)
    finally:
        os.chdir("/")
        shutil.rmtree(top)


if __name__ == "__main__":
    main()
