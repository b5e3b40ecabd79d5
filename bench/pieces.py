#!/usr/bin/env python3
"""Measures what a long capture costs: the most memory of a run, by the length of its captures, and what it is to read each twice.

    bench/pieces.py             captures of 4 MB to 4 GB, in memory and in seconds, and the part of a run that only reads
    bench/pieces.py --small     captures of 4 MB and 64 MB alone

There are classic captures and pcapng of frames of 262,144 bytes, which the bridge ignores as too long, and pcapng of blocks of up to
1 GB that are skipped, each before a frame of 60 bytes. Most of each is holes: 4 GB take some 100 MB of the disk, and little is
written. It works in a folder of its own under the system's folder for such, and takes it away at the end. The program is
the one that ./exbr runs, or EXBR=FILE. It fails where a run has more than 16 MiB of memory.
"""
import argparse
import os
import struct
import subprocess
import sys
import tempfile
import time

TOP = os.path.dirname(os.path.dirname(os.path.abspath(__file__)))
sys.path.insert(0, f"{TOP}/bench")
from program import program

LONG = 262_144
FRAME = b"\xff" * 6 + b"\x02\x00\x00\x00\x00\x01" + b"\x08\x00" + bytes(46)
HEADER = struct.pack("<IHHIIII", 0xA1B2C3D4, 2, 4, 0, 0, LONG, 1)
SECTION = struct.pack("<IIIHHqI", 0x0A0D0D0A, 28, 0x1A2B3C4D, 1, 0, -1, 28) + struct.pack("<IIHHII", 1, 20, 1, 0, 0, 20)
TOPOLOGY = """bridge = { ports = 2 }
captures = { "b1" = "in-b1.pcap" }
"""


def packet(at, length):
    """What stands before a frame in an enhanced packet."""
    micros = 100_000_000 + at
    return struct.pack("<IIIIIII", 6, 32 + length, 0, micros >> 32, micros & 0xFFFFFFFF, length, length)


def write_classic(file, size):
    """Records of which all but the first 60 bytes of each frame is a hole."""
    file.write(HEADER)
    records = size // (16 + LONG)
    for at in range(records):
        file.seek(len(HEADER) + at * (16 + LONG))
        file.write(struct.pack("<IIII", 100 + at // 1000, at % 1000, LONG, LONG) + FRAME)
    file.truncate(len(HEADER) + records * (16 + LONG))
    return f"ignored {records} "


def write_packets(file, size):
    """The same as enhanced packets."""
    file.write(SECTION)
    records = size // (32 + LONG)
    for at in range(records):
        file.seek(len(SECTION) + at * (32 + LONG))
        file.write(packet(at, LONG) + FRAME)
        file.seek(LONG - len(FRAME), os.SEEK_CUR)
        file.write(struct.pack("<I", 32 + LONG))
    return f"ignored {records} "


def write_skipped(file, size):
    """Four blocks of another kind, which are holes, and a frame behind each."""
    file.write(SECTION)
    for at in range(4):
        file.write(struct.pack("<II", 5, size // 4))
        file.seek(size // 4 - 12, os.SEEK_CUR)
        file.write(struct.pack("<I", size // 4) + packet(at, len(FRAME)) + FRAME + struct.pack("<I", 32 + len(FRAME)))
    return "arrivals 4 "


CAPTURES = {"classic": write_classic, "pcapng": write_packets, "pcapng of skipped blocks": write_skipped}


def played(words):
    """The most memory that the program had, in bytes, the seconds that it took, and what it printed. `time` stands between, since a
    child that is made here would begin with the memory that this script has."""
    begun = time.monotonic()
    ran = subprocess.run(["/usr/bin/time", "-f", "%M", "-o", "peak", program(), *words], capture_output=True, text=True, check=False)
    seconds = time.monotonic() - begun
    if ran.returncode:
        sys.exit(f"pieces: {ran.stdout}{ran.stderr}")
    with open("peak", encoding="utf-8") as file:
        return int(file.read()) * 1024, seconds, ran.stdout


def read_twice(name):
    """The seconds of reading a file twice in pieces of 65,536 bytes, and no more."""
    begun = time.monotonic()
    for _ in range(2):
        with open(name, "rb", buffering=0) as file:
            while file.read(65_536):
                pass
    return time.monotonic() - begun


def measure(kind, size):
    """A run of a capture of this kind and size."""
    with open("in-b1.pcap", "wb") as file:
        wanted = CAPTURES[kind](file, size)
    memory, seconds, line = played(["run", "topology.toml"])
    if wanted not in line:
        sys.exit(f"pieces: {line}")
    ratio = seconds / read_twice("in-b1.pcap")
    print(f"{size >> 20:5} MiB, {kind + ':':26}{memory / (1 << 20):5.1f} MiB of memory, {seconds:6.2f} s, {ratio:4.1f} times reading it twice", flush=True)
    if memory > 16 << 20:
        sys.exit("pieces: more than 16 MiB of memory")


def main():
    parser = argparse.ArgumentParser(description=__doc__, formatter_class=argparse.RawDescriptionHelpFormatter)
    parser.add_argument("--small", action="store_true", help="short captures alone")
    sizes = [4 << 20, 64 << 20]
    if not parser.parse_args().small:
        sizes += [1 << 30, 4 << 30]
    program()
    with tempfile.TemporaryDirectory() as folder:
        os.chdir(folder)
        with open("topology.toml", "w", encoding="utf-8") as file:
            file.write(TOPOLOGY)
        for size in sizes:
            for kind in CAPTURES:
                measure(kind, size)
        os.chdir("/")


if __name__ == "__main__":
    main()
