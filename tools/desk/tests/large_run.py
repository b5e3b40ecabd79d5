#!/usr/bin/env python3
"""Makes the input of a large run: an extender of 48 ports and 1,000,000 frames, with a change of VLANs in its midst.

    tools/desk/tests/large_run.py FOLDER [FRAMES]

Nine frames of ten go to a station that was heard, every fiftieth to all; some are tagged, some are refused by their port.
"""
import argparse
import os
import random
import struct

PORTS, STATIONS = 48, 20
HEADER = struct.pack("<IHHIIII", 0xA1B23C4D, 2, 4, 0, 0, 65535, 1)
TOPOLOGY = """[bridge]
ports = 2
[[extender]]
number = 1
on = "b2"
ports = 48
{ports}[[vlan]]
vid = 10
tagged = ["b1"]
untagged = ["x1.1-16"]
[[vlan]]
vid = 20
tagged = ["b1"]
untagged = ["x1.17-32"]
[[vlan]]
vid = 30
tagged = ["b1", "x1.33-48"]
[[command]]
at = 500
op = "member"
vid = 20
port = "x1.1"
kind = "untagged"
[[command]]
at = 500
op = "pvid"
vid = 20
port = "x1.1"
[[command]]
at = 500
op = "unmember"
vid = 10
port = "x1.1"
[captures]
{captures}"""


def vlan_of(port):
    return 10 if port <= 16 else 20 if port <= 32 else 30


def address(port, station):
    return bytes([2, 0, 0, 0, port, station])


def topology():
    ports = "".join(f'[[port]]\nname = "x1.{port}"\npvid = {vlan_of(port)}\n' + ('accept = "tagged"\n' if port > 32 else "") for port in range(1, 49))
    return TOPOLOGY.format(ports=ports, captures="".join(f'"x1.{port}" = "in-x1.{port}.pcap"\n' for port in range(1, 49)))


def frame(chance, at):
    port, station = 1 + at % PORTS, chance.randrange(STATIONS)
    first = (port - 1) // 16 * 16 + 1
    to = b"\xff" * 6 if at % 50 == 0 or at < PORTS * STATIONS else address(first + chance.randrange(16), chance.randrange(STATIONS))
    station = at // PORTS if at < PORTS * STATIONS else station
    tag = b"\x81\x00" + struct.pack(">H", 30) if port > 32 and chance.randrange(20) else b""
    return port, to + address(port, station) + tag + b"\x08\x00" + bytes(46 + chance.randrange(200))


def make(folder, count):
    os.makedirs(folder, exist_ok=True)
    chance = random.Random(48)
    with open(os.path.join(folder, "topology.toml"), "w", encoding="utf-8") as out:
        out.write(topology())
    files = [open(os.path.join(folder, f"in-x1.{port}.pcap"), "wb") for port in range(1, PORTS + 1)]
    for file in files:
        file.write(HEADER)
    for at in range(count):
        port, data = frame(chance, at)
        moment = 1_700_000_000 * 10**9 + at * 1_000_000
        files[port - 1].write(struct.pack("<IIII", moment // 10**9, moment % 10**9, len(data), len(data)) + data)
    for file in files:
        file.close()


def main():
    parser = argparse.ArgumentParser(description=__doc__, formatter_class=argparse.RawDescriptionHelpFormatter)
    parser.add_argument("folder", metavar="FOLDER", help="where the files go; it is made if it isn't there")
    parser.add_argument("frames", metavar="FRAMES", nargs="?", type=int, default=1_000_000, help="so many frames (1,000,000)")
    asked = parser.parse_args()
    make(asked.folder, asked.frames)


if __name__ == "__main__":
    main()
