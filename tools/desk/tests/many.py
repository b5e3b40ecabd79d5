"""Makes a run of 48 ports with many frames, for measuring the tools:

    python3 tools/desk/tests/many.py FOLDER [FRAMES]

A bridge, an extender of 48 ports, four VLANs of twelve ports each, ports of which two are isolated, four commands. Each station first
says where it is; of the frames that follow one in a hundred is a broadcast, and some are of a VLAN in which their port isn't.
"""
import os
import random
import struct
import sys

HEADER = struct.pack("<IHHIIII", 0xA1B23C4D, 2, 4, 0, 0, 65535, 1)
PORTS, SECONDS = 48, 600
TOPOLOGY = """[bridge]
ports = 2
[[extender]]
number = 1
on = "b1"
ports = 48
{vlans}{ports}[[command]]
at = 300
op = "member"
vid = 10
port = "x1.13"
kind = "untagged"
[[command]]
at = 300
op = "pvid"
port = "x1.13"
vid = 10
[[command]]
at = 400
op = "down"
port = "x1.48"
[[command]]
at = 450
op = "isolate"
port = "x1.3"
isolated = true
[captures]
{captures}"""


def vid_of(port: int) -> int:
    """The VLAN of a port."""
    return 10 * (1 + port // 12)


def mac(port: int) -> bytes:
    """The address of the station at a port."""
    return bytes((2, 0, 0, 0, 1, port + 1))


def topology() -> str:
    """The text of the topology."""
    vlans = "".join(f'[[vlan]]\nvid = {10 * it}\nuntagged = ["x1.{12 * it - 11}-{12 * it}"]\ntagged = ["b2"]\n' for it in (1, 2, 3, 4))
    ports = "".join(f'[[port]]\nname = "x1.{it + 1}"\npvid = {vid_of(it)}\nfilter = true\nisolated = {str(it in (0, 1)).lower()}\n' for it in range(PORTS))
    captures = "".join(f'"x1.{it + 1}" = "in-x1.{it + 1}.pcap"\n' for it in range(PORTS))
    return TOPOLOGY.format(vlans=vlans, ports=ports, captures=captures)


def frame(draw: random.Random, port: int) -> bytes:
    """A frame of the station at a port."""
    size = draw.choice((46, 46, 46, 120, 400))
    if draw.random() < 0.01:
        target, tag = b"\xff" * 6, b""
    else:
        target = mac(port // 12 * 12 + draw.randrange(12))
        tag = b"\x81\x00\x00\x32" if draw.random() < 0.005 else b""
    return target + mac(port) + tag + b"\x08\x00" + bytes(size)


def main(folder: str, frames: int = 1_000_000) -> None:
    """Writes topology and captures."""
    os.makedirs(folder, exist_ok=True)
    with open(os.path.join(folder, "topology.toml"), "w", encoding="utf-8") as file:
        file.write(topology())
    draw = random.Random(47)
    each = frames // PORTS
    for port in range(PORTS):
        with open(os.path.join(folder, f"in-x1.{port + 1}.pcap"), "wb") as file:
            file.write(HEADER)
            for at in range(each):
                data = b"\xff" * 6 + mac(port) + b"\x08\x06" + bytes(46) if not at else frame(draw, port)
                nanos = SECONDS * 1_000_000_000 * at // each + 1000 * port
                file.write(struct.pack("<IIII", 1_700_000_000 + nanos // 1_000_000_000, nanos % 1_000_000_000, len(data), len(data)) + data)


if __name__ == "__main__":
    main(sys.argv[1], *map(int, sys.argv[2:3]))
