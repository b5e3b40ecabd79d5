#!/usr/bin/env python3
"""Makes the input of a row of racks: a bridge with extenders three deep, access ports, hypervisors' trunks, and 40 commands.

    tools/desk/tests/row.py FOLDER [--frames N] [--extenders N] [--vlans N]

Without options it has 12 extenders of 48 ports (580 external ports), 200 VLANs and 120,000 frames in 600 seconds. Stations ask by ARP,
answer, and send UDP both ways. The commands begin at second 300: hosts move to another VLAN, trunks lose VLANs, ports go down and up.
"""
from __future__ import annotations

import argparse
import os
import random
import struct
from typing import Iterator, NamedTuple

PORTS, UPLINKS, ACCESS, TRUNKS = 48, 4, 32, 44
FIRST, SECONDS, BEGINS, STREAM = 100, 600, 1_795_900_000, 3000
GROUP, GROUP_VLAN = bytes.fromhex("01005e010132"), FIRST + 50
BROADCAST, DISCOVERY = b"\xff" * 6, bytes.fromhex("0180c200000e")
HEADER = struct.pack("<IHHIIII", 0xA1B2C3D4, 2, 4, 0, 0, 65535, 1)


class Sent(NamedTuple):
    """A frame that a port is to get: its microsecond, what it is, to which port (or None), its VLAN, and how much it carries."""

    at: int
    kind: str
    to: str | None
    vid: int
    size: int


class Row:
    """The row: where extenders hang, and in which VLANs each port is."""

    def __init__(self, extenders: int, vlans: int):
        self.vids = range(FIRST, FIRST + vlans)
        self.on = hung(extenders)
        used = set(self.on.values())
        self.bridge_ports = UPLINKS + max(12, extenders)
        self.uplinks = [f"b{it}" for it in range(1, UPLINKS + 1)]
        self.below = [f"x{it}.{port}" for it in self.on for port in range(1, PORTS + 1) if f"x{it}.{port}" not in used]
        self.access: dict[str, int] = {}
        self.trunks: dict[str, list[int]] = {}
        for name in self.below:
            self._put(name, *map(int, name[1:].split(".")))
        self.isolated = {name for name in self.access if name.startswith(f"x{min(6, extenders)}.")}

    def _put(self, name: str, extender: int, port: int) -> None:
        base = 16 * (extender - 1)
        if port <= ACCESS:
            self.access[name] = self.vid(base + (port - 1) % 8)
        elif port <= TRUNKS:
            self.trunks[name] = sorted({self.vid(base + it) for it in range(16)})

    def vid(self, at: int) -> int:
        return self.vids[at % len(self.vids)]

    def native(self, name: str) -> int | None:
        """The VLAN of a port's frames without a tag."""
        return self.access.get(name) or (self.trunks[name][0] if name in self.trunks else None)

    def members(self) -> dict[int, tuple[list[str], list[str]]]:
        """Tagged and untagged members of each VLAN."""
        found: dict[int, tuple[list[str], list[str]]] = {vid: (list(self.uplinks), []) for vid in self.vids}
        for name in self.below:
            for vid in self.trunks.get(name) or ([self.access[name]] if name in self.access else []):
                found[vid][vid == self.native(name)].append(name)
        return found


def hung(extenders: int) -> dict[int, str]:
    """On which port each extender hangs: two of three on the bridge, most others on one of these, the last ones on a third level."""
    roots = max(1, 2 * extenders // 3)
    found = {it: f"b{UPLINKS + it}" for it in range(1, roots + 1)}
    second = roots + max(1, 3 * (extenders - roots) // 4)
    for it in range(roots + 1, extenders + 1):
        parent = it - roots if it <= second else roots + (it - second - 1) % (second - roots) + 1
        port = PORTS
        while f"x{parent}.{port}" in found.values():
            port -= 1
        found[it] = f"x{parent}.{port}"
    return found


def commands(row: Row) -> list[dict]:
    """The change: 40 commands for twelve extenders, and fewer where their ports aren't there."""
    there = set(row.uplinks + row.below)
    told: list[dict] = []

    def ask(at: int, op: str, **keys) -> None:
        if keys.get("port", "b1") in there:
            told.append({"at": at, "op": op, **keys})

    new, odd = row.vid(180), row.vid(199)
    for port in range(1, 9):
        ask(300, "member", vid=new, port=f"x2.{port}", kind="untagged")
        ask(300, "pvid", vid=new, port=f"x2.{port}")
    for vid in (FIRST, row.vid(1)):
        ask(320, "unmember", vid=vid, port="b4")
    for port in range(1, 5):
        ask(325, "isolate", port=f"x6.{port}", isolated=False)
    for port in (33, 34):
        ask(330, "filter", port=f"x5.{port}", filter=False)
    for port in ("x7.1", "x7.2"):
        ask(335, "down", port=port)
    ask(365, "up", port="x7.1")
    ask(370, "static", vid=GROUP_VLAN, mac=GROUP.hex(":"), ports=["b1", "x1.3"])
    ask(371, "unstatic", vid=GROUP_VLAN, mac=GROUP.hex(":"))
    ask(380, "vlan", vid=row.vid(32), tagged=["b1", "b2", "x1.33"], untagged=["x1.1", "x1.9"])
    ask(381, "accept", port="x8.1", accept="all")
    for port in range(1, 6):
        ask(390, "unmember", vid=row.access.get(f"x8.{port}", FIRST), port=f"x8.{port}")
    ask(400, "pvid", vid=odd, port="x12.1")
    ask(401, "member", vid=odd, port="x12.1", kind="untagged")
    ask(410, "down", port="b2")
    ask(440, "up", port="b2")
    return told


# The topology.

def value(it) -> str:
    if isinstance(it, bool):
        return str(it).lower()
    return f"[{', '.join(map(value, it))}]" if isinstance(it, list) else f'"{it}"' if isinstance(it, str) else str(it)


def table(head: str, **keys) -> str:
    return f"{head}\n" + "".join(f"{key} = {value(it)}\n" for key, it in keys.items()) + "\n"


def port_table(row: Row, name: str) -> str:
    """The rules of a port; a spare one has none."""
    keys: dict = {}
    if name in row.uplinks:
        keys = {"accept": "tagged", "filter": True}
    elif name in row.access:
        keys = {"pvid": row.access[name], "accept": "untagged"}
    elif name in row.trunks:
        keys = {"pvid": row.native(name), "filter": True}
    if name in row.isolated:
        keys["isolated"] = True
    return table("[[port]]", name=name, **keys) if keys else ""


def topology(row: Row, captures: list[str]) -> str:
    text = table("[bridge]", ports=row.bridge_ports, ageing=300)
    text += "".join(table("[[extender]]", number=it, on=on, ports=PORTS) for it, on in row.on.items())
    text += "".join(port_table(row, name) for name in row.uplinks + row.below)
    text += "".join(table("[[vlan]]", vid=vid, tagged=tagged, untagged=untagged) for vid, (tagged, untagged) in row.members().items())
    text += table("[[static]]", vid=GROUP_VLAN, mac=GROUP.hex(":"), ports=["b1", "x1.3", "x1.11"])
    text += "".join(table("[[command]]", **it) for it in commands(row))
    return text + "[captures]\n" + "".join(f'"{name}" = "in-{name}.pcap"\n' for name in captures)


# The frames.

def address(name: str) -> bytes:
    """The address of the station at a port."""
    return bytes((2, 0, name[0] == "x", *map(int, name[1:].split(".") if name[0] == "x" else (0, name[1:])), 1))


def ip(vid: int, name: str) -> bytes:
    return bytes((10, vid - FIRST, *address(name)[3:5]))


def checksum(data: bytes) -> int:
    total = sum(struct.unpack(f"!{len(data) // 2}H", data))
    total = (total >> 16) + (total & 0xFFFF)
    return ~(total + (total >> 16)) & 0xFFFF


def udp(source: bytes, target: bytes, size: int) -> bytes:
    data = struct.pack("!HHHH", 5000, 6000, 8 + size, 0) + bytes(size)
    head = struct.pack("!BBHHHBBH", 0x45, 0, 20 + len(data), 1, 0, 64, 17, 0) + source + target
    return head[:10] + struct.pack("!H", checksum(head)) + head[12:] + data


def frame(row: Row, name: str, it: Sent) -> bytes:
    """The bytes of a frame, as it comes at a port: with the VLAN's tag, but for the port's own VLAN."""
    source, tag = address(name), b"" if row.native(name) == it.vid else struct.pack("!HH", 0x8100, it.vid)
    if it.kind == "lldp":
        return (DISCOVERY + source + b"\x88\xcc\x02\x07\x04" + source + bytes(60)).ljust(60, b"\0")
    if it.kind == "group":
        return GROUP + source + tag + b"\x08\x00" + udp(ip(it.vid, name), bytes((239, 1, 1, 50)), it.size)
    mine, its = ip(it.vid, name), ip(it.vid, it.to)
    if it.kind == "udp":
        return (address(it.to) + source + tag + b"\x08\x00" + udp(mine, its, it.size)).ljust(60, b"\0")
    asks = it.kind == "ask"
    data = struct.pack("!HHBBH", 1, 0x800, 6, 4, 1 if asks else 2) + source + mine + (bytes(6) if asks else address(it.to)) + its
    return ((BROADCAST if asks else address(it.to)) + source + tag + b"\x08\x06" + data).ljust(60, b"\0")


def conversation(row: Row, draw: random.Random, members: list[str], vid: int) -> Iterator[tuple[str, Sent]]:
    """Some frames of two stations in a VLAN: most of them with an uplink."""
    one, other = draw.sample(members, 2)
    if draw.random() < 0.6 and one not in row.uplinks:
        other = draw.choice(row.uplinks[:2])
    at = draw.randrange(SECONDS * 1_000_000)
    if draw.random() < 0.25:
        yield one, Sent(at, "ask", other, vid, 0)
        yield other, Sent(at + 2000, "answer", one, vid, 0)
    for turn in range(draw.randint(1, 6)):
        yield one, Sent(at + 10_000 * turn + 10_000, "udp", other, vid, draw.choice((20, 200, 1200)))
        yield other, Sent(at + 10_000 * turn + 12_000, "udp", one, vid, draw.choice((20, 200, 1200)))


def traffic(row: Row, draw: random.Random, count: int) -> dict[str, list[Sent]]:
    """The frames of each port that speaks."""
    speaks = [it for it in row.access if draw.random() < 0.45] + [it for it in row.trunks if draw.random() < 0.5] + row.uplinks
    found: dict[str, list[Sent]] = {it: [] for it in speaks}
    for name in speaks:
        found[name] += [Sent(1_000_000 * at + draw.randrange(1_000_000), "lldp", None, row.vid(0), 0) for at in range(0, SECONDS, 30)]
    if "x1.3" in found:
        found["x1.3"] += [Sent(200_000 * at + 10_000, "group", None, GROUP_VLAN, 200) for at in range(min(STREAM, count // 10))]
    those = {vid: [it for it in tagged + untagged if it in found] for vid, (tagged, untagged) in row.members().items()}
    many, left = [vid for vid, its in those.items() if len(its) > 4], count - sum(map(len, found.values()))
    while left > 0:
        vid = draw.choice(many)
        for name, it in conversation(row, draw, those[vid], vid):
            found[name].append(it)
            left -= 1
    return found


def write(path: str, row: Row, name: str, its: list[Sent]) -> None:
    with open(path, "wb") as out:
        out.write(HEADER)
        for it in sorted(its):
            data = frame(row, name, it)
            out.write(struct.pack("<IIII", BEGINS + it.at // 1_000_000, it.at % 1_000_000, len(data), len(data)) + data)


def make(folder: str, frames: int = 120_000, extenders: int = 12, vlans: int = 200) -> Row:
    """Writes topology and captures into a folder."""
    os.makedirs(folder, exist_ok=True)
    row = Row(extenders, vlans)
    found = traffic(row, random.Random(7), frames)
    for name, its in found.items():
        write(os.path.join(folder, f"in-{name}.pcap"), row, name, its)
    with open(os.path.join(folder, "topology.toml"), "w", encoding="utf-8") as out:
        out.write(topology(row, list(found)))
    spare = row.bridge_ports - UPLINKS - sum(it[0] == "b" for it in row.on.values())
    print(f"{len(row.uplinks + row.below) + spare} ports, {len(row.vids)} VLANs, {len(commands(row))} commands, "
          f"{sum(map(len, found.values())):,} frames in {len(found)} captures")
    return row


def main() -> None:
    parser = argparse.ArgumentParser(description=__doc__, formatter_class=argparse.RawDescriptionHelpFormatter)
    parser.add_argument("folder", metavar="FOLDER", help="where the files go; it is made if it isn't there")
    parser.add_argument("--frames", metavar="N", type=int, default=120_000, help="about so many frames (120,000)")
    parser.add_argument("--extenders", metavar="N", type=int, default=12, choices=range(1, 61), help="so many extenders of 48 ports, 1 to 60 (12)")
    parser.add_argument("--vlans", metavar="N", type=int, default=200, help="so many VLANs from 100 on, 51 to 3,900 (200)")
    asked = parser.parse_args()
    if not 51 <= asked.vlans <= 3900 or asked.frames < 1:
        parser.error("--vlans takes 51 to 3900, and --frames a number from 1 on")
    make(asked.folder, asked.frames, asked.extenders, asked.vlans)


if __name__ == "__main__":
    main()
