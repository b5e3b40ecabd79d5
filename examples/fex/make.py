#!/usr/bin/env python3
"""Makes the files of this folder: the running configuration of a Nexus with twelve fabric extenders before a change and after it, and two
minutes of captures, named by interface.

    ./make.py            in this folder; the same files each time

VLANs are 100 to 299, sixteen for each extender's servers and the rest for guests of the row. Each extender has 32 servers at access ports,
12 hypervisors at trunks and 4 spare ports. The gateway is behind the uplink port-channel1, of Ethernet1/1 and Ethernet1/2.
"""
import argparse
import os
import struct

HERE = os.path.dirname(os.path.abspath(__file__))
START, CHANGE, SECONDS = 1_795_903_200, 60, 120
SERVERS, HYPERVISORS, PORTS = range(1, 33), range(33, 45), range(1, 49)
BOXES = range(101, 113)
VLANS = range(100, 300)
ISOLATED, PRIVATE = 3000, 3001
HEADER = struct.pack("<IHHIIII", 0xA1B23C4D, 2, 4, 0, 0, 65535, 1)
BROADCAST = b"\xff" * 6
ROLES = ("web", "app", "db", "mail", "dns", "log", "ci", "nfs")
# What the change is about: servers that move, private hosts that become common ones, ports that close and open, a VLAN for the hypervisors
# of one rack and the uplinks, and hypervisors that get another native VLAN.
MOVED, FREED, CLOSED, OPENED = range(1, 9), range(1, 5), range(29, 33), range(45, 49)
NEW, NATIVE, LAST = 300, range(33, 37), (109, 32)


def base(box: int) -> int:
    """The first VLAN of an extender."""
    return 100 + 16 * (box - 101)


def vlan_of(box: int, port: int) -> int:
    """The VLAN of a server's port."""
    return base(box) + (port - 1) % 8


def head(after: bool) -> list[str]:
    """What stands before the interfaces."""
    lines = ["!Command: show running-config", "!Time: Wed Dec  2 02:00:00 2026", "", "version 7.3(8)N1(1)", "hostname row7-agg", "",
             "feature private-vlan", "feature lacp", "feature vpc", "feature lldp", "feature fex", "",
             "username admin password 5 $5$NotAPassword$OnlyAnExample  role network-admin", "no password strength-check",
             "ip domain-lookup", "snmp-server community example group network-operator", "ntp server 192.0.2.123", "",
             f"vlan 1,100-299{',300' if after else ''},{ISOLATED}-{PRIVATE}"]
    for box in BOXES:
        for at, role in enumerate(ROLES):
            lines += [f"vlan {base(box) + at}", f"  name rack{box - 100:02}-{role}"]
    lines += ["vlan 300", "  name live-migration"] if after else []
    lines += [f"vlan {PRIVATE}", "  private-vlan isolated", f"vlan {ISOLATED}", "  name tenants", "  private-vlan primary",
              f"  private-vlan association {PRIVATE}", "", "spanning-tree port type edge bpduguard default", "vrf context management",
              "  ip route 0.0.0.0/0 192.0.2.1"]
    for box in BOXES:
        lines += [f"fex {box}", "  pinning max-links 1", f'  description "row-7-rack-{box - 100:02}"']
    return [*lines, "", "port-channel load-balance ethernet source-dest-ip", "mac address-table aging-time 300", ""]


def uplinks(after: bool) -> list[str]:
    """The uplinks and the links to the extenders."""
    lines: list[str] = []
    allowed = f"100-299{',300' if after else ''},{ISOLATED}"
    for number in (1, 2):
        lines += ["", f"interface port-channel{number}", f"  description core-{number}", "  switchport mode trunk",
                  f"  switchport trunk allowed vlan {allowed}", "  spanning-tree port type network", f"  vpc {number}"]
    for box in BOXES:
        lines += ["", f"interface port-channel{box}", "  switchport mode fex-fabric", f"  fex associate {box}"]
    for port in range(1, 5):
        lines += ["", f"interface Ethernet1/{port}", "  switchport mode trunk", f"  switchport trunk allowed vlan {allowed}",
                  f"  channel-group {(port + 1) // 2} mode active"]
    for port in range(5, 29):
        box = 101 + (port - 5) // 2
        lines += ["", f"interface Ethernet1/{port}", "  switchport mode fex-fabric", f"  fex associate {box}", f"  channel-group {box}"]
    return lines


def server(box: int, port: int, after: bool) -> list[str]:
    """A server's port."""
    vid = vlan_of(box, port)
    lines = [f"  description {ROLES[(port - 1) % 8]}-{box}-{(port + 7) // 8:02}"]
    if box == 106 and port <= 8 and not (after and port in FREED):
        return lines + ["  switchport mode private-vlan host", f"  switchport private-vlan host-association {ISOLATED} {PRIVATE}",
                        "  spanning-tree port type edge"]
    vid = 299 if after and (box, port) == LAST else vid
    vid = ISOLATED if box == 106 and port <= 8 else 280 if after and box == 102 and port in MOVED else vid
    lines += [f"  switchport access vlan {vid}", "  spanning-tree port type edge"]
    return lines + (["  shutdown"] if after and box == 107 and port in CLOSED else [])


def hypervisor(box: int, port: int, after: bool) -> list[str]:
    """A hypervisor's port."""
    native = base(box) + (8 if after and box == 104 and port in NATIVE else 0)
    new = f",{NEW}" if after and box == 103 else ""
    return [f"  description hv-{box}-{port - 32:02}", "  switchport mode trunk", f"  switchport trunk native vlan {native}",
            f"  switchport trunk allowed vlan {base(box)}-{base(box) + 15}{new}", "  spanning-tree port type edge trunk",
            "  storm-control broadcast level 5.00"]


def spare(box: int, port: int, after: bool) -> list[str]:
    """A spare port."""
    if after and box == 108 and port in OPENED:
        return [f"  description new-{box}-{port - 44}", f"  switchport access vlan {base(box)}", "  spanning-tree port type edge"]
    return ["  shutdown"]


def configuration(after: bool) -> str:
    """The whole configuration."""
    lines = head(after) + uplinks(after)
    for box in BOXES:
        for port in PORTS:
            make = server if port in SERVERS else hypervisor if port in HYPERVISORS else spare
            lines += ["", f"interface Ethernet{box}/1/{port}", *make(box, port, after)]
    lines += ["", "interface mgmt0", "  vrf member management", "  ip address 192.0.2.7/24", "line console", "line vty",
              "boot kickstart bootflash:/n6000-uk9-kickstart.7.3.8.N1.1.bin", "boot system bootflash:/n6000-uk9.7.3.8.N1.1.bin",
              f"mac address-table static 0200.0000.0150 vlan 150 interface Ethernet104/1/{7 if after else 3}"]
    return "\n".join(lines) + "\n"


# Captures.

def mac(box: int, port: int) -> bytes:
    """The address of a server."""
    return bytes((2, 0, 0, 0, box, port))


def frame(to: bytes, source: bytes, vid: int | None, kind: bytes, data: bytes) -> bytes:
    """A frame, with a tag where there is a VLAN."""
    tag = struct.pack(">HH", 0x8100, vid) if vid else b""
    return (to + source + tag + kind + data).ljust(60, b"\0")


def address(vid: int, last: int) -> bytes:
    """An address of IPv4."""
    return bytes((10, vid // 256, vid % 256, last))


def arp(question: bool, mine: bytes, my: bytes, its: bytes, other: bytes) -> bytes:
    """What ARP asks or answers."""
    return struct.pack(">HHBBH", 1, 0x800, 6, 4, 1 if question else 2) + mine + my + (bytes(6) if question else its) + other


def checksum(data: bytes) -> int:
    """The checksum of the Internet."""
    total = sum(struct.unpack(f">{len(data) // 2}H", data))
    total = (total & 0xFFFF) + (total >> 16)
    return ~(total + (total >> 16)) & 0xFFFF


def packet(my: bytes, other: bytes, data: bytes) -> bytes:
    """A packet of UDP."""
    head = struct.pack(">BBHHHBBH", 0x45, 0, 28 + len(data), 1, 0, 64, 17, 0) + my + other
    return head[:10] + struct.pack(">H", checksum(head)) + head[12:] + struct.pack(">HHHH", 5000, 6000, 8 + len(data), 0) + data


class Captures:
    """Frames by the name of their file, each with its time."""

    def __init__(self) -> None:
        self.frames: dict[str, list[tuple[float, bytes]]] = {}

    def put(self, file: str, at: float, data: bytes) -> None:
        self.frames.setdefault(file, []).append((at, data))

    def talk(self, file: str, box: int, port: int, vid: int, second: float, tag: int | None = None) -> None:
        """A server asks for the gateway and sends to it; the gateway answers, over one of the members of the uplink."""
        me, router = mac(box, port), bytes((2, 0, 0, 0, 0, 1))
        mine, its = address(vid, port), address(vid, 254)
        up = f"Ethernet1_{1 + port % 2}.pcap"
        self.put(file, second, frame(BROADCAST, me, tag, b"\x08\x06", arp(True, me, mine, router, its)))
        self.put(up, second + 0.002, frame(me, router, vid, b"\x08\x06", arp(False, router, its, me, mine)))
        for at in range(3):
            self.put(file, second + 0.01 + at / 50, frame(router, me, tag, b"\x08\x00", packet(mine, its, b"question")))
            self.put(up, second + 0.015 + at / 50, frame(me, router, vid, b"\x08\x00", packet(its, mine, b"answer" * 9)))

    def write(self, folder: str) -> None:
        for file, them in self.frames.items():
            with open(os.path.join(folder, file), "wb") as out:
                out.write(HEADER)
                for at, data in sorted(them, key=lambda it: it[0]):
                    out.write(struct.pack("<IIII", START + int(at), round((at % 1) * 1_000_000) * 1000, len(data), len(data)) + data)


def traffic() -> Captures:
    """Two minutes of the row: servers that move and servers that don't, private hosts, and a hypervisor."""
    made = Captures()
    for second in range(1, SECONDS, 10):
        for at, (box, port) in enumerate(((102, 1), (102, 2), (102, 9), (101, 1), (107, 29), (112, 4))):
            moved = box == 102 and port in MOVED and second > CHANGE
            made.talk(f"Ethernet{box}_1_{port}.pcap", box, port, 280 if moved else vlan_of(box, port), second + at / 10)
        for port in (1, 2, 7):
            made.talk(f"eth106-1-{port}.pcap", 106, port, ISOLATED, second + 0.7 + port / 50)
        for vid in (base(104), base(104) + 3):
            made.talk("eth104-1-33.pcap", 104, 33, vid, second + 0.9 + vid / 1000, None if vid == base(104) else vid)
    return made


def main() -> None:
    argparse.ArgumentParser(description=__doc__, formatter_class=argparse.RawDescriptionHelpFormatter).parse_args()
    os.makedirs(os.path.join(HERE, "captures"), exist_ok=True)
    for name, after in (("before.cfg", False), ("after.cfg", True)):
        with open(os.path.join(HERE, name), "w", encoding="utf-8") as out:
            out.write(configuration(after))
    traffic().write(os.path.join(HERE, "captures"))


if __name__ == "__main__":
    main()
