#!/usr/bin/env python3
"""Makes the captures of this folder: two minutes of a campus in the evening, as they would be captured at each port.

    ./make.py            in this folder; the same captures each time

Staff are VLAN 10 with addresses 10.10.0.0/24, guests VLAN 20 with 10.20.0.0/24. Stations ask for addresses and names, look at pages,
print, and copy files. The guest at x4.2 also looks for staff, by frames with a tag of VLAN 10.
"""
import argparse
import os
import random
import struct

HERE = os.path.dirname(os.path.abspath(__file__))
START, SECONDS = 1_795_903_200, 120
HEADER = struct.pack("<IHHIIII", 0xA1B23C4D, 2, 4, 0, 0, 65535, 1)
MILLISECOND = 1_000_000
BROADCAST = b"\xff" * 6
PAGE = b"HTTP/1.1 200 OK\r\nContent-Type: text/html\r\nContent-Length: 900\r\n\r\n" + b"<p>Good evening.</p>".ljust(900)
JOB = b"POST /ipp/print HTTP/1.1\r\nHost: printer\r\nContent-Type: application/ipp\r\nContent-Length: 600\r\n\r\n".ljust(700, b"\x01")


class Station:
    """A station: its port, its VLAN, and its address there. The router's frames have a tag."""

    def __init__(self, port: str, vid: int, last: int, tagged: bool = False) -> None:
        self.port, self.vid, self.tagged = port, vid, tagged
        self.mac = bytes((2, 0, 0, 0, 0, 1)) if tagged else bytes((2, 0, 0, 0, vid, last))
        self.ip = bytes((10, vid, 0, last))


ROUTERS = {vid: Station("b4", vid, 1, tagged=True) for vid in (10, 20)}
SERVER, PRINTER = Station("b3", 10, 10), Station("x1.2", 10, 9)
CLERKS = [Station(port, 10, last) for port, last in (("x1.1", 11), ("x2.1", 21), ("x2.2", 22), ("x2.3", 23))]
GUESTS = [Station(port, 20, last) for port, last in (("x3.1", 31), ("x3.2", 32), ("x3.3", 33), ("x4.1", 41), ("x4.2", 42))]
GUEST_PRINTER = Station("x4.3", 20, 9)


def checksum(data: bytes) -> int:
    """The checksum of the Internet."""
    data += bytes(len(data) % 2)
    total = sum(struct.unpack(f">{len(data) // 2}H", data))
    total = (total & 0xFFFF) + (total >> 16)
    return ~(total + (total >> 16)) & 0xFFFF


class Captures:
    """Frames by port, each with its time after the start."""

    def __init__(self) -> None:
        self.frames: dict[str, list[tuple[int, bytes]]] = {}
        self.number = 0

    def send(self, at: int, station: Station, to: bytes, kind: int, payload: bytes, vid: int | None = None) -> None:
        """A station sends a frame."""
        vid = station.vid if station.tagged else vid
        tag = b"" if vid is None else struct.pack(">HH", 0x8100, vid)
        frame = to + station.mac + tag + struct.pack(">H", kind) + payload
        self.frames.setdefault(station.port, []).append((at, frame.ljust(60 if vid is None else 64, b"\0")))

    def ip(self, at: int, one: Station, to: bytes, address: bytes, protocol: int, payload: bytes) -> None:
        """A station sends a packet."""
        self.number += 1
        head = struct.pack(">BBHHHBBH4s4s", 0x45, 0, 20 + len(payload), self.number & 0xFFFF, 0x4000, 64, protocol, 0, one.ip, address)
        head = head[:10] + struct.pack(">H", checksum(head)) + head[12:]
        self.send(at, one, to, 0x0800, head + payload)

    def udp(self, at: int, one: Station, to: bytes, address: bytes, ports: tuple[int, int], data: bytes) -> None:
        """A station sends a datagram. Its checksum is left out, as UDP allows."""
        self.ip(at, one, to, address, 17, struct.pack(">HHHH", *ports, 8 + len(data), 0) + data)

    def tcp(self, at: int, one: Station, to: bytes, addresses: tuple[bytes, bytes], ports: tuple[int, int], state: tuple[int, int, int], data: bytes = b"") -> None:
        """A station sends a segment. `state` is its sequence, what it acknowledges, and its flags. Addresses may be those of hosts behind it."""
        head = struct.pack(">HHIIBBHHH", *ports, state[0], state[1], 0x50, state[2], 64240, 0, 0)
        pseudo = addresses[0] + addresses[1] + struct.pack(">HH", 6, len(head) + len(data))
        head = head[:16] + struct.pack(">H", checksum(pseudo + head + data)) + head[18:]
        asking, sender = one.ip, addresses[0]
        one.ip = sender
        self.ip(at, one, to, addresses[1], 6, head + data)
        one.ip = asking

    def write(self) -> int:
        """Writes a capture for each port, and says how many frames there are."""
        for port, frames in self.frames.items():
            with open(os.path.join(HERE, f"in-{port}.pcap"), "wb") as file:
                file.write(HEADER)
                for at, frame in sorted(frames, key=lambda it: it[0]):
                    file.write(struct.pack("<IIII", START + at // 1_000_000_000, at % 1_000_000_000, len(frame), len(frame)) + frame)
        return sum(map(len, self.frames.values()))


class Evening:
    """What goes on."""

    def __init__(self) -> None:
        self.captures, self.draw, self.next_port = Captures(), random.Random(20), 49152

    def arp(self, at: int, one: Station, other: Station) -> None:
        """A station asks where another one is, and gets its answer."""
        ask = b"\0\1\x08\0\6\4\0\1" + one.mac + one.ip + bytes(6) + other.ip
        self.captures.send(at, one, BROADCAST, 0x0806, ask)
        answer = b"\0\1\x08\0\6\4\0\2" + other.mac + other.ip + one.mac + one.ip
        self.captures.send(at + MILLISECOND, other, one.mac, 0x0806, answer)

    def dhcp(self, at: int, one: Station, router: Station) -> None:
        """A station asks for an address."""
        number, nothing = self.draw.getrandbits(32), bytes(4)
        for step, (op, kind) in enumerate(((1, 1), (2, 2), (1, 3), (2, 5))):
            yours = one.ip if op == 2 else nothing
            data = struct.pack(">BBBBIHH4s4s4s4s16s", op, 1, 6, 0, number, 0, 0, nothing, yours, router.ip if op == 2 else nothing, nothing, one.mac)
            data += bytes(192) + b"\x63\x82\x53\x63" + bytes((53, 1, kind)) + b"\xff"
            when = at + step * 3 * MILLISECOND
            if op == 1:
                ip, one.ip = one.ip, nothing
                self.captures.udp(when, one, BROADCAST, b"\xff" * 4, (68, 67), data)
                one.ip = ip
            else:
                self.captures.udp(when, router, one.mac, one.ip, (67, 68), data)

    def name(self, at: int, one: Station, router: Station, name: str) -> None:
        """A station asks for the address of a name."""
        question = b"".join(bytes((len(it),)) + it.encode() for it in name.split(".")) + b"\0" + struct.pack(">HH", 1, 1)
        number = self.draw.getrandbits(16)
        self.captures.udp(at, one, router.mac, router.ip, (self.port(), 53), struct.pack(">HHHHHH", number, 0x0100, 1, 0, 0, 0) + question)
        answer = struct.pack(">HHHHHH", number, 0x8180, 1, 1, 0, 0) + question + b"\xc0\x0c" + struct.pack(">HHIH4s", 1, 1, 300, 4, b"\xcb\0\x71\7")
        self.captures.udp(at + 9 * MILLISECOND, router, one.mac, one.ip, (53, self.next_port), answer)

    def port(self) -> int:
        """The next port of a client."""
        self.next_port = 49152 + (self.next_port - 49151) % 16000
        return self.next_port

    def session(self, at: int, one: Station, other: Station, host: bytes, service: int, data: tuple[bytes, bytes]) -> None:
        """A session of TCP: one asks, the other answers. `host` is the address behind the other one."""
        ports, mine, its = (self.port(), service), self.draw.getrandbits(31), self.draw.getrandbits(31)
        back = ports[::-1]
        there, here = (one.ip, host), (host, one.ip)
        asked, told = mine + 1 + len(data[0]), its + 1 + len(data[1])
        steps = ((one, mine, 0, 0x02, b""), (other, its, mine + 1, 0x12, b""), (one, mine + 1, its + 1, 0x10, b""), (one, mine + 1, its + 1, 0x18, data[0]),
                 (other, its + 1, asked, 0x18, data[1]), (one, asked, told, 0x11, b""), (other, told, asked + 1, 0x11, b""), (one, asked + 1, told + 1, 0x10, b""))
        for step, (who, sequence, acknowledged, flags, content) in enumerate(steps):
            when = at + step * 7 * MILLISECOND
            if who is one:
                self.captures.tcp(when, one, other.mac, there, ports, (sequence, acknowledged, flags), content)
            else:
                self.captures.tcp(when, other, one.mac, here, back, (sequence, acknowledged, flags), content)

    def ping(self, at: int, one: Station, other: Station, number: int) -> None:
        """One station asks whether another is there."""
        for who, to, kind, when in ((one, other, 8, at), (other, one, 0, at + 2 * MILLISECOND)):
            data = struct.pack(">BBHHH", kind, 0, 0, 7, number) + bytes(range(48))
            data = data[:2] + struct.pack(">H", checksum(data)) + data[4:]
            self.captures.ip(when, who, to.mac, to.ip, 1, data)

    def neighbours(self, at: int, one: Station) -> None:
        """A station tells all others of its services (mDNS)."""
        name = b"\x04_ipp\x04_tcp\x05local\0"
        self.captures.udp(at, one, bytes.fromhex("01005e0000fb"), bytes((224, 0, 0, 251)), (5353, 5353), struct.pack(">HHHHHH", 0, 0, 1, 0, 0, 0) + name + b"\0\x0c\0\1")

    def phone(self, at: int, one: Station) -> None:
        """A telephone says what it is (LLDP). No bridge relays that."""
        data = b"\x02\x07\x04" + one.mac + b"\x04\x03\x07p1" + b"\x06\x02\0\x78" + b"\0\0"
        self.captures.send(at, one, bytes.fromhex("0180c200000e"), 0x88CC, data)

    def look_for_staff(self, at: int, one: Station, last: int) -> None:
        """A guest asks for a station of the staff, by a frame with the tag of their VLAN."""
        ask = b"\0\1\x08\0\6\4\0\1" + one.mac + bytes((10, 10, 0, 99)) + bytes(6) + bytes((10, 10, 0, last))
        self.captures.send(at, one, BROADCAST, 0x0806, ask, vid=10)

    def web(self, at: int, one: Station) -> None:
        """A station looks at a page somewhere behind the router."""
        router = ROUTERS[one.vid]
        self.name(at, one, router, self.draw.choice(("www.example.org", "mail.example.org", "news.example.org")))
        self.session(at + 20 * MILLISECOND, one, router, bytes((203, 0, 113, 7)), 80, (b"GET / HTTP/1.1\r\nHost: www.example.org\r\n\r\n", PAGE))

    def every(self, first: float, step: float) -> list[int]:
        """Times from a first one on, some milliseconds apart from a strict beat."""
        count = int((SECONDS - first) / step)
        return [int(1000 * (first + it * step)) * MILLISECOND + self.draw.randrange(400) * MILLISECOND for it in range(count)]

    def arriving(self) -> None:
        """All stations come up."""
        for at, one in enumerate([*CLERKS, PRINTER, *GUESTS, GUEST_PRINTER]):
            when = at * 137 * MILLISECOND
            self.dhcp(when, one, ROUTERS[one.vid])
            self.arp(when + 40 * MILLISECOND, one, ROUTERS[one.vid])
        self.arp(1_900 * MILLISECOND, SERVER, ROUTERS[10])

    def staff(self) -> None:
        """Staff look at pages, copy files from the server, and print. The server asks whether the printer is there."""
        for at, one in enumerate(CLERKS):
            for when in self.every(3 + at, 9):
                self.web(when, one)
            for when in self.every(5 + at, 17):
                self.arp(when, one, SERVER)
                self.session(when + 5 * MILLISECOND, one, SERVER, SERVER.ip, 80, (b"GET /plans.html HTTP/1.1\r\nHost: files\r\n\r\n", PAGE))
            for when in self.every(11 + at, 38):
                self.session(when, one, PRINTER, PRINTER.ip, 631, (JOB, b"HTTP/1.1 200 OK\r\nContent-Length: 0\r\n\r\n"))
        for number, when in enumerate(self.every(4, 10)):
            self.ping(when, SERVER, PRINTER, number)
        for when in self.every(2, 30):
            self.phone(when, CLERKS[3])

    def guests(self) -> None:
        """Guests look at pages, print, and find each other. One looks for staff."""
        for at, one in enumerate(GUESTS):
            for when in self.every(3.5 + at, 7):
                self.web(when, one)
            for when in self.every(8 + 2 * at, 31):
                self.arp(when, one, GUEST_PRINTER)
                self.session(when + 5 * MILLISECOND, one, GUEST_PRINTER, GUEST_PRINTER.ip, 631, (JOB, b"HTTP/1.1 200 OK\r\nContent-Length: 0\r\n\r\n"))
        for when in self.every(6, 20):
            self.neighbours(when, GUEST_PRINTER)
        for number, when in enumerate(self.every(9, 13)):
            self.ping(when, GUESTS[0], GUESTS[3], number)
        for number, when in enumerate(self.every(7, 8)):
            self.look_for_staff(when, GUESTS[4], 9 + number)


def main() -> None:
    """Writes the captures."""
    argparse.ArgumentParser(description=__doc__, formatter_class=argparse.RawDescriptionHelpFormatter).parse_args()
    evening = Evening()
    evening.arriving()
    evening.staff()
    evening.guests()
    print(f"{evening.captures.write()} frames in {len(evening.captures.frames)} captures")


if __name__ == "__main__":
    main()
