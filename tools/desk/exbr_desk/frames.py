"""Frames in words: addresses, tags, and a line that says what is in one."""
from __future__ import annotations

import struct
from dataclasses import dataclass

from . import plain

TYPES = {0x0800: "IPv4", 0x0806: "ARP", 0x86DD: "IPv6", 0x88CC: "LLDP", 0x8100: "802.1Q", 0x88A8: "802.1ad", 0x893F: "E-TAG",
         0x8940: "ECP", 0x888E: "EAPOL", 0x8863: "PPPoE discovery", 0x8864: "PPPoE", 0x8847: "MPLS", 0x88F7: "PTP", 0x9000: "loopback"}
PROTOCOLS = {1: "ICMP", 2: "IGMP", 6: "TCP", 17: "UDP", 47: "GRE", 50: "ESP", 58: "ICMPv6", 89: "OSPF", 103: "PIM", 112: "VRRP", 132: "SCTP"}
ICMP = {0: "echo reply", 3: "unreachable", 5: "redirect", 8: "echo request", 11: "time exceeded"}
ICMP6 = {1: "unreachable", 2: "too big", 3: "time exceeded", 128: "echo request", 129: "echo reply", 130: "listener query",
         131: "listener report", 133: "router solicitation", 134: "router advertisement", 135: "neighbour solicitation",
         136: "neighbour advertisement", 143: "listener report"}
SERVICES = {53: "DNS", 67: "DHCP", 68: "DHCP", 123: "NTP", 5353: "mDNS", 1900: "SSDP", 161: "SNMP", 514: "syslog"}
FLAGS = "FSRPAUEC"
KINDS = {"short": "shorter than 14 bytes", "long": "longer than 9,216 bytes", "reserved": "to a reserved address (01-80-C2-00-00-00 to -0F)",
         "bad": "with a VLAN tag that is cut off or names VLAN 4095", "plain": "without a VLAN tag", "priority": "with a priority tag",
         "tagged": "with a VLAN tag"}


def mac(address: bytes) -> str:
    """An address in the way of these pages."""
    return address.hex(":")


def is_group(address: bytes) -> bool:
    return bool(address[0] & 1)


@dataclass(frozen=True)
class ETag:
    """The E-TAG of a word between bridge and extenders. An E-CID below 4,096 is a channel, else a group."""

    pcp: int
    dei: int
    ingress: int
    ecid: int

    def words(self) -> str:
        what = f"channel {self.ecid}" if self.ecid < 4096 else f"group {self.ecid - 4096} (E-CID {self.ecid:#06x})"
        priority = f", priority {self.pcp}" + (" may be dropped" if self.dei else "") if self.pcp or self.dei else ""
        return f"E-TAG {what}" + (f", not back to channel {self.ingress}" if self.ingress else "") + priority


def etag_of(frame: bytes) -> ETag | None:
    """The E-TAG of a frame, if it has one."""
    if len(frame) < 20 or frame[12:14] != b"\x89\x3f" or frame[18] or frame[19]:
        return None
    first, second = struct.unpack_from(">HH", frame, 14)
    return ETag(first >> 13, first >> 12 & 1, first & 0xFFF, second & 0x3FFF)


def without_etag(frame: bytes) -> bytes:
    return frame[:12] + frame[20:]


@dataclass(frozen=True)
class Ethernet:
    """The head of a frame. `tags` has the VLAN tags as type and TCI; `at` is where the payload begins."""

    destination: bytes
    source: bytes
    tags: tuple[tuple[int, int], ...]
    etag: ETag | None
    type: int
    at: int


def ethernet(frame: bytes) -> Ethernet | None:
    """The head of a frame of at least 14 bytes."""
    if len(frame) < 14:
        return None
    at, tags, etag = 12, [], etag_of(frame)
    at += 8 if etag else 0
    while len(frame) >= at + 6 and frame[at:at + 2] in (b"\x81\x00", b"\x88\xa8"):
        tags.append(struct.unpack_from(">HH", frame, at))
        at += 4
    kind = int.from_bytes(frame[at:at + 2], "big") if len(frame) >= at + 2 else 0
    return Ethernet(frame[:6], frame[6:12], tuple(tags), etag, kind, at + 2)


def tag_in_words(frame: bytes) -> str:
    """The VLAN tag of a frame as it stands on the wire."""
    kind, tag = plain.kind_of(frame)
    if kind not in ("tagged", "priority"):
        return "no tag"
    priority = f", priority {tag >> 13}" if tag >> 13 else ""
    return f"tag {tag & 0xFFF}{priority}" + (", may be dropped" if tag >> 12 & 1 else "")


def describe(frame: bytes) -> str:
    """A frame in a line."""
    head = ethernet(frame)
    if head is None:
        return f"{len(frame)} bytes, too short for a frame"
    tags = "".join(f" [vlan {tag & 0xFFF}{f' prio {tag >> 13}' if tag >> 13 else ''}]" for _, tag in head.tags)
    etag = f" [{head.etag.words()}]" if head.etag else ""
    to = "broadcast" if head.destination == b"\xff" * 6 else mac(head.destination)
    return f"{mac(head.source)} -> {to}{etag}{tags} {inside(frame, head)}, {len(frame)} bytes"


def inside(frame: bytes, head: Ethernet) -> str:
    """What a frame carries, in a few words."""
    data = frame[head.at:]
    if head.type < 0x600:
        return "LLC" + (" spanning tree" if data[:2] == b"\x42\x42" else "")
    reader = {0x0806: _arp, 0x0800: _ipv4, 0x86DD: _ipv6, 0x88CC: _lldp, 0x8940: _ecp}.get(head.type)
    name = TYPES.get(head.type, f"type {head.type:04x}")
    return (reader(data) if reader else None) or name


def _v4(data: bytes) -> str:
    return ".".join(map(str, data))


def _v6(data: bytes) -> str:
    """An address of IPv6 with its longest run of zeros left out."""
    parts = [int.from_bytes(data[at:at + 2], "big") for at in range(0, 16, 2)]
    begin = end = at = 0
    while at < 8:
        until = at
        while until < 8 and not parts[until]:
            until += 1
        if until - at > max(1, end - begin):
            begin, end = at, until
        at = until + 1
    words = [f"{part:x}" for part in parts]
    return ":".join(words[:begin]) + "::" + ":".join(words[end:]) if end else ":".join(words)


def _arp(data: bytes) -> str | None:
    if len(data) < 28 or data[:6] != b"\x00\x01\x08\x00\x06\x04":
        return None
    operation, sender, target = data[7], _v4(data[14:18]), _v4(data[24:28])
    if sender == target:
        return f"ARP {sender} is here"
    return {1: f"ARP who has {target}? {sender} asks", 2: f"ARP {sender} is at {mac(data[8:14])}"}.get(operation, f"ARP operation {operation}")


def _ipv4(data: bytes) -> str | None:
    if len(data) < 20 or data[0] >> 4 != 4 or (data[0] & 15) < 5:
        return None
    ends = f"{_v4(data[12:16])} -> {_v4(data[16:20])}"
    offset = struct.unpack_from(">H", data, 6)[0] & 0x1FFF
    if offset:
        return f"IPv4 {ends} fragment of {PROTOCOLS.get(data[9], f'protocol {data[9]}')}"
    return f"{_above(data[9], data[(data[0] & 15) * 4:])} {ends}"


def _ipv6(data: bytes) -> str | None:
    if len(data) < 40 or data[0] >> 4 != 6:
        return None
    protocol, at = data[6], 40
    while protocol in (0, 43, 60) and len(data) >= at + 8:
        protocol, at = data[at], at + 8 + 8 * data[at + 1]
    return f"{_above(protocol, data[at:])} {_v6(data[8:24])} -> {_v6(data[24:40])}"


def _above(protocol: int, data: bytes) -> str:
    """What stands above IP."""
    name = PROTOCOLS.get(protocol, f"protocol {protocol}")
    if protocol in (1, 58) and len(data) >= 1:
        return f"{name} {(ICMP if protocol == 1 else ICMP6).get(data[0], f'type {data[0]}')}"
    if protocol in (6, 17) and len(data) >= 4:
        one, other = struct.unpack_from(">HH", data)
        if protocol == 17:
            service = SERVICES.get(one) or SERVICES.get(other)
            return f"UDP {one} -> {other}" + (f" ({service})" if service else "")
        flags = "".join(letter for bit, letter in enumerate(FLAGS) if data[13] >> bit & 1) if len(data) >= 14 else ""
        return f"TCP {one} -> {other}" + (f" [{flags}]" if flags else "")
    return name


def _lldp(data: bytes) -> str:
    at, told = 0, []
    while at + 2 <= len(data):
        head = struct.unpack_from(">H", data, at)[0]
        kind, value = head >> 9, data[at + 2:at + 2 + (head & 0x1FF)]
        at += 2 + (head & 0x1FF)
        if kind == 0:
            break
        if kind == 1 and len(value) == 7 and value[0] == 4:
            told.append(mac(value[1:]))
        elif kind in (2, 5) and value:
            text = value[1:] if kind == 2 else value
            told.append("".join(chr(it) if 32 <= it < 127 else "." for it in text[:32]))
    return "LLDP " + " ".join(told) if told else "LLDP"


def _ecp(data: bytes) -> str | None:
    if len(data) < 4:
        return None
    head, sequence = struct.unpack_from(">HH", data)
    what = {0: "request", 1: "acknowledgement"}.get(head >> 10 & 3, "unknown operation")
    message = MESSAGES.get(data[4], "") if len(data) > 4 and not head >> 10 & 3 else ""
    return f"ECP {what} {sequence}" + (f": {message}" if message else "")


MESSAGES = {0x01: "open", 0x02: "create port", 0x03: "delete port", 0x04: "register", 0x05: "unregister", 0x06: "register many",
            0x07: "unregister many", 0x81: "answer to open", 0x82: "answer to create port", 0x83: "answer to delete port",
            0x84: "answer to register", 0x85: "answer to unregister", 0x86: "answer to register many", 0x87: "answer to unregister many"}
