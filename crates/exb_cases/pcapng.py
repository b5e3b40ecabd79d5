"""Captures of pcapng: those of real writers, their twins in the other order of bytes and with blocks between, and faults."""
import os
import struct
import sys

import captured
import readings
from frames import *

WRITTEN = os.path.join(os.path.dirname(os.path.abspath(__file__)), "written")
NAMES = {"first": ["comments", "dumpcap", "editcap", "nanoseconds", "text2pcap", "tshark"], "both": ["mergecap"]}
HEAD, ETHERNET, ROW = map(readings.bytes_of, (readings.HEAD, readings.ETHERNET, readings.ROW))


def read(name):
    with open(os.path.join(WRITTEN, name), "rb") as file:
        return file.read()


def blocks(file):
    """The blocks of a little-endian file: type, content and the whole."""
    at = 0
    while at < len(file):
        kind, size = struct.unpack_from("<II", file, at)
        yield kind, file[at + 8:at + size - 4], file[at:at + size]
        at += size


def options_turned(options):
    """Options in the other order of bytes. Those of numbers aren't turned: nobody looks at them."""
    turned, at = b"", 0
    while at < len(options):
        code, length = struct.unpack_from("<HH", options, at)
        turned += struct.pack(">HH", code, length) + options[at + 4:at + 4 + length + -length % 4]
        at += 4 + length + -length % 4
    return turned


def big_endian(file):
    """The same file in the other order of bytes."""
    turned = b""
    for kind, content, _ in blocks(file):
        if kind == 0x0A0D0D0A:
            magic, major, minor, length = struct.unpack_from("<IHHQ", content)
            content = struct.pack(">IHHQ", magic, major, minor, length) + options_turned(content[16:])
        elif kind == 1:
            content = struct.pack(">HHI", *struct.unpack_from("<HHI", content)) + options_turned(content[8:])
        else:
            five = struct.unpack_from("<IIIII", content)
            end = 20 + five[3] + -five[3] % 4
            content = struct.pack(">IIIII", *five) + content[20:end] + options_turned(content[end:])
        size = len(content) + 12
        turned += struct.pack(">II", kind, size) + content + struct.pack(">I", size)
    return turned


def block(kind, content):
    return struct.pack("<II", kind, len(content) + 12) + content + struct.pack("<I", len(content) + 12)


def with_blocks(file):
    """The same file with a block of names, one of statistics, a custom one and one of no known type behind each block."""
    names = block(4, struct.pack("<HH", 1, 9) + bytes([10, 0, 0, 1]) + b"desk\0" + bytes(3) + bytes(4))
    statistics = block(5, struct.pack("<III", 0, 0, 5))
    others = block(0xBAD, struct.pack("<I", 32473) + b"kept") + block(0x7FFF_FFFF, bytes(1_000))
    return b"".join(whole + names + statistics + others for _, _, whole in blocks(file))


def twins(cases):
    """What real writers made of a classic capture is played as that capture."""
    first, second = read("first.pcap"), read("second.pcap")
    records = {"first": captured.read(first)[0]}
    records["both"] = sorted(records["first"] + captured.read(second)[0], key=lambda it: it[0])
    classic = {}
    for what, file in [("first", first), ("both", capture(*[(time / 10**9, data) for time, data in records["both"]]))]:
        classic[what] = cases.plays(f"classic-{what}", TWO, {"a.pcapng": file})
    for what, names in NAMES.items():
        for name in names:
            made = read(f"{name}.pcapng")
            for twin, file in [(name, made), (f"{name}-big-endian", big_endian(made)), (f"{name}-and-other-blocks", with_blocks(made))]:
                if captured.read(file) != (records[what], None):
                    sys.exit(f"{twin}: the capture isn't read as its classic twin")
                if without_names(cases.plays(f"pcapng-{twin}", TWO, {"a.pcapng": file})) != without_names(classic[what]):
                    sys.exit(f"{twin}: the capture isn't played as its classic twin")


def without_names(played):
    written, line = played
    return {file.rpartition("/")[2]: data for file, data in written.items()}, line


TWO = one_extender(2, {"x1.1": "a.pcapng"})


def rows(cases):
    """The capture of 140 bytes, and simple packets cut to what is stored."""
    one = {"out-x1.1.pcap": [], "out-x1.2.pcap": [(100, F)], "out-journal.txt": journal(*UP, *relays("x1.1 1"))}
    cases.runs("pcapng", TWO, {"a.pcapng": ROW}, one, summary(1, 1, 0, 1))
    cases.runs("pcapng-without-a-packet", TWO, {"a.pcapng": HEAD}, {"out-x1.1.pcap": [], "out-x1.2.pcap": [], "out-journal.txt": journal(*UP)},
               summary(0, 0, 0, 0))
    stored = F[:16]
    simple = block(3, struct.pack("<I", 60) + stored)
    cases.runs("pcapng-cut-by-a-snapshot-length", TWO, {"a.pcapng": HEAD + block(1, struct.pack("<HHI", 1, 0, 16)) + simple},
               {"out-x1.1.pcap": [], "out-x1.2.pcap": [(0, stored)], "out-journal.txt": journal(*UP, *relays("x1.1 1"))}, summary(1, 1, 0, 1))
    # One capture of each format, merged by their moments.
    cases.runs("both-formats", one_extender(3, {"x1.1": "a.pcapng", "x1.2": "b.pcap"}),
               {"a.pcapng": ROW, "b.pcap": [(99, frame(source=TWO_STATION)), (101, frame(ONE, TWO_STATION))]},
               {"out-x1.1.pcap": [(99, frame(source=TWO_STATION)), (101, frame(ONE, TWO_STATION))], "out-x1.2.pcap": [(100, F)],
                "out-x1.3.pcap": [(99, frame(source=TWO_STATION)), (100, F)],
                "out-journal.txt": journal(*UP3, *relays("x1.2 1"), "tick 1", *relays("x1.1 1"), "tick 1", *relays("x1.2 2"))}, summary(3, 3, 0, 5))


TWO_STATION = b"\x02\x00\x00\x00\x00\x02"


def faults(cases):
    """The row's capture with a byte changed, or cut: status 4 and no file."""
    for name, place, byte, size, fault in [
            ("interface", 56, 1, 140, "Interface at 56"), ("cut", 0, 0x0A, 139, "Cut at 48"), ("cut-head", 0, 0x0A, 7, "Cut at 0"),
            ("first-bytes", 0, 0x0A, 3, "NotPcap at 0"), ("magic", 8, 0, 140, "Magic at 8"), ("version", 12, 2, 140, "Version at 12"),
            ("section-size", 24, 0x20, 140, "Length at 24"), ("size", 4, 0x1D, 140, "Length at 4"), ("interface-size", 32, 0x0C, 140, "Length at 36"),
            ("link-type", 36, 105, 140, "LinkType at 56"), ("time", 63, 0xFF, 140, "Time at 60"), ("stored", 71, 1, 140, "Length at 68"),
            ("last-size", 136, 0x58, 140, "Length at 136"), ("second-block", 48, 1, 140, "Length at 64")]:
        file = bytearray(ROW)
        file[place] = byte
        told = captured.read(bytes(file[:size]))[1]
        if told is None or fault != "%s at %d" % told:
            sys.exit(f"pcapng-{name}: the fault is {told}")
        cases.stops(f"pcapng-{name}", 4, TWO, {"a.pcapng": bytes(file[:size])}, f"exbr: capture x1.1: {fault}")
    slow = HEAD + block(1, struct.pack("<HHI", 1, 0, 0) + bytes.fromhex("090001000A000000"))
    cases.stops("pcapng-resolution", 4, TWO, {"a.pcapng": slow}, "exbr: capture x1.1: Resolution at 44")
    cases.stops("pcapng-257-interfaces", 4, TWO, {"a.pcapng": HEAD + ETHERNET * 257}, "exbr: capture x1.1: TooMany at 5148")


PARTS = [rows, twins, faults]
