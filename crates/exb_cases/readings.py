"""Captures in hexadecimal digits, and what is read of each: the moment in nanoseconds and the length of each record, and then the first fault with its place.

Both formats: good ones, cut before each byte, with each bit turned, with zeros behind them, with each field at a limit and beyond it, and with two faults, of which
the first counts. A second reader (captured.py) has to say the same of each, and so has the program, as `./test` plays it: it names the fault, or plays the records.
"""
import captured
from spellings import at, of_bit


def bytes_of(text):
    """The bytes of a text of hexadecimal digits, where 3x00 is three zeros."""
    made = b""
    for word in text.split():
        times, _, digits = word.rpartition("x")
        made += bytes.fromhex(digits) * int(times or 1)
    return made


def told(file):
    """What the second reader says of a file."""
    records, fault = captured.read(file)
    return " ".join([f"{moment} {len(frame)};" for moment, frame in records] + ["%s(%d)" % it for it in [fault] if it])


# In each order of bytes and each resolution: a record in microseconds by a little-endian machine, of a frame that the tool has cut; two in nanoseconds by a big-endian
# one, where the time falls; and the other two orders and resolutions, with no byte of a frame. Under four bytes there is no magic, and under 24 the header is cut. The
# capture; what is read of it; what is read where it is cut before a place, `PLACE VERDICT |` up to the next entry's place; the same with a bit turned,
# `FIRST-LAST.BITS VERDICT |`, of which the first entry counts that has the place and the bit, and no bit is turned that none has; and with zeros behind it up to a length,
# `LENGTH VERDICT |` up to the next entry's length. `same` is what is read of the whole, and `empty` neither record nor fault.
CASES = [
    ("D4C3B2A1 0200 0400 00000000 00000000 FFFF0000 01000000 64000000 02000000 03000000 40000000 AABBCC",
     "100000002000 3;",
     "0 NotPcap | 4 Cut(0) | 24 empty | 25 Cut(24)",
     "0-3 NotPcap | 4-7 Version | 8-19 same | 20-23 LinkType | 24.02 102000002000 3; | 24.04 96000002000 3; | 24.08 108000002000 3; | 24.10 "
     "116000002000 3; | 24.20 68000002000 3; | 24.40 36000002000 3; | 24.80 228000002000 3; | 24 101000002000 3; | 25.02 612000002000 3; | 25.04 "
     "1124000002000 3; | 25.08 2148000002000 3; | 25.10 4196000002000 3; | 25.20 8292000002000 3; | 25.40 16484000002000 3; | 25.80 32868000002000 "
     "3; | 25 356000002000 3; | 26.02 131172000002000 3; | 26.04 262244000002000 3; | 26.08 524388000002000 3; | 26.10 1048676000002000 3; | 26.20 "
     "2097252000002000 3; | 26.40 4194404000002000 3; | 26.80 8388708000002000 3; | 26 65636000002000 3; | 27.02 33554532000002000 3; | 27.04 "
     "67108964000002000 3; | 27.08 134217828000002000 3; | 27.10 268435556000002000 3; | 27.20 536871012000002000 3; | 27.40 1073741924000002000 "
     "3; | 27.80 2147483748000002000 3; | 27 16777316000002000 3; | 28.02 100000000000 3; | 28.04 100000006000 3; | 28.08 100000010000 3; | 28.10 "
     "100000018000 3; | 28.20 100000034000 3; | 28.40 100000066000 3; | 28.80 100000130000 3; | 28 100000003000 3; | 29.02 100000514000 3; | 29.04 "
     "100001026000 3; | 29.08 100002050000 3; | 29.10 100004098000 3; | 29.20 100008194000 3; | 29.40 100016386000 3; | 29.80 100032770000 3; | 29 "
     "100000258000 3; | 30.01 100065538000 3; | 30.02 100131074000 3; | 30.04 100262146000 3; | 30.08 100524290000 3; | 30-31 Time(28) | 32.01 "
     "100000002000 2; Cut(42) | 32.02 100000002000 1; Cut(41) | 32-33 Cut(24) | 34.03 Cut(24) | 34-35 Length(32) | 36-42 same",
     "0 100000002000 3; Cut(43) | 59 100000002000 3; 0 0;"),
    ("A1B23C4D 0002 0004 00000000 00000000 0000FFFF 00000001 00000064 3B9AC9FF 00000002 00000040 AABB 00000063 00000000 00000001 00000001 CC",
     "100999999999 2; 99000000000 1;",
     "0 NotPcap | 4 Cut(0) | 24 empty | 25 Cut(24) | 42 100999999999 2; | 43 100999999999 2; Cut(42)",
     "0-3 NotPcap | 4-7 Version | 8-19 same | 20-23 LinkType | 36-41 same | 58 same",
     "0 100999999999 2; 99000000000 1; Cut(59) | 75 100999999999 2; 99000000000 1; 0 0;"),
    ("4D3CB2A1 0200 0400 00000000 00000000 FFFF0000 01000000 64000000 FFC99A3B 00000000 40000000",
     "100999999999 0;",
     "0 NotPcap | 4 Cut(0) | 24 empty | 25 Cut(24)",
     "0-3 NotPcap | 4-7 Version | 8-19 same | 20-23 LinkType | 36-39 same",
     "0 100999999999 0; Cut(40) | 56 100999999999 0; 0 0;"),
    ("A1B2C3D4 0002 0004 00000000 00000000 0000FFFF 00000001 00000064 000F423F 00000000 00000040",
     "100999999000 0;",
     "0 NotPcap | 4 Cut(0) | 24 empty | 25 Cut(24)",
     "0-3 NotPcap | 4-7 Version | 8-19 same | 20-23 LinkType | 36-39 same",
     "0 100999999000 0; Cut(40) | 56 100999999000 0; 0 0;"),
]

# A broadcast at 100 s, what stands in its place with each fault, and two bytes of a frame of 64 at 100 s and 999 ns by a big-endian machine.
CLASSIC = [
    ("D4C3B2A1 0200 0400 00000000 00000000 FFFF0000 01000000 64000000 00000000 3C000000 3C000000 6xFF 020000000001 0800 46x00", "100000000000 60;"),
    ("D4C3B2A1 0200 0400 00000000 00000000 FFFF0000 01000000", ""),
    ("D4C3B2", "NotPcap(0)"),
    ("D4C3B2A1 0200 0400 00000000 00000000 FFFF0000 010000", "Cut(0)"),
    ("D4C3B2A1 0200 0300 00000000 00000000 FFFF0000 01000000 64000000 00000000 3C000000 3C000000 6xFF 020000000001 0800 46x00", "Version(4)"),
    ("D4C3B2A1 0200 0400 00000000 00000000 FFFF0000 69000000 64000000 00000000 3C000000 3C000000 6xFF 020000000001 0800 46x00", "LinkType(20)"),
    ("D4C3B2A1 0200 0400 00000000 00000000 FFFF0000 01000000 64000000 00000000 3C000000 3C0000", "Cut(24)"),
    ("D4C3B2A1 0200 0400 00000000 00000000 FFFF0000 01000000 64000000 40420F00 3C000000 3C000000 6xFF 020000000001 0800 46x00", "Time(28)"),
    ("D4C3B2A1 0200 0400 00000000 00000000 FFFF0000 01000000 64000000 00000000 FFFFFFFF 3C000000 6xFF 020000000001 0800 46x00", "Length(32)"),
    ("D4C3B2A1 0200 0400 00000000 00000000 FFFF0000 01000000 64000000 00000000 3C000000 3C000000 6xFF 020000000001 0800 45x00", "Cut(24)"),
    ("A1B23C4D 0002 0004 00000000 00000000 0000FFFF 00000001 00000064 000003E7 00000002 00000040 AABB", "100000000999 2;"),
]

# Headers with each field at a limit, and beyond.
HEADERS = [
    # Magics that are none; a file that begins as pcapng is read as that.
    ("", "NotPcap(0)"),
    ("00", "NotPcap(0)"),
    ("D4C3B2", "NotPcap(0)"),
    ("00000000 20x00", "NotPcap(0)"),
    ("0A0D0D0A 20x00", "Magic(8)"),
    ("A1B2CD34 0002 0004 00000000 00000000 0000FFFF 00000001", "NotPcap(0)"),
    ("34CDB2A1 0200 0400 00000000 00000000 FFFF0000 01000000", "NotPcap(0)"),
    # Versions, which are tried before the link type, and both behind the length of the header.
    ("D4C3B2A1 0200 0300 00000000 00000000 FFFF0000 01000000", "Version(4)"),
    ("D4C3B2A1 0100 0400 00000000 00000000 FFFF0000 01000000", "Version(4)"),
    ("D4C3B2A1 0004 0002 00000000 00000000 FFFF0000 00000001", "Version(4)"),
    ("D4C3B2A1 0000 0000 00000000 00000000 FFFF0000 69000000", "Version(4)"),
    ("D4C3B2A1 19x00", "Cut(0)"),
    # Link types.
    ("D4C3B2A1 0200 0400 00000000 00000000 FFFF0000 00000000", "LinkType(20)"),
    ("D4C3B2A1 0200 0400 00000000 00000000 FFFF0000 69000000", "LinkType(20)"),
    ("D4C3B2A1 0200 0400 00000000 00000000 FFFF0000 01000010", "LinkType(20)"),
    ("D4C3B2A1 0200 0400 00000000 00000000 FFFF0000 00000001", "LinkType(20)"),
    ("D4C3B2A1 0200 0400 00000000 00000000 FFFF0000 FFFFFFFF 01", "LinkType(20)"),
    # Whatever zone, accuracy and length of a frame the header has.
    ("D4C3B2A1 0200 0400 FFFFFFFF FFFFFFFF 00000000 01000000 00000000 00000000 00000000 00000000", "0 0;"),
    ("D4C3B2A1 0200 0400 00000080 01000000 FFFFFFFF 01000000 00000000 00000000 00000000 00000000", "0 0;"),
]

# Headers for microseconds and for nanoseconds, by a little-endian machine, and records behind them.
MICROSECOND_HEAD = "D4C3B2A1 0200 0400 00000000 00000000 FFFF0000 01000000 "

MICROSECONDS = [
    # Times.
    ("00000000 00000000 00000000 00000000", "0 0;"),
    ("FFFFFFFF 3F420F00 00000000 00000000", "4294967295999999000 0;"),
    ("FFFFFFFF 40420F00 00000000 00000000", "Time(28)"),
    ("00000000 FFFFFFFF 00000000 00000000", "Time(28)"),
    # A time is tried before a length, and both before the frame.
    ("00000000 40420F00 FFFFFFFF 00000000", "Time(28)"),
    ("00000000 00000000 01000400 00000000", "Length(32)"),
    ("00000000 00000000 FFFFFFFF 00000000", "Length(32)"),
    ("00000000 40420F00 01000000 00000000", "Time(28)"),
    # The longest frame, one that is a byte short, and one that is a byte longer.
    ("01000000 00000000 00000400 00000000 262144x55", "1000000000 262144;"),
    ("01000000 00000000 00000400 00000000 262143x55", "Cut(24)"),
    ("01000000 00000000 01000400 00000000 262145x55", "Length(32)"),
    ("01000000 00000000 00000400 00000000 262145x55", "1000000000 262144; Cut(262184)"),
    # The original length is not looked at.
    ("00000000 00000000 01000000 00000000 55", "0 1;"),
    ("00000000 00000000 01000000 FFFFFFFF 55", "0 1;"),
    # A fault in the second record, and none is looked for behind it.
    ("01000000 00000000 02000000 02000000 5555 02000000 40420F00 00000000 00000000", "1000000000 2; Time(46)"),
    ("01000000 00000000 02000000 02000000 5555 02000000 00000000 01000400 00000000 55", "1000000000 2; Length(50)"),
    ("01000000 00000000 02000000 02000000 5555 02000000 00000000 01000000 00000000 55 03", "1000000000 2; 2000000000 1; Cut(59)"),
    ("01000000 00000000 02000000 02000000 5555 02000000 00000000 02000000 00000000 55", "1000000000 2; Cut(42)"),
]

NANOSECOND_HEAD = "4D3CB2A1 0200 0400 00000000 00000000 FFFF0000 01000000 "

NANOSECONDS = [
    ("00000000 40420F00 00000000 00000000", "1000000 0;"),
    ("FFFFFFFF FFC99A3B 00000000 00000000", "4294967295999999999 0;"),
    ("FFFFFFFF 00CA9A3B 00000000 00000000", "Time(28)"),
    ("00000000 FFFFFFFF 00000000 00000000", "Time(28)"),
]

# A section's header of pcapng, little-endian and big-endian, and an interface of Ethernet.
HEAD = "0A0D0D0A 1C000000 4D3C2B1A 01000000 8xFF 1C000000"
BIG = "0A0D0D0A 0000001C 1A2B3C4D 00010000 8xFF 0000001C"
ETHERNET = "01000000 14000000 01000000 00000400 14000000"

# A broadcast of 60 bytes at 100 seconds: 140 bytes.
ROW = f"{HEAD} {ETHERNET} 06000000 5C000000 00000000 00000000 00E1F505 3C000000 3C000000 6xFF 020000000001 0800 46x00 5C000000"


def packet(interface="00000000", high="00000000", low="00E1F505", stored="04000000", size="24000000", frame="08090A0B"):
    """An enhanced packet of four bytes, or with parts of it changed."""
    return f"06000000 {size} {interface} {high} {low} {stored} 04000000 {frame} {size}"


def interface(options="", size=None, link="0100", snap="00000000"):
    """An interface with options."""
    size = size or (20 + len(bytes_of(options))).to_bytes(4, "little").hex().upper()
    return f"01000000 {size} {link}0000 {snap} {options} {size}"


def simple(length, size="14000000", frame="08090A0B"):
    """A simple packet."""
    return f"03000000 {size} {length} {frame} {size}"


# Sizes of blocks, and what isn't all there. Each stands behind HEAD, as all below do.
SIZES = [
    ("", ""),
    ("01", "Cut(28)"),
    ("05000000 08000000 00000000", "Length(32)"),
    ("05000000 0D000000 00000000 00", "Length(32)"),
    ("05000000 00000000 00000000", "Length(32)"),
    ("01000000 04000500 00000000", "Length(32)"),
    ("03000000 04000500 00000000", "Length(32)"),
    ("06000000 04000500 00000000", "Length(32)"),
    ("0A0D0D0A 04000500 4D3C2B1A", "Length(32)"),
    ("05000000 04000500 00000000", "Cut(28)"),
    ("06000000 00000500 00000000", "Cut(28)"),
    # What isn't all there.
    ("05000000 10000000 00000000", "Cut(28)"),
    ("01000000 14000000 01000000 00000000", "Cut(28)"),
    ("06000000 24000000 00000000", "Cut(28)"),
    # The size at the end.
    ("01000000 14000000 01000000 00000400 18000000", "Length(44)"),
    ("06000000 0C000000 0D000000", "Length(36)"),
    ("05000000 0C000000 0D000000", ""),
    ("0A0D0D0A 0C000000 4D3C2B1A", "Length(36)"),
]

# Headers of sections.
SECTIONS = [
    ("0A0D0D0A 1C000000 4D3C2B1B 01000000 8xFF 1C000000", "Magic(36)"),
    ("0A0D0D0A 10000000 4D3C2B1A 10000000", "Length(32)"),
    ("0A0D0D0A 18000000 4D3C2B1A 01000000 00000000 18000000", "Length(32)"),
    ("0A0D0D0A 1C000000 4D3C2B1A 02000000 8xFF 1C000000", "Version(40)"),
    ("0A0D0D0A 1C000000 4D3C2B1A 01000900 8x00 1C000000", ""),
    ("0A0D0D0A 20000000 4D3C2B1A 01000000 8xFF 00000000 20000000", ""),
    (ETHERNET + " " + HEAD + " " + packet(), "Interface(84)"),
    (ETHERNET + " " + BIG + " 00000001 00000014 00010000 00000000 00000014 00000006 00000024 00000000 00000000 00000007 00000001 00000001 AA000000 00000024", "7000 1;"),
]

# Interfaces and their options.
INTERFACES = [
    ("01000000 10000000 01000000 10000000", "Length(32)"),
    (interface("00000000"), ""),
    (interface("0000FFFF"), ""),
    (interface("09000100 06000000"), ""),
    (interface("09000100 09000000") + " " + packet(), "100000000 4;"),
    (interface("09000100 00000000") + " " + packet(low="05000000"), "5000000000 4;"),
    (interface("09000100 0A000000"), "Resolution(44)"),
    (interface("09000100 86000000"), "Resolution(44)"),
    (interface("09000200 06060000"), "Resolution(44)"),
    (interface("09000000"), "Resolution(44)"),
    (interface("09000100"), "Length(44)"),
    (interface("02000400"), "Length(44)"),
    (interface("02000500 61616161"), "Length(44)"),
    (interface("02000300 61616100 09000100 03000000 00000000") + " " + packet(), "100000000000000 4;"),
    (interface("09000100 03000000 09000100 0A000000") + " " + packet(), "100000000000000 4;"),
    (interface("09000100 0A000000 02000100"), "Length(52)"),
    (interface("00000000 09000100 0A000000") + " " + packet(), "100000000000 4;"),
    (interface(link="6900"), ""),
]

# Enhanced packets, by their interfaces and times.
ENHANCED = [
    (packet(), "Interface(36)"),
    (ETHERNET + " " + packet(), "100000000000 4;"),
    (ETHERNET + " " + packet(interface="01000000"), "Interface(56)"),
    (ETHERNET + " " + packet(interface="FFFFFFFF"), "Interface(56)"),
    (ETHERNET + " 06000000 1C000000 00000000 00000000 00000000 00000000 1C000000", "Length(52)"),
    (interface(link="6900") + " " + packet(), "LinkType(56)"),
    (interface(link="6900") + " " + ETHERNET + " " + packet(interface="01000000"), "100000000000 4;"),
    (ETHERNET + " " + packet(high="3F420F00", low="FFFFFFFF"), "4294967295999999000 4;"),
    (ETHERNET + " " + packet(high="40420F00", low="00000000"), "Time(60)"),
    (ETHERNET + " " + packet(high="FFFFFFFF", low="FFFFFFFF"), "Time(60)"),
    (interface("09000100 09000000") + " " + packet(high="FFC99A3B", low="FFFFFFFF"), "4294967295999999999 4;"),
    (interface("09000100 09000000") + " " + packet(high="00CA9A3B", low="00000000"), "Time(68)"),
    (interface("09000100 00000000") + " " + packet(low="FFFFFFFF"), "4294967295000000000 4;"),
    (interface("09000100 00000000") + " " + packet(high="01000000"), "Time(68)"),
]

# Enhanced packets, by what is stored of them.
STORED = [
    (ETHERNET + " " + packet(stored="05000000"), "Length(68)"),
    (ETHERNET + " " + packet(stored="01000000"), "100000000000 1;"),
    (ETHERNET + " " + packet(stored="01000400"), "Length(68)"),
    (ETHERNET + " " + packet(stored="FFFFFFFF"), "Length(68)"),
    (ETHERNET + " " + packet(stored="00000000", size="20000000", frame=""), "100000000000 0;"),
    (ETHERNET + " " + packet(size="2C000000", frame="08090A0B 01000400"), "Cut(48)"),
]

# Simple packets.
SIMPLE = [
    (simple("04000000"), "Interface(28)"),
    (ETHERNET + " 03000000 0C000000 0C000000", "Length(52)"),
    (ETHERNET + " " + simple("04000000"), "0 4;"),
    (ETHERNET + " " + simple("05000000"), "Length(56)"),
    (ETHERNET + " " + simple("01000400"), "Length(56)"),
    (ETHERNET + " " + simple("00000000", size="10000000", frame=""), "0 0;"),
    (interface(link="6900") + " " + simple("04000000"), "LinkType(48)"),
    (interface(snap="02000000") + " " + simple("FFFFFFFF"), "0 2;"),
    (interface(snap="FFFFFFFF") + " " + simple("03000000"), "0 3;"),
    (ETHERNET + " " + packet() + " " + simple("04000000") + " " + HEAD + " " + ETHERNET + " " + simple("02000000"), "100000000000 4; 100000000000 4; 100000000000 2;"),
]

# Blocks that are skipped: of names, of statistics, custom ones, and such without content.
SKIPPED = [
    (ETHERNET + " 04000000 14000000 00000000 00000000 14000000 05000000 10000000 00000000 10000000 AD0B0000 10000000 01020304 10000000 " + packet(), "100000000000 4;"),
    ("05000000 0C000000 FFFFFFFF " + ETHERNET + " " + packet(), "100000000000 4;"),
    ("02000000 0C000000 0C000000", ""),
    ("00000000 0C000000 0C000000", ""),
    # One that is longer than what is kept of a file at a time, whole and cut.
    ("05000000 80841E00 1999992x07", ""),
    ("05000000 80841E00 1999991x07", "Cut(28)"),
]

# A time of 5 in each unit.
UNITS = [(interface(f"09000100 0{digits}000000") + " " + packet(low="05000000"), f"{5 * 10 ** (9 - digits)} 4;") for digits in range(10)]

# As many interfaces as a section may have, and one more.
MANY = [(" ".join([ETHERNET] * 256), ""), (" ".join([ETHERNET] * 257), "TooMany(5148)")]

# Blocks behind BIG.
BIG_BLOCKS = [
    ("00000001 00000014 00010000 00000000 00000014 00000006 00000024 00000000 00000000 00000007 00000001 00000001 AA000000 00000024", "7000 1;"),
    ("00000001 0000001C 00010000 00000000 00090001 09000000 0000001C 00000006 00000024 00000000 00000000 00000007 00000001 00000001 AA000000 00000024", "7 1;"),
    ("01000000 14000000 01000000 00000400 14000000", "Cut(28)"),
    ("00000001 00000014 01000000 00000000 00000014 00000006 00000024 00000000 00000000 00000007 00000001 00000001 AA000000 00000024", "LinkType(56)"),
    ("00000003 00000010 00000000 00000010", "Interface(28)"),
    ("00000001 00000014 00010000 00000002 00000014 00000003 00000014 00000009 08090A0B 00000014", "0 2;"),
]

# The length to which ROW is cut.
CUTS = [(0, "NotPcap(0)"), (3, "NotPcap(0)"), (4, "Cut(0)"), (27, "Cut(0)"), (28, ""), (39, "Cut(28)"), (48, ""), (139, "Cut(48)"), (140, "100000000000 60;")]


def made_of(file, cut, turned, longer):
    """All that is made of a capture, with the verdict on each."""
    for place in range(len(file)):
        yield file[:place], at(cut, place)
        for bit in (1 << it for it in range(8)):
            yield file[:place] + bytes([file[place] ^ bit]) + file[place + 1 :], of_bit(turned, place, bit)
    for zeros in (1, 15, 16):
        yield file + bytes(zeros), at(longer, len(file) + zeros)


def of_case(capture, whole, cut, turned, longer):
    """A case, and all that is made of it, with what is read of each."""
    file, texts = bytes_of(capture), {"same": whole, "empty": "", "NotPcap": "NotPcap(0)", "Version": "Version(4)", "LinkType": "LinkType(20)"}
    made = [(other, verdict) for other, verdict in made_of(file, cut, turned, longer) if verdict is not None]
    return [(file, whole), *((other, texts.get(verdict, verdict)) for other, verdict in made)]


def behind(head, rows):
    return [(bytes_of(f"{head} {text}"), verdict) for text, verdict in rows]


def tables():
    """Each table by its name, with its files and what is read of each."""
    for number, case in enumerate(CASES, 1):
        yield f"classic, cut and turned {number}", of_case(*case)
    yield "classic, records", behind("", CLASSIC + HEADERS) + behind(MICROSECOND_HEAD, MICROSECONDS) + behind(NANOSECOND_HEAD, NANOSECONDS)
    for name, rows in [("sizes", SIZES), ("sections", SECTIONS), ("interfaces", INTERFACES + MANY), ("enhanced packets", ENHANCED + UNITS), ("what is stored", STORED),
                       ("simple packets", SIMPLE), ("skipped blocks", SKIPPED)]:
        yield f"pcapng, {name}", behind(HEAD, rows)
    yield "pcapng, big-endian", behind(BIG, BIG_BLOCKS)
    yield "pcapng, cut", [(bytes_of(ROW)[:size], verdict) for size, verdict in CUTS]
