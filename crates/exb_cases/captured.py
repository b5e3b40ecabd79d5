"""A second reader of captures, written from the tables of the two formats and from nothing else.

read(bytes) gives the records, as pairs of a time in nanoseconds and a frame, and None or the first fault as a pair of its
name and its place.
"""

import struct

LONGEST = 262_144
LARGEST = 327_680
FIRST = b"\x0a\x0d\x0d\x0a"


def read(file):
    """The records of a capture of either format, and its first fault."""
    return pcapng(file) if file[:4] == FIRST else classic(file)


def classic(file):
    """The records of a classic capture, and its first fault."""
    forms = {
        b"\xa1\xb2\xc3\xd4": (">", 1_000_000),
        b"\xa1\xb2\x3c\x4d": (">", 1_000_000_000),
        b"\xd4\xc3\xb2\xa1": ("<", 1_000_000),
        b"\x4d\x3c\xb2\xa1": ("<", 1_000_000_000),
    }
    if file[:4] not in forms:
        return [], ("NotPcap", 0)
    order, units = forms[file[:4]]
    if len(file) < 24:
        return [], ("Cut", 0)
    if struct.unpack_from(order + "HH", file, 4) != (2, 4):
        return [], ("Version", 4)
    if struct.unpack_from(order + "I", file, 20) != (1,):
        return [], ("LinkType", 20)
    records, at = [], 24
    while at < len(file):
        if len(file) - at < 16:
            return records, ("Cut", at)
        seconds, fraction, stored, _ = struct.unpack_from(order + "IIII", file, at)
        if fraction >= units:
            return records, ("Time", at + 4)
        if stored > LONGEST:
            return records, ("Length", at + 8)
        if len(file) - at - 16 < stored:
            return records, ("Cut", at)
        records.append((seconds * 10**9 + fraction * (10**9 // units), file[at + 16 : at + 16 + stored]))
        at += 16 + stored
    return records, None


def rounded(n):
    """The next multiple of four."""
    return n + -n % 4


class Stop(Exception):
    """The first fault."""


def resolution(file, order, begin, end):
    """The power of ten of an interface's options."""
    first, at = None, begin
    while at < end:
        code, length = struct.unpack_from(order + "HH", file, at)
        if code == 0:
            break
        if at + 4 + length > end:
            raise Stop("Length", at)
        if code == 9 and first is None:
            first = (at, length, file[at + 4])
        at += 4 + rounded(length)
    if first is None:
        return 6
    at, length, value = first
    if length != 1 or value > 9:
        raise Stop("Resolution", at)
    return value


def block(file, b, state, records):
    """Reads the block at b, and gives where the next one begins."""
    left = len(file) - b
    if left < 12:
        raise Stop("Cut", b)
    order = state["order"]
    header = file[b : b + 4] == FIRST
    if header:
        order = {b"\x1a\x2b\x3c\x4d": ">", b"\x4d\x3c\x2b\x1a": "<"}.get(file[b + 8 : b + 12])
    if order is None:
        raise Stop("Magic", b + 8)
    kind, size = struct.unpack_from(order + "II", file, b)
    known = header or kind in (1, 3, 6)
    if size < 12 or size % 4 or (known and size > LARGEST):
        raise Stop("Length", b + 4)
    if left < size:
        raise Stop("Cut", b)
    if not known:
        return b + size
    if struct.unpack_from(order + "I", file, b + size - 4) != (size,):
        raise Stop("Length", b + size - 4)
    if header:
        if size < 28:
            raise Stop("Length", b + 4)
        if struct.unpack_from(order + "H", file, b + 12) != (1,):
            raise Stop("Version", b + 12)
        state.update(order=order, interfaces=[])
    elif kind == 1:
        if size < 20:
            raise Stop("Length", b + 4)
        if len(state["interfaces"]) == 256:
            raise Stop("TooMany", b)
        link, _, snap = struct.unpack_from(order + "HHI", file, b + 8)
        state["interfaces"].append((link, snap, resolution(file, order, b + 16, b + size - 4)))
    else:
        records.append(packet(file, b, kind, size, order, state))
        state["time"] = records[-1][0]
    return b + size


def packet(file, b, kind, size, order, state):
    """The time and the frame of an enhanced or a simple packet."""
    enhanced = kind == 6
    least, head, number_at = (32, 28, b + 8) if enhanced else (16, 12, b)
    if size < least:
        raise Stop("Length", b + 4)
    number = struct.unpack_from(order + "I", file, b + 8)[0] if enhanced else 0
    if number >= len(state["interfaces"]):
        raise Stop("Interface", number_at)
    link, snap, digits = state["interfaces"][number]
    if link != 1:
        raise Stop("LinkType", number_at)
    time = state["time"]
    if enhanced:
        high, low = struct.unpack_from(order + "II", file, b + 12)
        units = high << 32 | low
        if units >= 2**32 * 10**digits:
            raise Stop("Time", b + 12)
        time = units * 10 ** (9 - digits)
    length_at = b + (20 if enhanced else 8)
    length = struct.unpack_from(order + "I", file, length_at)[0]
    if not enhanced and snap:
        length = min(length, snap)
    if length > LONGEST or least + rounded(length) > size:
        raise Stop("Length", length_at)
    return time, file[b + head : b + head + length]


def pcapng(file):
    """The records of a pcapng file, and its first fault."""
    records, state, b = [], {"order": None, "interfaces": [], "time": 0}, 0
    try:
        while b < len(file):
            b = block(file, b, state, records)
    except Stop as stop:
        return records, stop.args
    return records, None
