"""The probes played by the program, and where each of them left.

Each frame has a source address of its own, 02:ee and its number. So no frame changes where another one goes, and what left a port says
which frame it was.
"""
from __future__ import annotations

import os
import struct
from dataclasses import dataclass

from exbr_desk import journal, plain, play, stage
from exbr_desk.errors import DeskError
from exbr_desk.progress import Progress

from .moments import Course, bare
from .probes import ALL, LOCAL, TAG, Plan, Probe, source

BEGIN = 1_000_000
HEADER = struct.pack("<IHHIIII", 0xA1B23C4D, 2, 4, 0, 0, 262_144, 1)
RECORD = struct.Struct("<IIII")
# Of a record of an output: its length, and of its frame the number in the source address, the type, and a tag where it has one.
LEFT = struct.Struct("<8xI4x6x2xIHH")
TAGGED = 0x0081
BODY = b"\x88\xb5exbr-reach"
# A frame that no bridge relays. It stands at the beginning, so that seconds are counted from there.
CLOCK = bytes.fromhex("0180c2000000") + LOCAL + bytes(4) + BODY


def frame_of(number: int, probe: Probe) -> bytes:
    """The bytes of a probe."""
    to = ALL if probe.to is None else probe.to if isinstance(probe.to, bytes) else source(probe.to)
    return to + source(number) + (struct.pack(">HH", 0x8100, probe.vid) if probe.form == TAG else b"") + BODY


@dataclass
class Played:
    """What became of each probe: the ports where it left, and those among them where it did with a tag; both as sets."""

    reached: list[int]
    tagged: list[int]
    copies: int
    folder: str


def seconds_of(plan: Plan) -> list[int]:
    """The second of each moment."""
    return [moment.number for moment in plan.moments]


def records(plan: Plan, seconds: list[int]) -> dict[int, bytearray]:
    """The captures of all senders."""
    found: dict[int, bytearray] = {}
    inside = before = 0
    for number, probe in enumerate(plan.probes):
        second = BEGIN + seconds[probe.moment]
        inside = inside + 1 if second == before else 1
        before = second
        frame = frame_of(number, probe)
        record = found.setdefault(probe.sender, bytearray(HEADER))
        record += RECORD.pack(second, inside, len(frame), len(frame))
        record += frame
    return found


def with_clock(captures: dict[int, bytearray], port: int) -> None:
    """Puts a frame at the beginning of time into the capture of a port."""
    content = captures.setdefault(port, bytearray(HEADER))
    content[len(HEADER):len(HEADER)] = RECORD.pack(BEGIN, 0, len(CLOCK), len(CLOCK)) + CLOCK


def put(course: Course, plan: Plan, folder: str, tables: dict | None = None) -> str:
    """Writes captures into a folder, and gives the text of the topology."""
    captures = records(plan, seconds_of(plan))
    with_clock(captures, course.given.external[0])
    names = {}
    for port, content in captures.items():
        name = names[plain.name_of(port)] = f"in-{plain.name_of(port)}.pcap"
        with open(os.path.join(folder, name), "wb") as out:
            out.write(content)
    return play.written((tables or bare(course.given)) | {"captures": names})


def played(course: Course, plan: Plan, exbr: str, folder: str) -> Played:
    """Has the program play the probes in a folder."""
    if not course.given.external:
        return Played([], [], 0, folder)
    stage.run(exbr, put(course, plan, folder), folder)
    check_course(course, folder)
    return collected(course, plan, folder)


def check_course(course: Course, folder: str) -> None:
    """What the run says of ports and commands has to be what it said without the probes."""
    lines = [line.text for line in journal.lines(os.path.join(folder, "out-journal.txt")) if line.kind in ("up", "noup", "commit", "refuse")]
    if lines != course.lines:
        raise DeskError("the program says something else of ports and commands beside the probes than without them")


def collected(course: Course, plan: Plan, folder: str, strict: bool = True) -> Played:
    """Reads all that left. Where frames meet commands on their way, one without a tag may pass in another VLAN than it was meant for."""
    reached, tagged, copies = [0] * len(plan.probes), [0] * len(plan.probes), 0
    progress = Progress("reading what left", len(course.given.external))
    for place, port in enumerate(course.given.external):
        with open(os.path.join(folder, f"out-{plain.name_of(port)}.pcap"), "rb") as file:
            data = file.read()
        if len(data) > 24:
            copies += _collect(data, 1 << port, plan.probes if strict else None, reached, tagged)
        progress.at(place)
    progress.end()
    return Played(reached, tagged, copies, folder)


def _collect(data: bytes, bit: int, probes: list[Probe] | None, reached: list[int], tagged: list[int]) -> int:
    """Takes the records of one output. A copy with the tag of another VLAN than that of its probe can't be."""
    at, end, copies, unpack = 24, len(data), 0, LEFT.unpack_from
    while at < end:
        length, number, kind, tag = unpack(data, at)
        reached[number] |= bit
        if kind == TAGGED:
            tagged[number] |= bit
            if probes is not None and (tag << 8 | tag >> 8) & 0xFFF != probes[number].vid:
                raise DeskError(f"probe {number} of VLAN {probes[number].vid} left with another tag")
        at += 16 + length
        copies += 1
    return copies
