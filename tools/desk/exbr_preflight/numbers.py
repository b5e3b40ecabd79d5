"""Which channels and groups are taken at each moment, and how many beats pass: read from the trace that the program writes.

The bridge asks its extenders for each number that it takes, and to clear each that it gives back. So the requests that leave the bridge
tell which numbers are taken below each of its ports: at their most in the middle of a change, when the old sets and the new ones have
one each.
"""
from __future__ import annotations

import struct
from dataclasses import dataclass, field
from typing import Iterable

from exbr_desk import plain

CONTROL, TAG, ECP, REQUEST = "0180c200000e", "893f", "8940", "1002"
PORT_CREATE, PORT_DELETE, REGISTER, UNREGISTER, REGISTER_MANY, UNREGISTER_MANY = range(2, 8)
CASCADE, FIRST_GROUP = 1, 0x1000
HEAD = struct.Struct(">BQH")


@dataclass
class Use:
    """How many numbers are taken below a port of the bridge: at the most within a segment, and at its end."""

    peak: int
    rest: int


@dataclass
class Segment:
    """The opening (command 0), or a command: beats, control frames that came in somewhere, the journal's lines of it, and by port of the
    bridge the use of both kinds of number, where it isn't that of the segment before."""

    command: int
    beats: int = 0
    control: int = 0
    lines: list[str] = field(default_factory=list)
    channels: dict[int, Use] = field(default_factory=dict)
    groups: dict[int, Use] = field(default_factory=dict)


class Numbers:
    """The numbers that are taken below each port of the bridge, request by request."""

    def __init__(self, tree: plain.Tree):
        self.tree = tree
        self.below: dict[tuple[int, int], int] = {}
        self.hung = {on: number for number, on in tree.on.items()}
        self.channels: dict[int, dict[tuple[int, int], int]] = {}
        self.groups: dict[int, set[int]] = {}

    def request(self, trunk: int, text: str) -> None:
        """Takes a frame that leaves the bridge at a port."""
        at, channel = 24, None
        if text.startswith(TAG, at):
            channel, at = int(text[at + 8:at + 12], 16) & 0xFFF, at + 16
        if not text.startswith(ECP + REQUEST, at):
            return
        data = bytes.fromhex(text[at + 12:])
        kind, _, length = HEAD.unpack_from(data)
        extender = self.hung.get(trunk) if channel is None else self.below.get((trunk, channel))
        self._take(trunk, extender, kind, data[HEAD.size:HEAD.size + length])

    def _take(self, trunk: int, extender: int | None, kind: int, body: bytes) -> None:
        groups, channels = self.groups.setdefault(trunk, set()), self.channels.setdefault(trunk, {})
        if kind == PORT_CREATE:
            port, what, channel = struct.unpack(">BBH", body)
            channels[extender, port] = channel
            if what == CASCADE:
                self.below[trunk, channel] = self.hung[64 * extender + port - 1]
        elif kind == PORT_DELETE:
            channels.pop((extender, body[0]), None)
        elif kind in (REGISTER, REGISTER_MANY):
            groups.update(ecid for ecid, _ in struct.iter_unpack(">HQ", body) if ecid >= FIRST_GROUP)
        elif kind in (UNREGISTER, UNREGISTER_MANY):
            groups.difference_update(ecid for ecid, in struct.iter_unpack(">H", body) if ecid >= FIRST_GROUP)


class Segments:
    """The segments of a trace of a run without captures, each of which ends with a line `settled`."""

    def __init__(self, tree: plain.Tree):
        self.numbers, self.done = Numbers(tree), []
        self.now = Segment(0)
        self._last: tuple[dict[int, int], dict[int, int]] = {}, {}

    def line(self, text: str) -> None:
        if text == "beat":
            self.now.beats += 1
        elif text.startswith("out b "):
            port, data = text[6:].split(" ")
            if data.startswith(CONTROL):
                trunk = int(port) - 1
                self.numbers.request(trunk, data)
                for uses, last, taken in zip((self.now.channels, self.now.groups), self._last, (self.numbers.channels, self.numbers.groups)):
                    _note(uses, last, trunk, len(taken.get(trunk, ())))
        elif text.startswith("in "):
            self.now.control += text.split(" ", 3)[3].startswith(CONTROL)
        elif text == "= settled":
            self.done.append(self.now)
            self.now = Segment(len(self.done))
        elif text.startswith("= ") and not text.startswith("= tick"):
            self.now.lines.append(text[2:])


def _note(uses: dict[int, Use], last: dict[int, int], trunk: int, count: int) -> None:
    """Notes how many numbers are taken now. `last` has how many were before."""
    use = uses.setdefault(trunk, Use(last.get(trunk, 0), count))
    use.peak, use.rest = max(use.peak, count), count
    last[trunk] = count


def segments_of(lines: Iterable[str], tree: plain.Tree) -> list[Segment]:
    found = Segments(tree)
    for text in lines:
        found.line(text)
    return found.done
