"""The lines of a trace, and the way of each frame in it.

A frame keeps its bytes but for its tags, so two frames may look the same. Which is which is told by order: on each direction of each
link frames come in as they went out, and at each port they come as its capture has them.
"""
from __future__ import annotations

import re
from collections import deque
from dataclasses import dataclass
from typing import Iterable, Iterator, NamedTuple

from . import frames, journal, plain
from .errors import DeskError
from .reading import Where
from .topology import Topology

CONTROL = "0180c200000e"
HEX = re.compile("[0-9a-f]*").fullmatch
BEAT, SAID, IN, OUT = "beat", "=", "in", "out"


@dataclass(frozen=True)
class Hop:
    """A line of the trace with a frame: where it goes in or out. `device` is 0 for the bridge, `side` the port, or 0 for upstream."""

    line: int
    way: str
    device: int
    side: int
    frame: bytes

    @property
    def place(self) -> str:
        if not self.device:
            return f"b{self.side}"
        return f"x{self.device}.{self.side}" if self.side else f"x{self.device} upstream"

    def words(self) -> str:
        etag = frames.etag_of(self.frame)
        inner = frames.without_etag(self.frame) if etag else self.frame
        tags = (etag.words() + ", " if etag else "") + frames.tag_in_words(inner)
        return f"{'into' if self.way == IN else 'out of'} {'the bridge' if not self.device else f'x{self.device}'} " \
               f"at {self.place}: {tags}"


class Spoken(NamedTuple):
    """A line of the trace: `beat`, a line of the journal, or a frame as text."""

    number: int
    kind: str
    device: int = 0
    side: int = 0
    data: str = ""


def spoken(path: str) -> Iterator[Spoken]:
    """The lines of a trace. One in no form of a line is a fault."""
    return spoken_in(path, journal.texts(path))


def spoken_in(path: str, texts: Iterable[str]) -> Iterator[Spoken]:
    """The same of lines that are those of a file."""
    places: dict[tuple[str, str], tuple[int, int]] = {}
    for number, text in enumerate(texts, 1):
        if text == BEAT:
            yield Spoken(number, BEAT)
        elif text.startswith("= "):
            yield Spoken(number, SAID, data=text[2:])
        else:
            words = text.split(" ")
            place = places.get((words[1], words[2])) if len(words) == 4 else None
            if place is None and len(words) == 4:
                place = places[words[1], words[2]] = _place(words[1], words[2])
            if place is None or words[0] not in (IN, OUT) or len(words[3]) % 2 or not HEX(words[3]):
                raise DeskError(f"{path}: line {number} is no line of a trace: {text[:60]}")
            yield Spoken(number, words[0], *place, words[3])


def _place(device: str, side: str) -> tuple[int, int] | None:
    """The device and side of a line with a frame, if they are ones."""
    if not (side == "up" and device != "b") and not (side.isdigit() and plain.is_port(f"b{side}")):
        return None
    if device != "b" and not plain.is_port(f"{device}.1"):
        return None
    return int(device[1:] or 0), 0 if side == "up" else int(side)


class Ways:
    """Follows all frames of a trace. `faults` has what can't be."""

    def __init__(self, topology: Topology):
        self.external = set(topology.external)
        self.below = {on: number for number, (on, _) in topology.extenders.items()}
        self.on_link: dict[tuple[int, str], deque[Where]] = {}
        self.count: dict[int, int] = {}
        self.here: Where | None = None
        self.faults: list[str] = []

    def named(self, lines: Iterator[Spoken]) -> Iterator[tuple[Spoken, Where | None]]:
        """Each line with the record of which it is: a line of a journal with the one that the device has just taken."""
        for line in lines:
            if line.kind == BEAT:
                self.here = None
            elif line.kind == IN:
                self.here = self._came(line)
            elif line.kind == SAID:
                self._said(line)
            yield line, self._went(line) if line.kind == OUT else self.here

    def _said(self, line: Spoken) -> None:
        told = journal.line_of(line.data, line.number)
        if told is None or told.kind not in ("relay", "ignore"):
            self.here = self.here if told and told.kind in ("commit", "refuse", "up", "noup") else None
        elif (told.port, told.value) != self.here:
            name = f"frame {self.here[1]} of {plain.name_of(self.here[0])}" if self.here else "no frame"
            self.faults.append(f"line {line.number} says '{line.data}', and {name} has just come in")
            self.here = told.port, told.value

    def _came(self, line: Spoken) -> Where | None:
        """The record of a frame that comes into a device."""
        port = 64 * line.device + line.side - 1
        if line.side and port in self.external:
            self.count[port] = self.count.get(port, 0) + 1
            return port, self.count[port]
        if line.data.startswith(CONTROL):
            return None
        link = (line.device, "down") if not line.side else (self.below.get(port, 0), "up")
        waiting = self.on_link.get(link)
        if not waiting:
            self.faults.append(f"line {line.number}: a frame comes in that didn't go out at the other end")
            return None
        return waiting.popleft()

    def _went(self, line: Spoken) -> Where | None:
        """The record of a frame that goes out of a device."""
        port = 64 * line.device + line.side - 1
        if line.side and port in self.external:
            return self.here
        if line.data.startswith(CONTROL) or self.here is None:
            return None
        link = (line.device, "up") if not line.side else (self.below.get(port, 0), "down")
        self.on_link.setdefault(link, deque()).append(self.here)
        return self.here


def held(line: Spoken, texts: Iterator[tuple[int, str]], told: str, rest: list[str]) -> tuple[Iterator | None, list[str]]:
    """A line of the journal in a trace against the next one of the journal itself. After the first that differs no more are looked at."""
    number, text = next(texts, (0, None))
    if text == line.data:
        return texts, rest
    is_told = f"line {number} of {told} is '{text}'" if text is not None else f"{told} is at its end"
    return None, [f"line {line.number} is '= {line.data}', and {is_told}"]


def hops(topology: Topology, path: str, wanted: set[Where], told: str | None = None) -> tuple[dict[Where, list[Hop]], list[str]]:
    """The hops of some records, and what in the trace can't be. Where a journal is `told`, its lines have to be those of the trace."""
    found: dict[Where, list[Hop]] = {it: [] for it in wanted}
    ways, rest, texts = Ways(topology), [], enumerate(journal.texts(told), 1) if told else None
    for line, where in ways.named(spoken(path)):
        if where in found and line.kind in (IN, OUT):
            found[where].append(Hop(line.number, line.kind, line.device, line.side, bytes.fromhex(line.data)))
        elif line.kind == SAID and texts is not None:
            texts, rest = held(line, texts, told, rest)
    if texts is not None and (behind := next(texts, None)):
        rest.append(f"it ends, and line {behind[0]} of {told} is '{behind[1]}'")
    return found, ways.faults + rest
