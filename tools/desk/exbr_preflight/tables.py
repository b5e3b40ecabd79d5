"""Channels and groups below each port of the bridge: at rest, at the peak of the opening, and at the peak of each command.

The program plays the topology without captures. Played with its own limits it says which ports stay absent and which commands are refused.
Played with the widest limits that a topology may have, its trace says what would be needed.
"""
from __future__ import annotations

import os
from dataclasses import dataclass, field
from typing import Callable, Iterable

from exbr_desk import journal, plain, play, stage
from exbr_desk.errors import DeskError
from exbr_desk.topology import Topology

from .numbers import Segment, segments_of

CHANNELS, GROUPS = "channels", "groups"
WIDEST = {CHANNELS: 4094, GROUPS: 12288}
KINDS = (CHANNELS, GROUPS)


@dataclass(frozen=True)
class Refused:
    """A port that stays absent at the opening (`command` 0), or a command that is refused, and the cause in the program's words."""

    command: int
    port: int | None
    cause: str

    @property
    def kind(self) -> str:
        return self.cause.split()[0]

    @property
    def needed(self) -> int:
        return int(self.cause.split()[1])


@dataclass
class Need:
    """What one kind of number needs below a port of the bridge: at rest after the opening, at the peak of the opening, at the highest
    peak of a command and which command that is, and at rest at the end."""

    rest: int = 0
    opening: int = 0
    commands: int = 0
    worst: int | None = None
    end: int = 0

    @property
    def most(self) -> int:
        return max(self.opening, self.commands)


@dataclass
class Tables:
    """What is needed and what there is."""

    limits: dict[str, int]
    trunks: list[int]
    needs: dict[str, dict[int, Need]]
    refused: list[Refused]
    own: list[Segment]
    wide: list[Segment]
    beyond: list[Refused] = field(default_factory=list)

    @property
    def suffice(self) -> bool:
        return not self.refused

    def most(self, kind: str) -> int:
        """What the fullest port of the bridge needs: the least limit with which nothing is refused."""
        return max((need.most for need in self.needs[kind].values()), default=0)

    def least(self, kind: str) -> int:
        """The same as a limit, of which there is at least one."""
        return max(1, self.most(kind))


Played = Callable[[dict, bool], list[str]]
"""Plays tables without captures, and gives the lines of the trace, or of the journal."""


def without_captures(given: Topology, limits: dict[str, int] | None = None, fates: dict[int, str] | None = None) -> dict:
    """The tables of a topology as they are played here. Fates are its own, or those that are given by command, 0 being the links."""
    tables = {name: its for name, its in given.tables.items() if name not in ("captures", "links")}
    tables["bridge"] = {key: value for key, value in tables["bridge"].items() if key != "out"} | (limits or {})
    links = given.tables.get("links", {}).get("fate", "") if fates is None else fates.get(0, "")
    if links:
        tables["links"] = {"fate": links}
    if fates is not None and "command" in tables:
        commands = enumerate(tables["command"], 1)
        tables["command"] = [{key: value for key, value in it.items() if key != "fate"} | ({"fate": fates[at]} if fates.get(at) else {})
                             for at, it in commands]
    return tables


def player(exbr: str) -> Played:
    """Plays in a folder of its own, which is gone again when its lines were read."""
    def played(tables: dict, traced: bool) -> list[str]:
        with stage.room() as folder:
            stage.run(exbr, play.written(tables), folder, ["--trace"] if traced else [])
            return list(journal.texts(os.path.join(folder, "out-trace.txt" if traced else "out-journal.txt")))
    return played


def tables_of(given: Topology, played: Played) -> Tables:
    """Plays a topology with its own limits, and with the widest where these are others."""
    limits = dict(zip(KINDS, given.limits))
    own = segments_of(played(without_captures(given), True), given.tree)
    wide = own if limits == WIDEST else segments_of(played(without_captures(given, WIDEST, {}), True), given.tree)
    trunks = sorted(given.tree.extended.keys() | {given.tree.trunk(on) for on in given.tree.on.values()})
    return Tables(limits, trunks, {kind: needs_of(wide, trunks, kind) for kind in KINDS}, list(refused_in(own)), own, wide,
                  [] if wide is own else list(refused_in(wide)))


def needs_of(segments: list[Segment], trunks: list[int], kind: str) -> dict[int, Need]:
    """What is needed of one kind, by port of the bridge."""
    needs = {trunk: Need() for trunk in trunks}
    for segment in segments:
        _put(needs, segment.command, segment.channels if kind == CHANNELS else segment.groups)
    return needs


def _put(needs: dict[int, Need], command: int, uses: dict) -> None:
    for trunk, use in uses.items():
        need = needs[trunk]
        if not command:
            need.rest, need.opening = use.rest, use.peak
        elif use.peak > need.commands:
            need.commands, need.worst = use.peak, command
        need.end = use.rest


def refused_in(segments: Iterable[Segment]) -> Iterable[Refused]:
    for segment in segments:
        for line in segment.lines:
            found = journal.line_of(line)
            if found is not None and found.kind in ("noup", "refuse"):
                yield Refused(segment.command, found.port, found.cause)


def is_enough(given: Topology, limits: dict[str, int], played: Played) -> bool:
    """Whether nothing is refused with these limits."""
    tree = given.tree
    if any(tree.cascades(trunk) > limits[CHANNELS] for trunk in range(given.tables["bridge"]["ports"])):
        return False
    lines = played(without_captures(given, limits, {}), False)
    return not any(line.startswith(("noup ", "refuse ")) for line in lines)


def least(given: Topology, played: Played, told: Callable[[str], None] = lambda _: None) -> dict[str, int | None]:
    """The least limits with which nothing is refused, each searched by halving while the other one is as wide as it may be; None where
    even the widest doesn't suffice."""
    return {kind: _least(given, kind, played, told) for kind in KINDS}


def _least(given: Topology, kind: str, played: Played, told: Callable[[str], None]) -> int | None:
    below, enough = 0, WIDEST[kind]
    if not is_enough(given, WIDEST, played):
        return None
    while enough - below > 1:
        middle = (below + enough) // 2
        told(f"{kind}: more than {below:,}, and {enough:,} suffice")
        if is_enough(given, WIDEST | {kind: middle}, played):
            enough = middle
        else:
            below = middle
    return enough


def confirmed(given: Topology, found: Tables, played: Played) -> None:
    """Has the program play with the limits that the needs come to. It has to refuse nothing there."""
    if found.beyond or not found.refused:
        return
    if not is_enough(given, {kind: max(found.limits[kind], found.least(kind)) for kind in KINDS}, played):
        raise DeskError("the needs that were read from the trace don't suffice: this tool reads the trace wrongly")


def names(ports: Iterable[int]) -> str:
    return ", ".join(plain.name_of(port) for port in ports)
