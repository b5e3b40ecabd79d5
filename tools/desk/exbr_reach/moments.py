"""The moments at which one asks, and what is set at each of them.

The program plays the topology without captures first. Its journal says which ports came up and which commands took effect; what is not
in it isn't guessed here. A command that is refused makes no moment.
"""
from __future__ import annotations

import os
from dataclasses import dataclass
from typing import Iterator

from exbr_desk import journal, plain, play, stage
from exbr_desk.topology import Command, Topology

from . import masks

WIDE = ("vlan", "member", "unmember")


@dataclass(frozen=True)
class Moment:
    """After the opening (`command` None), or after a command that took effect. `place` counts moments from 0. A moment at rest is one at
    which the bridge stays for a while; one that isn't is followed by another command of the same second, so only a frame that is under way
    can meet it."""

    place: int
    command: Command | None
    at_rest: bool

    @property
    def number(self) -> int:
        return self.command.number if self.command else 0

    def words(self) -> str:
        return f"after command {self.number}" if self.command else "at the beginning"


@dataclass
class Course:
    """What the program says of a topology without captures: the ports that came up, and the cause of each refusal."""

    given: Topology
    up: list[int]
    absent: dict[int, str]
    refused: dict[int, str]
    lines: list[str]

    def moments(self) -> list[Moment]:
        """The moments in their order."""
        taken = [it for it in self.given.commands if it.number not in self.refused]
        found = [Moment(0, None, True)]
        for place, command in enumerate(taken, 1):
            last = place == len(taken) or taken[place].at > command.at
            found.append(Moment(place, command, last))
        return found


def bare(given: Topology, wide: bool = False) -> dict:
    """The tables of a topology as they are played here: without captures, fates and a name for outputs, and with commands a second apart.
    Fates change how long a change takes and nothing else. Nothing is forgotten, however long it takes."""
    tables = {name: its for name, its in given.tables.items() if name not in ("captures", "links", "command")}
    tables["bridge"] = {key: value for key, value in tables["bridge"].items() if key != "out"} | {"ageing": 1_000_000}
    commands = [{key: value for key, value in it.table.items() if key != "fate"} | {"at": it.number} for it in given.commands]
    return tables | ({"command": commands} if commands else {})


def course_of(given: Topology, exbr: str) -> Course:
    """Plays a topology without captures."""
    with stage.room() as folder:
        stage.run(exbr, play.written(bare(given)), folder)
        lines = list(journal.lines(os.path.join(folder, "out-journal.txt")))
    up = [line.port for line in lines if line.kind == "up"]
    absent = {line.port: line.cause for line in lines if line.kind == "noup"}
    refused = {line.value: line.cause for line in lines if line.kind == "refuse"}
    return Course(given, up, absent, refused, [line.text for line in lines if line.kind in ("up", "noup", "commit", "refuse")])


class State:
    """What is set at a moment, as sets of ports. `members` has by VLAN the tagged and the untagged members."""

    def __init__(self, given: Topology, up: list[int]):
        self.now = given.start()
        self.now.present |= set(up)
        self.external = masks.of(given.external)
        self.members = {vid: self._members_of(vid) for vid in self.now.vlans}
        self.present = masks.of(self.now.present)
        self.tagged_only = self._ports_with(lambda it: it.accept == "tagged")
        self.untagged_only = self._ports_with(lambda it: it.accept == "untagged")
        self.filtering = self._ports_with(lambda it: it.filter)
        self.isolated = self._ports_with(lambda it: it.isolated)
        # By VLAN the ports of which it is the PVID, and by port the VLANs in which it is.
        self.pvids: dict[int, int] = {}
        self.vlans_of: dict[int, set[int]] = {}
        for port, rules in self.now.rules.items():
            self.pvids[rules.pvid] = self.pvids.get(rules.pvid, 0) | 1 << port
        for vid, port in ((vid, port) for vid, kinds in self.now.vlans.items() for ports in kinds.values() for port in ports):
            self.vlans_of.setdefault(port, set()).add(vid)

    def _ports_with(self, test) -> int:
        return masks.of(port for port, rules in self.now.rules.items() if test(rules))

    def _members_of(self, vid: int) -> tuple[int, int]:
        kinds = self.now.vlans.get(vid)
        return (masks.of(kinds["tagged"]), masks.of(kinds["untagged"])) if kinds else (0, 0)

    def all_members(self, vid: int) -> int:
        tagged, untagged = self.members.get(vid, (0, 0))
        return tagged | untagged

    def apply(self, command: Command) -> set[int]:
        """Carries a command out, and gives the VLANs in which something may be otherwise now."""
        table, op = command.table, command.table["op"]
        port = plain.number_of(table["port"]) if "port" in table else None
        before = self.now.rules[port].pvid if port is not None else None
        self.now.command(table)
        if op in WIDE:
            self._set_members(table["vid"])
            return {table["vid"]}
        if op in ("static", "unstatic"):
            return {table["vid"]}
        self._set_port(port, before)
        return self.vlans_of.get(port, set()) | {before, self.now.rules[port].pvid}

    def _set_members(self, vid: int) -> None:
        before = self.all_members(vid)
        self.members[vid] = self._members_of(vid)
        after = self.all_members(vid)
        for port in masks.ports(before & ~after):
            self.vlans_of[port].discard(vid)
        for port in masks.ports(after & ~before):
            self.vlans_of.setdefault(port, set()).add(vid)

    def _set_port(self, port: int, before: int) -> None:
        rules, bit = self.now.rules[port], 1 << port
        self.pvids[before] &= ~bit
        self.pvids[rules.pvid] = self.pvids.get(rules.pvid, 0) | bit
        for name, is_in in (("tagged_only", rules.accept == "tagged"), ("untagged_only", rules.accept == "untagged"), ("filtering", rules.filter),
                            ("isolated", rules.isolated), ("present", port in self.now.present)):
            mask = getattr(self, name)
            setattr(self, name, mask | bit if is_in else mask & ~bit)


def states(course: Course) -> Iterator[tuple[Moment, State, set[int]]]:
    """Each moment with what is set then, and the VLANs in which something may be otherwise than at the moment before. There is one state,
    which goes on."""
    state = State(course.given, course.up)
    for moment in course.moments():
        touched = state.apply(moment.command) if moment.command else set(vids_of(course.given))
        yield moment, state, touched


def vids_of(given: Topology) -> set[int]:
    """The VLANs that the topology or a command speaks of: each in which something may pass at some moment."""
    tables = given.tables
    found = {1} if "vlan" not in tables else set()
    for it in tables.get("vlan", []):
        found.update(range(it["vid"], it.get("last", it["vid"]) + 1))
    return found | {it.table["vid"] for it in given.commands if it.table["op"] in WIDE}
