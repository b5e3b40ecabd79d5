"""Which frames are sent at each moment: one for all ports that behave alike.

In a VLAN two ports behave alike where both are present or absent, accept the same types, filter or don't, are isolated or not, and are the
same kind of member or none; of frames without a tag also where both have this VLAN as PVID. Nothing else of a port is asked by the rules of
one bridge, so who changes two such ports for one another changes nothing else: where the one reaches a third port, the other does.
"""
from __future__ import annotations

import struct
from dataclasses import dataclass
from typing import NamedTuple

from exbr_desk.progress import Progress

from . import masks
from .moments import Course, Moment, State, states

TAG, NO_TAG = "tag", "no tag"
ALL = b"\xff" * 6
LOCAL, SOURCE = b"\x02\xee", struct.Struct("<2sI")


def source(number: int) -> bytes:
    """The address of a probe."""
    return SOURCE.pack(LOCAL, number)


class Probe(NamedTuple):
    """A frame: when it is sent, in which VLAN it is meant, in which form, by which port, and for which ports it stands. `to` is an address
    of a static entry, or the number of the probe whose source it goes to, or None for all."""

    moment: int
    vid: int
    form: str
    sender: int
    alike: int
    to: bytes | int | None = None


@dataclass
class Plan:
    """All probes of a topology, in the order in which they are sent, and the moments. `touched` has by moment the VLANs that are asked
    then, and `wanted` how many frames there would be if each port were asked at each moment."""

    moments: list[Moment]
    probes: list[Probe]
    touched: list[frozenset[int]]
    statics: list[frozenset[tuple[int, bytes]]]
    wanted: int = 0


@dataclass(frozen=True)
class Asked:
    """What is to be asked: all tags at all ports, each port by itself, in these VLANs, by these ports, to single stations, and at these
    moments alone, by their places."""

    leaks: bool = False
    unfolded: bool = False
    vids: frozenset[int] | None = None
    senders: int | None = None
    unicast: bool = True
    places: frozenset[int] | None = None


def might_use(course: Course) -> dict[int, int]:
    """By VLAN the ports that are its members at some moment, whose stations may use its tag."""
    found: dict[int, int] = {}
    for _, state, touched in states(course):
        for vid in touched:
            found[vid] = found.get(vid, 0) | state.all_members(vid)
    return found


class Planner:
    """Plans the probes of one topology, moment after moment."""

    def __init__(self, course: Course, asked: Asked):
        self.course, self.asked = course, asked
        self.may = {} if asked.leaks else might_use(course)
        self.plan = Plan([], [], [], [])

    def go(self) -> Plan:
        waiting: set[int] = set()
        progress = Progress("moments planned", len(self.course.given.commands))
        for moment, state, touched in states(self.course):
            if self.asked.leaks and moment.command and moment.command.table["op"] in ("accept", "filter", "isolate", "up", "down"):
                touched = touched | state.members.keys()
            waiting |= touched
            vids = self._now(moment, waiting)
            self.plan.moments.append(moment)
            self.plan.touched.append(vids)
            self.plan.statics.append(frozenset(key for key in state.now.statics if key[0] in vids))
            for vid in sorted(vids):
                self._of_vlan(moment, state, vid)
            progress.at(moment.place)
        progress.end()
        return self.plan

    def _now(self, moment: Moment, waiting: set[int]) -> frozenset[int]:
        """The VLANs that are asked now, of those that wait for it."""
        if self.asked.places is not None and moment.place not in self.asked.places:
            return frozenset()
        vids = frozenset(waiting if self.asked.vids is None else waiting & self.asked.vids)
        waiting.clear()
        return vids

    def _of_vlan(self, moment: Moment, state: State, vid: int) -> None:
        members = state.members.get(vid, (0, 0))
        by = (state.present, state.tagged_only, state.untagged_only, state.filtering, state.isolated, *members)
        tagging = state.external if self.asked.leaks else self.may.get(vid, 0)
        sets = [(form, part) for form, senders in ((NO_TAG, state.pvids.get(vid, 0)), (TAG, tagging)) for part in self._parts(senders, by)]
        places = [self._add(moment, vid, form, part, None) for form, part in sets]
        entries = ((mac, masks.of(ports)) for (_, mac), ports in self._entries(state, vid))
        for mac, form, piece in ((mac, form, piece) for mac, mask in entries for form, part in sets for piece in self._parts(part, (mask,))):
            self._add(moment, vid, form, piece, mac)
        if self.asked.unicast:
            # A station whose address a static entry has is no station of these.
            self._to_stations(moment, vid, sets, [place for place in places if (vid, source(place)) not in state.now.statics])

    def _parts(self, senders: int, by: tuple[int, ...]) -> list[int]:
        if self.asked.senders is not None:
            senders &= self.asked.senders
        if self.asked.unfolded:
            return [1 << port for port in masks.ports(senders)]
        return masks.split(senders, by)

    @staticmethod
    def _entries(state: State, vid: int) -> list:
        return sorted(it for it in state.now.statics.items() if it[0][0] == vid)

    def _add(self, moment: Moment, vid: int, form: str, alike: int, to: bytes | int | None, sender: int | None = None) -> int:
        self.plan.probes.append(Probe(moment.place, vid, form, masks.first(alike) if sender is None else sender, alike, to))
        self.plan.wanted += masks.count(alike)
        return len(self.plan.probes) - 1

    def _to_stations(self, moment: Moment, vid: int, sets: list[tuple[str, int]], places: list[int]) -> None:
        """From each kind of port to a station at each kind of port, whose address was the source of a frame just now."""
        for form, part in sets:
            for place in places:
                target, other = self.plan.probes[place].sender, self.plan.probes[place].alike
                rest = part & ~(1 << target)
                if rest and (other == part or not part & other):
                    self._add(moment, vid, form, rest, place, masks.first(rest))


def planned(course: Course, asked: Asked) -> Plan:
    return Planner(course, asked).go()
