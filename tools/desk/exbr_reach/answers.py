"""The answers of a topology: who reaches whom, by VLAN, moment after moment.

A VLAN is asked again at a moment where a command touched it, a member of it, or a port that may send into it. Between two such moments
nothing that its rules ask for has changed, so the answer stands.
"""
from __future__ import annotations

from bisect import bisect_right
from dataclasses import dataclass, field
from typing import Iterable, Iterator, NamedTuple

from exbr_desk import stage
from exbr_desk.errors import DeskError
from exbr_desk.progress import Progress
from exbr_desk.topology import Topology

from . import masks, playing, relation
from .moments import Course, Moment, course_of
from .probes import NO_TAG, TAG, Asked, Plan, Probe, planned
from .relation import Relation


class Heard(NamedTuple):
    """What is known of a VLAN at a moment: by form of the frames who reaches whom, both together, and the ports that get a tag."""

    forms: dict[str, Relation]
    every: Relation
    tagged: int


SILENT = Heard({}, relation.NOBODY, 0)
Entry = tuple[int, bytes]
"""A static entry: its VLAN and its address."""


@dataclass
class Timeline:
    """What is known from some moments on."""

    places: list[int] = field(default_factory=list)
    heard: list[Heard] = field(default_factory=list)

    def put(self, place: int, heard: Heard) -> None:
        if not self.heard or self.heard[-1] != heard:
            self.places.append(place)
            self.heard.append(heard)

    def at(self, place: int) -> Heard:
        found = bisect_right(self.places, place)
        return self.heard[found - 1] if found else SILENT

    def between(self, first: int, last: int) -> Iterator[tuple[int, Heard]]:
        """What is known at a moment, and what is at each later one at which that changes."""
        yield first, self.at(first)
        yield from ((place, heard) for place, heard in zip(self.places, self.heard) if first < place <= last)


@dataclass
class Answers:
    """All that was found of a topology. Of the frames to single stations `astray` has those that came to theirs where a frame to all doesn't,
    or the other way round, and `flooded` counts those that other ports had too, since the station was learned nowhere."""

    course: Course
    plan: Plan
    vlans: dict[int, Timeline]
    statics: dict[Entry, Timeline]
    copies: int
    external: int
    astray: list[tuple[Probe, int]] = field(default_factory=list)
    flooded: int = 0
    to_stations: int = 0

    @property
    def given(self) -> Topology:
        return self.course.given

    @property
    def moments(self) -> list[Moment]:
        return self.plan.moments

    @property
    def end(self) -> int:
        return len(self.plan.moments) - 1

    def at(self, vid: int, place: int) -> Relation:
        line = self.vlans.get(vid)
        return line.at(place).every if line else relation.NOBODY

    def heard(self, vid: int, place: int) -> Heard:
        line = self.vlans.get(vid)
        return line.at(place) if line else SILENT

    def pairs(self, place: int) -> int:
        return sum(relation.pairs(line.at(place).every) for line in self.vlans.values())


def of_topology(given: Topology, exbr: str, asked: Asked = Asked(), kept: str | None = None) -> Answers:
    """Plays a topology's probes, and gives what came of them."""
    course = course_of(given, exbr)
    plan = planned(course, asked)
    with stage.room(kept) as folder:
        its = playing.played(course, plan, exbr, folder)
    return sorted_out(course, plan, its)


def sorted_out(course: Course, plan: Plan, its: playing.Played) -> Answers:
    """What came of each probe, by VLAN and moment."""
    found = Answers(course, plan, {}, {}, its.copies, masks.of(course.given.external))
    broad, named = _by_place(plan, its)
    progress = Progress("moments sorted out", len(plan.touched))
    for place, vids in enumerate(plan.touched):
        progress.at(place)
        entries = {it for it in found.statics if it[0] in vids} | plan.statics[place]
        _put(found.vlans, place, sorted(vids), broad)
        _put(found.statics, place, entries, named)
    progress.end()
    _look_at_stations(found, its)
    return found


def _put(lines: dict, place: int, keys: Iterable, outcomes: dict) -> None:
    """Puts what is known of VLANs, or of entries, at a moment."""
    for key in keys:
        lines.setdefault(key, Timeline()).put(place, _heard(outcomes.get((place, key), [])))


Outcome = tuple[Probe, int, int]


def _by_place(plan: Plan, its: playing.Played) -> tuple[dict[tuple[int, int], list[Outcome]], dict[tuple[int, Entry], list[Outcome]]]:
    """What came of the frames to all by moment and VLAN, and of those to static entries by moment and entry."""
    broad, named = {}, {}
    for probe, reached, tagged in zip(plan.probes, its.reached, its.tagged):
        if probe.to is None:
            broad.setdefault((probe.moment, probe.vid), []).append((probe, whole(probe, reached), tagged))
        elif isinstance(probe.to, bytes):
            named.setdefault((probe.moment, (probe.vid, probe.to)), []).append((probe, whole(probe, reached), tagged))
    return broad, named


def _look_at_stations(found: Answers, its: playing.Played) -> None:
    """A frame to one station has to come to it exactly where a frame to all does."""
    for probe, reached in zip(found.plan.probes, its.reached):
        if isinstance(probe.to, int):
            target = found.plan.probes[probe.to].sender
            found.to_stations += 1
            wanted = relation.has(found.heard(probe.vid, probe.moment).forms.get(probe.form, relation.NOBODY), probe.sender, target)
            if wanted != bool(reached >> target & 1):
                found.astray.append((probe, target))
            found.flooded += bool(reached & ~(1 << target))


def whole(probe: Probe, reached: int) -> int:
    """The ports at which those that a probe stands for are heard. Of ports that are alike either all others are reached or none."""
    others = probe.alike & ~(1 << probe.sender)
    if reached & others not in (0, others):
        raise DeskError(f"ports {masks.words(probe.alike)} were taken as alike in VLAN {probe.vid}, and a frame of one reaches only some of the others")
    return reached | (probe.alike if others and reached & others else 0)


def _heard(them: list[tuple[Probe, int, int]]) -> Heard:
    forms: dict[str, list[tuple[int, int]]] = {NO_TAG: [], TAG: []}
    tagged = 0
    for probe, heard_at, with_tag in them:
        forms[probe.form].append((probe.alike, heard_at))
        tagged |= probe.alike | with_tag if with_tag & probe.alike else with_tag
    relations = {form: relation.made(blocks) for form, blocks in forms.items() if blocks}
    every = relation.made(block for its in relations.values() for block in its)
    return Heard({form: its for form, its in relations.items() if its}, every, tagged)
