"""One question: does a frame of this port come to that one, and why, in the words of exbr-why."""
from __future__ import annotations

from dataclasses import dataclass, field
from typing import Iterator

from exbr_desk import explain, plain, runs, stage
from exbr_desk.errors import DeskError
from exbr_desk.judge import Judge
from exbr_desk.reading import Arrival
from exbr_desk.topology import Topology

from . import playing
from .moments import Moment, course_of, vids_of
from .probes import ALL, LOCAL, NO_TAG, SOURCE, TAG, Asked, Plan, planned

NAMES = plain.name_of


@dataclass
class Stretch:
    """From a moment on a frame comes there or doesn't: with the tag with which it leaves, or why it doesn't, and the reason's other words."""

    moment: Moment
    comes: bool
    told: list[str]


@dataclass
class Way:
    """The answers for frames of one form in one VLAN, moment after moment."""

    vid: int
    form: str
    stretches: list[Stretch] = field(default_factory=list)


def port_of(given: Topology, word: str, name: str) -> int:
    """The external port that a word names."""
    if not plain.is_port(name) or plain.number_of(name) not in given.external:
        raise DeskError(f"{word} {name}: that is no external port of {given.path}")
    return plain.number_of(name)


def ways(given: Topology, exbr: str, sender: int, target: int, vids: frozenset[int] | None) -> list[Way]:
    """Plays the frames of one port, and follows them by the second reading."""
    if sender == target:
        raise DeskError(f"--from and --to are both {NAMES(sender)}, and a frame never leaves where it came")
    course = course_of(given, exbr)
    chosen = vids if vids is not None else frozenset(vids_of(given))
    plan = planned(course, Asked(leaks=True, vids=chosen, senders=1 << sender, unicast=False))
    with stage.room() as folder:
        its = playing.played(course, plan, exbr, folder)
        reasons = reasons_of(runs.whole(folder), plan, target)
    found: dict[tuple[int, str], Way] = {}
    for number, probe in enumerate(plan.probes):
        if probe.to is None and number in reasons:
            _put(found.setdefault((probe.vid, probe.form), Way(probe.vid, probe.form)), plan.moments[probe.moment], bool(its.reached[number] >> target & 1), reasons[number])
    return [way for way in found.values() if vids is not None or any(it.comes for it in way.stretches)]


def _put(way: Way, moment: Moment, comes: bool, told: list[str]) -> None:
    if not way.stretches or (way.stretches[-1].comes, way.stretches[-1].told) != (comes, told):
        way.stretches.append(Stretch(moment, comes, told))


def reasons_of(run: runs.Run, plan: Plan, target: int) -> dict[int, list[str]]:
    """Of each probe to all why it comes to a port or doesn't. The second reading has to agree with what the program wrote."""
    judge, found = Judge(run), {}
    for event in judge.events():
        if event.__class__ is Arrival and event.frame[6:8] == LOCAL and event.frame[:6] == ALL:
            number = SOURCE.unpack(event.frame[6:12])[1]
            found[number] = _reason(judge.reading, event, target)
    if judge.faults:
        raise DeskError(f"the second reading doesn't agree with what the program wrote: {judge.faults[0].file}: {judge.faults[0].text}")
    return found


def _reason(reading, it: Arrival, target: int) -> list[str]:
    """The sentences of a frame that speak of it, and of the port that is asked for."""
    name = NAMES(target)
    told = [sentence.text for sentence in explain.explain(reading, it) if sentence.code not in ("group", "unknown")
            and (sentence.values.get("port") == name or not sentence.code.startswith(("leaves", "not ", "nowhere")))]
    members = {port for ports in reading.now.vlans.get(it.vid, {}).values() for port in ports}
    if it.rule is None and target not in members:
        told.append(f"not at {name}: it isn't a member of VLAN {it.vid}{explain.since(reading, 'vlan', it.vid)}")
    return told


def lines(found: list[Way], sender: int, target: int, vids: frozenset[int] | None) -> Iterator[str]:
    """The answers in lines."""
    if not found:
        yield f"{NAMES(sender)} -> {NAMES(target)}: no frame comes there, in any VLAN, at any moment"
    for way in sorted(found, key=lambda it: (it.vid, it.form)):
        yield f"{NAMES(sender)} -> {NAMES(target)} in VLAN {way.vid}, sent with {'no tag' if way.form == NO_TAG else f'tag {way.vid}'}:"
        for it in way.stretches:
            command = it.moment.command
            when = "at the beginning" if command is None else f"from command {command.number} on ({command.words()})"
            yield f"  {when}: {'yes' if it.comes else 'no'}"
            yield from (f"    {text}" for text in it.told)


def comes_at_end(found: list[Way]) -> bool:
    return any(way.stretches[-1].comes for way in found)


def in_json(found: list[Way], sender: int, target: int) -> dict:
    return {"from": NAMES(sender), "to": NAMES(target), "reaches": comes_at_end(found),
            "ways": [{"vlan": way.vid, "tag": way.form == TAG, "moments": [{"command": it.moment.number or None, "reaches": it.comes, "because": it.told}
                                                                          for it in way.stretches]} for way in found]}
