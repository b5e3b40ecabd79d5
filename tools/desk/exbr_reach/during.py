"""Frames that are under way while a command is carried out.

With a seed the program plays all that comes in one second at once, in a drawn order: frames of all kinds of ports, the commands of that
second, and the control frames with which these are carried out. The journal says which commands had taken effect when a frame came. It has
to go wholly by what was set then: as a frame at rest does at that moment.
"""
from __future__ import annotations

import os
from dataclasses import dataclass, field
from typing import Iterator

from exbr_desk import journal, plain, stage

from . import masks, playing, relation
from .answers import Answers
from .moments import Moment, State, bare, states
from .probes import NO_TAG, TAG, Plan, Probe, might_use


@dataclass
class Seconds:
    """What was seen while commands were carried out: the seconds with commands, the frames sent in each drawn order, how many of them met a
    moment between two commands of one second, and those that went otherwise than at rest."""

    orders: int
    seconds: int = 0
    frames: int = 0
    between: int = 0
    odd: list[str] = field(default_factory=list)


class Watched:
    """What is set before, between and behind the commands of one second, as far as frames need it."""

    def __init__(self) -> None:
        self.known: dict[int, tuple[tuple[int, ...], int]] = {}
        self.clear()

    def clear(self) -> None:
        """A second is over."""
        self.masks: dict[int, list[int]] = {}
        self.pvids: dict[int, int] = {}

    def see(self, state: State, touched: set[int]) -> None:
        """Sees a moment: in the VLANs that are touched what is set now, and what was before."""
        for vid in touched:
            by, pvids = self.known.get(vid, ((), 0))
            self.known[vid] = now = set_in(state, vid), state.pvids.get(vid, 0)
            self.masks.setdefault(vid, []).extend((*by, *now[0]))
            self.pvids[vid] = self.pvids.get(vid, 0) | pvids | now[1]


def set_in(state: State, vid: int) -> tuple[int, ...]:
    """What makes ports unlike in a VLAN."""
    return state.present, state.tagged_only, state.untagged_only, state.filtering, state.isolated, *state.members.get(vid, (0, 0))


def plan_of(answers: Answers) -> tuple[Plan, list[Moment]]:
    """For each second with commands a frame for all ports that are alike before, between and behind them; and the last moment of each."""
    may = might_use(answers.course)
    plan, lasts, now = Plan(answers.moments, [], [], []), [], Watched()
    for moment, state, touched in states(answers.course):
        now.see(state, touched)
        if moment.at_rest:
            if moment.command:
                _add_all(plan, moment, now, may)
                lasts.append(moment)
            now.clear()
    return plan, lasts


def _add_all(plan: Plan, moment: Moment, now: Watched, may: dict[int, int]) -> None:
    for vid in sorted(now.masks):
        _add(plan, moment, vid, now, may)


def _add(plan: Plan, moment: Moment, vid: int, now: Watched, may: dict[int, int]) -> None:
    for form, senders in ((NO_TAG, now.pvids.get(vid, 0)), (TAG, may.get(vid, 0))):
        plan.probes += [Probe(moment.place, vid, form, masks.first(part), part) for part in masks.split(senders, dict.fromkeys(now.masks[vid]))]


def watched(answers: Answers, exbr: str, orders: int) -> Seconds:
    """Plays the frames in so many drawn orders."""
    plan, lasts = plan_of(answers)
    found = Seconds(orders, len(lasts))
    if not plan.probes or not orders:
        return found
    tables = bare(answers.given)
    seconds = {number: last.number for last in lasts for number in range(1, len(answers.given.commands) + 1)
               if answers.given.commands[number - 1].at == last.command.at}
    # Commands of one second stand in one second here too. One of a second in which none takes effect has its own.
    tables["command"] = [it | {"at": seconds.get(number, number)} for number, it in enumerate(tables.get("command", []), 1)]
    for seed in range(1, orders + 1):
        with stage.room() as folder:
            stage.run(exbr, playing.put(answers.course, plan, folder, tables), folder, ["--seed", str(seed)])
            _look(answers, plan, folder, found)
    return found


def _look(answers: Answers, plan: Plan, folder: str, found: Seconds) -> None:
    """Holds what left against what is known of the moment that each frame met."""
    met = met_in(answers, plan, folder)
    its = playing.collected(answers.course, plan, folder, strict=False)
    for number, probe in enumerate(plan.probes):
        place, relayed = met[number]
        found.frames += 1
        found.between += not answers.moments[place].at_rest
        wanted = wanted_of(answers, probe, place) if relayed else 0
        if its.reached[number] != wanted:
            found.odd.append(f"a frame of {plain.name_of(probe.sender)}, VLAN {probe.vid}, {answers.moments[place].words()}: it left at "
                             f"{masks.words(its.reached[number])}, and at rest at {masks.words(wanted)}")


def met_in(answers: Answers, plan: Plan, folder: str) -> list[tuple[int, bool]]:
    """By probe the moment that it met, and whether it was relayed, by the journal."""
    numbers: dict[int, list[int]] = {}
    for number, probe in enumerate(plan.probes):
        numbers.setdefault(probe.sender, []).append(number)
    clock, place = answers.given.external[0], 0
    found: list[tuple[int, bool]] = [(0, False)] * len(plan.probes)
    for line in journal.lines(os.path.join(folder, "out-journal.txt")):
        if line.kind == "commit":
            place += 1
        elif line.kind in ("relay", "ignore"):
            index = line.value - (1 if line.port == clock else 0)
            if index:
                found[numbers[line.port][index - 1]] = place, line.kind == "relay"
    return found


def wanted_of(answers: Answers, probe: Probe, place: int) -> int:
    """Where such a frame leaves at a moment at rest. One without a tag passes in the VLAN that its port has then."""
    vids = [probe.vid] if probe.form == TAG else list(answers.vlans)
    found = 0
    for vid in vids:
        for block in answers.heard(vid, place).forms.get(probe.form, relation.NOBODY):
            if block.senders >> probe.sender & 1:
                found |= block.heard_at & ~(1 << probe.sender)
    return found


def lines(found: Seconds) -> Iterator[str]:
    if not found.frames:
        return
    if found.odd:
        yield f"during commands: {len(found.odd):,} of {found.frames:,} frames went otherwise than at rest"
        yield from (f"  {text}" for text in found.odd[:5])
        return
    between = f", {found.between:,} of them between two commands of one second" if found.between else ""
    yield (f"during commands: {found.frames:,} frames in {found.seconds:,} second{'s' * (found.seconds != 1)} with commands, in {found.orders} drawn "
           f"order{'s' * (found.orders != 1)}: each went as at one of these moments{between}")
