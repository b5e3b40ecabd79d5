"""How long the tree takes to settle: the beats of the opening and of each command, undisturbed and with drawn disturbances."""
from __future__ import annotations

import random
from dataclasses import dataclass
from typing import Callable

from exbr_desk.topology import Topology

from .faults import MOST_LETTERS
from .numbers import Segment, segments_of
from .tables import Played, without_captures

DISTURBED = "LTD"


@dataclass
class Settling:
    """Beats by segment, the opening being the first: as the topology has it, and the most of all drawn disturbances with its number."""

    plain: list[int]
    worst: list[int]
    drawn: list[int]
    fates: int
    percent: int


def _letters(chance: random.Random, count: int, percent: int) -> str:
    return "".join(chance.choice(DISTURBED) if chance.randrange(100) < percent else "P" for _ in range(count))


def fates_of(own: list[Segment], number: int, percent: int) -> dict[int, str]:
    """Drawn fates: for each segment twice as many letters as control frames came in, since a disturbed one takes more; or fewer where a
    topology may not have so many. What a segment leaves over falls to the next ones."""
    chance = random.Random(f"fates {number}")
    wanted = [2 * segment.control + 2 for segment in own]
    every = sum(wanted)
    counts = wanted if every <= MOST_LETTERS else [count * MOST_LETTERS // every for count in wanted]
    return {segment.command: _letters(chance, count, percent) for segment, count in zip(own, counts)}


def settling_of(given: Topology, own: list[Segment], played: Played, count: int, percent: int, told: Callable[[int], None] = lambda _: None) -> Settling:
    """Plays the topology with so many drawn disturbances."""
    plain = [segment.beats for segment in own]
    found = Settling(plain, list(plain), [0] * len(plain), count, percent)
    for number in range(1, count + 1):
        lines = played(without_captures(given, None, fates_of(own, number, percent)), True)
        for at, segment in enumerate(segments_of(lines, given.tree)):
            if segment.beats > found.worst[at]:
                found.worst[at], found.drawn[at] = segment.beats, number
        told(number)
    return found
