"""What one moment has and another hasn't: by VLAN, and by command."""
from __future__ import annotations

from dataclasses import dataclass, field
from typing import Iterator

from . import relation
from .answers import Answers
from .moments import Moment
from .relation import Relation


@dataclass
class Difference:
    """By VLAN the pairs that are lost, and those that are gained."""

    lost: dict[int, Relation] = field(default_factory=dict)
    gained: dict[int, Relation] = field(default_factory=dict)

    def put(self, vid: int, before: Relation, after: Relation) -> None:
        lost, gained = relation.minus(before, after), relation.minus(after, before)
        if lost:
            self.lost[vid] = lost
        if gained:
            self.gained[vid] = gained

    def __bool__(self) -> bool:
        return bool(self.lost or self.gained)

    @property
    def vids(self) -> list[int]:
        return sorted(self.lost.keys() | self.gained.keys())

    def counts(self) -> tuple[int, int]:
        """How many pairs are lost and gained, VLAN by VLAN."""
        return sum(map(relation.pairs, self.lost.values())), sum(map(relation.pairs, self.gained.values()))


def between(before: Answers, place: int, after: Answers, other: int) -> Difference:
    """What differs between a moment of one topology and a moment of another, or of the same."""
    found = Difference()
    for vid in sorted(before.vlans.keys() | after.vlans.keys()):
        found.put(vid, before.at(vid, place), after.at(vid, other))
    return found


def by_command(answers: Answers) -> Iterator[tuple[Moment, Difference]]:
    """What each command that took effect changes."""
    for moment in answers.moments[1:]:
        found = Difference()
        for vid in sorted(answers.plan.touched[moment.place]):
            found.put(vid, answers.at(vid, moment.place - 1), answers.at(vid, moment.place))
        yield moment, found
