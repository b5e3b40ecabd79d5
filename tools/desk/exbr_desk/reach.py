"""Which frame reached whom in a run: for each record the ports where it left, and with which tag."""
from __future__ import annotations

from array import array
from dataclasses import dataclass, field
from typing import Iterable

from . import frames, index
from .course import Course
from .judge import Fault
from .reading import Where
from .runs import Run
from .table import NEVER, UNTAGGED, Outcome, Table


@dataclass
class Reach:
    """The outcome of each record of a run, by port and number, and what else is to be said of it. `numbers` are those that its commands
    have in the topology from which it was made, where some were left out of it."""

    run: Run
    table: Table
    of: dict[int, array] = field(default_factory=dict)
    outcomes: list[Outcome] = field(default_factory=list)
    homes: dict[bytes, tuple[int, ...]] = field(default_factory=dict)
    numbers: dict[int, int] = field(default_factory=dict)
    _known: dict[Outcome, int] = field(default_factory=dict, repr=False)

    @property
    def faults(self) -> list[Fault]:
        return self.table.faults

    @property
    def commits(self) -> list[int]:
        return self.table.effects

    @property
    def refusals(self) -> dict[int, str]:
        return self.table.standing.refused

    def at(self, where: Where) -> Outcome:
        """The outcome of a record. One that the run doesn't have never came."""
        its = self.of.get(where[0])
        return self.outcomes[its[where[1] - 1]] if its is not None and where[1] <= len(its) else NEVER

    def put(self, where: Where, outcome: Outcome) -> None:
        number = self._known.get(outcome)
        if number is None:
            number = self._known[outcome] = len(self.outcomes)
            self.outcomes.append(outcome)
        self.of[where[0]][where[1] - 1] = number

    def epoch(self, where: Where) -> int:
        """How many commands had taken effect before a record came. One that never came counts from the end."""
        rows = self.table.rows(where[0])
        return self.table.epoch(rows[where[1] - 1]) if where[1] <= len(rows) else len(self.table.effects)

    def number(self, command: int) -> int:
        """The number that a command has in the topology from which the run was made."""
        return self.numbers.get(command, command)

    def addresses(self, where: Where) -> tuple[bytes, bytes]:
        """Source and destination of a record."""
        row = self.table.rows(where[0])[where[1] - 1]
        return self.table.addresses[self.table.columns["source"][row]], self.table.addresses[self.table.columns["target"][row]]

    def course(self) -> Course:
        return Course(self.run, self.table)


def reach_of(run: Run, what: str, with_homes: bool, keep: bool = True, quiet: bool = False) -> Reach:
    """The outcomes of a run. Where files and rules differ, what the files have counts. With `homes`, at which ports each address speaks."""
    table = index.table_of(run, what, keep, quiet)
    found = Reach(run, table, {port: array("I", bytes(4 * capture.count)) for port, capture in run.captures.items()}, list(table.outcomes))
    found._known = {it: at for at, it in enumerate(found.outcomes)}
    columns = table.columns
    for port, its in found.of.items():
        rows = table.rows(port)
        its[:len(rows)] = array("I", map(columns["outcome"].__getitem__, rows))
    if with_homes:
        found.homes = _homes(table, set(zip(columns["source"], columns["port"])))
    for fault in table.faults:
        _as_in_files(found, fault)
    return found


def _homes(table: Table, pairs: Iterable[tuple[int, int]]) -> dict[bytes, tuple[int, ...]]:
    """At which ports each address of a station speaks."""
    found: dict[bytes, tuple[int, ...]] = {}
    for number, port in sorted(pairs):
        address = table.addresses[number]
        if address and not address[0] & 1:
            found[address] = (*found.get(address, ()), port)
    return found


def _as_in_files(found: Reach, fault: Fault) -> None:
    """Takes a copy away that an output doesn't have, or gives it the tag that it has there."""
    if fault.arrival is None or fault.port is None or fault.arrival[0] not in found.of:
        return
    before = found.at(fault.arrival)
    others = tuple(it for it in before.left if it[0] != fault.port)
    if fault.what == "changed":
        head = frames.ethernet(fault.frame)
        others = tuple(sorted((*others, (fault.port, head.tags[0][1] & 0xFFF if head and head.tags else UNTAGGED))))
    found.put(fault.arrival, before._replace(left=others))


