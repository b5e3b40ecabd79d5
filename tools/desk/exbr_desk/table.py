"""What became of each frame of a run, as columns: a row for each frame, in the order in which they were played.

A column is an array of numbers, so a million frames take some fifty megabytes, and a file of them is read without a copy. What many
frames have in common, an `Outcome`, stands once.
"""
from __future__ import annotations

from array import array
from bisect import bisect_right
from dataclasses import dataclass, field
from typing import Iterable, NamedTuple, Sequence

from . import frames
from .judge import Fault
from .reading import Arrival, Ordered, Reading, Told
from .standing import Standing

UNTAGGED = 0
NOBODY = -1
# What a row has: its port, number and moment; the clock; its outcome; the row that taught where its target is (-1: none); its line of the
# journal (0: none); the numbers of its addresses; its type; and where its places in the outputs begin in `place`.
COLUMNS = {"port": "H", "index": "I", "moment": "Q", "clock": "I", "outcome": "I", "teacher": "i", "line": "I", "source": "I", "target": "I",
           "type": "H", "start": "Q"}


class Outcome(NamedTuple):
    """What became of a frame: the VLAN in which it passed, the rule that kept it out, how its target was found (`static`, `learned`
    at port `to`, or `flooded`), and each port where it left with the VLAN of the tag with which it did (0: none)."""

    vid: int | None
    rule: str | None
    how: str | None
    to: int | None
    left: tuple[tuple[int, int], ...]

    @property
    def ports(self) -> set[int]:
        return {port for port, _ in self.left}

    @property
    def targets(self) -> tuple[tuple[int, str], ...]:
        return tuple((port, "tagged" if tag else "untagged") for port, tag in self.left)


NEVER = Outcome(None, "never", None, None, ())


class Done(NamedTuple):
    """What became of a command: its number, its cause where it was refused, and the row before which it came."""

    number: int
    cause: str | None
    row: int


@dataclass
class Table:
    """The columns, what rows name by number, and what else is to be said of the run."""

    columns: dict[str, Sequence[int]] = field(default_factory=lambda: {name: array(kind) for name, kind in COLUMNS.items()})
    place: Sequence[int] = field(default_factory=lambda: array("I"))
    outcomes: Sequence[Outcome] = field(default_factory=lambda: [NEVER])
    addresses: list[bytes] = field(default_factory=lambda: [b""])
    done: list[Done] = field(default_factory=list)
    standing: Standing = field(default_factory=Standing)
    faults: list[Fault] = field(default_factory=list)
    given_up: list[str] = field(default_factory=list)
    notes: list[str] = field(default_factory=list)
    is_seeded: bool = False
    hops: dict[str, Sequence[int]] = field(default_factory=dict)
    trace_faults: list[str] = field(default_factory=list)
    _rows: dict[int, array] = field(default_factory=dict, repr=False)
    _effects: tuple[list[int], list[int]] | None = field(default=None, repr=False)

    @property
    def count(self) -> int:
        """How many frames came."""
        return len(self.columns["port"])

    @property
    def left(self) -> int:
        """How many copies left."""
        return len(self.place)

    def rows(self, port: int) -> Sequence[int]:
        """The row of each record of a port, by its number less one."""
        if not self._rows:
            found: dict[int, array] = {at: array("I") for at in set(self.columns["port"])}
            puts = {at: its.append for at, its in found.items()}
            for row, at in enumerate(self.columns["port"]):
                puts[at](row)
            # Without a seed the records of a port come in order.
            self._rows = {at: array("I", sorted(its, key=self.columns["index"].__getitem__)) for at, its in found.items()} if self.is_seeded else found
        return self._rows.get(port, ())

    def epoch(self, row: int) -> int:
        """How many commands had taken effect before a row."""
        if self._effects is None:
            its = [it for it in self.done if it.cause is None]
            self._effects = [it.row for it in its], [it.number for it in its]
        return bisect_right(self._effects[0], row)

    @property
    def effects(self) -> list[int]:
        """The numbers of the commands that took effect, in order."""
        self.epoch(0)
        return self._effects[1]

    def places(self, row: int) -> list[int]:
        """As which record a row was found at each port where it leaves (0: it wasn't)."""
        start = self.columns["start"][row]
        return list(self.place[start:start + len(self.outcomes[self.columns["outcome"][row]].left)])


class Filling:
    """Fills a table with the events of a run, one after the other."""

    def __init__(self, table: Table):
        self.table = table
        self.numbers: dict[Outcome, int] = {it: at for at, it in enumerate(table.outcomes)}
        self.known: dict[bytes, int] = {b"": 0}
        self._seen: dict[tuple, int] = {}
        self._rows: dict[int, array] = {}

    def outcome(self, outcome: Outcome) -> int:
        """The number of an outcome."""
        found = self.numbers.get(outcome)
        if found is None:
            found = self.numbers[outcome] = len(self.table.outcomes)
            self.table.outcomes.append(outcome)
        return found

    def address(self, address: bytes) -> int:
        """The number of an address."""
        found = self.known.get(address)
        if found is None:
            found = self.known[address] = len(self.table.addresses)
            self.table.addresses.append(address)
        return found

    def take(self, event: Arrival | Ordered | Told, reading: Reading) -> None:
        """Takes an event. That a frame's line and places may be found later is told by `late_line` and `late_place`."""
        if event.__class__ is Arrival:
            self._arrive(event)
            return
        self.table.standing.take(event)
        if event.__class__ is Ordered:
            self.table.done.append(Done(event.command.number, event.cause, self.table.count))

    def _arrive(self, it: Arrival) -> None:
        table, columns = self.table, self.table.columns
        it.row = table.count
        key = it.vid, it.rule, it.how, it.entry.port if it.how == "learned" else None, it.targets
        number = self._seen.get(key)
        if number is None:
            number = self._seen[key] = self.outcome(outcome_of(*key))
        head = frames.ethernet(it.frame)
        teacher = self._rows[it.entry.port][it.entry.index - 1] if it.entry else NOBODY
        rows = self._rows.setdefault(it.port, array("I"))
        rows.extend([0] * (it.index - len(rows)))
        rows[it.index - 1] = it.row
        values = (it.port, it.index, it.moment, it.clock, number, teacher, it.line, self.address(head.source if head else b""),
                  self.address(head.destination if head else b""), head.type if head else 0, table.left)
        for column, value in zip(columns.values(), values):
            column.append(value)
        table.place.extend(it.places)

    def late_line(self, event) -> None:
        """A line of the journal was found only after a difference was looked into."""
        if event.__class__ is Arrival and event.row >= 0:
            self.table.columns["line"][event.row] = event.line

    def late_place(self, it: Arrival, at: int) -> None:
        """The same of a record of an output."""
        if it.row >= 0:
            self.table.place[self.table.columns["start"][it.row] + at] = it.places[at]


def outcome_of(vid: int | None, rule: str | None, how: str | None, to: int | None, targets: Iterable[tuple[int, str]]) -> Outcome:
    """An outcome by the targets of a frame, with the tags that they get."""
    return Outcome(vid, rule, how, to, tuple((port, vid if kind == "tagged" else UNTAGGED) for port, kind in targets))
