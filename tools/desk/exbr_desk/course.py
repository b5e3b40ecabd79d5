"""A run as it stood at each of its frames, told from a table, without playing it again."""
from __future__ import annotations

from .reading import Arrival, Entry, Reading
from .runs import Run
from .table import NOBODY, Table


class Course:
    """The configuration at rows of a table. To go on from row to row costs little; to go back begins anew."""

    def __init__(self, run: Run, table: Table):
        self.run, self.table = run, table
        self.start = run.topology.start()
        self.start.present |= set(run.topology.external) - table.standing.absent.keys()
        self._begin()

    def _begin(self) -> None:
        self.reading, self.epoch = Reading(self.run, self.start.copy()), 0

    def at(self, row: int) -> Reading:
        """The reading as it stood when a row came, but for what was learned."""
        return self.after(self.table.epoch(row))

    def after(self, epoch: int) -> Reading:
        """The reading after so many commands had taken effect."""
        if epoch < self.epoch:
            self._begin()
        for number in self.table.effects[self.epoch:epoch]:
            self.reading.change(self.run.topology.commands[number - 1])
        self.epoch = epoch
        return self.reading

    def arrival(self, row: int) -> Arrival:
        """What became of the frame of a row."""
        columns = self.table.columns
        port, index = columns["port"][row], columns["index"][row]
        outcome, teacher = self.table.outcomes[columns["outcome"][row]], columns["teacher"][row]
        entry = None if teacher == NOBODY else Entry(*(columns[name][teacher] for name in ("port", "clock", "index", "moment")))
        frame = self.run.captures[port].record(index).frame
        return Arrival(port, index, columns["moment"][row], frame, columns["clock"][row], outcome.rule, outcome.vid, outcome.how, entry,
                       outcome.targets, self.table.places(row), columns["line"][row], row)
