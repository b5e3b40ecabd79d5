"""Where in a trace the hops of each frame stand."""
from __future__ import annotations

from array import array
from typing import Iterator

from . import journal, trace
from .errors import DeskError
from .runs import Run
from .table import Table

MOST = 1000


class Places:
    """The lines of a trace with their places, counted while they are read."""

    def __init__(self, path: str):
        self.path, self.at, self.following = path, 0, 0

    def texts(self) -> Iterator[str]:
        for text in journal.texts(self.path):
            self.at, self.following = self.following, self.following + len(text) + 1
            yield text


def columns_of(run: Run, table: Table) -> tuple[dict[str, array], list[str]]:
    """For each row where its hops begin, the line and the place of each hop; and what in the trace can't be. Without a trace, or with one
    that can't be read, there are no columns."""
    if run.trace is None:
        return {}, []
    rows, lines, places, faults = array("I"), array("I"), array("Q"), []
    there, journal_lines = Places(run.trace), enumerate(journal.texts(run.journal), 1)
    ways = trace.Ways(run.topology)
    try:
        for line, where in ways.named(trace.spoken_in(run.trace, there.texts())):
            if line.kind in (trace.IN, trace.OUT) and where is not None and where[1] <= len(table.rows(where[0])):
                rows.append(table.rows(where[0])[where[1] - 1])
                lines.append(line.number)
                places.append(there.at)
            elif line.kind == trace.SAID and journal_lines is not None:
                journal_lines, faults = trace.held(line, journal_lines, run.journal, faults)
    except (DeskError, OverflowError):
        return {}, []
    if journal_lines is not None and (behind := next(journal_lines, None)):
        faults.append(f"it ends, and line {behind[0]} of {run.journal} is '{behind[1]}'")
    return _by_row(rows, lines, places, table.count), (ways.faults + faults)[:MOST]


def _by_row(rows: array, lines: array, places: array, count: int) -> dict[str, array]:
    """The hops in the order of their rows, those of one row as they came."""
    order = sorted(range(len(rows)), key=rows.__getitem__)
    first = array("I", bytes(4 * (count + 1)))
    for row in rows:
        first[row + 1] += 1
    for row in range(count):
        first[row + 1] += first[row]
    return {"hop first": first, "hop line": array("I", map(lines.__getitem__, order)), "hop place": array("Q", map(places.__getitem__, order))}


def hops(run: Run, table: Table, row: int) -> list[trace.Hop]:
    """The hops of a row."""
    its, found = table.hops, []
    with open(run.trace, "rb") as file:
        for at in range(its["hop first"][row], its["hop first"][row + 1]):
            file.seek(its["hop place"][at])
            text = file.readline().rstrip(b"\n").decode("ascii", "replace")
            line = next(trace.spoken_in(run.trace, [text]))
            found.append(trace.Hop(its["hop line"][at], line.kind, line.device, line.side, bytes.fromhex(line.data)))
    return found
