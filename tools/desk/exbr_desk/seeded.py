"""The order of a run with a seed: within a second it is that of the journal, as far as the journal can be."""
from __future__ import annotations

from itertools import groupby
from typing import TYPE_CHECKING, Callable, Iterator

from . import plain
from .captures import SECOND
from .journal import Line

if TYPE_CHECKING:
    from .reading import Event, Reading

Faults = Callable[[Line | None, str], None]


class Segment:
    """The events of one second that are still to come, in the order in which they would come without a seed."""

    def __init__(self, second: int, seconds: int, events: list[tuple]):
        self.second, self.seconds = second, seconds
        self.commands = [it for it in events if not it[1]]
        self.records = {(it[2], it[3]): it for it in events if it[1]}

    def is_done(self) -> bool:
        return not (self.seconds or self.commands or self.records)


class Order:
    """What each port's events still have to keep to: their numbers rise, but for what an extender ignores early."""

    def __init__(self):
        self.highest: dict[int, int] = {}
        self.main: dict[int, int] = {}

    def keeps(self, line: Line) -> bool:
        port, index = line.port, line.value
        late = index < self.highest.get(port, 0)
        self.highest[port] = max(index, self.highest.get(port, 0))
        if port < 64:
            return not late
        if line.kind == "ignore" and not late:
            return True
        good = index > self.main.get(port, 0)
        self.main[port] = max(index, self.main.get(port, 0))
        return good


def followed(reading: Reading, lines: Iterator[Line], faults: Faults) -> Iterator[Event]:
    """The events behind the opening. What the journal leaves out comes at the end of its second."""
    before, order, ahead = None, Order(), _Ahead(lines)
    for second, events in groupby(reading.merged(), lambda it: it[0] // SECOND):
        segment = Segment(second, second - before if before is not None else 0, list(events))
        before = second
        yield from _played(reading, segment, ahead, order, faults)
    while (line := ahead.next()) is not None:
        faults(line, "nothing is left that this line could be of")


class _Ahead:
    """Lines, of which the next one may be looked at."""

    def __init__(self, lines: Iterator[Line]):
        self.lines, self.held = lines, None

    def peek(self) -> Line | None:
        if self.held is None:
            self.held = next(self.lines, None)
        return self.held

    def next(self) -> Line | None:
        line = self.peek()
        self.held = None
        return line


def _played(reading: Reading, segment: Segment, ahead: _Ahead, order: Order, faults: Faults) -> Iterator[Event]:
    """A segment by the lines of the journal, then what is left of it, then `settled`."""
    from .reading import SETTLED, Told
    ended = False
    while not (ended and segment.is_done()):
        line = ahead.peek()
        if line is None or (line.kind != SETTLED and not _is_of(segment, line) and _is_later(reading, segment, line)):
            break
        ahead.next()
        if line.kind == SETTLED:
            if not segment.is_done() and not _goes_on(segment, ahead):
                ended = True
                break
            if not segment.is_done():
                faults(line, "'settled' stands in the midst of a second")
                continue
            ended = True
            told = Told(SETTLED, SETTLED)
            told.line = line.number
            yield told
            continue
        event = _event(reading, segment, line, order, faults)
        if event is not None:
            event.line = line.number
            yield event
    if not segment.is_done():
        yield from _left(reading, segment, ahead.peek(), faults)
    if not ended:
        faults(ahead.peek(), "'settled' is missing before this line")


def _is_of(segment: Segment, line: Line) -> bool:
    """Whether a line can be one of the events of a segment that are still to come."""
    if line.kind == "tick":
        return line.value == segment.seconds and segment.seconds > 0
    if line.kind in ("commit", "refuse"):
        return any(it[3] == line.value for it in segment.commands)
    return (line.port, line.value) in segment.records


def _goes_on(segment: Segment, ahead: _Ahead) -> bool:
    line = ahead.peek()
    return line is not None and line.kind != "settled" and _is_of(segment, line)


def _is_later(reading: Reading, segment: Segment, line: Line) -> bool:
    """Whether a line names an event of a later second, so that this one is over."""
    if line.kind in ("commit", "refuse"):
        commands = reading.topology.commands
        return 0 < line.value <= len(commands) and reading.start + commands[line.value - 1].at > segment.second
    if line.kind in ("relay", "ignore"):
        capture = reading.run.captures.get(line.port)
        if capture is None or not 0 < line.value <= capture.count:
            return False
        return next(capture.from_number(line.value)).time // SECOND > segment.second
    return line.kind == "tick" and segment.is_done()


def _event(reading: Reading, segment: Segment, line: Line, order: Order, faults: Faults) -> Event | None:
    """The event that a line names, if it can be there."""
    if not _is_of(segment, line):
        faults(line, "nothing that this line could be of is to come in this second")
        return None
    if line.kind == "tick":
        segment.seconds = 0
        return reading.tick(line.value)
    if line.kind in ("commit", "refuse"):
        if segment.commands[0][3] != line.value:
            faults(line, f"command {segment.commands[0][3]} comes before it")
        it = next(it for it in segment.commands if it[3] == line.value)
        segment.commands.remove(it)
        event = reading.obey(it[4], it[0])
    else:
        if not order.keeps(line):
            faults(line, f"it stands behind a later frame of {plain.name_of(line.port)}")
        moment, _, port, index, frame = segment.records.pop((line.port, line.value))
        event = reading.arrive(port, index, moment, frame)
    if event.text != line.text:
        faults(line, f"by the rules it is '{event.text}'")
    return event


def _left(reading: Reading, segment: Segment, line: Line | None, faults: Faults) -> Iterator[Event]:
    """What the journal doesn't tell of a segment."""
    if segment.seconds:
        faults(line, f"'tick {segment.seconds}' is missing before this line")
        yield reading.tick(segment.seconds)
    for it in segment.commands:
        event = reading.obey(it[4], it[0])
        faults(line, f"'{event.text}' is missing before this line")
        yield event
    for moment, _, port, index, frame in segment.records.values():
        event = reading.arrive(port, index, moment, frame)
        faults(line, f"'{event.text}' is missing before this line")
        yield event
