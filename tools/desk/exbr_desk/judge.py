"""The second reading held against the files of a run: each difference, and in which file it is."""
from __future__ import annotations

from dataclasses import dataclass, field
from typing import Callable, Iterator

from . import captures, earlier, frames, journal, plain
from .align import Aligner
from .captures import Pieces, form_of, opened
from .counts import Counts
from .errors import DeskError
from .reading import NAMES, Arrival, Event, Reading, Where
from .runs import UNENDED, Run


@dataclass
class Fault:
    """A difference between the rules and a file: one of the two is wrong.

    `what` is `missing`, `extra` or `changed`. `place` is the number of the record, or of the line, at which it stands. `arrival` is
    the record of which it is, where that can be told. `frame` is what the file has there.
    """

    file: str
    what: str
    place: int
    text: str
    arrival: Where | None = None
    port: int | None = None
    frame: bytes | None = field(default=None, repr=False)


class Judge:
    """Goes through a run, and gives each event with its place in the files. `faults` has the differences so far, and `notes` what is to
    be said of files that lie there and aren't of this run. Counts are made where they are asked for, or where the run has counters."""

    def __init__(self, run: Run, counting: bool = False):
        self.run, self.reading = run, Reading(run)
        self.faults: list[Fault] = []
        self.notes = earlier.notes(run)
        self.left = 0
        self.counts = Counts(run) if counting or run.counters else None
        # Told of an event, or of a frame and which of its targets it is, whose place is found only after a difference was looked into.
        self.late_line: Callable[[Event], None] = lambda event: None
        self.late_place: Callable[[Arrival, int], None] = lambda it, at: None
        self._outputs = {port: self._output(port) for port in run.topology.external}
        self._journal: Aligner | None = None

    @property
    def given_up(self) -> list[str]:
        """The files with so many differences that not all of them were looked for."""
        found = [self.run.output(port) for port, it in self._outputs.items() if it.given_up]
        return found + ([self.run.journal] if self._journal and self._journal.given_up else [])

    def events(self) -> Iterator[Event]:
        """All events. Differences that show only later are in `faults` at the end."""
        seeded = is_seeded(self.run)
        if seeded:
            yield from self._seeded()
        else:
            yield from self._eager()
        for aligner in self._outputs.values():
            aligner.finish()
        if self.run.counters:
            self._counters(self.run.counters)

    # The journal.

    def _eager(self) -> Iterator[Event]:
        """Without a seed each line of the journal is told by the captures."""
        it = self._journal = Aligner(journal.texts(self.run.journal), self._tell_line, self._set_line)
        expect = it.expect
        for event in self.reading.events():
            event.line = expect(event.text, event)
            if event.__class__ is Arrival:
                self._leave(event)
            yield event
        it.finish()

    def _seeded(self) -> Iterator[Event]:
        lines = journal.lines(self.run.journal)
        for told in self.reading.opening():
            line = next(lines, None)
            if line is None or line.text != told.text:
                self._fault_of_line(line, f"by the rules it is '{told.text}'")
            told.line = line.number if line else 0
            yield told
        from .seeded import followed
        for event in followed(self.reading, lines, self._fault_of_line):
            if event.__class__ is Arrival:
                self._leave(event)
            yield event

    def _fault_of_line(self, line: journal.Line | None, text: str) -> None:
        place = line.number if line else 0
        there = f"line {place}, '{line.text}': " if line else "at its end: "
        arrival = (line.port, line.value) if line and line.kind in ("relay", "ignore") else None
        self.faults.append(Fault(self.run.journal, "changed", place, there + text, arrival))

    def _tell_line(self, what: str, place: int, wanted: str, event: Event | None, found: str) -> None:
        arrival = (event.port, event.index) if isinstance(event, Arrival) else None
        text = {"missing": f"before line {place} '{wanted}' is missing",
                "extra": f"line {place}, '{found}', ought not to be there",
                "changed": f"line {place} is '{found}', and by the rules it is '{wanted}'"}[what]
        if arrival is None and found is not None:
            line = journal.line_of(found)
            arrival = (line.port, line.value) if line and line.kind in ("relay", "ignore") else None
        self.faults.append(Fault(self.run.journal, what, place, text, arrival))

    # The outputs.

    def _output(self, port: int) -> Aligner:
        def tell(what, place, wanted, item, found):
            self._tell_record(port, what, place, wanted, item, found)
        return Aligner(self._keys(port), tell, self._set_place)

    def _set_line(self, event: Event, place: int) -> None:
        event.line = place
        self.late_line(event)

    def _set_place(self, item: tuple[Arrival, int], place: int) -> None:
        item[0].places[item[1]] = place
        self.late_place(*item)

    def _keys(self, port: int) -> Iterator[tuple[int, bytes]]:
        """The microsecond and bytes of each record of an output. It is opened when its first record is asked for."""
        path = self.run.output(port)
        try:
            with opened(path) as file:
                form = form_of(file, path)
                for _, time, frame in form.records(Pieces(file, path, form.start, self.run.piece)):
                    yield time // 1000, frame
        except DeskError as fault:
            raise DeskError(f"{fault}: {UNENDED}" if " Cut at " in str(fault) else str(fault)) from None

    def _leave(self, it: Arrival) -> None:
        """Looks for a frame at each port where it leaves."""
        at, moment, made = 0, it.moment // 1000, {}
        for port, kind in it.targets:
            key = made.get(kind)
            if key is None:
                key = made[kind] = moment, plain.egress(it.frame, kind, it.vid)
            it.places[at] = self._outputs[port].expect(key, (it, at))
            at += 1
        self.left += at
        if self.counts:
            self.counts.add(it)

    def _tell_record(self, port: int, what: str, place: int, wanted, item, found) -> None:
        it = item[0] if item else None
        arrival = (it.port, it.index) if it else None
        of = f"frame {it.index} of {NAMES[it.port]}" if it else ""
        if what == "missing":
            text = f"{of} is missing before record {place}: {_with_tag(wanted[1])}"
        elif what == "extra":
            text = f"record {place} ought not to be there: {frames.describe(found[1])}"
        else:
            text = f"record {place} ought to be {of}: {_difference(wanted, found)}"
        self.faults.append(Fault(self.run.output(port), what, place, text, arrival, port, found[1] if found else None))

    def _counters(self, path: str) -> None:
        """Holds the counters of the run against those of the rules. Those of an earlier run are left out."""
        before = len(self.faults)
        self._judge_counters(path)
        if len(self.faults) > before and earlier.is_older(self.run, path):
            del self.faults[before:]
            self.notes.append(earlier.left_out(self.run, path))

    def _judge_counters(self, path: str) -> None:
        there = list(journal.texts(path))
        for number, (port, ought) in enumerate(zip(self.counts.ports, self.counts.lines()), 1):
            found = there[number - 1] if number <= len(there) else None
            if found != ought:
                text = f"line {number} is '{found}', and by the rules it is '{ought}'" if found is not None else f"'{ought}' is missing at its end"
                self.faults.append(Fault(path, "changed" if found is not None else "missing", number, text, None, port))
        for number in range(len(self.counts.ports) + 1, len(there) + 1):
            self.faults.append(Fault(path, "extra", number, f"line {number}, '{there[number - 1]}', ought not to be there"))


def _with_tag(frame: bytes) -> str:
    return f"it leaves there with {frames.tag_in_words(frame)}"


def _difference(wanted: tuple[int, bytes], found: tuple[int, bytes]) -> str:
    """In what a record that is there differs from the one that ought to be."""
    ought, there = wanted[1], found[1]
    if ought == there:
        return f"its time is {seconds(found[0] * 1000)} and not {seconds(wanted[0] * 1000)}"
    if ought[:12] == there[:12] and _body(ought) == _body(there):
        return f"it has {frames.tag_in_words(there)} and not {frames.tag_in_words(ought)}"
    if len(ought) == len(there):
        at = next(at for at in range(len(ought)) if ought[at] != there[at])
        return f"its byte {at} is {there[at]:02x} and not {ought[at]:02x}"
    return f"it is another frame: {frames.describe(there)}"


def _body(frame: bytes) -> bytes:
    return frame[16:] if frame[12:14] == b"\x81\x00" else frame[12:]


def seconds(moment: int) -> str:
    """A moment in seconds, as Wireshark shows one."""
    whole, rest = divmod(moment, captures.SECOND)
    return f"{whole}.{rest // 1000:06}" + (f"{rest % 1000:03}" if rest % 1000 else "") + " s"


def is_seeded(run: Run) -> bool:
    """Whether the journal is that of a run with a seed. Where both modes give the same segments it may be taken as either, and where
    the journal has neither number of segments it is taken as that to which it comes closer."""
    settled, others = _count(run.journal)
    extended = sum(port >= 64 for port in run.topology.external)
    if settled - 1 == others - extended:
        return False
    events = run.arrivals + len(run.topology.commands)
    if settled - 1 == events:
        return False
    its, before = 0, None
    for moment, *_ in Reading(run).merged():
        if moment // captures.SECOND != before:
            its, before = its + 1, moment // captures.SECOND
    return abs(settled - 1 - its) < abs(settled - 1 - events)


def _count(path: str) -> tuple[int, int]:
    """How many lines of a journal are `settled`, and how many are others, without those of ticks."""
    settled = ticks = every = 0
    with opened(path) as file:
        rest = b""
        while piece := file.read(1 << 20):
            whole, _, rest = (rest + piece).rpartition(b"\n")
            journal.look_at(path, rest)
            lines = b"\n" + whole
            settled += lines.count(b"\nsettled")
            ticks += lines.count(b"\ntick ")
            every += lines.count(b"\n") if whole else 0
    return settled, every - settled - ticks


def judged(run: Run) -> Judge:
    """A judge who has gone through the whole run."""
    judge = Judge(run)
    for _ in judge.events():
        pass
    return judge
