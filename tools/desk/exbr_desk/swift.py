"""A run without a seed gone through quickly, as long as its files are what the rules ask for.

The rules are those of the second reading. What they make of a record is kept by port, address and tag until a command changes
something. What has to stand in the journal and in each output is held against these files in large pieces. Where a piece is another one
nothing of this counts, and the run is gone through by the judge, which finds each difference.
"""
from __future__ import annotations

import os
import struct
from bisect import bisect_left
from collections import Counter
from typing import BinaryIO, Iterator, NamedTuple

from . import captures, earlier, frames, journal, plain
from .captures import SECOND, opened
from .judge import is_seeded
from .progress import Progress
from .reading import IGNORED, NAMES, SETS, SETTLED, Arrival, Reading, Told
from .runs import Run
from .table import NOBODY, Filling, Outcome, Table, outcome_of

STEP, MOST = 2048, 200_000
LEARNS = -1
TAGS = (b"\x81\x00", b"\x88\xa8", b"\x89\x3f")


class Differs(Exception):
    """A file isn't what the rules ask for."""


def windows(run: Run, reading: Reading) -> Iterator[list[tuple]]:
    """All records and commands in order, many at a time: moment, whether it is a record, port, number, and bytes or command."""
    commands = [(SECOND * (reading.start + it.at), 0, 0, it.number, it) for it in run.topology.commands]
    coming = {port: capture.batches(port) for port, capture in run.captures.items()}
    waiting: dict[int, list[tuple]] = {port: [] for port in coming}
    while coming or waiting or commands:
        for port in list(coming):
            _refill(coming, waiting, port, 256)
        ends = sorted((waiting[port][-1][0], port) for port in coming)
        limit = (ends[0][0],) if ends else (1 << 70,)
        ready = _taken(commands, limit)
        for its in waiting.values():
            ready += _taken(its, limit)
        if ends and not ready:
            # All that waits there is of one moment, of which more may come.
            _refill(coming, waiting, ends[0][1], len(waiting[ends[0][1]]) + 1)
        waiting = {port: its for port, its in waiting.items() if its or port in coming}
        ready.sort()
        yield ready


def _refill(coming: dict, waiting: dict, port: int, least: int) -> None:
    """Reads on until so many records of a port wait, or none is left."""
    while port in coming and len(waiting[port]) < least:
        batch = next(coming[port], None)
        if batch is None:
            del coming[port]
        else:
            waiting[port] += batch


def _taken(its: list[tuple], limit: tuple) -> list[tuple]:
    """What comes before a moment, which is taken away."""
    at = bisect_left(its, limit)
    found = its[:at]
    del its[:at]
    return found


class Written:
    """What has to stand in the files of a run, held against them in pieces."""

    def __init__(self, run: Run):
        self.run = run
        self.lines: list[str] = []
        self.chunks: dict[int, list[bytes]] = {port: [] for port in run.topology.external}
        self.counts = dict.fromkeys(run.topology.external, 0)
        self.files: dict[str, BinaryIO] = {}

    def begin(self) -> None:
        """Opens all files. Each output has to begin as exbr begins one."""
        for path in self.run.outputs():
            self.files[path] = opened(path)
        for port in self.run.topology.external:
            self._same(self.run.output(port), captures.HEADER)

    def _same(self, path: str, wanted: bytes) -> None:
        found = self.files[path].read(len(wanted))
        if found != wanted and (len(found) == len(wanted) or found + self.files[path].read(len(wanted) - len(found)) != wanted):
            raise Differs(path)

    def hold(self, least: int = 0) -> None:
        """Holds all that was told against the files, where it is so much that this pays."""
        if len(self.lines) < 16 * least and sum(map(len, self.chunks.values())) < 64 * least:
            return
        self._same(self.run.journal, "".join(self.lines).encode())
        self.lines.clear()
        for port, its in self.chunks.items():
            if its:
                self._same(self.run.output(port), b"".join(its))
                its.clear()

    def end(self) -> None:
        """The same, and nothing more may stand there."""
        self.hold()
        for path, file in self.files.items():
            if file.read(1):
                raise Differs(path)

    def close(self) -> None:
        for file in self.files.values():
            file.close()


class Known(NamedTuple):
    """What is the same for all frames of a port with one beginning, until a command changes something: the outcome, or that what was learned
    tells it; whether it passes (None: it is ignored); the numbers of its addresses, and its type (-1: that stands behind its tag); by what
    its target, and its source, are learned; and the outcomes of its VLAN by the port to which it goes (None: it is flooded)."""

    outcome: int
    taken: bool | None
    vid: int
    source: int
    target: int
    type: int
    to: int
    own: int
    ways: dict[int | None, int]


class Swift:
    """Goes through a run, and fills a table. It raises `Differs` where a file isn't what it has to be."""

    def __init__(self, run: Run, written: Written):
        self.run, self.reading, self.table, self.written = run, Reading(run), Table(), written
        self.filling = Filling(self.table)
        self.known: dict[int, dict[bytes, Known]] = {port: {} for port in run.captures}
        self.ways: dict[tuple[int, int | None], dict[int | None, int]] = {}
        # By address and VLAN: the row that taught it, its port, and the clock then.
        self.learned: dict[int, tuple[int, int, int]] = {}
        self.types: dict[bytes, int] = {}
        self.copies: list[list[tuple]] = [[]]
        self.rows: list[tuple] = []
        self.row = self.line = self.kept = 0
        self.second: int | None = None

    def go(self, progress: Progress) -> None:
        """Goes through all of it."""
        for told in self.reading.opening():
            self.told(told)
        play, done = self.playing(), 0
        for batch in windows(self.run, self.reading):
            for at in range(0, len(batch), STEP):
                play(batch[at:at + STEP])
                self.written.hold(STEP)
            done += len(batch)
            progress.at(done)
        self.written.end()

    def told(self, event) -> None:
        """An event that isn't a record."""
        self.put()
        self.filling.take(event, self.reading)
        self.written.lines.append(event.text + "\n")
        self.line += 1

    def put(self) -> None:
        """Puts the rows that were made into the table."""
        if self.rows:
            for column, values in zip(self.table.columns.values(), zip(*self.rows)):
                column.extend(values)
            self.rows.clear()

    def turn(self, second: int) -> int:
        """A second begins. Gives the clock."""
        if self.second is not None:
            self.told(self.reading.tick(second - self.second))
        self.second = second
        return self.reading.clock

    def obey(self, command, moment: int) -> None:
        event = self.reading.obey(command, moment)
        self.told(event)
        self.told(Told(SETTLED, SETTLED))
        if event.cause is None:
            self.changed(command.table)
        if event.cause is None and command.table["op"] == "down":
            gone = plain.number_of(command.table["port"])
            for key in [key for key, (_, port, _) in self.learned.items() if port == gone]:
                del self.learned[key]

    def changed(self, table: dict) -> None:
        """Forgets what a command may have changed: of frames of its port, and of the VLANs that it names or in which its port is."""
        port = plain.number_of(table["port"]) if "port" in table else None
        vids = {table["vid"]} if table["op"] in SETS else set()
        if table["op"] in ("up", "down", "isolate"):
            vids = {vid for vid, kinds in self.reading.now.vlans.items() if any(port in ports for ports in kinds.values())}
        self.known.get(port, {}).clear()
        for at, its in self.known.items() if vids else ():
            self.known[at] = {key: known for key, known in its.items() if known.vid not in vids}
        for (_, vid), ways in self.ways.items():
            if vid in vids:
                ways.clear()

    def forget(self) -> None:
        """Forgets all of it, where it has become so much that few of it can be of use."""
        self.kept = 0
        for its in (*self.known.values(), *self.ways.values()):
            its.clear()

    def playing(self):
        """Plays records and commands, with all that it takes at hand."""
        reading, ageing, learned, known, place = self.reading, self.reading.ageing, self.learned, self.known, self.table.place
        relays, ignores = ([f"{word} {name} " for name in NAMES] for word in ("relay", "ignore"))
        write, leave, copies, put = self.written.lines.append, self.leaving(), self.copies, self.rows.append

        def play(batch: list[tuple]) -> None:
            clock, row, line = reading.clock, self.row, self.line
            for moment, is_record, port, index, frame in batch:
                if moment // SECOND != self.second:
                    clock, line = self.turn(moment // SECOND), self.line
                if not is_record:
                    self.obey(frame, moment)
                    line = self.line
                    continue
                outcome, taken, vid, source, target, kind, to, own, ways = (
                    (18 <= len(frame) <= 9216 and known[port].get(frame[:16])) or self.found(port, frame))
                teacher, at = NOBODY, None
                if outcome == LEARNS:
                    if to in learned:
                        teacher, there, then = learned[to]
                        at = there if clock - then < ageing else None
                    outcome = ways.get(at) or self.way(port, vid, at)
                put((port, index, moment, clock, outcome, teacher, line + 1, source, target, kind if kind >= 0 else self.type_of(frame), len(place)))
                line += 2
                self.line = line
                write(f"{ignores[port] if taken is None else relays[port]}{index}\nsettled\n")
                if taken and own and ageing:
                    learned[own] = row, port, clock
                if copies[outcome]:
                    leave(copies[outcome], moment, frame, vid)
                row += 1
            self.row = row
            self.put()

        return play

    def leaving(self):
        """What is done for a frame that leaves."""
        place, counts, pack = self.table.place.append, self.written.counts, struct.Struct("<IIII").pack

        def leave(ways: list[tuple], moment: int, frame: bytes, vid: int) -> None:
            second, rest = divmod(moment, SECOND)
            # Most frames leave as they came: without a tag, or with the tag of their VLAN.
            tag = (frame[14] & 15) << 8 | frame[15] if frame[12:14] == TAGS[0] else 0
            made: dict = {tag: pack(second, rest // 1000, len(frame), len(frame)) + frame} if tag == vid or (not tag and frame[12:14] != TAGS[0]) else {}
            for port, kind, put in ways:
                count = counts[port] = counts[port] + 1
                place(count)
                chunk = made.get(kind)
                if chunk is None:
                    data = plain.egress(frame, "tagged" if kind else "untagged", vid)
                    chunk = made[kind] = pack(second, rest // 1000, len(data), len(data)) + data
                put(chunk)

        return leave

    def found(self, port: int, frame: bytes) -> Known:
        """What the rules make of a record. It is kept where it is the same for each record of this port with this beginning."""
        it, address = self.reading.look(port, 0, 0, frame), self.filling.address
        learns = it.rule is None and it.how == "flooded" and not frame[0] & 1
        vid = it.vid or 0
        source, target = (address(frame[6:12]), address(frame[:6])) if len(frame) >= 14 else (0, 0)
        own = source << 12 | vid if it.rule is None and not frame[6] & 1 else 0
        kind = self.type_of(frame) if frame[12:14] not in TAGS else -1
        told = Known(LEARNS if learns else self.number(it), it.rule is None if it.is_relayed else None, vid, source, target, kind, target << 12 | vid,
                     own, self.ways.setdefault((port, vid), {}))
        if 18 <= len(frame) <= 9216:
            if self.kept > MOST:
                self.forget()
            self.kept += 1
            self.known[port][frame[:16]] = told
        return told

    def number(self, it: Arrival) -> int:
        """The number of an outcome. Where it leads is noted for the outputs."""
        return self.noted(outcome_of(it.vid, it.rule, it.how, it.entry.port if it.how == "learned" else None, it.targets))

    def noted(self, outcome: Outcome) -> int:
        number = self.filling.outcome(outcome)
        if number == len(self.copies):
            self.copies.append([(port, tag, self.written.chunks[port].append) for port, tag in outcome.left])
        return number

    def way(self, port: int, vid: int, at: int | None) -> int:
        """The outcome of a frame of a VLAN that goes to a learned port, or is flooded."""
        targets = self.reading.targets(port, vid, at)
        number = self.noted(outcome_of(vid, None, "flooded" if at is None else "learned", at, targets))
        self.ways.setdefault((port, vid), {})[at] = number
        return number

    def type_of(self, frame: bytes) -> int:
        """The type of a frame."""
        kind = frame[12:14]
        if kind not in TAGS:
            return kind[0] << 8 | kind[1] if len(frame) >= 14 else 0
        head = frame[12:18]
        found = self.types.get(head)
        if found is None:
            its = frames.ethernet(frame)
            found = its.type if its else 0
            if len(head) == 6 and head[4:] not in TAGS and kind != TAGS[2] and len(self.types) < MOST:
                self.types[head] = found
        return found


def _counters(run: Run, swift: Swift) -> None:
    """Holds the counters of the run against what was counted."""
    if not run.counters:
        return
    rows, outcomes = Counter(zip(swift.table.columns["port"], swift.table.columns["outcome"])), swift.table.outcomes
    told = {port: dict.fromkeys(("relayed", "dropped", "ignored"), 0) for port in run.topology.external}
    for (port, number), count in rows.items():
        rule = outcomes[number].rule
        told[port]["ignored" if rule in ("absent", *IGNORED) else "relayed"] += count
        told[port]["dropped"] += count if rule is not None and rule not in ("absent", *IGNORED) else 0
    lines = []
    for port, its in told.items():
        left = swift.written.counts[port]
        octets = os.path.getsize(run.output(port)) - len(captures.HEADER) - 16 * left
        lines.append(f"{NAMES[port]} relayed {its['relayed']} dropped {its['dropped']} ignored {its['ignored']} left {left} octets {octets}")
    if list(journal.texts(run.counters)) != lines:
        raise Differs(run.counters)


def table_of(run: Run, progress: Progress) -> Table | None:
    """The table of a run, or None where its files aren't what the rules ask for, or only the journal tells the order."""
    if is_seeded(run):
        return None
    written = Written(run)
    try:
        written.begin()
        swift = Swift(run, written)
        swift.go(progress)
        _counters(run, swift)
    except Differs:
        return None
    finally:
        written.close()
        progress.end()
    swift.table.notes = earlier.notes(run)
    return swift.table
