"""The second reading: what the rules of one VLAN bridge make of a run's captures and commands, record by record, and why.

Without a seed the order of all events is told by the captures and the commands, so nothing that the run wrote is looked at. With
a seed the order of the events of one second is told by the journal alone, and is taken from there.
"""
from __future__ import annotations

from dataclasses import dataclass, field
from heapq import merge
from typing import Iterator, NamedTuple

from . import journal, plain
from .captures import SECOND
from .runs import Run
from .topology import Command

Where = tuple[int, int]
"""A record: its port and its number there."""


class Entry(NamedTuple):
    """What is learned of an address in a VLAN: its port, the clock then, and the record that taught it."""

    port: int
    clock: int
    index: int
    moment: int


@dataclass(slots=True)
class Arrival:
    """What the rules make of a record.

    `rule` says why it is relayed to nobody: `absent`, `short`, `long` or `reserved` (it is ignored), or `bad tag`, `accept`, `vlan`
    or `filter` (the rules of its port refuse it); None where it passes in VLAN `vid`. `how` says where its target comes from:
    `static`, `learned` or `flooded`. `targets` are the ports where it leaves, with the kind of each, `tagged` or `untagged`;
    `places` says as which record of the port's output each was found (0: it wasn't, or not yet). `line` is its line of the journal, and
    `row` its place in a table of what became of each frame.
    """

    port: int
    index: int
    moment: int
    frame: bytes
    clock: int
    rule: str | None = None
    vid: int | None = None
    how: str | None = None
    entry: Entry | None = None
    targets: tuple[tuple[int, str], ...] = ()
    places: list[int] = field(default_factory=list)
    line: int = 0
    row: int = -1

    @property
    def is_relayed(self) -> bool:
        return self.rule not in ("absent", "short", "long", "reserved")

    @property
    def text(self) -> str:
        return f"{'relay' if self.is_relayed else 'ignore'} {NAMES[self.port]} {self.index}"


@dataclass(slots=True)
class Ordered:
    """What becomes of a command: its cause is that of a refusal, or None where it takes effect."""

    command: Command
    moment: int
    clock: int
    cause: str | None
    line: int = 0

    @property
    def text(self) -> str:
        return f"refuse {self.command.number} {self.cause}" if self.cause else f"commit {self.command.number}"


@dataclass(slots=True)
class Told:
    """Any other line of the journal: `up`, `noup`, `tick` or `settled`."""

    text: str
    kind: str
    port: int | None = None
    seconds: int = 0
    line: int = 0


Event = Arrival | Ordered | Told
NAMES = [plain.name_of(port) for port in range(65 * 64)]
SETS = ("vlan", "member", "unmember", "static", "unstatic")
SETTLED, IGNORED = "settled", ("short", "long", "reserved")


class Reading:
    """The bridge as it is after each event that it gave. `now` is its configuration, `learned` what it has learned, `since` which
    command set something last, by what was set."""

    def __init__(self, run: Run, now: plain.Configuration | None = None):
        self.run, self.topology = run, run.topology
        self.tree, self.ageing = run.topology.tree, run.topology.ageing
        self.now = run.topology.start() if now is None else now
        self.clock = 0
        self.learned: dict[tuple[int, bytes], Entry] = {}
        self.since: dict[tuple, int] = {}
        self._known: dict = {}
        self._parts: int | None = None
        starts = [capture.first_second for capture in run.captures.values() if capture.first_second is not None]
        self.start = min(starts, default=0)

    # What happens.

    def events(self, seeded: Iterator[journal.Line] | None = None, faults=None) -> Iterator[Event]:
        """All events in order. With `seeded`, the lines of a journal, the order within a second is theirs, and `faults` is called
        with a line and a text for each line that can't be."""
        yield from self.opening()
        if seeded is None:
            yield from self._eagerly()
        else:
            from .seeded import followed
            yield from followed(self, seeded, faults)

    def opening(self) -> Iterator[Told]:
        """The ports of extenders go up, extenders by depth and number, the ports of each in order."""
        of: dict[int, list[int]] = {}
        for port in self.tree.external:
            of.setdefault(port // 64, []).append(port)
        for extender in self.tree.opened:
            for port in of.get(extender, []):
                up = {"op": "up", "port": NAMES[port]}
                cause = self.refusal(up)
                if cause is None:
                    self.now.present.add(port)
                yield Told(f"noup {NAMES[port]} {cause}" if cause else f"up {NAMES[port]}", "noup" if cause else "up", port)
        self._known.clear()
        yield Told(SETTLED, SETTLED)

    def merged(self) -> Iterator[tuple]:
        """Moment, whether it is a record, port, number, and command or frame, in the order in which they come."""
        def records(port: int, capture) -> Iterator[tuple]:
            for index, moment, frame in capture.from_number(1):
                yield moment, 1, port, index, frame

        commands = ((SECOND * (self.start + it.at), 0, 0, it.number, it) for it in self.topology.commands)
        return merge(commands, *(records(*it) for it in self.run.captures.items()))

    def _eagerly(self) -> Iterator[Event]:
        before = None
        for moment, is_record, port, index, what in self.merged():
            second = moment // SECOND
            if before is not None and second > before:
                yield self.tick(second - before)
            before = second
            yield self.arrive(port, index, moment, what) if is_record else self.obey(what, moment)
            yield Told(SETTLED, SETTLED)

    def tick(self, seconds: int) -> Told:
        self.clock += seconds
        return Told(f"tick {seconds}", "tick", None, seconds)

    # Commands.

    def refusal(self, table: dict) -> str | None:
        """Why a command is refused now, or None. Where groups can't run out they aren't counted, which would take long."""
        channels, groups = self.topology.limits
        # Each part gives two sets below a port of the bridge, before the command and after it.
        if groups < 2 * self._most_parts(table) and groups < 2 * (self._count_parts() + self._parts_after(table)):
            return plain.refusal(self.tree, self.topology.tables["bridge"], self.now, table)
        if table["op"] != "up":
            return None
        port = plain.number_of(table["port"])
        if port < 64 or port in self.now.present:
            return None
        trunk = self.tree.trunk(port)
        if self.tree.cascades(trunk) + len(self.tree.extended[trunk]) <= channels:
            return None
        needed = self.tree.cascades(trunk) + len(self.tree.extended[trunk] & self.now.present) + 1
        return f"channels {needed} {channels}" if needed > channels else None

    def _most_parts(self, table: dict) -> int:
        """No fewer parts than there are before a command and after it. A command gives a VLAN two, and two with each static entry of it."""
        before = self._count_parts()
        return 2 * before + (2 + 2 * len(self.now.statics) if table["op"] in SETS else 0)

    def _count_parts(self) -> int:
        """How many parts the configuration has, present or not."""
        if self._parts is None:
            self._parts = len(self.now.parts())
        return self._parts

    def _parts_after(self, table: dict) -> int:
        return len(self.now.after(table).parts()) if table["op"] in SETS else self._count_parts()

    def obey(self, command: Command, moment: int) -> Ordered:
        cause = self.refusal(command.table)
        if cause is None:
            self.change(command)
            if command.table["op"] == "down":
                gone = plain.number_of(command.table["port"])
                self.learned = {key: entry for key, entry in self.learned.items() if entry.port != gone}
        return Ordered(command, moment, self.clock, cause)

    def change(self, command: Command) -> None:
        """Does what a command says, but for what is forgotten by it."""
        self.now.command(command.table)
        self._known.clear()
        self._parts = None if command.table["op"] in SETS else self._parts
        for what in set_by(command.table):
            self.since[what] = command.number

    # Frames.

    def arrive(self, port: int, index: int, moment: int, frame: bytes) -> Arrival:
        """Looks a frame up, and learns then."""
        it = self.look(port, index, moment, frame)
        if it.rule is None and not frame[6] & 1 and self.ageing:
            self.learned[it.vid, frame[6:12]] = Entry(port, self.clock, index, moment)
        return it

    def look(self, port: int, index: int, moment: int, frame: bytes) -> Arrival:
        """What becomes of a frame now."""
        it = Arrival(port, index, moment, frame, self.clock)
        if port not in self.now.present:
            it.rule = "absent"
            return it
        kind = plain.kind_of(frame)[0]
        if kind in IGNORED:
            it.rule = kind
            return it
        it.vid, it.rule = plain.passes(self.now, port, frame)
        if it.rule is None:
            self._look_up(it)
        return it

    def _look_up(self, it: Arrival) -> None:
        key = it.vid, it.frame[:6]
        chosen = self.now.statics.get(key) if self.now.statics else None
        if chosen is not None:
            it.how = "static"
            it.targets = self._targets((it.port, it.vid, key[1]), chosen)
        else:
            entry = None if it.frame[0] & 1 else self.learned.get(key)
            if entry is not None and self.clock - entry.clock < self.ageing:
                it.how, it.entry = "learned", entry
                it.targets = self._targets((it.port, it.vid, entry.port), {entry.port})
            else:
                it.how, it.entry = "flooded", entry
                it.targets = self._targets((it.port, it.vid, None), None)
        it.places = [0] * len(it.targets)

    def targets(self, port: int, vid: int, at: int | None) -> tuple[tuple[int, str], ...]:
        """Where a frame of a VLAN leaves that goes to one port, or is flooded."""
        return self._targets((port, vid, at), None if at is None else {at})

    def _targets(self, key: tuple, chosen) -> tuple[tuple[int, str], ...]:
        """The targets in port order. They are kept until the configuration changes."""
        found = self._known.get(key)
        if found is None:
            port, vid, _ = key
            found = self._known[key] = tuple(sorted(plain.targets(self.now, port, vid, chosen)))
        return found


def set_by(table: dict) -> list[tuple]:
    """What a command sets: of a VLAN all its members, or one of them and with it whether it has any."""
    op = table["op"]
    if op == "vlan":
        return [("vlan", table["vid"]), ("members", table["vid"])]
    if op in ("member", "unmember"):
        return [("member", table["vid"], plain.number_of(table["port"])), ("members", table["vid"])]
    if op in ("static", "unstatic"):
        return [("static", table["vid"], plain.address_of(table["mac"]))]
    port = plain.number_of(table["port"])
    return [("present", port)] if op in ("up", "down") else [(op, port)]
