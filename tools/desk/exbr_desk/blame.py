"""Which command did it: what keeps a frame from a port in one of two runs, and which command set that last."""
from __future__ import annotations

from typing import NamedTuple

from . import plain
from .explain import last
from .reach import Reach
from .reading import NAMES, Where
from .table import Outcome

KEPT_OUT = {"absent": "its port is down", "never": "its port has no capture", "vlan": "VLAN {vid} has no member",
            "filter": "its port filters VLAN {vid}", "accept": "its port doesn't accept such frames", "bad tag": "its tag is bad"}


class Cause(NamedTuple):
    """Why a frame that reaches a port in one run doesn't in the other: a code and its words, and the command that did it, by its number in
    the topology of that run (0: none did; then the topologies differ, or somebody moved)."""

    code: str
    text: str
    command: int = 0
    run: str = ""


def cause_of(mine: Outcome, other: Outcome) -> tuple[str, str]:
    """What becomes in the other run of a frame that reached somebody in this one, as a code and in words."""
    if other.rule:
        return other.rule, KEPT_OUT.get(other.rule, other.rule).format(vid=other.vid)
    if other.vid != mine.vid:
        return "other vlan", f"it passes in VLAN {other.vid}"
    if other.how == "learned":
        nothing = "" if other.left else f", which gets nothing of VLAN {other.vid} from there"
        return "learned" if other.left else "learned, nothing", f"its address is learned at {NAMES[other.to]}{nothing}"
    if other.how == "static":
        return "static", "a static entry says where it goes"
    return "flooded", f"it is flooded in VLAN {other.vid}, without that port"


def obstacles(now: plain.Configuration, port: int, mine: Outcome, other: Outcome, there: int, to: bytes) -> list[tuple]:
    """What keeps a frame from a port, by what commands set."""
    if other.rule in ("absent", "accept"):
        return [("present" if other.rule == "absent" else "accept", port)]
    if other.rule not in (None, "vlan", "filter"):
        return []
    if other.vid != mine.vid:
        return [("pvid", port)]
    if other.rule == "vlan":
        return [("members", other.vid)]
    if other.rule == "filter":
        return [("filter", port), ("member", other.vid, port)]
    if other.how == "static" and there not in now.statics.get((other.vid, to), ()):
        return [("static", other.vid, to)]
    if other.how == "learned" and other.to != there:
        return [] if other.left else closed(now, port, other.vid, other.to)
    return closed(now, port, other.vid, there)


def closed(now: plain.Configuration, port: int, vid: int, there: int) -> list[tuple]:
    """What keeps frames of a VLAN that came at a port from another one."""
    if not any(there in ports for ports in now.vlans.get(vid, {}).values()):
        return [("member", vid, there)]
    if there not in now.present:
        return [("present", there)]
    return [("isolate", port), ("isolate", there)] if now.rules[port].isolated and now.rules[there].isolated else []


class Blame:
    """Tells causes, at frames that come in the order of their commands."""

    def __init__(self, before: Reach, after: Reach):
        self.before, self.after = before, after
        self.courses = before.course(), after.course()
        self._known: dict[tuple, Cause] = {}
        self._at: tuple[int, int] | None = None

    def go_to(self, epochs: tuple[int, int]) -> None:
        """How many commands had taken effect in both runs before the frames that follow."""
        if epochs != self._at:
            self._known.clear()
            self._at = epochs
            for course, epoch in zip(self.courses, epochs):
                course.after(epoch)

    def cause(self, port: int, mine: Outcome, other: Outcome, there: int, to: bytes, is_lost: bool) -> Cause:
        """Why a frame that reaches a port in one run doesn't in the other: in AFTER where it `is_lost`, else in BEFORE."""
        key = port, mine, other, there, to if other.how == "static" else b"", is_lost
        found = self._known.get(key)
        if found is None:
            before, after = (course.reading for course in self.courses)
            keys = obstacles((after if is_lost else before).now, port, mine, other, there, to)
            found = self._known[key] = Cause(*cause_of(mine, other), *self._doer(keys, before.since, after.since))
        return found

    def _doer(self, keys: list[tuple], before: dict, after: dict) -> tuple[int, str]:
        """The command of AFTER that set one of these last, or, where none did, that of BEFORE."""
        number = max((last(after, *key) for key in keys), default=0)
        if number:
            return self.after.number(number), "after"
        number = max((last(before, *key) for key in keys), default=0)
        return (self.before.number(number), "before") if number else (0, "")


class Pause(NamedTuple):
    """From when to when a pair was cut off, in seconds after the start, by which commands. None and 0 where no command did it."""

    begins: int | None
    ends: int | None
    by: int
    again: int


class Ending:
    """A run as it stands at its end: whether a frame would arrive then, and since when it would again."""

    def __init__(self, reach: Reach, wanted: set[bytes]):
        self.reach, self.table = reach, reach.table
        self.course = reach.course()
        self.end = len(self.table.effects)
        commands = [it.at for it in reach.run.topology.commands]
        self.clock = max([*self.table.columns["clock"][-1:], *commands[-1:], 0])
        self.learned = self._learned(wanted)
        self._pauses: dict[tuple, int | None] = {}

    def _learned(self, wanted: set[bytes]) -> dict[tuple[int, bytes], int]:
        """By which row each of some addresses was learned last in each VLAN, and not forgotten."""
        columns, table = self.table.columns, self.table
        numbers = {number: address for number, address in enumerate(table.addresses) if address in wanted}
        found: dict[tuple[int, bytes], int] = {}
        for row in [row for row, number in enumerate(columns["source"]) if number in numbers]:
            outcome = table.outcomes[columns["outcome"][row]]
            if outcome.rule is None and outcome.vid:
                found[outcome.vid, numbers[columns["source"][row]]] = row
        downs = {}
        for it in table.done:
            command = self.reach.run.topology.commands[it.number - 1].table
            if it.cause is None and command["op"] == "down":
                downs[plain.number_of(command["port"])] = it.row
        return {key: row for key, row in found.items() if row >= downs.get(columns["port"][row], 0)}

    def outcome(self, where: Where) -> Outcome:
        """What would become of a frame like this one at the end."""
        from .reading import Entry
        from .table import outcome_of
        reading, columns = self.course.after(self.end), self.table.columns
        reading.clock = self.clock
        reading.learned = {key: Entry(*(columns[name][row] for name in ("port", "clock", "index", "moment"))) for key, row in self.learned.items()}
        it = reading.look(where[0], where[1], 0, self.reach.run.captures[where[0]].record(where[1]).frame)
        return outcome_of(it.vid, it.rule, it.how, it.entry.port if it.how == "learned" else None, it.targets)

    def again(self, keys: tuple[tuple, ...], epoch: int, free) -> int:
        """The command after which what stood in the way of a frame was gone, or 0. `free` tells that of a configuration."""
        if (keys, epoch) not in self._pauses:
            self._pauses[keys, epoch] = next((number for at, number in enumerate(self.table.effects[epoch:], epoch + 1)
                                              if self._touches(number, keys) and free(self.course.after(at).now)), 0)
        return self._pauses[keys, epoch]

    def _touches(self, number: int, keys: tuple[tuple, ...]) -> bool:
        """Whether a command sets one of these."""
        from .reading import set_by
        its = set(set_by(self.reach.run.topology.commands[number - 1].table))
        return any(key in its or (key[0] == "member" and ("vlan", key[1]) in its) for key in keys)
