"""Two runs of the same captures side by side: who reaches whom in one and not in the other.

Frames are compared by their record, port and number, and never by where they stand in a file. A frame is *meant* for a port where
it is for a group, where its address speaks there, or where its address speaks nowhere; copies that a flood takes elsewhere are told
apart, since nobody waits for them.
"""
from __future__ import annotations

from array import array
from collections import Counter
from dataclasses import dataclass, field
from typing import Iterator, NamedTuple

from .blame import Blame, Cause, Ending, Pause, closed, obstacles
from .captures import Capture
from .errors import DeskError
from .progress import Progress
from .reach import Reach
from .reading import NAMES, Where
from .table import NEVER, Outcome

STEP = 8192
FIRST = 100


class Pair(NamedTuple):
    """A station at a port that speaks to an address, or, where `to` is None, a port whose frames to all reach another port."""

    port: int
    source: bytes
    to: bytes | None
    at: int | None = None


@dataclass
class Counted:
    """Frames of a pair, or of a line of detail: how many, the first of them, what became of them in the other run and why, and the last one
    of each VLAN. `cause` is that of the first frame, and `pause` from when to when a pair was cut off that isn't at the end."""

    count: int = 0
    first: list[Where] = field(default_factory=list)
    vlans: set[int] = field(default_factory=set)
    why: Counter = field(default_factory=Counter)
    ports: set[int] = field(default_factory=set)
    last: dict[int, Where] = field(default_factory=dict)
    latest: Where = (0, 0)
    low: int = 1 << 62
    cause: Cause | None = None
    pause: Pause | None = None

    def add(self, where: Where, vid: int | None, why: Cause | None = None) -> None:
        self.count += 1
        if len(self.first) < FIRST and where not in self.first:
            self.first.append(where)
        self.low, self.latest = min(self.low, where[1]), where
        if vid is not None:
            self.vlans.add(vid)
            self.last[vid] = where
        if why:
            self.why[why] += 1
            self.cause = self.cause or why


@dataclass
class Differences:
    """What differs. `loses` has pairs of which, from some frame on, none arrives any more that did before, and none would at the end; `gains`
    the other way round; `paused` those of which one would arrive at the end; `fewer` and `more` those of whose later frames some still
    arrive, or did before. `detail` is by VLAN, source port, source,
    what, port and tag. The copies of a flood that nobody waits for stand in it together, without a port."""

    before: Reach
    after: Reach
    frames: Counter = field(default_factory=Counter)
    vlans: dict[int, Counter] = field(default_factory=dict)
    loses: dict[Pair, Counted] = field(default_factory=dict)
    gains: dict[Pair, Counted] = field(default_factory=dict)
    paused: dict[Pair, Counted] = field(default_factory=dict)
    fewer: dict[Pair, Counted] = field(default_factory=dict)
    more: dict[Pair, Counted] = field(default_factory=dict)
    detail: dict[tuple, Counted] = field(default_factory=dict)
    floods: int = 0
    strange: list[str] = field(default_factory=list)

    @property
    def differs(self) -> bool:
        return any(count for what, count in self.frames.items() if what != "same") or bool(self.strange)


def check_captures(before: Reach, after: Reach) -> None:
    """That both are runs of the same captures: of each port the same frames at the same times."""
    for port in sorted(before.of.keys() & after.of.keys()):
        one, other = before.run.captures[port], after.run.captures[port]
        if one.path == other.path or _is_same(one, other):
            continue
        raise DeskError(f"{one.path} and {other.path} hold other frames, so these aren't two runs of the same captures")


def _is_same(one: Capture, other: Capture) -> bool:
    if one.count != other.count:
        return False
    return all(mine == its for mine, its in zip(one.from_number(1), other.from_number(1)))


def differences(before: Reach, after: Reach) -> Differences:
    """All that differs: the frames of which anything does, in the order of the commands that had taken effect, and then what became of the
    pairs to which they belong."""
    found, blame = Differences(before, after), Blame(before, after)
    changes = [it for port in sorted(before.of.keys() | after.of.keys()) for it in _changes(found, port)]
    changes.sort()
    progress = Progress("frames that differ", len(changes))
    try:
        for at, (after_epoch, before_epoch, port, index, one, other) in enumerate(changes):
            blame.go_to((before_epoch, after_epoch))
            _note(found, blame, (port, index), before.outcomes[one], after.outcomes[other])
            if not at % STEP:
                progress.at(at)
    finally:
        progress.end()
    _sort(found)
    _strange(found)
    return found


def _changes(found: Differences, port: int) -> list[tuple]:
    """The records of a port that differ: how many commands had taken effect in AFTER and BEFORE, port, number, and both outcomes."""
    before, after = found.before, found.after
    one, other = before.of.get(port), after.of.get(port)
    one, other = one or array("I", bytes(4 * len(other or ()))), other or array("I", bytes(4 * len(one or ())))
    pairs = Counter(zip(one, other))
    what = {pair: _what(before.outcomes[pair[0]], after.outcomes[pair[1]]) for pair in pairs}
    for pair, count in pairs.items():
        found.frames[what[pair]] += count
    if all(it == "same" for it in what.values()):
        return []
    return [(after.epoch((port, index)), before.epoch((port, index)), port, index, *pair) for index, pair in enumerate(zip(one, other), 1) if what[pair] != "same"]


def _what(before: Outcome, after: Outcome) -> str:
    """What differs between two outcomes of a frame."""
    if before.left == after.left:
        return "same"
    if before.ports == after.ports:
        return "tag"
    if before.ports > after.ports:
        return "fewer"
    return "more" if before.ports < after.ports else "others"


def _note(found: Differences, blame: Blame, where: Where, before: Outcome, after: Outcome) -> None:
    """Takes a frame that differs into the pairs and the detail."""
    port = where[0]
    source, to = (found.before if port in found.before.of else found.after).addresses(where)
    vid = before.vid if before.left else after.vid
    found.vlans.setdefault(vid or 0, Counter())[_what(before, after)] += 1
    _pairs(found.loses, found.before.homes, where, source, to, before, after, blame, True)
    _pairs(found.gains, found.before.homes, where, source, to, after, before, blame, False)
    for way, more, less in (("lost", before, after), ("gained", after, before)):
        for there, tag in more.left:
            if there not in less.ports:
                is_copy = not is_meant(found.before.homes, to, there)
                found.floods += is_copy
                key = vid or 0, port, source, f"{way} copies" if is_copy else way, -1 if is_copy else there, -1 if is_copy else tag
                its = found.detail.setdefault(key, Counted())
                its.add(where, more.vid, blame.cause(port, more, less, there, to, way == "lost"))
                its.ports.add(there)
    tags = dict(before.left)
    for there, tag in after.left:
        if there in tags and tags[there] != tag:
            found.detail.setdefault((vid or 0, port, source, "tag", there, (tags[there], tag)), Counted()).add(where, after.vid)


def is_meant(homes: dict[bytes, tuple[int, ...]], to: bytes, there: int) -> bool:
    """Whether somebody at a port waits for a frame."""
    if to[0] & 1:
        return True
    at = homes.get(to)
    return at is None or there in at


def reached(homes: dict, to: bytes, outcome: Outcome) -> Iterator[tuple[bytes | None, int | None]]:
    """Whom a frame reaches: the address to which it is, or, of a frame to all, each port."""
    if to[0] & 1:
        for there, _ in outcome.left:
            yield None, there
    elif any(is_meant(homes, to, there) for there, _ in outcome.left):
        yield to, None


def _pairs(pairs: dict[Pair, Counted], homes, where: Where, source: bytes, to: bytes, mine: Outcome, other: Outcome, blame: Blame, is_lost: bool) -> None:
    """Pairs of a frame that reached somebody in one run and not in the other."""
    others = set(reached(homes, to, other))
    for whom, there in reached(homes, to, mine):
        if (whom, there) not in others:
            pair = Pair(where[0], b"" if whom is None else source, whom, there)
            at = there if there is not None else next(port for port, _ in mine.left if is_meant(homes, to, port))
            pairs.setdefault(pair, Counted()).add(where, mine.vid, blame.cause(where[0], mine, other, at, to, is_lost))


def _sort(found: Differences) -> None:
    """Takes from the pairs that lose those of whose later frames some still arrive, and from those that gain those that did before. Of those
    that are left a frame would arrive at the end in some: these were cut off for a while."""
    if not found.loses and not found.gains:
        return
    still, already = _arriving(found)
    for pairs, rest, alive in ((found.loses, found.fewer, still), (found.gains, found.more, already)):
        for pair in list(pairs):
            if pair in alive:
                rest[pair] = pairs.pop(pair)
    _pauses(found, found.loses, found.paused, found.before, found.after)
    _pauses(found, found.gains, found.more, found.after, found.before)


def _pauses(found: Differences, pairs: dict[Pair, Counted], rest: dict[Pair, Counted], mine: Reach, other: Reach) -> None:
    """Takes away the pairs of which a frame would arrive at the end of the run in which those here don't."""
    ending = Ending(other, {pair.to for pair in pairs if pair.to}) if pairs else None
    for pair in list(pairs):
        it = pairs[pair]
        if all((pair.to, pair.at) in set(reached(found.before.homes, _to(other, where), ending.outcome(where))) for where in it.last.values()):
            it.pause = _pause(found, it, pair, ending, mine, other)
            rest[pair] = pairs.pop(pair)


def _to(reach: Reach, where: Where) -> bytes:
    return reach.run.captures[where[0]].record(where[1]).frame[:6]


def _pause(found: Differences, it: Counted, pair: Pair, ending: Ending, mine: Reach, other: Reach) -> Pause:
    """From when to when a pair was cut off."""
    where, commands, epoch = it.latest, other.run.topology.commands, other.epoch(it.latest)
    one, now = mine.at(where), ending.course.after(epoch).now
    there = pair.at if pair.at is not None else next(port for port, _ in one.left if is_meant(found.before.homes, pair.to, port))
    to = _to(other, where)
    keys = tuple(obstacles(now, where[0], one, other.at(where), there, to))
    number = ending.again(keys, epoch, lambda now: not _stand(now, where[0], one, there, keys)) if keys else 0
    by = it.cause.command if it.cause and it.cause.run == ("after" if other is found.after else "before") else 0
    at = {other.number(command.number): command.at for command in commands}
    return Pause(at.get(by), commands[number - 1].at if number else None, by, other.number(number) if number else 0)


def _stand(now, port: int, mine: Outcome, there: int, keys: tuple[tuple, ...]) -> bool:
    """Whether what kept a frame from a port still does."""
    kinds = {key[0] for key in keys}
    members = {at for ports in now.vlans.get(mine.vid, {}).values() for at in ports}
    return bool(("present" in kinds and not {key[1] for key in keys if key[0] == "present"} <= now.present) or ("pvid" in kinds and now.rules[port].pvid != mine.vid)
                or ("members" in kinds and not members) or ("filter" in kinds and now.rules[port].filter and port not in members)
                or closed(now, port, mine.vid, there))


def _arriving(found: Differences) -> tuple[set[Pair], set[Pair]]:
    """The pairs that lose some frames and of which a later one still arrives, and those that gain some and of which a later one did."""
    still, already, homes = set(), set(), found.before.homes
    for reach, pairs, alive in ((found.after, found.loses, still), (found.before, found.gains, already)):
        columns, addresses = reach.table.columns, reach.table.addresses
        of, meant = {pair.port for pair in pairs}, {pair.to for pair in pairs}
        wanted = {number for number, it in enumerate(addresses) if it and (it in meant or (None in meant and it[0] & 1))}
        for row in [row for row, number in enumerate(columns["target"]) if number in wanted]:
            where = columns["port"][row], columns["index"][row]
            if where[0] not in of:
                continue
            source, to = addresses[columns["source"][row]], addresses[columns["target"][row]]
            for whom, there in reached(homes, to, reach.at(where)):
                pair = Pair(where[0], b"" if whom is None else source, whom, there)
                if pair in pairs and pairs[pair].low < where[1]:
                    alive.add(pair)
    return still, already


def _strange(found: Differences) -> None:
    """What in the files no record accounts for, where both runs don't have the same of it."""
    its = [{(fault.port, fault.frame) for fault in reach.faults if fault.what == "extra" and fault.frame is not None}
           for reach in (found.before, found.after)]
    for name, mine, other in (("BEFORE", *its), ("AFTER", *reversed(its))):
        for port in sorted({port for port, _ in mine - other}):
            found.strange.append(f"{name} has frames out of {NAMES[port]} for which no record accounts")


def commands(reach: Reach) -> str:
    """What became of the commands of a run."""
    refused = f", {len(reach.refusals)} refused" if reach.refusals else ""
    return f"{len(reach.commits)} took effect{refused}"


__all__ = ["NEVER", "Counted", "Differences", "Pair", "check_captures", "commands", "differences"]
