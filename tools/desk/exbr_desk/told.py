"""What `exbr-compare` says, in words: the first ten lines, and all the rest."""
from __future__ import annotations

from dataclasses import dataclass
from typing import Iterator

from . import differ, frames, lists
from .blame import Cause, Pause
from .differ import Counted, Differences, Pair
from .explain import counted
from .reading import NAMES

TOP, SHOWN = 10, 8
Homes = dict[bytes, tuple[int, ...]]


@dataclass(frozen=True)
class Row:
    """A pair, and the same pair the other way round where it is there too."""

    pair: Pair
    it: Counted
    back: Counted | None = None


def rows(pairs: dict[Pair, Counted], homes: Homes) -> list[Row]:
    """Pairs of stations first, those of most frames first; both directions of one are one row."""
    told, done = [], set()
    for pair, it in sorted(pairs.items(), key=lambda it: (it[0].to is None, -it[1].count, it[0].port, it[0].source, it[0].to or b"", it[0].at or 0)):
        if pair in done:
            continue
        back = _back(pair, homes)
        done.add(back)
        told.append(Row(pair, it, pairs.get(back) if back != pair else None))
    return told


def _back(pair: Pair, homes: Homes) -> Pair:
    """The same pair the other way round."""
    if pair.to is None:
        return Pair(pair.at, b"", None, pair.port)
    at = homes.get(pair.to, ())
    return Pair(at[0], pair.to, pair.source) if len(at) == 1 else pair


def counted_pairs(pairs: dict[Pair, Counted], homes: Homes) -> str:
    """How many stations and ports there are in pairs."""
    every = rows(pairs, homes)
    stations = sum(row.pair.to is not None for row in every)
    told = [counted(stations, "pair") + " of stations"] if stations else []
    ports = len(every) - stations
    return " and ".join(told + ([counted(ports, "pair") + " of ports (frames to all)"] if ports else [])) or "nobody"


def who(row: Row, homes: Homes) -> str:
    """A pair in words."""
    pair, way = row.pair, "<->" if row.back else "->"
    if pair.to is None:
        return f"{NAMES[pair.port]} {way} {NAMES[pair.at]}, frames to all"
    at = "/".join(NAMES[port] for port in homes.get(pair.to, ())) or "heard nowhere"
    return f"{frames.mac(pair.source)} ({NAMES[pair.port]}) {way} {frames.mac(pair.to)} ({at})"


def facts(row: Row, when: str) -> str:
    """How many frames, which, and what becomes of them in the other run."""
    it, back = row.it, row.back
    vlans = ", ".join(map(str, sorted(it.vlans | (back.vlans if back else set()))))
    other = f" and {back.count:,} back" if back else ""
    return f"VLAN {vlans}: {counted(it.count, 'frame')}{other} ({which(it)})" + because(it, when)


def paused_facts(found: Differences, row: Row) -> str:
    """The same of a pair that was cut off for a while."""
    return f"{facts(row, 'then')}; {paused(row.it.pause)}"


def paused(it: Pause | None) -> str:
    """From when to when a pair was cut off."""
    if it is None or (it.begins is None and it.ends is None):
        return "cut off for a while; would arrive at the end"
    begins = f" from {it.begins} s" if it.begins is not None else ""
    ends = f" to {it.ends} s" if it.ends is not None else ""
    numbers = sorted({number for number in (it.by, it.again) if number})
    return f"cut off{begins}{ends} (command{'s' * (len(numbers) > 1)} {', '.join(map(str, numbers))}); would arrive at the end"


def lost_facts(found: Differences, row: Row) -> str:
    """The same of a pair that loses connectivity, with what arrives now of it that didn't."""
    new = found.gains.get(row.pair) or found.more.get(row.pair)
    but = f", but VLAN {', '.join(map(str, sorted(new.vlans)))}: {counted(new.count, 'frame')} now arrive{'s' * (new.count == 1)}" if new else ""
    return facts(row, "now") + but


def which(it: Counted) -> str:
    return ", ".join(f"{NAMES[port]}:{index}" for port, index in it.first[:3]) + (", .." if it.count > 3 else "")


def because(it: Counted, when: str) -> str:
    if not it.why:
        return ""
    cause = it.why.most_common(1)[0][0]
    return f"; {when} {cause.text}{by(cause)}"


def by(cause: Cause) -> str:
    """The command that did it."""
    return "" if not cause.command else f" (command {cause.command}{' of BEFORE' if cause.run == 'before' else ''})"


def summary(found: Differences) -> list[str]:
    """What matters, in ten lines at most, the question of an operator first."""
    homes = found.before.homes
    told = [*first(found), f"who loses connectivity: {counted_pairs(found.loses, homes)}"]
    rest = []
    if found.paused:
        rest.append(f"cut off for a while: {counted_pairs(found.paused, homes)}, {whens(found)}; at the end their frames would arrive")
    if found.gains:
        rest.append(f"who gains connectivity: {counted_pairs(found.gains, homes)}")
    if found.fewer or found.more:
        rest.append(f"for a while or in part: {counted_pairs(found.fewer, homes)} with fewer frames that arrive, "
                    f"{counted_pairs(found.more, homes)} with more")
    rest += [_frames(found), *_vlans(found)]
    rest.append(f"commands: before {differ.commands(found.before)}; after {differ.commands(found.after)}{_by_command(found)}")
    rest += files(found)
    room, lost = TOP - len(told) - len(rest), rows(found.loses, homes)
    return told + (cut_by_ports(lost, homes, room) if len(lost) > room else [f"  {who(row, homes)}: {lost_facts(found, row)}" for row in lost]) + rest


def first(found: Differences) -> list[str]:
    """What has to be said before all else: ports that stayed absent, and commands that were refused."""
    return [f"FIRST: {name}: {line}" for name, reach in (("BEFORE", found.before), ("AFTER", found.after))
            for line in reach.table.standing.lines(reach.run.topology.commands)]


def whens(found: Differences) -> str:
    """From when to when, where that is the same for all, or else how many such times there are."""
    its = {it.pause for it in found.paused.values()}
    return paused(its.pop()).partition(";")[0].removeprefix("cut off ") if len(its) == 1 else f"at {len(its)} times"


@dataclass
class Deed:
    """What a command did: the rows of pairs that lose, gain or were cut off by it."""

    loses: list[Row]
    gains: list[Row]
    paused: list[Row]

    def words(self) -> str:
        """How many of each there are."""
        named = ((self.loses, "lost"), (self.gains, "gained"), (self.paused, "cut off for a while"))
        return ", ".join(f"{len(rows):,} {word}" for rows, word in named if rows)


def deeds(found: Differences) -> dict[tuple[str, int], Deed]:
    """What each command did, by the run in which it stands and its number; those of AFTER first, and (\"\", 0) for what no command did."""
    its: dict[tuple[str, int], Deed] = {}
    for name, pairs in (("loses", found.loses), ("gains", found.gains), ("paused", found.paused)):
        for row in rows(pairs, found.before.homes):
            cause = row.it.cause
            key = (cause.run, cause.command) if cause else ("", 0)
            getattr(its.setdefault(key, Deed([], [], [])), name).append(row)
    return dict(sorted(its.items(), key=lambda it: (("after", "before", "").index(it[0][0]), it[0][1])))


def command_words(found: Differences, run: str, number: int) -> str:
    """A command in the words of its topology."""
    reach = found.after if run == "after" else found.before
    return next((it.words() for it in reach.run.topology.commands if reach.number(it.number) == number), "")


def alike(found: Differences) -> list[tuple[list[tuple[str, int]], Deed]]:
    """The deeds, together those of commands of one second, since they are mostly one change."""
    together: dict[tuple[str, int | None], tuple[list[tuple[str, int]], Deed]] = {}
    for key, deed in deeds(found).items():
        keys, its = together.setdefault((key[0], second_of(found, *key)), ([], Deed([], [], [])))
        keys.append(key)
        for name in ("loses", "gains", "paused"):
            getattr(its, name).extend(getattr(deed, name))
    return list(together.values())


def second_of(found: Differences, run: str, number: int) -> int | None:
    """At which second a command comes."""
    reach = found.after if run == "after" else found.before
    return next((it.at for it in reach.run.topology.commands if number and reach.number(it.number) == number), None)


def _by_command(found: Differences) -> str:
    """What each command did."""
    told = []
    for keys, deed in alike(found):
        run, number = keys[0]
        operations = sorted({command_words(found, *key).split(" ")[0] for key in keys})
        words = command_words(found, run, number) if len(keys) == 1 else f"{', '.join(operations)} .."
        named = f"{'BEFORE ' * (run == 'before')}{numbers([it for _, it in keys])} `{words}` at {second_of(found, run, number)} s" if number else "no command"
        told.append(f"{named}: {deed.words()}")
    more = f"; and by {len(told) - SHOWN} more, below" if len(told) > SHOWN else ""
    return f"; pairs by command: {'; '.join(told[:SHOWN])}{more}" if told else ""


def numbers(its: list[int]) -> str:
    """Numbers of commands in few words."""
    return ", ".join(f"{one}-{last}" if last > one else str(one) for one, last in lists.runs(its))


def cut_by_ports(lost: list[Row], homes: Homes, room: int) -> list[str]:
    """Many pairs by the two ports at which they are, those of most frames first."""
    by: dict[tuple[str, str], list[Row]] = {}
    for row in lost:
        there = (row.pair.at,) if row.pair.to is None else homes.get(row.pair.to, ())
        ends = sorted((row.pair.port, there[0])) if len(there) == 1 else [row.pair.port, -1]
        by.setdefault((NAMES[ends[0]], NAMES[ends[1]] if ends[1] >= 0 else "addresses at no one port"), []).append(row)
    every = sorted(by.items(), key=lambda it: -sum(map(weight, it[1])))
    told = []
    for (one, other), its in every[:room if len(every) <= room else room - 1]:
        stations = sum(row.pair.to is not None for row in its)
        what = ([counted(stations, "pair") + " of stations"] if stations else []) + (["frames to all"] if stations < len(its) else [])
        vlans = ", ".join(map(str, sorted(set().union(*(row.it.vlans for row in its)))))
        told.append(f"  between {one} and {other}: {' and '.join(what)}, VLAN {vlans}, {counted(sum(map(weight, its)), 'frame')}{because(its[0].it, 'now')}")
    return told + ([f"  and between {counted(len(every) - len(told), 'more pair')} of ports, below"] if len(told) < len(every) else [])


def weight(row: Row) -> int:
    """How many frames a row stands for."""
    return row.it.count + (row.back.count if row.back else 0)


WORDS = {"same": "as before", "fewer": "reach fewer ports", "more": "reach more", "others": "reach others", "tag": "leave with another tag"}


def _frames(found: Differences) -> str:
    told = ", ".join(f"{found.frames[what]:,} {text}" for what, text in WORDS.items() if found.frames[what] or what == "same")
    return f"frames: {told}" + (f" (where {found.floods:,} copies of floods differ for which nobody waits)" if found.floods else "")


def _vlans(found: Differences) -> list[str]:
    if not found.vlans:
        return []
    told = [f"{vid or 'none'}: {sum(its.values()):,}" for vid, its in sorted(found.vlans.items())]
    return ["frames that differ by VLAN: " + "; ".join(told[:12]) + (f"; and {len(told) - 12} more VLANs" if len(told) > 12 else "")]


def files(found: Differences) -> list[str]:
    """Where the files of a run differ from the rules, and what in them no record accounts for."""
    told = [f"{name}: {counted(len(reach.faults), 'difference')} between its files and the rules (exbr-why --all); what the files have counts"
            for name, reach in (("BEFORE", found.before), ("AFTER", found.after)) if reach.faults]
    return told + found.strange[:1]


def detail(found: Differences, limit: int) -> Iterator[str]:
    """All pairs, and then each difference by VLAN, source and port."""
    homes = found.before.homes
    for title, pairs, when in (("lose connectivity", found.loses, "now"), ("cut off for a while", found.paused, "then"),
                               ("gain connectivity", found.gains, "before"), ("fewer frames arrive", found.fewer, "now"),
                               ("more frames arrive", found.more, "before")):
        if pairs:
            yield from ["", f"{title}:"]
            its = (lost_facts(found, row) if pairs is found.loses else paused_facts(found, row) if row.it.pause else facts(row, when)
                   for row in rows(pairs, homes))
            yield from cut([f"  {who(row, homes)}: {it}" for row, it in zip(rows(pairs, homes), its)], limit)
    yield from cut(list(_deeds(found)), limit)
    if found.detail:
        yield from ["", "by VLAN, source and port:"]
        yield from cut(list(_by_vlan(found)), limit)


def cut(lines: list[str], limit: int) -> list[str]:
    if not limit or len(lines) <= limit:
        return lines
    return [*lines[:limit], f"  and {len(lines) - limit:,} more; --limit 0 shows all"]


def _deeds(found: Differences) -> Iterator[str]:
    """What each command did, with its pairs."""
    its = deeds(found)
    if its:
        yield from ["", "by command:"]
    for (run, number), deed in its.items():
        words = f"{'BEFORE, ' * (run == 'before')}command {number}, {command_words(found, run, number)}" if number else "no command"
        yield f"  {words}: {deed.words()}"
        for name, its_rows in (("loses", deed.loses), ("gains", deed.gains), ("pauses", deed.paused)):
            for row in its_rows[:SHOWN]:
                yield f"    {name} {who(row, found.before.homes)}"
            if len(its_rows) > SHOWN:
                yield f"    {name} {len(its_rows) - SHOWN:,} more, above"


def _by_vlan(found: Differences) -> Iterator[str]:
    head = None
    for key in sorted(found.detail, key=lambda it: (it[:4], it[4], str(it[5]))):
        vid, port, source, way, there, tag = key
        if head != key[:3]:
            head = key[:3]
            yield f"  VLAN {vid or 'none'}, {NAMES[port]}, {frames.mac(source)}"
        it = found.detail[key]
        count, lost = f"{counted(it.count, 'frame')} ({which(it)})", way.startswith("lost")
        if way == "tag":
            yield f"    to {NAMES[there]} with {tagged(tag[1])} and not {tagged(tag[0])}: {count}"
        elif way.endswith("copies"):
            ports = ", ".join(NAMES[it] for it in sorted(it.ports))
            yield f"    {'no longer' if lost else 'now'} flooded to {ports}: {counted(it.count, 'copy').replace('copys', 'copies')} ({which(it)})"
        else:
            yield f"    {'no longer' if lost else 'now'} to {NAMES[there]} ({tagged(tag)}): {count}" + because(it, "now" if lost else "before")


def tagged(tag: int) -> str:
    return f"tag {tag}" if tag else "no tag"
