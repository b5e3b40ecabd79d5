"""What stands on a page of differences, as plain records: made of two runs that were compared, and drawn by `changes_page`."""
from dataclasses import dataclass, field

from exbr_desk import told
from exbr_desk.differ import Counted, Differences, Pair
from exbr_desk.explain import last
from exbr_desk.frames import mac
from exbr_desk.plain import Configuration
from exbr_desk.reading import NAMES

from . import lists, words

NOTHING = {"tagged": frozenset(), "untagged": frozenset()}
RULES = (("pvid", "pvid", "PVID"), ("accept", "accept", "accepted frames"), ("filter", "filter", "ingress filtering"), ("isolate", "isolated", "isolation"))


@dataclass
class PairRow:
    """A pair: both ends, each with its address where it is one of stations, its VLANs, frames, and why."""
    one: str
    other: str
    both: bool
    vlans: str
    frames: int
    first: str
    why: str
    command: str


@dataclass
class Doing:
    """What a command did."""
    number: str
    second: int | None
    words: str
    loses: int
    gains: int
    paused: int
    pairs: list[str]


@dataclass
class VlanRow:
    """A VLAN: the frames of it that differ, and the members at the end that came and went, with the commands that did it."""
    vid: int
    frames: dict[str, int]
    came: list[str]
    gone: list[str]
    commands: str


@dataclass
class Policy:
    """A rule that isn't the same at the end."""
    where: str
    what: str
    before: str
    after: str
    command: str


@dataclass
class Changes:
    """All of it."""
    found: Differences
    title: str
    doings: list[Doing] = field(default_factory=list)
    vlans: list[VlanRow] = field(default_factory=list)
    policies: list[Policy] = field(default_factory=list)


def changes_of(found: Differences, title: str) -> Changes:
    """What a page of differences shows."""
    before, after = (reach.course().after(len(reach.table.effects)) for reach in (found.before, found.after))
    since = {"after": after.since, "before": before.since}
    return Changes(found, title, doings_of(found), vlans_of(found, before.now, after.now, since), policies_of(found, before.now, after.now, since))


def pair_rows(found: Differences, pairs: dict[Pair, Counted], kind: str) -> list[PairRow]:
    """Pairs as rows."""
    said = {"loses": "now", "gains": "before", "paused": "then", "fewer": "now", "more": "before"}[kind]
    return [pair_row(found, row, said) for row in told.rows(pairs, found.before.homes)]


def pair_row(found: Differences, row: told.Row, when: str) -> PairRow:
    pair, it = row.pair, row.it
    vlans = ", ".join(map(str, sorted(it.vlans | (row.back.vlans if row.back else set()))))
    cause = it.why.most_common(1)[0][0] if it.why else None
    why = f"{when} {cause.text}" if cause else ""
    if it.pause:
        why += f"; {told.paused(it.pause)}"
    return PairRow(end_of(found, pair, True), end_of(found, pair, False), row.back is not None, vlans, told.weight(row), told.which(it), why,
                   command_of(cause.run, cause.command) if cause and cause.command else "")


def end_of(found: Differences, pair: Pair, is_first: bool) -> str:
    """An end of a pair in words."""
    if is_first:
        return f"{NAMES[pair.port]}  {mac(pair.source)}" if pair.to is not None else NAMES[pair.port]
    if pair.to is None:
        return f"{NAMES[pair.at]}  frames to all"
    return f"{'/'.join(NAMES[port] for port in found.before.homes.get(pair.to, ())) or 'heard nowhere'}  {mac(pair.to)}"


def command_of(run: str, number: int) -> str:
    return f"{number} of BEFORE" if run == "before" else str(number)


def doings_of(found: Differences) -> list[Doing]:
    """What each command did that did anything."""
    its = []
    for (run, number), deed in told.deeds(found).items():
        pairs = [f"{name} {told.who(row, found.before.homes)}" for name, rows in (("loses", deed.loses), ("gains", deed.gains), ("cuts off for a while", deed.paused))
                 for row in rows]
        its.append(Doing(command_of(run, number) if number else "none", told.second_of(found, run, number), in_words(found, run, number), len(deed.loses),
                         len(deed.gains), len(deed.paused), pairs))
    return its


def in_words(found: Differences, run: str, number: int) -> str:
    """A command in plain words."""
    reach = found.after if run == "after" else found.before
    table = next((it.table for it in reach.run.topology.commands if number and reach.number(it.number) == number), None)
    return words.command_in_words(table) if table else "no command did it: the topologies differ, or a station moved"


def whose(found: Differences, since: dict[str, dict], *keys: tuple) -> str:
    """The commands that set something last, those of AFTER before those of BEFORE."""
    for run, reach in (("after", found.after), ("before", found.before)):
        numbers = sorted({reach.number(number) for key in keys if (number := last(since[run], *key))})
        if numbers:
            return told.numbers(numbers) + (" of BEFORE" if run == "before" else "")
    return "–"


def vlans_of(found: Differences, before: Configuration, after: Configuration, since: dict[str, dict]) -> list[VlanRow]:
    """The VLANs of which anything differs: frames, or members at the end."""
    changed = {vid for vid in before.vlans.keys() | after.vlans.keys() if before.vlans.get(vid) != after.vlans.get(vid)}
    rows = []
    for vid in sorted(changed | found.vlans.keys()):
        one, other = ({(port, kind) for kind, ports in now.vlans.get(vid, NOTHING).items() for port in ports} for now in (before, after))
        keys = [("member", vid, port) for port, _ in one ^ other]
        rows.append(VlanRow(vid, dict(found.vlans.get(vid, {})), members(other - one), members(one - other), whose(found, since, *keys) if keys else "–"))
    return rows


def members(them: set[tuple[int, str]]) -> list[str]:
    """Members by kind."""
    kinds = ((kind, [NAMES[port] for port, its in sorted(them) if its == kind]) for kind in ("untagged", "tagged"))
    return [f"{lists.ports(names, 12)} ({kind})" for kind, names in kinds if names]


def policies_of(found: Differences, before: Configuration, after: Configuration, since: dict[str, dict]) -> list[Policy]:
    """The rules of ports, static entries and states of ports that differ at the end."""
    rows = []
    for key, name, said in RULES:
        for port in sorted(before.rules.keys() & after.rules.keys()):
            one, other = getattr(before.rules[port], name), getattr(after.rules[port], name)
            if one != other:
                rows.append(Policy(NAMES[port], said, shown(one), shown(other), whose(found, since, (key, port))))
    for port in sorted(before.present ^ after.present):
        rows.append(Policy(NAMES[port], "port", *("up" if port in now.present else "down or absent" for now in (before, after)), whose(found, since, ("present", port))))
    for vid, address in sorted(before.statics.keys() | after.statics.keys()):
        one, other = (now.statics.get((vid, address)) for now in (before, after))
        if one != other:
            rows.append(Policy(f"VLAN {vid}", f"static entry {mac(address)}", ports_of(one), ports_of(other), whose(found, since, ("static", vid, address))))
    return rows


def shown(value: object) -> str:
    return {True: "on", False: "off"}.get(value, str(value)) if isinstance(value, bool) else str(value)


def ports_of(them: set[int] | None) -> str:
    return "none" if them is None else lists.ports([NAMES[port] for port in sorted(them)], 12)
