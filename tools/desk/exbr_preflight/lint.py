"""What is allowed and looks like a mistake, in what is set: at the beginning, and behind the commands of each second.

A warning stands from some moment on, and perhaps until another. Behind each second's commands those ports and VLANs are looked at again
that these commands touched. Which commands take effect is what the program says.
"""
from __future__ import annotations

from collections import Counter
from dataclasses import dataclass, field
from typing import Iterable, Iterator, NamedTuple

from exbr_desk import frames, plain
from exbr_desk.folding import folded
from exbr_desk.places import Path, Place, Placed
from exbr_desk.topology import Command, Topology

LINTS = {
    "two-untagged": "a port is untagged in two VLANs",
    "pvid-member": "a port isn't in the VLAN of its PVID",
    "asymmetric": "a port gets a VLAN without a tag, and what it sends without one goes to another VLAN",
    "kept-out": "a member whose own frames its accepted types or its filter refuse",
    "one-member": "a VLAN has one member",
    "static-members": "a static entry names ports that aren't in its VLAN",
    "isolated-alone": "an isolated port shares no VLAN with another isolated one",
    "no-change": "a command changes nothing",
    "after-end": "a command comes after the last frame",
    "foreign-tags": "a capture has tags of VLANs in which its port never is",
    "snap": "a capture was cut by a snapshot length",
    "both-directions": "a capture seems to hold what left its port as well",
    "fcs": "the frames of a capture end with a check sequence",
    "same-file": "one file is the capture of two ports",
}
NAMES = plain.name_of
# What a text says of one port, and of many.
VERBS = {"{} is ": "{} are ", "{} gets ": "{} get ", "{} has ": "{} have ", "its filter": "their filter", "its PVID": "their PVID",
         "it sends": "they send", "and isn't": "and aren't", "which isn't": "which aren't",
         "it filters": "they filter", "its own": "their own", " and accepts ": " and accept ",
         "in a VLAN of it": "in a VLAN of theirs"}


@dataclass
class Warning:
    """What looks like a mistake: its name, its text, in which `{}` stands for the ports, its ports, where it stands, and from which
    command on, and until which."""

    name: str
    text: str
    ports: list[int] = field(default_factory=list)
    path: Path = ()
    since: int = 0
    until: int | None = None
    place: Place | None = None

    def words(self) -> str:
        when = f"after command {self.since}: " if self.since else ""
        end = f" (until command {self.until})" if self.until else ""
        text = self.text
        for one, many in VERBS.items() if len(self.ports) > 1 else ():
            text = text.replace(one, many)
        return when + text.replace("{}", folded(self.ports, 12)) + end


class Subject(NamedTuple):
    """What a warning is about: its name, and a port, a VLAN or a static entry."""

    name: str
    what: object


class Watch:
    """Goes through the commands, and keeps which warnings stand."""

    def __init__(self, given: Topology, placed: Placed, refused: set[int]):
        self.given, self.placed, self.refused = given, placed, refused
        self.now = given.start()
        self.now.present = set(given.external)
        self.vlans_of: dict[int, dict[int, str]] = {}
        for vid, kinds in self.now.vlans.items():
            self._join(vid, kinds)
        self.isolated = {port for port, rules in self.now.rules.items() if rules.isolated}
        self.standing: dict[Subject, Warning] = {}
        self.found: list[Warning] = []
        self.named = {plain.number_of(it["name"]): at for at, it in enumerate(given.tables.get("port", []))}
        self.vlan_tables = {vid: at for at, it in enumerate(given.tables.get("vlan", [])) for vid in range(it["vid"], it.get("last", it["vid"]) + 1)}
        self.static_tables = {(it["vid"], plain.address_of(it["mac"])): at for at, it in enumerate(given.tables.get("static", []))}

    def _join(self, vid: int, kinds: dict) -> None:
        for kind, ports in kinds.items():
            for port in ports:
                self.vlans_of.setdefault(port, {})[vid] = kind

    def go(self) -> list[Warning]:
        self._look(set(self.given.external), set(self.now.vlans), set(self.now.statics), 0)
        commands = [it for it in self.given.commands]
        for at, command in enumerate(commands):
            touched = self._obey(command)
            self._pending = tuple(old | new for old, new in zip(self._pending, touched)) if self._pending else touched
            if at + 1 == len(commands) or commands[at + 1].at > command.at:
                self._look(*self._pending, command.number)
                self._pending = None
        return self.found + list(self.standing.values())

    _pending: tuple[set, set, set] | None = None

    def _obey(self, command: Command) -> tuple[set[int], set[int], set[tuple]]:
        """Carries a command out, and gives the ports, VLANs and entries that are touched."""
        table, op = command.table, command.table["op"]
        if command.number in self.refused:
            return set(), set(), set()
        if not self._changes(table):
            self.found.append(Warning("no-change", f"command {command.number} ({command.words()}) changes nothing: {self._why_not(table)}", [],
                                      ("command", command.number - 1, "op")))
            return set(), set(), set()
        before = self._members(table["vid"]) if op in ("vlan", "member", "unmember") else set()
        self.now.command(table)
        if op in ("vlan", "member", "unmember"):
            return self._changed_vlan(table["vid"], before)
        if op in ("static", "unstatic"):
            return set(), set(), {(table["vid"], plain.address_of(table["mac"]))}
        port = plain.number_of(table["port"])
        if op == "isolate":
            (self.isolated.add if table["isolated"] else self.isolated.discard)(port)
        return {port}, set(), set()

    def _members(self, vid: int) -> set[int]:
        return {port for ports in self.now.vlans.get(vid, {}).values() for port in ports}

    def _changed_vlan(self, vid: int, before: set[int]) -> tuple[set[int], set[int], set[tuple]]:
        for port in before:
            self.vlans_of[port].pop(vid, None)
        self._join(vid, self.now.vlans.get(vid, {}))
        entries = {key for key in self.now.statics if key[0] == vid}
        return before | self._members(vid), {vid}, entries

    def _changes(self, table: dict) -> bool:
        """Whether a command would change anything."""
        now, op = self.now, table["op"]
        port = plain.number_of(table["port"]) if "port" in table else None
        if op in ("up", "down"):
            return (port in now.present) != (op == "up")
        if op in ("pvid", "accept", "filter", "isolate"):
            key, value = {"pvid": ("pvid", "vid"), "isolate": ("isolated", "isolated")}.get(op, (op, op))
            return getattr(now.rules[port], key) != table[value]
        if op in ("static", "unstatic"):
            entry = now.statics.get((table["vid"], plain.address_of(table["mac"])))
            return entry is not None if op == "unstatic" else entry != now.tree.all_of(table["ports"])
        return now.after(table).vlans.get(table["vid"]) != now.vlans.get(table["vid"])

    def _why_not(self, table: dict) -> str:
        op, port = table["op"], table.get("port")
        return {"unmember": lambda: f"{port} isn't in VLAN {table['vid']}", "unstatic": lambda: "there is no such entry",
                "up": lambda: f"{port} is up", "down": lambda: f"{port} is down"}.get(op, lambda: "that is so already")()

    # What stands at a moment.

    def _look(self, ports: set[int], vids: set[int], entries: set[tuple], number: int) -> None:
        """Looks at what was touched: warnings that don't stand any more end with this command, and new ones begin."""
        stand = {subject: warning for warning, subject in self._of_all(ports, vids, entries)}
        looked = {(name, it) for name in ("two-untagged", "pvid-member", "asymmetric", "kept-out") for it in ports}
        looked |= {("one-member", vid) for vid in vids} | {("static-members", entry) for entry in entries}
        for subject in [it for it in self.standing if it not in stand and ((it.name, it.what) in looked or it.name == "isolated-alone")]:
            self.standing[subject].until = number
            self.found.append(self.standing.pop(subject))
        self.standing |= {subject: _since(warning, number) for subject, warning in stand.items()
                          if subject not in self.standing or self.standing[subject].text != warning.text}

    def _of_all(self, ports: set[int], vids: set[int], entries: set[tuple]) -> Iterator[tuple[Warning, Subject]]:
        for port in sorted(ports):
            yield from ((it, Subject(it.name, port)) for it in self._of_port(port))
        yield from ((self._one_member(vid), Subject("one-member", vid)) for vid in sorted(vids) if len(self._members(vid)) == 1)
        strangers = ((key, sorted(self.now.statics[key] - self._members(key[0]))) for key in sorted(entries & self.now.statics.keys()))
        yield from ((self._static(key, them), Subject("static-members", key)) for key, them in strangers if them)
        yield from self._isolated()

    def _one_member(self, vid: int) -> Warning:
        return Warning("one-member", f"VLAN {vid} has one member, {{}}: nothing that it sends there has anywhere to go", list(self._members(vid)),
                       ("vlan", self.vlan_tables.get(vid, 0), "vid"))

    def _static(self, key: tuple[int, bytes], strangers: list[int]) -> Warning:
        return Warning("static-members", f"the static entry of {frames.mac(key[1])} names {{}}, which isn't in VLAN {key[0]}: nothing leaves there",
                       strangers, ("static", self.static_tables.get(key, 0), "ports"))

    def _of_port(self, port: int) -> Iterator[Warning]:
        kinds, rules = self.vlans_of.get(port, {}), self.now.rules[port]
        untagged = sorted(vid for vid, kind in kinds.items() if kind == "untagged")
        where = self._port_path(port)
        if len(untagged) > 1:
            yield Warning("two-untagged", f"{{}} is untagged in VLANs {' and '.join(map(str, untagged))}, and what it sends without a tag goes to "
                          f"VLAN {rules.pvid} alone", [port], where)
        elif untagged and untagged[0] != rules.pvid and rules.pvid in kinds and rules.accept != "tagged":
            yield Warning("asymmetric", f"{{}} gets VLAN {untagged[0]} without a tag, and what it sends without one goes to VLAN {rules.pvid}", [port], where)
        if untagged and rules.pvid not in kinds and rules.accept != "tagged" and rules.filter:
            yield Warning("kept-out", f"{{}} gets VLAN {_some(untagged)} without a tag, and its filter refuses what it sends without one: its PVID is {rules.pvid}",
                          [port], where)
        elif rules.pvid not in kinds and rules.accept != "tagged" and (kinds or port in self.named):
            yield Warning("pvid-member", f"{{}} has PVID {rules.pvid} and isn't in VLAN {rules.pvid}: {self._fate(port, rules.pvid)}", [port], where)
        yield from self._kept_out(port, kinds, where)

    def _fate(self, port: int, vid: int) -> str:
        if vid not in self.now.vlans:
            return "it has no member, so what it sends without a tag goes nowhere"
        return "it filters, so what it sends without a tag is refused" if self.now.rules[port].filter else "what it sends without a tag reaches that VLAN, and nothing comes back"

    def _kept_out(self, port: int, kinds: dict[int, str], where: Path) -> Iterator[Warning]:
        rules = self.now.rules[port]
        tagged = sorted(vid for vid, kind in kinds.items() if kind == "tagged" and not (vid == rules.pvid))
        if rules.accept == "untagged" and tagged:
            yield Warning("kept-out", f"{{}} is tagged in VLAN {_some(tagged)} and accepts frames without a tag alone: its own tagged frames are refused", [port], where)
        untagged = sorted(vid for vid, kind in kinds.items() if kind == "untagged")
        if rules.accept == "tagged" and untagged:
            yield Warning("kept-out", f"{{}} gets VLAN {_some(untagged)} without a tag and accepts tagged frames alone: a station that answers in kind is refused",
                          [port], where)

    def _port_path(self, port: int) -> Path:
        if port in self.named:
            return "port", self.named[port], "name"
        vids = sorted(self.vlans_of.get(port, {}))
        return ("vlan", self.vlan_tables[vids[0]], "vid") if vids and vids[0] in self.vlan_tables else ()

    def _isolated(self) -> Iterator[tuple[Warning, Subject]]:
        isolated = sorted(self.isolated)
        counts = Counter(vid for port in isolated for vid in self.vlans_of.get(port, {}))
        alone = (port for port in isolated if all(counts[vid] == 1 for vid in self.vlans_of.get(port, {})))
        yield from ((Warning("isolated-alone", "{} is isolated, and no other isolated port is in a VLAN of it: that keeps nothing apart", [port],
                             self._port_path(port)), Subject("isolated-alone", port)) for port in alone)


def _since(warning: Warning, number: int) -> Warning:
    """A warning that stands from a command on, at whose line it is told."""
    warning.since = number
    warning.path = ("command", number - 1, "op") if number else warning.path
    return warning


def _some(vids: list[int]) -> str:
    return ", ".join(map(str, vids[:4])) + (f" and {len(vids) - 4} more" if len(vids) > 4 else "")


def together(warnings: Iterable[Warning]) -> list[Warning]:
    """Warnings that differ by their ports alone, as one with all their ports, at the place of the first."""
    found: dict[tuple, Warning] = {}
    for it in warnings:
        key = it.name, it.text, it.since, it.until, it.path if not it.ports else None
        if key in found:
            found[key].ports += it.ports
        else:
            found[key] = it
    return list(found.values())


def of_topology(given: Topology, placed: Placed, refused: set[int]) -> list[Warning]:
    """The warnings on what is set."""
    found = together(Watch(given, placed, refused).go())
    for it in found:
        it.place = placed.value(it.path) if it.path else None
    return sorted(found, key=lambda it: (it.place.line if it.place else 0, it.since))
