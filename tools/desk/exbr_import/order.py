"""An order of commands in which none is refused, where one is found.

Refused is a command that needs more channels or groups than there are (docs/topology.md), which the second reading of the rules knows.
Where no limit is near, the first order does. Else units are tried first as wholes and then command by command, with steps back; the search
ends when all orders are tried, or after `MOST` commands.
"""
from __future__ import annotations

from dataclasses import dataclass

from exbr_desk import plain

from .change import Unit, sorted_words

MOST, DEEPEST = 20_000, 400


@dataclass
class Ordered:
    """The units in their order, what the first command that is refused lacks, and whether all orders were tried."""

    units: list[Unit]
    refusal: str = ""
    is_whole: bool = True


class Search:
    """Looks for an order. A state is the configuration after some commands."""

    def __init__(self, tree: plain.Tree, bridge: dict, start: plain.Configuration):
        self.tree, self.bridge, self.start, self.tried = tree, bridge, start, 0
        self.groups = bridge.get("groups", 12288)
        self.dead: set[frozenset] = set()

    def refusal(self, now: plain.Configuration, command: dict) -> str | None:
        """Why a command is refused, where channels or groups can run out at all."""
        self.tried += 1
        if command["op"] != "up" and self.groups >= 2 * (len(now.parts()) + 2):
            return None
        return plain.refusal(self.tree, self.bridge, now, command)

    def after(self, now: plain.Configuration, unit: Unit) -> tuple[plain.Configuration, list[dict], str]:
        """The configuration after a unit, its commands as they are written then, or why one of them is refused."""
        now, written = now.copy(), []
        for it in unit.commands:
            command = settled(it, now)
            cause = self.refusal(now, command)
            if cause:
                return now, written, cause
            now.command(command)
            written.append(command)
        return now, written, ""

    def straight(self, units: list[Unit]) -> tuple[list[Unit], str]:
        """All units in their order, and the first refusal."""
        now, found, first = self.start, [], ""
        for it in units:
            later, written, cause = self.after(now, it)
            if cause:
                first = first or f"{it.what}: {cause}"
                written = forced(now, it)
                later = now.copy()
                for command in written:
                    later.command(command)
            found.append(Unit(it.what, it.ports, written, it.lines))
            now = later
        return found, first

    def search(self, now: plain.Configuration, left: tuple[int, ...], units: list[Unit]) -> list[Unit] | None:
        """An order of the units that are left, or None. States from which none was found aren't tried again."""
        if not left:
            return []
        key = frozenset(left)
        if key in self.dead:
            return None
        for at in left:
            if self.tried > MOST:
                break
            later, written, cause = self.after(now, units[at])
            rest = None if cause else self.search(later, tuple(it for it in left if it != at), units)
            if rest is not None:
                return [Unit(units[at].what, units[at].ports, written, units[at].lines), *rest]
        self.dead.add(key)
        return None


def settled(command: dict, now: plain.Configuration) -> dict:
    """A command as it is written. One that sets a VLAN names all its members, which hang on what came before."""
    if "change" not in command:
        return command
    members = {plain.name_of(port): kind for kind, ports in now.vlans.get(command["vid"], {}).items() for port in ports}
    for place, kind in command["change"].items():
        members.pop(place, None)
        if kind:
            members[place] = kind
    lists = {kind: sorted_words({place for place, its in members.items() if its == kind}) for kind in ("tagged", "untagged")}
    return {"op": "vlan", "vid": command["vid"], **{kind: ports for kind, ports in lists.items() if ports}}


def forced(now: plain.Configuration, unit: Unit) -> list[dict]:
    """The commands of a unit as they are written, refused or not."""
    now, written = now.copy(), []
    for it in unit.commands:
        written.append(settled(it, now))
        now.command(written[-1])
    return written


def singles(units: list[Unit]) -> list[Unit]:
    """Each command by itself. One that sets a VLAN is one for each of its ports."""
    found = []
    for unit in units:
        for it in unit.commands:
            parts = [it] if "change" not in it else [{"op": "member", "vid": it["vid"], "port": place, "kind": kind} if kind else
                                                      {"op": "unmember", "vid": it["vid"], "port": place} for place, kind in it["change"].items()]
            found += [Unit(unit.what, unit.ports, [part], unit.lines) for part in parts]
    return found


def ordered(tree: plain.Tree, bridge: dict, start: plain.Configuration, units: list[Unit]) -> Ordered:
    """The units in an order in which no command is refused, or in the first one with what is refused there."""
    search = Search(tree, bridge, start)
    straight, cause = search.straight(units)
    if not cause:
        return Ordered(straight)
    whole = True
    for them in (units, [Unit(it.what, it.ports, [command], it.lines) for it in units for command in it.commands], singles(units)):
        if len(them) > DEEPEST:
            whole = False
            continue
        search.dead.clear()
        search.tried = 0
        found = search.search(start, tuple(range(len(them))), them)
        whole = whole and search.tried <= MOST
        if found is not None:
            return Ordered(found)
    return Ordered(straight, cause, whole)
