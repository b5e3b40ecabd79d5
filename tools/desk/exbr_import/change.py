"""A change as a difference: the commands that lead from one configuration of a switch to another one.

A *unit* is what has to happen at one port, or to VLANs at several ports, with its commands. Units that say the same of several ports are one
*step* for the reader. The units come in an order in which no command is refused, where one is found: `ordered` in `order.py`.
"""
from __future__ import annotations

from dataclasses import dataclass, field

from . import numbers
from .switch import Port, Switch
from .text import words


@dataclass
class Unit:
    """What has to happen: what it is for, at which ports, by which commands, and the lines of both files that say so."""

    what: str
    ports: list[Port]
    commands: list[dict]
    lines: tuple[int, int] = (0, 0)


@dataclass
class Step:
    """Units with one purpose that follow each other."""

    what: str
    units: list[Unit] = field(default_factory=list)

    @property
    def ports(self) -> list[Port]:
        """The ports of all units, each once."""
        return list({it.place: it for unit in self.units for it in unit.ports}.values())

    @property
    def commands(self) -> list[dict]:
        """The commands of all units."""
        return [it for unit in self.units for it in unit.commands]

    def shown(self) -> str:
        """What the step is for, with its ports."""
        names = [it.shown for it in self.ports] if len(self.ports) <= 3 else [numbers.compact([it.name for it in self.ports])]
        return f"{', '.join(names)}: {self.what}" if names else self.what


def vlan_sets(port: Port) -> tuple[set[int], set[int]]:
    """Its tagged VLANs, and its untagged ones. A VLAN that is in both is untagged."""
    return port.tagged - port.untagged, set(port.untagged)


def kinds(port: Port) -> dict[int, str]:
    """The VLANs of a port with their kinds."""
    tagged, untagged = vlan_sets(port)
    return dict.fromkeys(tagged, "tagged") | dict.fromkeys(untagged, "untagged")


def differing(before: dict[str, Port], after: dict[str, Port]) -> dict[int, dict[str, str | None]]:
    """By VLAN the ports whose tagged membership comes or goes, where the untagged VLAN of the port has no part in it."""
    found: dict[int, dict[str, str | None]] = {}
    for place, mine in before.items():
        one, other = kinds(mine), kinds(after[place])
        for vid in one.keys() ^ other.keys():
            if "untagged" not in (one.get(vid), other.get(vid)):
                found.setdefault(vid, {})[place] = other.get(vid)
    return found


def units(before: Switch, after: Switch) -> list[Unit]:
    """All that has to happen. Ports are those of both, by their places."""
    mine, its = before.by(lambda it: it.place), after.by(lambda it: it.place)
    wide = {vid: ports for vid, ports in differing(mine, its).items() if len(ports) > 1}
    found = gone_statics(before, after)
    found += [it for place in mine if (it := of_port(mine[place], its[place], {vid for vid, ports in wide.items() if place in ports}))]
    return found + of_vlans(wide, mine, its, after) + new_statics(before, after)


def of_port(one: Port, other: Port, wide: set[int]) -> Unit | None:
    """What has to happen at a port, but for the VLANs that change at several ports at once."""
    name, before, after = one.place, kinds(one), kinds(other)
    gone = sorted(before.keys() - after.keys() - wide)
    come = sorted(vid for vid in after.keys() - wide if before.get(vid) != after[vid])
    first, last = rules(one, other)
    commands = first + [{"op": "unmember", "vid": vid, "port": name} for vid in gone]
    commands += [{"op": "member", "vid": vid, "port": name, "kind": after[vid]} for vid in come]
    if other.pvid is not None and other.pvid != (one.pvid or 1):
        commands.append({"op": "pvid", "vid": other.pvid, "port": name})
    commands += last
    return Unit(purpose(one, other, gone, come), [other if other.name else one], commands, (one.line, other.line)) if commands else None


def rules(one: Port, other: Port) -> tuple[list[dict], list[dict]]:
    """The commands on a port's rules: what closes it comes first, and what opens it last."""
    first, last, name = [], [], one.place
    if is_present(one) and not is_present(other):
        first.append({"op": "down", "port": name})
    if one.isolated != other.isolated:
        (first if other.isolated else last).append({"op": "isolate", "port": name, "isolated": other.isolated})
    if one.accepts != other.accepts:
        (first if other.accepts != "all" else last).append({"op": "accept", "port": name, "accept": other.accepts})
    if one.filter != other.filter:
        (first if other.filter else last).append({"op": "filter", "port": name, "filter": other.filter})
    if not is_present(one) and other.is_up and not other.why:
        last.append({"op": "up", "port": name})
    return first, last


def is_present(port: Port) -> bool:
    """Whether a topology has a port up. One that is in no VLAN stays up, and lets nothing in."""
    return port.is_up or bool(port.why)


def purpose(one: Port, other: Port, gone: list[int], come: list[int]) -> str:
    """What a unit is for, in the words of the trade."""
    parts = []
    if is_access(one) and is_access(other) and one.pvid != other.pvid:
        parts.append(f"access VLAN {one.pvid} → {other.pvid}")
    elif mode(one) != mode(other):
        parts.append(f"{mode(one)} → {mode(other)}")
    else:
        parts += moved(one, other, gone, come)
    parts += [["isolation ends", "isolated"][other.isolated]] if one.isolated != other.isolated else []
    if one.is_up != other.is_up and not other.why and not one.why:
        parts.append("no shutdown" if other.is_up else "shutdown")
    return ", ".join(parts) or "rules of the port"


def moved(one: Port, other: Port, gone: list[int], come: list[int]) -> list[str]:
    """The VLANs that a port gets and loses, and its native VLAN."""
    before, natives = kinds(one), {one.pvid, other.pvid}
    new, turned = [vid for vid in come if vid not in before], [vid for vid in come if vid in before and vid not in natives]
    parts = [f"no VLAN {numbers.ranges(gone)} any more"] if gone else []
    parts += [f"VLAN {numbers.ranges(new)} comes"] if new else []
    parts += [f"VLAN {numbers.ranges(turned)} {kinds(other)[turned[0]]} now"] if turned else []
    if (one.pvid, one.accepts) != (other.pvid, other.accepts) and not is_access(other):
        parts.append(f"native VLAN {one.pvid or 'none'} → {other.pvid or 'none'}")
    return parts


def is_access(port: Port) -> bool:
    """Whether a port is an access port, or is so far as it is in a VLAN at all."""
    return not port.why and port.pvid is not None and not port.tagged and port.untagged <= {port.pvid}


def mode(port: Port) -> str:
    """What a port is, in short."""
    if port.why:
        return f"in no VLAN ({port.why})"
    if not port.tagged and not port.untagged:
        return "in no VLAN"
    return f"access VLAN {port.pvid}" if is_access(port) else "trunk"


def of_vlans(wide: dict[int, dict[str, str | None]], mine: dict[str, Port], its: dict[str, Port], after: Switch) -> list[Unit]:
    """VLANs of which several ports change: one command sets the members of each. VLANs with the same change are one unit."""
    same: dict[tuple, list[int]] = {}
    for vid in sorted(wide):
        same.setdefault(tuple(sorted(wide[vid].items())), []).append(vid)
    found = []
    for change, vids in same.items():
        come, gone = [its[place] for place, kind in change if kind], [mine[place] for place, kind in change if not kind]
        named = numbers.ranges(vids) + (f" ({after.vlan_names[vids[0]]})" if len(vids) == 1 and vids[0] in after.vlan_names else "")
        parts = [f"comes to {numbers.compact([it.name or it.place for it in come])}"] if come else []
        parts += [f"leaves {numbers.compact([it.name or it.place for it in gone])}"] if gone else []
        found.append(Unit(f"VLAN {named} {', '.join(parts)}", [], [{"op": "vlan", "vid": vid, "change": dict(change)} for vid in vids]))
    return found


def entries(switch: Switch) -> dict[tuple[int, str], tuple[list[str], int]]:
    """The static entries with their places and lines."""
    places = {it.name: it.place for it in switch.ports}
    return {(it.vid, it.mac): (sorted(places[name] for name in it.ports), it.line) for it in switch.statics}


def gone_statics(before: Switch, after: Switch) -> list[Unit]:
    """Static entries that go."""
    mine, its = entries(before), entries(after)
    return [Unit(f"the static entry {mac} of VLAN {vid} goes", [], [{"op": "unstatic", "vid": vid, "mac": mac}], (mine[vid, mac][1], 0))
            for vid, mac in mine if (vid, mac) not in its]


def new_statics(before: Switch, after: Switch) -> list[Unit]:
    """Static entries that come, or get other ports."""
    mine, its = entries(before), entries(after)
    return [Unit(f"the static entry {mac} of VLAN {vid} {'gets other ports' if (vid, mac) in mine else 'comes'}", [],
                 [{"op": "static", "vid": vid, "mac": mac, "ports": ports}], (mine.get((vid, mac), ([], 0))[1], line))
            for (vid, mac), (ports, line) in its.items() if mine.get((vid, mac), (None, 0))[0] != ports]


def steps(them: list[Unit]) -> list[Step]:
    """Units that follow each other with one purpose, as one step."""
    found: list[Step] = []
    for it in them:
        if not found or found[-1].what != it.what or not it.ports:
            found.append(Step(it.what))
        found[-1].units.append(it)
    return found


def unchanged(before: Switch, after: Switch) -> list[str]:
    """What differs and is no command: it stays as it was."""
    found = []
    if before.ageing != after.ageing:
        found.append(f"the ageing time of {before.ageing} s becomes {after.ageing} s: no command sets it, so it stays {before.ageing} s")
    for number in sorted(before.boxes.keys() ^ after.boxes.keys()):
        it = (before.boxes.get(number) or after.boxes[number])
        if it.name:
            found.append(f"{it.name} {'goes' if number in before.boxes else 'comes'} with the change: its ports are there all the time here, "
                         f"and in no VLAN {'afterwards' if number in before.boxes else 'before'}")
    return found


def sorted_words(places: set[str]) -> list[str]:
    """Places in order, in the ranges of a topology."""
    text = words(sorted(places, key=lambda it: (it[0], numbers.natural(it))))
    return [it.strip('"') for it in text.strip("[]").split(", ") if it]
