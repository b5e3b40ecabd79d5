"""A topology as a plan by hand: ports of which the same is said stand together."""
from __future__ import annotations

import itertools
import json
import os

from exbr_desk import names as names_of
from exbr_desk import plain
from exbr_desk.topology import Topology

from .change import sorted_words
from .numbers import ranges


def plan(given: Topology) -> str:
    """The text of the plan."""
    now, tables = given.start(), given.tables
    called = names_of.of(given.path)
    parts = [f"# Made by exbr-import --to-plan of {comment(os.path.basename(given.path))}. docs/plan.md says what a plan has.",
             table("[bridge]", tables["bridge"])]
    parts += [table("[links]", tables["links"])] if "links" in tables else []
    parts += [table("[[extender]]", it | called_so(called, it["number"])) for it in tables.get("extender", [])]
    same: dict[tuple, list[str]] = {}
    inside, closed = vlans_by_port(now), shut(given)
    for port in given.external:
        its = block(now, port, inside)
        closed -= {port} if not its else set()
        same.setdefault((*its, ("shutdown", "true")) if port in closed else its, []).append(plain.name_of(port))
    parts += ["\n".join(["[[ports]]", f"ports = {words(ports)}", *(f"{key} = {value}" for key, value in its)]) for its, ports in same.items() if its]
    parts += [table("[[static]]", {"vlan": vid, "mac": mac.hex(":"), "ports": sorted_words({plain.name_of(it) for it in ports})})
              for (vid, mac), ports in now.statics.items()]
    parts += [table("[[command]]", it.table) for it in given.commands if not is_shut(it.table, closed)]
    parts += [table("[captures]", tables["captures"])] if tables.get("captures") else []
    them = [f"{json.dumps(place)} = {{ {', '.join(f'{key} = {value_of(its)}' for key, its in it.items())} }}" for place, it in called.table().items()
            if it.get("interface") != place or "description" in it]
    parts += ["\n".join(["[names]", *them])] if them else []
    return "\n\n".join(it.rstrip() for it in parts) + "\n"


def shut(given: Topology) -> set[int]:
    """The ports that the first commands, at second 0, take down: a plan says `shutdown` of them."""
    first = itertools.takewhile(lambda it: it.at == 0 and it.table["op"] == "down" and "fate" not in it.table, given.commands)
    return {plain.number_of(it.table["port"]) for it in first}


def is_shut(table: dict, closed: set[int]) -> bool:
    """Whether a command is said by `shutdown`."""
    return table["at"] == 0 and table["op"] == "down" and plain.number_of(table["port"]) in closed


def called_so(called: names_of.Names, number: int) -> dict:
    """What an extender is called, and the rack in which it stands."""
    racks = {it.rack for place, it in called.ports.items() if place.startswith(f"x{number}.") and it.rack}
    found = {"name": called.extenders[number]} if number in called.extenders else {}
    return found | ({"rack": racks.pop()} if len(racks) == 1 else {})


def vlans_by_port(now: plain.Configuration) -> dict[int, dict[str, set[int]]]:
    """The VLANs of each port by kind."""
    found: dict[int, dict[str, set[int]]] = {}
    for vid, kind, port in [(vid, kind, port) for vid, kinds in now.vlans.items() for kind, ports in kinds.items() for port in ports]:
        found.setdefault(port, {"tagged": set(), "untagged": set()})[kind].add(vid)
    return found


def block(now: plain.Configuration, port: int, inside: dict) -> tuple[tuple[str, str], ...]:
    """What a plan says of a port: access, trunk, or each thing by itself. Nothing where it lets nothing in and is in no VLAN."""
    rules, vids = now.rules[port], inside.get(port, {"tagged": set(), "untagged": set()})
    tagged, untagged = vids["tagged"], vids["untagged"]
    extra = (("isolated", "true"),) if rules.isolated else ()
    if rules.filter and rules.accept == "all" and untagged == {rules.pvid} and not tagged:
        return (("access", str(rules.pvid)), *extra)
    if rules.filter and rules.accept == "all" and untagged == {rules.pvid}:
        return (("trunk", quoted(tagged)), ("native", str(rules.pvid)), *extra)
    if rules.filter and rules.accept == "tagged" and not untagged and rules.pvid == 1:
        return (("trunk", quoted(tagged)), *extra) if tagged else extra
    return (("pvid", str(rules.pvid)), ("tagged", quoted(tagged)), ("untagged", quoted(untagged)), ("accept", f'"{rules.accept}"'),
            ("filter", str(rules.filter).lower()), *extra)


def quoted(vids: set[int]) -> str:
    """VLANs as a text of a plan."""
    return f'"{ranges(vids)}"'


def words(places: list[str]) -> str:
    """Ports as a text of a plan."""
    return f'"{", ".join(sorted_words(set(places)))}"'


def table(head: str, it: dict) -> str:
    """A table of a plan."""
    bare = all(key.replace("_", "").isalnum() for key in it)
    return "\n".join([head, *(f"{key if bare else json.dumps(key)} = {value_of(its)}" for key, its in it.items())])


def value_of(it: object) -> str:
    """A value of TOML."""
    if isinstance(it, (list, tuple)):
        return f"[{', '.join(map(value_of, it))}]"
    return json.dumps(it, ensure_ascii=False).replace("\x7f", "\\u007f")


def comment(text: str) -> str:
    """A text that can stand in a comment."""
    return "".join(it if it.isprintable() else "?" for it in text)
