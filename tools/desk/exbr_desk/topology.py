"""A topology file: its tree, what is set at the start, its commands, and the captures that it names.

Tables and keys are looked at just so far that nothing below stumbles over them. Which fault exbr itself names first is said by
`exbr check`; here it is the first one that is met.
"""
from __future__ import annotations

import os
import re
from dataclasses import dataclass, field

from . import plain, safe_files, toml_text
from .errors import DeskError
from .shown import IN_LINE

LARGEST = 16_777_216
ADDRESS = re.compile("[0-9A-Fa-f]{2}(-[0-9A-Fa-f]{2}){5}|[0-9A-Fa-f]{2}(:[0-9A-Fa-f]{2}){5}")
WORD = re.compile("[*]|x([1-9]|[1-5][0-9]|6[0-4])[.][*]|(b|x([1-9]|[1-5][0-9]|6[0-4])[.])([1-9]|[1-5][0-9]|6[0-4])-([1-9]|[1-5][0-9]|6[0-4])")
ACCEPT, KINDS = ("all", "tagged", "untagged"), ("tagged", "untagged")
# What a key may have: the range of a number, or the name of a form.
KEYS = {
    "bridge": {"ports": (1, 64), "channels": (1, 4094), "groups": (1, 12288), "ageing": (0, 1_000_000), "out": "name"},
    "links": {"fate": "fate"},
    "extender": {"number": (1, 64), "on": "port", "ports": (1, 64)},
    "port": {"name": "port", "pvid": (1, 4094), "accept": ACCEPT, "filter": "switch", "isolated": "switch"},
    "vlan": {"vid": (1, 4094), "last": (1, 4094), "tagged": "ports", "untagged": "ports"},
    "static": {"vid": (1, 4094), "mac": "address", "ports": "ports"},
    "command": {"at": (0, 4294967295), "op": "text", "vid": (1, 4094), "port": "port", "kind": KINDS, "tagged": "ports",
                "untagged": "ports", "accept": ACCEPT, "filter": "switch", "isolated": "switch", "mac": "address", "ports": "ports",
                "fate": "fate"},
}
REQUIRED = {"bridge": {"ports"}, "extender": {"number", "on", "ports"}, "port": {"name"}, "vlan": {"vid"}, "static": {"vid", "mac", "ports"},
            "command": {"at", "op"}, "links": set()}
OPERATIONS = {"vlan": {"vid"}, "member": {"vid", "port", "kind"}, "unmember": {"vid", "port"}, "pvid": {"port", "vid"},
              "accept": {"port", "accept"}, "filter": {"port", "filter"}, "isolate": {"port", "isolated"}, "static": {"vid", "mac", "ports"},
              "unstatic": {"vid", "mac"}, "up": {"port"}, "down": {"port"}}


def _is_word(value) -> bool:
    return isinstance(value, str) and (plain.is_port(value) or WORD.fullmatch(value) is not None)


FORMS = {
    "text": lambda it: isinstance(it, str), "name": lambda it: isinstance(it, str) and not IN_LINE.search(it), "switch": lambda it: isinstance(it, bool),
    "fate": lambda it: isinstance(it, str) and not set(it) - set("PLTD"),
    "port": lambda it: isinstance(it, str) and plain.is_port(it),
    "address": lambda it: isinstance(it, str) and ADDRESS.fullmatch(it) is not None,
    "ports": lambda it: isinstance(it, list) and all(map(_is_word, it)),
}


@dataclass(frozen=True)
class Command:
    """A command of the topology: its number, counted from 1, its second after the start, and its table."""

    number: int
    at: int
    table: dict

    def words(self) -> str:
        """What it asks for, in the words of the file."""
        rest = [f"{key} {_shown(value)}" for key, value in self.table.items() if key not in ("at", "op", "fate")]
        return " ".join([self.table["op"], *rest])


def _shown(value) -> str:
    if isinstance(value, bool):
        return "true" if value else "false"
    return f"[{' '.join(value)}]" if isinstance(value, list) else str(value)


@dataclass
class Topology:
    """What a topology file says. Ports are numbers here: b1 is 0, and port k of extender n is 64 n + k - 1."""

    path: str
    text: str
    tables: dict
    tree: plain.Tree
    commands: list[Command]
    captures: dict[int, str] = field(default_factory=dict)

    @property
    def out(self) -> str:
        """What the names of output files begin with."""
        return self.tables["bridge"].get("out", "out-")

    @property
    def ageing(self) -> int:
        return self.tables["bridge"].get("ageing", 300)

    @property
    def limits(self) -> tuple[int, int]:
        """How many channels and how many groups there are below each port of the bridge."""
        return self.tables["bridge"].get("channels", 4094), self.tables["bridge"].get("groups", 12288)

    @property
    def external(self) -> list[int]:
        """The external ports, in port order."""
        return self.tree.external

    @property
    def extenders(self) -> dict[int, tuple[int, int]]:
        """By number: the port on which an extender hangs, and how many ports it has."""
        return {it["number"]: (plain.number_of(it["on"]), it["ports"]) for it in self.tables.get("extender", [])}

    def start(self) -> plain.Configuration:
        """The configuration before the opening: local ports are present, those of extenders aren't."""
        return plain.Configuration(self.tree, self.tables)


def read(path: str) -> Topology:
    """The topology of a file."""
    data = safe_files.read(path, LARGEST)
    if data is None:
        raise DeskError(f"{path}: topology: Large")
    try:
        text = data.decode()
    except UnicodeDecodeError:
        raise DeskError(f"{path}: topology: NotToml (it isn't UTF-8)") from None
    return of_text(text, path)


def of_text(text: str, path: str = "topology.toml") -> Topology:
    """The topology of a text, which is said to be that of a file."""
    try:
        tables = toml_text.tables(text)
    except (ValueError, RecursionError) as fault:
        raise DeskError(f"{path}: topology: NotToml ({fault})") from None
    try:
        _look(tables)
        tree = _tree(tables)
        _look_at_ports(tables, set(tree.external), tree)
    except DeskError as fault:
        raise DeskError(by_number(f"{path}: topology: {fault}")) from None
    commands = [Command(number, it["at"], it) for number, it in enumerate(tables.get("command", []), 1)]
    captures = {plain.number_of(port): name for port, name in tables.get("captures", {}).items()}
    return Topology(path, text, tables, tree, commands, dict(sorted(captures.items())))


def by_number(text: str) -> str:
    """A fault at a command, which keys count from 0, with its number as journals and tools count commands, from 1."""
    found = re.search(r" at command\[(\d{1,9})\]", text)
    return f"{text} (command {int(found[1]) + 1})" if found else text


def _look(tables: dict) -> None:
    """The shape of all tables."""
    for name in sorted(tables.keys() - KEYS.keys() - {"captures"}):
        raise DeskError(f"Unknown at {name}")
    if "bridge" not in tables:
        raise DeskError("Missing at bridge")
    for name in KEYS.keys() & tables.keys():
        alone = name in ("bridge", "links")
        value = tables[name]
        if not isinstance(value, dict if alone else list) or not (alone or all(isinstance(it, dict) for it in value)):
            raise DeskError(f"Kind at {name}")
        for at, element in enumerate([value] if alone else value):
            _look_at_keys(name, name if alone else f"{name}[{at}]", element)
    captures = tables.get("captures", {})
    if not isinstance(captures, dict):
        raise DeskError("Kind at captures")
    for port, value in sorted(captures.items()):
        if not plain.is_port(port):
            raise DeskError(f"Name at captures.{port}" + (" (a port of an extender needs quotes there)" if isinstance(value, dict) else ""))
        if not isinstance(value, str):
            raise DeskError(f"Kind at captures.{port}")
        if not FORMS["name"](value):
            raise DeskError(f"Name at captures.{port} (the tools take no name with control characters)")
    at = [it["at"] for it in tables.get("command", [])]
    for place, (one, other) in enumerate(zip(at, at[1:]), 1):
        if other < one:
            raise DeskError(f"Range at command[{place}].at")


def _look_at_keys(table: str, place: str, element: dict) -> None:
    """The keys of one element."""
    required, known = set(REQUIRED[table]), KEYS[table]
    if table == "command":
        op = element.get("op")
        if op is None or not isinstance(op, str) or op not in OPERATIONS:
            raise DeskError(f"{'Missing' if op is None else 'Name' if isinstance(op, str) else 'Kind'} at {place}.op")
        required |= OPERATIONS[op]
        known = {key: form for key, form in known.items() if key in required | {"fate"} | ({"tagged", "untagged"} if op == "vlan" else set())}
    for key in sorted(element.keys() - known.keys()):
        raise DeskError(f"Unknown at {place}.{key}")
    for key, form in known.items():
        if key not in element:
            if key in required:
                raise DeskError(f"Missing at {place}.{key}")
            continue
        _look_at_value(f"{place}.{key}", element[key], form)
    if table == "vlan" and element.get("last", element["vid"]) < element["vid"]:
        raise DeskError(f"Range at {place}.last")
    if table == "bridge" and 0 < element.get("ageing", 0) < 10:
        raise DeskError(f"Range at {place}.ageing")


def _look_at_value(place: str, value, form) -> None:
    if isinstance(form, tuple) and isinstance(form[0], int):
        if isinstance(value, bool) or not isinstance(value, int):
            raise DeskError(f"Kind at {place}")
        if not form[0] <= value <= form[1]:
            raise DeskError(f"Range at {place}")
    elif isinstance(form, tuple):
        if value not in form:
            raise DeskError(f"{'Name' if isinstance(value, str) else 'Kind'} at {place}")
    elif not FORMS[form](value):
        fits = {"switch": bool, "ports": list}.get(form, str)
        raise DeskError(f"{'Name' if isinstance(value, fits) else 'Kind'} at {place}")


def _tree(tables: dict) -> plain.Tree:
    """The tree, where each extender hangs on a port of its own that is there and reaches the bridge."""
    ports = {0: tables["bridge"]["ports"]}
    hung: dict[int, int] = {}
    extenders = tables.get("extender", [])
    for at, it in enumerate(extenders):
        on = plain.number_of(it["on"])
        if it["number"] in ports:
            raise DeskError(f"TwoUpstreams at extender[{at}].number")
        if on in hung.values():
            raise DeskError(f"SharedPort at extender[{at}].on")
        ports[it["number"]], hung[it["number"]] = it["ports"], on
    for at, it in enumerate(extenders):
        on = plain.number_of(it["on"])
        if on % 64 >= ports.get(on // 64, 0):
            raise DeskError(f"UnknownPort at extender[{at}].on")
    for at, it in enumerate(extenders):
        here, steps = it["number"], 0
        while here and steps <= 64:
            here, steps = hung[here] // 64, steps + 1
        if here:
            raise DeskError(f"Loop at extender[{at}].on")
    return plain.Tree(tables["bridge"], extenders)


def _look_at_ports(tables: dict, external: set[int], tree: plain.Tree) -> None:
    """That ports which words name are external, and nothing is given twice."""
    extenders = {it["number"] for it in tables.get("extender", [])}
    for table, key in (("port", ("name",)), ("vlan", ("tagged", "untagged")), ("static", ("ports",)),
                       ("command", ("port", "tagged", "untagged", "ports"))):
        for at, element in enumerate(tables.get(table, [])):
            for name in key:
                words = element.get(name, [])
                for word in [words] if isinstance(words, str) else words:
                    if not _is_there(word, external, extenders, tree):
                        raise DeskError(f"UnknownPort at {table}[{at}].{name}")
    for port in tables.get("captures", {}):
        if plain.number_of(port) not in external:
            raise DeskError(f"UnknownPort at captures.{port}")
    seen: set = set()
    for table, key in (("port", "name"), ("vlan", "vid"), ("static", "mac")):
        for at, it in enumerate(tables.get(table, [])):
            for what in _given(table, it):
                if what in seen:
                    raise DeskError(f"Repeat at {table}[{at}].{key}")
                seen.add(what)
    outs = {f"{tables['bridge'].get('out', 'out-')}{rest}" for rest in
            ["journal.txt", "trace.txt", "counters.txt", *(f"{plain.name_of(port)}.pcap" for port in external)]}
    for port, name in sorted(tables.get("captures", {}).items()):
        if name in outs:
            raise DeskError(f"Repeat at captures.{port} (a run would write over this file)")


def _is_there(word: str, external: set[int], extenders: set[int], tree: plain.Tree) -> bool:
    if word == "*":
        return True
    if word.endswith(".*"):
        return int(word[1:-2]) in extenders
    first, _, last = word.partition("-")
    if last and int(last) < int(first.replace("b", "").rpartition(".")[2]):
        return False
    return tree.ports(word) <= external


def _given(table: str, it: dict) -> list:
    if table == "vlan":
        return [("vlan", vid) for vid in range(it["vid"], it.get("last", it["vid"]) + 1)]
    if table == "static":
        return [("static", it["vid"], plain.address_of(it["mac"]))]
    return [("port", it["name"])]


def folder_of(path: str) -> str:
    return os.path.dirname(path) or "."
