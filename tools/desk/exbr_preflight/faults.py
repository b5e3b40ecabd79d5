"""The faults of a topology file, in the order of the specification of the file (docs/topology.md).

The program ends with the first fault. Here all faults of the first pass that has one are found, so a file with four typing mistakes
needs one look. The first of them is the one that the program names.
"""
from __future__ import annotations

from dataclasses import dataclass, field
from typing import Iterator

from exbr_desk import plain
from exbr_desk.places import Path
from exbr_desk.topology import ACCEPT, ADDRESS, KINDS, WORD

MOST_COMMANDS, MOST_LETTERS = 65_536, 60_000
TABLES = ("bridge", "links", "extender", "port", "vlan", "static", "command", "captures")
ALONE = ("bridge", "links")
SWITCH, PORT, PORTS, TEXT, MAC, FATE = "switch", "port", "ports", "text", "address", "fate"
# The keys of each table in their order: whether they are required, and the range of a number, the words of a text, or the name of a form.
KEYS: dict[str, dict[str, tuple[bool, object]]] = {
    "bridge": {"ports": (True, (1, 64)), "channels": (False, (1, 4094)), "groups": (False, (1, 12288)), "ageing": (False, (0, 1_000_000)),
               "out": (False, TEXT)},
    "links": {"fate": (False, FATE)},
    "extender": {"number": (True, (1, 64)), "on": (True, PORT), "ports": (True, (1, 64))},
    "port": {"name": (True, PORT), "pvid": (False, (1, 4094)), "accept": (False, ACCEPT), "filter": (False, SWITCH), "isolated": (False, SWITCH)},
    "vlan": {"vid": (True, (1, 4094)), "last": (False, (1, 4094)), "tagged": (False, PORTS), "untagged": (False, PORTS)},
    "static": {"vid": (True, (1, 4094)), "mac": (True, MAC), "ports": (True, PORTS)},
}
VID = (True, (1, 4094))
OF_COMMAND = {"at": (True, (0, 4_294_967_295)), "vid": VID, "port": (True, PORT), "kind": (True, KINDS), "tagged": (False, PORTS),
              "untagged": (False, PORTS), "accept": (True, ACCEPT), "filter": (True, SWITCH), "isolated": (True, SWITCH), "mac": (True, MAC),
              "ports": (True, PORTS), "fate": (False, FATE)}
OPERATIONS = {"vlan": ("vid", "tagged", "untagged"), "member": ("vid", "port", "kind"), "unmember": ("vid", "port"), "pvid": ("vid", "port"),
              "accept": ("port", "accept"), "filter": ("port", "filter"), "isolate": ("port", "isolated"), "static": ("vid", "mac", "ports"),
              "unstatic": ("vid", "mac"), "up": ("port",), "down": ("port",)}


@dataclass(frozen=True)
class Fault:
    """A fault: its kind and key as the program prints them, the way to the value, the number of the word in its list where it is one
    of a list, and what else `wording` needs."""

    kind: str
    key: str
    path: Path
    word: int | None = None
    about: dict = field(default_factory=dict)

    @property
    def text(self) -> str:
        return f"{self.kind} at {self.key}"


def key_of(path: Path) -> str:
    """A way as the program prints it."""
    text = str(path[0])
    for part in path[1:]:
        text += f"[{part}]" if isinstance(part, int) else f".{part}"
    return text


def fault(kind: str, *path: str | int, word: int | None = None, **about) -> Fault:
    return Fault(kind, key_of(path), path, word, about)


def all_faults(tables: dict) -> list[Fault]:
    """The faults of the first pass that has any."""
    from .trees import of_ports, of_tree
    found = list(of_shape(tables))
    return found or list(of_tree(tables)) or list(of_ports(tables))


# The first pass: tables and keys that are there, of their type, in range, and of their form.

def of_shape(tables: dict) -> Iterator[Fault]:
    for name in sorted(tables.keys() - set(TABLES)):
        yield fault("Unknown", name)
    letters = Letters()
    for name in TABLES:
        if name in tables:
            yield from _of_table(name, tables[name], letters)
        elif name == "bridge":
            yield fault("Missing", name)


class Letters:
    """How many letters the fates have so far."""

    def __init__(self) -> None:
        self.count = 0

    def passed(self, text: str) -> bool:
        """Counts a fate, and says whether there are too many letters now that weren't before."""
        before, self.count = self.count, self.count + len(text)
        return before <= MOST_LETTERS < self.count


def _of_table(name: str, value, letters: Letters) -> Iterator[Fault]:
    if name == "captures":
        yield from _of_captures(value)
        return
    if not isinstance(value, dict if name in ALONE else list) or name not in ALONE and not all(isinstance(it, dict) for it in value):
        yield fault("Kind", name, value=value)
        return
    if name == "command":
        yield from _of_commands(value, letters)
        return
    for at, element in enumerate([value] if name in ALONE else value):
        yield from _of_element((name,) if name in ALONE else (name, at), element, KEYS[name], letters)


def _of_captures(value) -> Iterator[Fault]:
    if not isinstance(value, dict):
        yield fault("Kind", "captures", value=value)
        return
    for port, file in sorted(value.items()):
        if not plain.is_port(port):
            yield fault("Name", "captures", port, value=port, nested=isinstance(file, dict), form=PORT)
        elif not isinstance(file, str):
            yield fault("Kind", "captures", port, value=file, form=TEXT)


def _of_commands(value: list, letters: Letters) -> Iterator[Fault]:
    if len(value) > MOST_COMMANDS:
        yield fault("Range", "command", count=len(value))
        return
    before: tuple[int, int] = (0, 0)
    for at, element in enumerate(value):
        op = element.get("op")
        if not isinstance(op, str) or op not in OPERATIONS:
            yield fault("Missing" if op is None else "Name" if isinstance(op, str) else "Kind", "command", at, "op", value=op, form=tuple(OPERATIONS))
            continue
        keys = {key: it for key, it in OF_COMMAND.items() if key in ("at", "fate") or key in OPERATIONS[op]}
        yield from _of_element(("command", at), element, keys, letters, before, op)
        moment = element.get("at")
        if isinstance(moment, int) and not isinstance(moment, bool) and moment >= before[1]:
            before = (at + 1, moment)


def _of_element(here: Path, element: dict, keys: dict, letters: Letters, before: tuple[int, int] = (0, 0), op: str | None = None) -> Iterator[Fault]:
    """The faults of one table. Of a command `before` is the number of the last command with a good `at`, and its second."""
    known = keys.keys() | ({"op"} if op else set())
    for key in sorted(element.keys() - known):
        yield fault("Unknown", *here, key, known=sorted(known), op=op)
    for key, (required, form) in keys.items():
        if key not in element:
            if required:
                yield fault("Missing", *here, key, form=form, op=op)
            continue
        found = _of_value((*here, key), element[key], form) or _of_relation((*here, key), element, letters, before)
        if found:
            yield found


def _of_value(here: Path, value, form) -> Fault | None:
    """What is wrong with a value by itself."""
    if isinstance(form, tuple) and isinstance(form[0], int):
        if isinstance(value, bool) or not isinstance(value, int):
            return fault("Kind", *here, value=value, form=form)
        return None if form[0] <= value <= form[1] else fault("Range", *here, value=value, form=form)
    if form == PORTS:
        return _of_list(here, value)
    if not isinstance(value, bool if form == SWITCH else str):
        return fault("Kind", *here, value=value, form=form)
    right = {SWITCH: lambda: True, TEXT: lambda: True, PORT: lambda: plain.is_port(value), MAC: lambda: ADDRESS.fullmatch(value),
             FATE: lambda: not set(value) - set("PLTD")}.get(form, lambda: value in form)()
    return None if right else fault("Name", *here, value=value, form=form)


def _of_list(here: Path, value) -> Fault | None:
    """A list of ports: that all of it is text comes before what each text is."""
    if not isinstance(value, list):
        return fault("Kind", *here, value=value, form=PORTS)
    for at, it in enumerate(value):
        if not isinstance(it, str):
            return fault("Kind", *here, word=at, value=it, form=PORTS)
    wrong = next((at for at, it in enumerate(value) if not is_word(it)), None)
    return None if wrong is None else fault("Name", *here, word=wrong, value=value[wrong], form=PORTS)


def is_word(text: str) -> bool:
    """Whether a text is a word of a list: a port, a range whose first isn't above its last, `x2.*`, or `*`."""
    if plain.is_port(text):
        return True
    if WORD.fullmatch(text) is None:
        return False
    first, dash, last = text.partition("-")
    return not dash or int(first.replace("b", "").rpartition(".")[2]) <= int(last)


def _of_relation(here: Path, element: dict, letters: Letters, before: tuple[int, int]) -> Fault | None:
    """What is wrong with a value beside others."""
    table, key, value = here[0], here[-1], element[here[-1]]
    if (table, key) == ("vlan", "last") and _is_number(element.get("vid"), 1, 4094) and value < element["vid"]:
        return fault("Range", *here, value=value, first=element["vid"], form=(1, 4094))
    if (table, key) == ("bridge", "ageing") and 0 < value < 10:
        return fault("Range", *here, value=value, ageing=True, form=(0, 1_000_000))
    if (table, key) == ("command", "at") and value < before[1]:
        return fault("Range", *here, value=value, before=before, form=OF_COMMAND["at"][1])
    if key == "fate" and letters.passed(value):
        return fault("Range", *here, value=value, letters=letters.count, form=FATE)
    return None


def _is_number(value, first: int, last: int) -> bool:
    return isinstance(value, int) and not isinstance(value, bool) and first <= value <= last
