"""What ports are called on their switch: the file `names.toml` beside a topology, which exbr-import writes.

A tool of the desk takes it by `--names FILE`, or finds it beside the topology (`option` and `of` below). `Names.speak` puts the names into
a text in which ports stand as `x1.7`; `Names.heard` turns a word that a user gives into such a port; `Names.captures` finds the captures
that are named by interface, as `Ethernet101_1_7.pcap` or `eth101-1-7.pcapng`.
"""
from __future__ import annotations

import argparse
import os
import re
import tomllib
from dataclasses import dataclass, field

from . import plain
from .errors import DeskError
from .short import folded

FILE, LARGEST = "names.toml", 16_777_216
ENDINGS = (".pcap", ".pcapng", ".cap")
# A port in a text, alone or with others that follow it; not within a file's name, nor in a line of a journal that is quoted.
SAID = re.compile(r"'(?:relay|ignore|up|noup|tick|commit|refuse)\b[^'\n]*'|(?<![\w./:-])(?P<head>b|x\d+\.)(?P<first>\d+)(?:-(?P<last>\d+)(?![\w.]))?"
                  r"(?P<frame>:\d+)?(?![\w*]|\.\w|/)")


@dataclass(frozen=True)
class Name:
    """What a port is called: its interface, what its description says, its rack, and the interfaces of which it is made."""

    interface: str
    description: str = ""
    rack: str = ""
    members: tuple[str, ...] = ()

    @property
    def shown(self) -> str:
        """The interface with its description."""
        return f"{self.interface} ({self.description})" if self.description else self.interface


@dataclass
class Names:
    """The names of ports, by `x1.7`, of extenders by their numbers, and of VLANs."""

    ports: dict[str, Name] = field(default_factory=dict)
    extenders: dict[int, str] = field(default_factory=dict)
    vlans: dict[int, str] = field(default_factory=dict)
    switch: str = ""

    def shown(self, port: str | int) -> str:
        """What is shown of a port: `Ethernet101/1/7 (web-01)`, or `x1.7` where it has no name."""
        place = plain.name_of(port) if isinstance(port, int) else port
        it = self.ports.get(place)
        return it.shown if it else place

    def short(self, port: str | int) -> str:
        """Its interface alone."""
        place = plain.name_of(port) if isinstance(port, int) else port
        it = self.ports.get(place)
        return it.interface if it else place

    def speak(self, text: str) -> str:
        """A text with the names of the ports that it has."""
        return SAID.sub(self._said, text) if self.ports else text

    def _said(self, it: re.Match) -> str:
        if it["head"] is None or f"{it['head']}{it['first']}" not in self.ports:
            return it[0]
        if it["last"] is None:
            place = f"{it['head']}{it['first']}"
            return self.short(place) + it["frame"] if it["frame"] else self.shown(place)
        return folded([self.short(f"{it['head']}{at}") for at in range(int(it["first"]), min(int(it["last"]), 64) + 1)])

    def place(self, word: str) -> str | None:
        """The port that a word names: by its place, its interface in any spelling, or its description."""
        if plain.is_port(word):
            return word
        exact = [place for place, it in self.ports.items() if word.lower() in (it.interface.lower(), it.description.lower())]
        if len(exact) == 1:
            return exact[0]
        return self._captured(word)

    def heard(self, word: str) -> str:
        """A word of a user with its port by place: `Ethernet101/1/7:3` and `port=web-01` as `x1.7:3` and `port=x1.7`."""
        key, equal, value = word.partition("=") if re.match("(port|to)=", word) else ("", "", word)
        name, colon, rest = value.rpartition(":")
        if not colon or not rest.isdigit():
            name, colon, rest = value, "", ""
        place = self.place(name) if self.ports else None
        return f"{key}{equal}{place}{colon}{rest}" if place and (equal or colon) else word

    def captures(self, files: list[str]) -> dict[str, list[str]]:
        """Which of some files are captures of which ports, by their names: those of a port, or of the interfaces of which it is made."""
        found: dict[str, list[str]] = {}
        for file in files:
            stem, ending = os.path.splitext(file)
            place = self._captured(stem.removeprefix("in-")) if ending in ENDINGS and not file.startswith("out-") else None
            if place:
                found.setdefault(place, []).append(file)
        return found

    def _captured(self, stem: str) -> str | None:
        if stem in self.ports:
            return stem
        of = [place for place, it in self.ports.items() if any(is_called(stem, one) for one in it.members)]
        of = of or [place for place, it in self.ports.items() if is_called(stem, it.interface)]
        return of[0] if len(of) == 1 else None

    def json(self) -> dict:
        """The names, for programs: the key `names` of an answer in JSON, or nothing where there are none."""
        return {"names": self.table()} if self.ports else {}

    def table(self) -> dict:
        """The names by port."""
        return {place: {key: value for key, value in vars(it).items() if value} for place, it in self.ports.items()}


def is_called(word: str, interface: str) -> bool:
    """Whether a word is a spelling of an interface: the same numbers, and the beginning of its kind: `eth101-1-7` of `Ethernet101/1/7`."""
    if word.lower() == interface.lower():
        return True
    mine, its = re.findall(r"\d+", word), re.findall(r"\d+", interface)
    kind, whole = ("".join(re.findall("[a-z]+", it.lower())) for it in (word, interface))
    return bool(its) and [int(it) for it in mine] == [int(it) for it in its] and bool(kind) and whole.startswith(kind)


NOTHING = Names()


def read(path: str) -> Names:
    """The names of a file."""
    try:
        with open(path, "rb") as file:
            data = file.read(LARGEST + 1)
        tables = tomllib.loads(data.decode())
    except OSError as fault:
        raise DeskError(f"{path}: {fault.strerror}") from None
    except (ValueError, RecursionError) as fault:
        raise DeskError(f"{path}: no TOML ({fault})") from None
    ports, boxes, vlans = (tables.get(it, {}) for it in ("port", "extender", "vlan"))
    if not all(isinstance(it, dict) for it in (ports, boxes, vlans)) or tables.keys() - {"port", "extender", "vlan", "switch"}:
        raise DeskError(f"{path}: it has the tables port, extender and vlan, as exbr-import writes them")
    return Names({place: _name(path, place, it) for place, it in ports.items()},
                 {int(key[1:]): str(it.get("name", key)) for key, it in boxes.items() if re.fullmatch(r"x\d+", key) and isinstance(it, dict)},
                 {int(key): str(it) for key, it in vlans.items() if key.isdigit()}, str(tables.get("switch", "")))


def _name(path: str, place: str, it: object) -> Name:
    """One name of a file."""
    if not plain.is_port(place) or not isinstance(it, dict) or not isinstance(it.get("interface"), str):
        raise DeskError(f"{path}: port.{place[:20]} has to be a port with its interface, as \"x1.7\" = {{ interface = \"Ethernet101/1/7\" }}")
    members = it.get("members", [])
    texts = [it.get(key, "") for key in ("description", "rack")]
    if not all(isinstance(one, str) for one in texts) or not isinstance(members, list) or not all(isinstance(one, str) for one in members):
        raise DeskError(f"{path}: port.{place}: description and rack are texts, members is a list of texts")
    return Name(_line(it["interface"]), *map(_line, texts), tuple(members))


def _line(text: str) -> str:
    """A text in one line, with nothing that moves a cursor."""
    return "".join(it if it.isprintable() else "?" for it in text)


def option(parser: argparse.ArgumentParser) -> None:
    """The word `--names` of a tool."""
    parser.add_argument("--names", metavar="FILE", help="what ports are called (default: names.toml beside the topology, if it is there; '' for none)")


def of(place: str, named: str | None = None) -> Names:
    """The names for a topology or its folder: those of the file that is named, or of `names.toml` beside it."""
    if named is not None:
        return read(named) if named else NOTHING
    path = os.path.join(place if os.path.isdir(place) else os.path.dirname(place), FILE)
    return read(path) if os.path.isfile(path) else NOTHING
