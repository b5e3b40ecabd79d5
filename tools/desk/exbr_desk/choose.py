"""Which frames are meant: by port and number, by a display filter of Wireshark, or by simple words."""
from __future__ import annotations

import os
import re
import shutil
import subprocess
from dataclasses import dataclass, field
from typing import Callable, Iterable, Sequence

from . import plain
from .errors import DeskError
from .reading import Where
from .runs import Run
from .table import Outcome, Table
from .topology import ADDRESS

TYPES = {"arp": 0x0806, "ipv4": 0x0800, "ip": 0x0800, "ipv6": 0x86DD, "lldp": 0x88CC}
WORDS = ("src", "dst", "vlan", "port", "to", "type", "rule")
RULES = ("absent", "short", "long", "reserved", "bad", "accept", "vlan", "filter", "passes")


@dataclass
class Choice:
    """The frames that are meant: those of `named`, where there are any named, that meet all words."""

    named: set[Where] | None = None
    words: dict[str, object] = field(default_factory=dict)

    def rows(self, table: Table) -> Sequence[int]:
        """The rows of a table that are meant, in order."""
        found = range(table.count) if self.named is None else sorted(row_of(table, *it) for it in self.named)
        for word, value in self.words.items():
            found = TESTS[word](table, found, value)
        return found


def row_of(table: Table, port: int, index: int) -> int:
    """The row of a record."""
    its = [row for row, at in enumerate(table.columns["port"]) if at == port]
    # In most runs the records of a port come in order.
    if index <= len(its) and table.columns["index"][its[index - 1]] == index:
        return its[index - 1]
    return next(row for row in its if table.columns["index"][row] == index)


def _by(name: str, table: Table, rows: Iterable[int], value: int) -> list[int]:
    """The rows with a value in a column."""
    column = table.columns[name]
    if isinstance(rows, range):
        return [row for row, it in enumerate(column) if it == value]
    return [row for row in rows if column[row] == value]


def _by_address(name: str, table: Table, rows: Iterable[int], value: bytes) -> list[int]:
    return _by(name, table, rows, table.addresses.index(value)) if value in table.addresses else []


def _by_outcome(table: Table, rows: Iterable[int], fits: Callable[[Outcome], bool]) -> list[int]:
    """The rows of outcomes that fit."""
    good = bytearray(fits(table.outcomes[number]) for number in range(len(table.outcomes)))
    column = table.columns["outcome"]
    if isinstance(rows, range):
        return [row for row, it in enumerate(column) if good[it]]
    return [row for row in rows if good[column[row]]]


TESTS = {
    "src": lambda table, rows, value: _by_address("source", table, rows, value),
    "dst": lambda table, rows, value: _by_address("target", table, rows, value),
    "vlan": lambda table, rows, value: _by_outcome(table, rows, lambda it: it.vid == value),
    "port": lambda table, rows, value: _by("port", table, rows, value),
    "to": lambda table, rows, value: _by_outcome(table, rows, lambda it: value in it.ports),
    "type": lambda table, rows, value: _by("type", table, rows, value),
    "rule": lambda table, rows, value: _by_outcome(table, rows, lambda it: (it.rule or "passes").split()[0] == value),
}


def choice(run: Run, words: list[str], display: str | None = None) -> Choice:
    """The frames that the words of a command line mean."""
    found = Choice()
    for word in words:
        key, equals, value = word.partition("=")
        if equals:
            if key not in WORDS:
                raise DeskError(f"{word}: no such word; there are {', '.join(f'{it}=' for it in WORDS)}")
            if key in found.words:
                raise DeskError(f"{key}= is given twice")
            found.words[key] = _value(run, key, value)
        else:
            found.named = (found.named or set()) | {_where(run, word)}
    if display is not None:
        its = filtered(run, display)
        found.named = its if found.named is None else found.named & its
    if found.named is None and not found.words:
        raise DeskError("no frame is named: give PORT:NUMBER (x1.2:3), words (src=.. dst=.. vlan=..), or --filter")
    return found


def _where(run: Run, word: str) -> Where:
    name, colon, number = word.partition(":")
    if not colon or not plain.is_port(name) or not re.fullmatch("[1-9][0-9]{0,17}", number):
        raise DeskError(f"{word}: a frame is named by its port and number, as x1.2:3 or b4:1")
    port = plain.number_of(name)
    if port not in run.topology.external:
        raise DeskError(f"{word}: {name} is no external port of this topology")
    if port not in run.captures:
        raise DeskError(f"{word}: {name} has no capture, so no frame came there")
    if int(number) > run.captures[port].count:
        raise DeskError(f"{word}: the capture of {name} has {run.captures[port].count} frames")
    return port, int(number)


def _value(run: Run, key: str, value: str):
    if key in ("src", "dst"):
        if value in ("broadcast", "*") and key == "dst":
            return b"\xff" * 6
        if not ADDRESS.fullmatch(value):
            raise DeskError(f"{key}={value}: an address is six pairs of digits, as 02:00:00:00:00:01")
        return plain.address_of(value)
    if key in ("port", "to"):
        if not plain.is_port(value) or plain.number_of(value) not in run.topology.external:
            raise DeskError(f"{key}={value}: that is no external port of this topology")
        return plain.number_of(value)
    if key == "vlan":
        if not re.fullmatch("[1-9][0-9]{0,3}", value) or int(value) > 4094:
            raise DeskError(f"vlan={value}: a VLAN is 1 to 4094")
        return int(value)
    if key == "rule":
        if value not in RULES:
            raise DeskError(f"rule={value}: the rules are {', '.join(RULES)}")
        return value
    if value.lower() in TYPES:
        return TYPES[value.lower()]
    if not re.fullmatch("(0x)?[0-9A-Fa-f]{4}", value):
        raise DeskError(f"type={value}: a type is one of {', '.join(TYPES)}, or four hexadecimal digits")
    return int(value, 16)


def filtered(run: Run, display: str) -> set[Where]:
    """The records that a display filter shows, by tshark."""
    tool = shutil.which("tshark")
    if tool is None:
        raise DeskError("--filter needs tshark, which isn't there (Debian: apt install tshark); words as src=.. dst=.. need nothing")
    found: set[Where] = set()
    for port, capture in run.captures.items():
        # By its whole name, since a file may be called `-`.
        done = subprocess.run([tool, "-n", "-r", os.path.abspath(capture.path), "-Y", display, "-T", "fields", "-e", "frame.number"],
                              stdin=subprocess.DEVNULL, capture_output=True, text=True, errors="replace", check=False)
        if done.returncode:
            lines = [line for line in done.stderr.splitlines() if line.strip() and not line.startswith("Running as user")]
            raise DeskError(f"tshark on {capture.path}: {lines[0].removeprefix('tshark: ') if lines else f'status {done.returncode}'}")
        found |= {(port, int(line)) for line in done.stdout.split()}
    return found
