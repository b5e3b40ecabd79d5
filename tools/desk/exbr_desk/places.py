"""Where the keys and values of a TOML file stand.

The reader is Python's own, `tomllib`. It says of a fault where it is, and keeps no places of what it has read. So a copy of its module
reads the file here, in which the calls that read a key, a value and the head of a table are wrapped: they note where each began and ended.
What is read is what `tomllib` reads. A Python whose `tomllib` is made otherwise gives the same tables, and no places.
"""
from __future__ import annotations

import importlib.util
import re
import tomllib
from bisect import bisect_right
from dataclasses import dataclass
from typing import NamedTuple

Path = tuple[str | int, ...]
"""The way to a value: names of keys, and numbers in lists, counted from 0."""
AT = re.compile(r" \(at (?:line (\d+), column (\d+)|end of document)\)$")


class NotToml(Exception):
    """What the reader says of a text that is no TOML, and where."""

    def __init__(self, text: str, place: Place | None):
        super().__init__(text)
        self.place = place


class Place(NamedTuple):
    """A place of a file: line and column, counted from 1, how many characters it has there, and the line itself."""

    line: int
    column: int
    length: int
    text: str


class _Key(str):
    """A part of a key, and where it stands."""

    begin = end = -1


class _Spot(NamedTuple):
    """A value that is neither list nor table, and where it stands."""

    value: object
    begin: int
    end: int


class _List(list):
    """A list, and where it stands."""

    begin = end = -1


class _Table(dict):
    """A table within a line, and where it stands."""

    begin = end = -1


WRAPPED = ("parse_key_part", "parse_key", "parse_value", "create_dict_rule", "create_list_rule", "suffixed_err", "loads")
# What the program's reader takes, and TOML doesn't limit: how deep lists, tables in lines and keys may be, and numbers.
DEEPEST, LEAST, LARGEST = 80, -(1 << 63), (1 << 63) - 1


def _copy_of_reader():
    """A copy of the module that reads, in which calls may be replaced, or None where it isn't made as is known here."""
    spec = importlib.util.find_spec("tomllib._parser")
    if spec is None or spec.loader is None:
        return None
    module = importlib.util.module_from_spec(spec)
    spec.loader.exec_module(module)
    return module if all(hasattr(module, name) for name in WRAPPED) else None


def _noted(value, begin: int, end: int):
    """A value with its place."""
    if isinstance(value, list):
        kept = _List(value)
    elif isinstance(value, dict):
        kept = _Table(value)
    else:
        return _Spot(value, begin, end)
    kept.begin, kept.end = begin, end
    return kept


def _wrap(module, heads: dict[int, tuple[int, int]]) -> None:
    """Has the calls of the module note places. `heads` gets those of the heads of tables, by the identity of the table."""
    key_part, key_of, value_of = module.parse_key_part, module.parse_key, module.parse_value
    open_ones: list[int] = []

    def parse_key_part(src, pos):
        end, text = key_part(src, pos)
        key = _Key(text)
        key.begin, key.end = pos, end
        return end, key

    def parse_key(src, pos):
        end, key = key_of(src, pos)
        if len(key) > DEEPEST:
            raise module.suffixed_err(src, pos, f"A key with more than {DEEPEST} parts")
        return end, key

    def parse_value(src, pos, parse_float):
        if src[pos:pos + 1] in ("[", "{"):
            open_ones.append(pos)
        if len(open_ones) > DEEPEST:
            raise module.suffixed_err(src, pos, f"Lists or tables more than {DEEPEST} deep in one another")
        end, value = value_of(src, pos, parse_float)
        if isinstance(value, (list, dict)):
            open_ones.pop()
        elif isinstance(value, int) and not LEAST <= value <= LARGEST:
            raise module.suffixed_err(src, pos, "A number of more than 64 bits")
        return end, _noted(value, pos, end)

    def with_head(rule):
        def ruled(src, pos, out):
            end, key = rule(src, pos, out)
            heads.setdefault(id(out.data.get_or_create_nest(key)), (pos, end))
            return end, key
        return ruled

    module.parse_key_part, module.parse_key, module.parse_value = parse_key_part, parse_key, parse_value
    module.create_dict_rule, module.create_list_rule = with_head(module.create_dict_rule), with_head(module.create_list_rule)


def _bare(node):
    """What was read, without places."""
    if isinstance(node, _Spot):
        return node.value
    if isinstance(node, dict):
        return {str(key): _bare(value) for key, value in node.items()}
    return [_bare(it) for it in node] if isinstance(node, list) else node


@dataclass
class Placed:
    """A TOML text that was read: its tables, and where all of them stand."""

    text: str
    tables: dict
    _tree: dict | None
    _heads: dict[int, tuple[int, int]]
    _starts: list[int]

    def at(self, begin: int, end: int) -> Place:
        """The place of some characters, as far as their first line goes."""
        line = bisect_right(self._starts, begin)
        start = self._starts[line - 1]
        text = self.text[start:].partition("\n")[0] if line == len(self._starts) else self.text[start:self._starts[line] - 1]
        return Place(line, begin - start + 1, max(1, min(end, start + len(text)) - begin), text)

    def value(self, path: Path) -> Place | None:
        """Where a value stands. That of a table is its head; one that isn't there has the place of what it would stand in."""
        span = self._span(path)
        return self.at(*span) if span else None

    def key(self, path: Path) -> Place | None:
        """Where the name of a key stands."""
        node = self._node(path[:-1])
        if not isinstance(node, dict):
            return None
        name = next((it for it in node if it == path[-1]), None)
        return self.at(name.begin, name.end) if isinstance(name, _Key) else None

    def _node(self, path: Path):
        node = self._tree
        for part in path:
            node = node[part] if isinstance(node, list) or isinstance(node, dict) and part in node else None
        return node

    def _span(self, path: Path) -> tuple[int, int] | None:
        node = self._node(path)
        if isinstance(node, (_Spot, _List, _Table)):
            return node.begin, node.end
        if id(node) in self._heads:
            return self._heads[id(node)]
        if path and isinstance(self._node(path[:-1]), dict):
            key = self.key(path)
            return (self._starts[key.line - 1] + key.column - 1, self._starts[key.line - 1] + key.column - 1 + key.length) if key else self._span(path[:-1])
        return self._span(path[:-1]) if path else None


def _starts_of(text: str) -> list[int]:
    """Where the lines of a text begin."""
    return [0, *(it.end() for it in re.finditer("\n", text))]


def read(text: str) -> Placed:
    """The tables of a text with their places."""
    module, heads = _copy_of_reader(), {}
    if module is not None:
        _wrap(module, heads)
    try:
        tree = module.loads(text) if module is not None else None
        tables = _bare(tree) if tree is not None else tomllib.loads(text)
    except ValueError as fault:
        # The copy has an error of its own, which is one of values as that of tomllib is.
        raise NotToml(*_said(str(fault), text)) from None
    except RecursionError:
        raise NotToml("lists or tables stand too deep in one another", None) from None
    # The reader takes these two characters as one, so places are those of this text.
    text = text.replace("\r\n", "\n")
    return Placed(text, tables, tree, heads, _starts_of(text))


def _said(words: str, text: str) -> tuple[str, Place | None]:
    """The words of the reader without the place in them, and the place."""
    found = AT.search(words)
    if not found:
        return words, None
    lines = text.replace("\r\n", "\n").split("\n")
    if found[1]:
        line, column = int(found[1]), int(found[2])
    else:
        line = len(lines) - (len(lines) > 1 and not lines[-1])
        column = len(lines[line - 1]) + 1
    return words[:found.start()], Place(line, column, 1, lines[line - 1])
