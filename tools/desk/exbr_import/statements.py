"""Grammars as tables of patterns in data: a row a statement.

A row of a table has a block, a pattern and a meaning: `interface: switchport access vlan VLAN => access`. Small words of a pattern stand
for themselves, in any case; capital ones for a value, of the forms below; `(a|b)?` and the like are those of regular expressions.
The first row that fits counts. So the next statement that is to be known is one row more, in `nxos.table` or `junos.table`.

This stands in place of textfsm, which Debian has: that makes flat tables of what `show` prints, and says of no line that it is none.
Here each statement has to be carried over or named with its line.
"""
import functools
import os
import re
from dataclasses import dataclass

VALUES = {
    "VLAN": r"\d+", "VLANS": r"[\d][\d,\- ]*", "NUMBER": r"\d+", "MAC": r"[0-9A-Fa-f.:\-]{12,17}", "PORT": r"\S+", "PORTS": r".+", "NAME": r"\S+",
    "TEXT": r".+", "REST": r".*", "GROUP": r"[0-9A-Fa-f.:]+", "LIST": r"\[[^\]]*\]|\S+", "FEX": r"\d+", "OTHER": r"\S+", "QUOTED": r"\"[^\"]*\"|\S+",
}
HERE = os.path.dirname(os.path.abspath(__file__))


@dataclass(frozen=True)
class Row:
    """A row of a table: the form of a statement, and what it means: a verb and the words after it."""

    pattern: re.Pattern
    verb: str
    words: str


@dataclass(frozen=True)
class Found:
    """A statement that a row knows: its meaning, its values by name, and what of the text stands behind it."""

    verb: str
    words: str
    values: dict
    rest: str = ""


class Table:
    """A grammar. The rows of a block are kept by the first word of their patterns."""

    def __init__(self, name: str):
        self.blocks: dict[str, dict[str, list[tuple[int, Row]]]] = {}
        with open(os.path.join(HERE, name), encoding="utf-8") as file:
            rows = [it.strip() for it in file if it.strip() and not it.startswith("#")]
        for number, row in enumerate(rows):
            self._add(number, row)

    def _add(self, number: int, row: str) -> None:
        form, _, meaning = row.rpartition("=>")
        block, _, pattern = form.partition(":")
        verb, _, words = meaning.strip().partition(" ")
        first = pattern.split()[0]
        key = first.lower() if re.fullmatch("[a-z0-9-]+", first) else ""
        its = Row(compiled(pattern), verb, words.strip())
        self.blocks.setdefault(block.strip(), {}).setdefault(key, []).append((number, its))

    def find(self, block: str, text: str) -> Found | None:
        """The first row of a block that fits a whole statement."""
        for row in self._rows(block, text):
            it = row.pattern.fullmatch(text)
            if it:
                return Found(row.verb, row.words, it.groupdict())
        return None

    def take(self, block: str, text: str) -> Found | None:
        """The first row of a block that fits the beginning of a text, and what stands behind it."""
        for row in self._rows(block, text):
            it = row.pattern.match(text)
            if it and (it.end() == len(text) or text[it.end()] == " "):
                return Found(row.verb, row.words, it.groupdict(), text[it.end():].strip())
        return None

    def _rows(self, block: str, text: str) -> list[Row]:
        """The rows that may fit, in their order."""
        of = self.blocks.get(block, {})
        first = text.split(" ", 1)[0].lower()
        return [row for _, row in sorted(of.get(first, []) + of.get("", []), key=lambda it: it[0])]


def compiled(pattern: str) -> re.Pattern:
    """The regular expression of a pattern."""
    def value(it: re.Match) -> str:
        return f"(?P<{it[0].lower()}>{VALUES[it[0]]})"

    spaced = re.sub(r"\s+", " +", pattern.strip().replace(" ?", "\0")).replace("\0", " *")
    return re.compile(re.sub(r"\b[A-Z]{3,}\b", value, spaced), re.IGNORECASE)


@functools.cache
def table(name: str) -> Table:
    """A table, which is read once."""
    return Table(name)
