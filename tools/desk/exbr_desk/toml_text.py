"""TOML that others wrote. Python's reader takes time and memory by the square of a key's parts, so a key of many parts is refused before it."""
from __future__ import annotations

import re
import tomllib

PARTS = 16
MARK = re.compile("\"\"\"|'''|[\"'#.\\[\\]{}=,\n]")
# What ends a text, behind anything that is escaped in it.
ENDS = {'"""': re.compile(r'\\.|"""', re.DOTALL), '"': re.compile(r'\\.|["\n]', re.DOTALL), "'''": re.compile("'''"), "'": re.compile("['\n]"),
        "#": re.compile("\n")}


def tables(text: str) -> dict:
    """The tables of a text. What is no TOML raises ValueError or RecursionError."""
    # Few lines have so many dots, and most of those in a text.
    if any(it.count(".") >= PARTS for it in text.split("\n")) and _is_deep(text):
        raise ValueError(f"a key has more than {PARTS} parts")
    return tomllib.loads(text)


def _is_deep(text: str) -> bool:
    """Whether a key has too many parts."""
    at = dots = 0
    while found := MARK.search(text, at):
        mark, at = found[0], found.end()
        if mark in ENDS:
            at = _behind(text, at, ENDS[mark])
        dots = dots + 1 if mark == "." else dots if mark in ("'", '"') else 0
        if dots >= PARTS:
            return True
    return False


def _behind(text: str, at: int, end: re.Pattern) -> int:
    """The place behind a text or a comment."""
    for found in end.finditer(text, at):
        if not found[0].startswith("\\"):
            return found.end() - (found[0] == "\n")
    return len(text)
