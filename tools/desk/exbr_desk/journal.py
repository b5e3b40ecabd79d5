"""The lines of a journal."""
from __future__ import annotations

from typing import Iterable, Iterator, NamedTuple

from . import plain
from .captures import opened
from .errors import DeskError


class Line(NamedTuple):
    """A line: its number, counted from 1, its text, its first word, and what follows, as far as the kind has it."""

    number: int
    text: str
    kind: str
    port: int | None = None
    value: int | None = None
    cause: str | None = None


LONGEST = 1 << 20
WORDS = {"settled": 1, "tick": 2, "commit": 2, "relay": 3, "ignore": 3, "up": 2, "refuse": 5, "noup": 5}


def _number(text: str) -> int | None:
    return int(text) if text.isascii() and text.isdigit() and (text[0] != "0" or text == "0") else None


def line_of(text: str, number: int = 0) -> Line | None:
    """The line of a text, or None where it is in no form of a line."""
    words = text.split(" ")
    kind = words[0]
    if WORDS.get(kind) != len(words):
        return None
    if kind == "settled":
        return Line(number, text, kind)
    port = cause = None
    if kind in ("relay", "ignore", "up", "noup"):
        if not plain.is_port(words[1]):
            return None
        port = plain.number_of(words[1])
    value = None if kind in ("up", "noup") else _number(words[2] if port is not None else words[1])
    if value is None and kind not in ("up", "noup"):
        return None
    if kind in ("refuse", "noup"):
        if words[2] not in ("channels", "groups") or None in (_number(words[3]), _number(words[4])):
            return None
        cause = " ".join(words[2:])
    return Line(number, text, kind, port, value, cause)


def look_at(path: str, rest: bytes, number: int = 0) -> None:
    """That a line which has no end yet isn't longer than one can be."""
    if len(rest) > LONGEST:
        raise DeskError(f"{path}: {f'line {number}' if number else 'a line'} is too long")


def texts(path: str) -> Iterator[str]:
    """The lines of a text file without their newlines, read in pieces. A last line without a newline is a fault."""
    with opened(path) as raw:
        rest, number = b"", 0
        while piece := raw.read(1 << 20):
            *whole, rest = (rest + piece).split(b"\n")
            look_at(path, rest, number + len(whole) + 1)
            for line in whole:
                number += 1
                yield line.decode("ascii", "replace")
        if rest:
            raise DeskError(f"{path}: line {number + 1} has no end")


def lines(path: str) -> Iterator[Line]:
    """The lines of a journal. One in no form of a line is a fault."""
    for number, text in enumerate(texts(path), 1):
        line = line_of(text, number)
        if line is None:
            raise DeskError(f"{path}: line {number} is no line of a journal: {text[:60]}")
        yield line


def cause_in_words(cause: str) -> str:
    """Why a command was refused, or a port stayed down, in a sentence."""
    what, needed, limit = cause.split()
    return f"{needed} {what} would be needed below one port of the bridge, and there are {limit}"


def line_in_words(line: Line) -> str:
    """A line in a sentence."""
    name = plain.name_of(line.port) if line.port is not None else ""
    return {
        "settled": lambda: "nothing was left to be done",
        "tick": lambda: f"{line.value} s passed",
        "commit": lambda: f"command {line.value} took effect",
        "refuse": lambda: f"command {line.value} was refused: {cause_in_words(line.cause)}",
        "relay": lambda: f"frame {line.value} of {name} was relayed",
        "ignore": lambda: f"frame {line.value} of {name} was ignored",
        "up": lambda: f"{name} became present",
        "noup": lambda: f"{name} stayed absent: {cause_in_words(line.cause)}",
    }[line.kind]()


def texts_of(them: Iterable[Line]) -> str:
    return "".join(f"{line.text}\n" for line in them)
