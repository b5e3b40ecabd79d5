"""What the tools show of texts that others wrote: names, keys, lines of files.

A terminal obeys control characters, and text that sets its direction can read as another text. So the tools print such characters by
their numbers, `\\u001b`, as the program does at a terminal; a byte that is no text is `\\xff`. `Screen` does that to all that is printed.
"""
from __future__ import annotations

import re
from typing import TextIO

DRIVES = "\x00-\x08\x0b-\x1f\x7f-\x9f\u061c\u200e\u200f\u2028-\u202e\u2066-\u2069\ud800-\udfff"
IN_TEXT, IN_LINE = re.compile(f"[{DRIVES}]"), re.compile(f"[{DRIVES}\n]")
# The same in a text of JSON in ASCII, where a backslash that is itself escaped begins no number.
IN_JSON = re.compile(r"\\\\|\\[bfr]|\\u(00[01][0-9a-f]|007f|00[89][0-9a-f]|061c|200[ef]|202[89a-e]|206[6-9]|d[89a-f][0-9a-f]{2})")
LETTERS = {"\\b": "\\\\u0008", "\\f": "\\\\u000c", "\\r": "\\\\u000d"}
# How a line on the terminal that is written over again begins and ends.
OVER, CLEARED = "\r", "\033[K"


def _number(found: re.Match) -> str:
    number = ord(found[0])
    # Python keeps a byte that is no text at such a place.
    return f"\\x{number - 0xDC00:02x}" if 0xDC80 <= number <= 0xDCFF else f"\\u{number:04x}"


def shown(text: object) -> str:
    """A text as it may be shown. Line ends and tabs stay."""
    return IN_TEXT.sub(_number, str(text))


def line(text: object) -> str:
    """The same of what is to be one line."""
    return IN_LINE.sub(_number, str(text))


def in_json(text: str) -> str:
    """A text of JSON in ASCII whose strings are shown so."""
    return IN_JSON.sub(lambda it: LETTERS.get(it[0], "\\" + it[0] if it[1] else it[0]), text)


class Screen:
    """A stream of text on which nothing but lines comes out. With `by_line` each thing that is written is one line, but for the usage of a
    tool; that is how the tools write to standard error."""

    def __init__(self, stream: TextIO, by_line: bool = False):
        self._stream, self._by_line = stream, by_line

    def write(self, text: str) -> int:
        self._stream.write(self._safe(text))
        return len(text)

    def writelines(self, lines) -> None:
        for it in lines:
            self.write(it)

    def _safe(self, text: str) -> str:
        if not self._by_line or text.startswith("usage: "):
            return shown(text)
        if text.startswith(OVER) and text.endswith(CLEARED):
            return OVER + line(text[len(OVER):-len(CLEARED)]) + CLEARED
        return line(text.removesuffix("\n")) + "\n" * text.endswith("\n")

    def __getattr__(self, name: str):
        return getattr(self._stream, name)
