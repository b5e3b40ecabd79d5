"""A configuration as lines of text. What is no whole text is refused here, before anything of it is read."""
import os
import re
from dataclasses import dataclass

from exbr_desk.errors import DeskError

LARGEST = 8_388_608
CONTROL = re.compile(rb"[\x00-\x08\x0e-\x1f\x7f]")
# What a terminal adds: the prompt behind a configuration, and the word of a pager.
PROMPT = re.compile(r"[\w.@:()/-]{1,80}[#>%]\s*")
PAGER = re.compile(r"-{2,3}\s*\(?more\b", re.IGNORECASE)
# A statement is shown as far as no word of it may be a secret.
SECRETS = re.compile("passw|secret|^keys?$|keyring|community|^auth|^priv$|passphrase|md5|sha|encrypt|hash|credential|token|cert|psk|^crypto|pki|login|"
                     "^user$|username|message|banner|license|^serial", re.IGNORECASE)
STRANGE = re.compile(r"[$\\\"']|[\w+/=]{25,}|0x[0-9a-f]{8,}|[0-9a-f]{16,}", re.IGNORECASE)
SHOWN = 120


@dataclass(frozen=True)
class Line:
    """A line of a file: its number from 1, its text without blanks at both ends, and by how many blanks it was moved in."""

    number: int
    text: str
    indent: int = 0


def data_of(path: str, largest: int = LARGEST) -> bytes:
    """The bytes of a file, which may not have too many."""
    try:
        with open(path, "rb") as file:
            size = os.fstat(file.fileno()).st_size
            data = b"" if size > largest else file.read(largest + 1)
    except OSError as fault:
        raise DeskError(f"{path}: {fault.strerror}") from None
    if max(size, len(data)) > largest:
        raise DeskError(f"{path}: it has more than {largest:,} bytes, and no configuration has so many")
    return data


def text_of(path: str) -> str:
    """The text of a file."""
    data = data_of(path)
    control = CONTROL.search(data)
    if control:
        number = data.count(b"\n", 0, control.start()) + 1
        raise DeskError(f"{path}: line {number} has the byte {data[control.start()]:#04x}, so it is no text of a configuration")
    try:
        return data.decode("utf-8-sig")
    except UnicodeDecodeError:
        return data.decode("latin-1")


def read(path: str) -> list[Line]:
    """The lines of a configuration, without what a terminal adds at its end."""
    text = text_of(path)
    lines = text.split("\n")
    whole = lines.pop() if lines else ""
    if whole.strip() and not PROMPT.fullmatch(whole.strip()):
        raise DeskError(f"{path}: line {len(lines) + 1}, the last one, has no end: is the file cut off? End it with a newline if it is whole")
    found = [line_of(number, it) for number, it in enumerate(lines, 1) if it.strip()]
    if not found:
        raise DeskError(f"{path}: it is empty")
    pager = next((it for it in found if PAGER.match(it.text)), None)
    if pager:
        raise DeskError(f"{path}: line {pager.number} is a pager's; make the file without one (terminal length 0, or | no-more)")
    return found


def line_of(number: int, text: str) -> Line:
    """A line of a text."""
    text = text.expandtabs().rstrip()
    return Line(number, " ".join(text.split()), len(text) - len(text.lstrip()))


def shown(text: str) -> str:
    """A statement as it may be printed: nothing behind a word such as `password`, and no word that may be a secret itself."""
    words: list[str] = []
    for word in text.split():
        if STRANGE.search(word):
            words.append("..")
            break
        words.append(word)
        if any(SECRETS.search(part) for part in re.split("[-_]", word)):
            words.append("..")
            break
    told = "".join(it if it.isprintable() else "?" for it in " ".join(words).removesuffix(" .. ..")).replace("`", "'")
    told = told if told != text + " .." else text
    return told if len(told) <= SHOWN else told[:SHOWN] + ".."
