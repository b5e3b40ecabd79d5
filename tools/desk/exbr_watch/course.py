"""How far a run is. The program reads each capture twice: first all of them are looked through for faults, then they are played. So the
bytes that it has read say how far it is."""
import os
from dataclasses import dataclass

from exbr_desk import safe_files, toml_text
from exbr_desk.errors import DeskError
from exbr_desk.topology import LARGEST

SLACK = 0.002
BRIDGES = 16


@dataclass
class Input:
    """The captures of a run: how many there are, and how many bytes they have together."""

    captures: int
    octets: int


def captures_of(path: str, is_net: bool = True) -> list[str]:
    """The captures that a topology names, or those of all topologies of a net. A net stands in no other net."""
    data = safe_files.read(path, LARGEST)
    if data is None:
        raise ValueError(f"{path} is too large")
    tables = toml_text.tables(data.decode())
    if isinstance(tables.get("bridge"), list):
        if not is_net or len(tables["bridge"]) > BRIDGES:
            raise ValueError(f"{path} is no topology, or a net of too many")
        return [name for it in tables["bridge"] for name in captures_of(it["topology"], False)]
    return list(tables.get("captures", {}).values())


def input_of(path: str) -> Input | None:
    """The captures of a topology or a net, with their sizes. None where it can't be told: then the program says what is wrong."""
    try:
        sizes = [os.stat(it).st_size for it in captures_of(path)]
    except (OSError, ValueError, AttributeError, TypeError, KeyError, RecursionError, DeskError):
        return None
    return Input(len(sizes), sum(sizes))


@dataclass
class Course:
    """How far a run is: what it does, the part of that which is done, its bytes, and the seconds that are left, where that can be told."""

    doing: str
    part: float
    octets: int
    left: float | None


class Watch:
    """Follows the bytes that a run has read. Where reading twice begins is taken as the moment at which all were read once."""

    def __init__(self, given: Input) -> None:
        self.given = given
        self.first: int | None = None
        self.turned: float | None = None

    def course(self, read: int, now: float) -> Course:
        """The course after so many bytes, at a time in seconds."""
        if self.first is None:
            # What the system read to start the program counts for nothing.
            self.first = min(read, int(SLACK * self.given.octets))
        done, every = max(0, read - self.first), max(1, self.given.octets)
        if done < every:
            return Course("looking through", done / every, done, None)
        if self.turned is None:
            self.turned = now
        played = min(done - every, every)
        spent, part = now - self.turned, played / every
        left = spent * (1 - part) / part if part > 0.01 and spent > 2 else None
        return Course("playing", part, played, left)
