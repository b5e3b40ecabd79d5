"""What the program itself says of a topology, and whether this reading says the same."""
from __future__ import annotations

from dataclasses import dataclass, field

from exbr_desk import places, stage
from exbr_desk.errors import DeskError
from exbr_desk.topology import LARGEST

from .faults import Fault, all_faults

TOPOLOGY = "topology: "


@dataclass
class Verdict:
    """The verdict on a file. `words` is what the program says of it, or None where it finds no fault. `placed` is the text as it was read
    here, where it could be. `faults` are those that were found here, `unread` is why nothing could be read, and `place` where."""

    path: str
    words: str | None
    placed: places.Placed | None = None
    faults: list[Fault] = field(default_factory=list)
    unread: str | None = None
    place: places.Place | None = None

    @property
    def is_good(self) -> bool:
        return self.words is None

    @property
    def own(self) -> str | None:
        """What the program would say by the reading here."""
        return "NotToml" if self.unread else self.faults[0].text if self.faults else None

    @property
    def agrees(self) -> bool:
        return self.own == self.words


def of_file(path: str, exbr: str) -> Verdict:
    """Asks the program first: what it finds too large to be read is read nowhere."""
    said = stage.ask(exbr, ["check", path])
    if said.status not in (0, 3):
        raise DeskError(f"{path}: {said.line or f'exbr ended with status {said.status}'}")
    words = said.line.removeprefix(TOPOLOGY) if said.status else None
    try:
        with open(path, "rb") as file:
            data = file.read(LARGEST + 1)
    except OSError as fault:
        raise DeskError(f"{path}: {fault.strerror}") from None
    if words == "Large":
        raise DeskError(f"{path}: Large: a topology has at most {LARGEST:,} bytes")
    return of_data(path, data, words)


def of_data(path: str, data: bytes, words: str | None) -> Verdict:
    """The verdict on the bytes of a file of which the program says these words."""
    try:
        placed = places.read(data.decode("utf-8-sig"))
    except UnicodeDecodeError as fault:
        line = data.count(b"\n", 0, fault.start) + 1
        start = data.rfind(b"\n", 0, fault.start) + 1
        shown = data[start:].partition(b"\n")[0].decode(errors="replace")
        place = places.Place(line, len(data[start:fault.start].decode(errors="replace")) + 1, 1, shown)
        return Verdict(path, words, unread=f"byte {fault.start} (0x{data[fault.start]:02x}) is no UTF-8", place=place)
    except places.NotToml as fault:
        return Verdict(path, words, unread=str(fault), place=fault.place)
    return Verdict(path, words, placed, all_faults(placed.tables))
