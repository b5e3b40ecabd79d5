"""The frames of a page as columns: one list for each kind of value, and texts that come often stand once."""
from dataclasses import dataclass, field

from exbr_desk import frames
from exbr_desk.reading import Arrival, Reading

from . import words

LEFT, NOWHERE, IGNORED = range(3)
COLUMNS = ("time", "port", "number", "vid", "source", "destination", "info", "length", "what", "reason", "set", "at", "of", "age", "line")
FEW = 4


class Texts:
    """Different texts, each with its number."""

    def __init__(self) -> None:
        self.numbers: dict = {}

    def number(self, it) -> int:
        return self.numbers.setdefault(it, len(self.numbers))

    def all(self) -> list:
        return list(self.numbers)


def ordinal(number: int) -> str:
    """`second`, `third`, `4th`, `21st`: which of some frames."""
    words = {1: "one", 2: "second", 3: "third"}
    ending = "th" if number % 100 in (11, 12, 13) else {1: "st", 2: "nd", 3: "rd"}.get(number % 10, "th")
    return words.get(number) or f"{number}{ending}"


@dataclass
class Choice:
    """Which frames a page holds: all where there are at most `most`, else up to half of it that went nowhere, and of those that left
    somewhere each `stride`th."""

    most: int
    arrivals: int
    stride: int = field(init=False)
    other: int = 0
    left: int = 0

    def __post_init__(self) -> None:
        self.stride = 1 if self.arrivals <= self.most else -(-self.arrivals // max(self.most // 2, 1))

    def takes(self, what: int) -> bool:
        if self.arrivals <= self.most:
            return True
        if what == LEFT:
            self.left += 1
            return self.left % self.stride == 1 or self.stride == 1
        self.other += 1
        return self.other <= self.most // 2

    def words(self) -> str:
        """What the page has to say of it."""
        if self.arrivals <= self.most:
            return ""
        half = self.most // 2
        other = (f"all {self.other:,} frames that went nowhere" if self.other <= half
                 else f"the first {half:,} of the {self.other:,} frames that went nowhere")
        return (f"This page doesn't hold all {self.arrivals:,} frames, so that it stays quick: it has {other}, and of the {self.left:,} others every "
                f"{ordinal(self.stride)}. Counters, time line and all else on the page go by all frames. exbr-report --frames N holds more.")


class Rows:
    """The frames that a page holds."""

    def __init__(self, ports: list[int], choice: Choice, start: int) -> None:
        self.place = {port: at for at, port in enumerate(ports)}
        self.choice, self.start = choice, start * 1_000_000_000
        self.columns: dict[str, list[int]] = {name: [] for name in COLUMNS}
        self.addresses, self.infos, self.sentences, self.reasons, self.sets = Texts(), Texts(), Texts(), Texts(), Texts()
        self._known: dict[int, tuple] = {}

    def add(self, it: Arrival, what: int, reading: Reading) -> None:
        """Adds a frame, if it is one that the page holds."""
        if not self.choice.takes(what):
            return
        frame, entry = it.frame, it.entry
        head = frames.ethernet(frame)
        cause = "" if what != NOWHERE else words.refusal_of(it, reading) if it.rule else words.nowhere(it, reading)
        reason = (cause, *map(self.sentences.number, words.sentences(it, reading)))
        address = self.addresses.number
        row = ((it.moment - self.start) // 1000, self.place[it.port], it.index, it.vid or 0,
               address(frame[6:12]) if head else address(b""), address(frame[:6]) if head else address(b""),
               self.infos.number(frames.inside(frame, head) if head else f"{frame.hex()}, too short for a frame"), len(frame), what,
               self.reasons.number(reason), self._set(it, reading) if it.targets else -1,
               self.place[entry.port] if entry else -1, entry.index if entry else 0, it.clock - entry.clock if entry else 0, it.line)
        for name, value in zip(COLUMNS, row):
            self.columns[name].append(value)

    def _set(self, it: Arrival, reading: Reading) -> int:
        """The number of the set of a frame's targets. A large one has its source too, so that all members of a VLAN share one."""
        known = self._known.get(id(it.targets))
        if known is not None and known[1] == it.port:
            return known[2]
        them = list(it.targets)
        if len(them) > FEW:
            kinds = reading.now.vlans[it.vid]
            them += [(it.port, kind) for kind in ("tagged", "untagged") if it.port in kinds[kind]]
        number = self.sets.number(tuple(sorted(2 * self.place[port] + (kind == "tagged") for port, kind in them)))
        self._known[id(it.targets)] = (it.targets, it.port, number)
        return number

    def data(self, names: list[str], disagree: dict[int, str]) -> dict:
        """All of it, as the script of the page takes it."""
        return {"ports": names, "addresses": [it.hex(":") for it in self.addresses.all()], "infos": self.infos.all(),
                "reasons": self.reasons.all(), "sets": self.sets.all(), "words": self.sentences.all(), "columns": self.columns, "disagree": disagree,
                "causes": self.causes()}

    def causes(self) -> dict[str, str]:
        """Why frames went nowhere, as far as it came up: for the list of the filter."""
        heads = {it[0] for it in self.reasons.all()}
        known = words.CAUSES | words.NOBODY_CAUSES
        return {code: known[code] for code in known if code in heads}

    def row_of(self, port: int, index: int) -> int | None:
        """The row of a record, if the page has it."""
        place = self.place.get(port)
        column = self.columns
        return next((at for at, (one, other) in enumerate(zip(column["port"], column["number"])) if one == place and other == index), None)
