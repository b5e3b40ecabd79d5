"""Two sequences side by side, of which each comes piece by piece: what ought to be there, and what is."""
from __future__ import annotations

from difflib import SequenceMatcher
from typing import Any, Callable, Hashable, Iterator

WINDOW = 128
MOST = 1000


class Aligner:
    """Holds what is expected against what is there. While both are equal nothing is kept.

    `tell(what, place, wanted, item, found)` is called for each difference: `missing` (there ought to be something before this
    place), `extra` (nothing ought to be at this place) or `changed` (something else ought to be there). Places are counted from 1.
    `late(item, place)` is called for what is found only after a difference was looked into. After so many differences that the
    two are plainly not of one run, no more are looked for: `given_up` says so.
    """

    def __init__(self, actual: Iterator[Hashable], tell: Callable[..., None], late: Callable[[Any, int], None]):
        self.actual, self.tell, self.late = actual, tell, late
        self.place, self.faults = 0, 0
        self.wanted: list[tuple[Hashable, Any]] = []
        self.found: list[Hashable] = []
        self.given_up = False

    def expect(self, key: Hashable, item: Any) -> int:
        """The place at which what is expected next stands, or 0 where that isn't plain yet."""
        if not self.wanted:
            there = next(self.actual, None)
            if there == key:
                self.place += 1
                return self.place
            if there is not None:
                self.found.append(there)
        if self.given_up:
            return 0
        self.wanted.append((key, item))
        if len(self.wanted) >= WINDOW:
            self._settle(False)
        return 0

    def finish(self) -> None:
        """Nothing more is expected."""
        self._settle(True)
        while not self.given_up and (there := next(self.actual, None)) is not None:
            self.place += 1
            self._differs("extra", self.place, None, None, there)

    def _differs(self, what: str, place: int, wanted: Hashable, item: Any, found: Hashable) -> None:
        if self.faults == MOST:
            self.given_up = True
            self.wanted, self.found = [], []
        else:
            self.faults += 1
            self.tell(what, place, wanted, item, found)

    def _fill(self, is_end: bool) -> None:
        """Reads on until as much is there as is expected, and a little more."""
        while len(self.found) < len(self.wanted) + (WINDOW if is_end else WINDOW // 2):
            there = next(self.actual, None)
            if there is None:
                return
            self.found.append(there)

    def _settle(self, is_end: bool) -> None:
        """Looks into the differences that there are, as far as what follows is equal again."""
        while self.wanted and not self.given_up:
            self._fill(is_end)
            keys = [key for key, _ in self.wanted]
            steps = _plainly(keys, self.found) or SequenceMatcher(None, keys, self.found, False).get_opcodes()
            last = max((at for at, step in enumerate(steps) if step[0] == "equal"), default=-1)
            done = steps[:last + 1] or steps
            self._go(done)
            if self.given_up:
                return
            until, found = done[-1][2], done[-1][4]
            self.place += found
            self.wanted, self.found = self.wanted[until:], self.found[found:]
            self._catch_up()
            if not is_end:
                return

    def _catch_up(self) -> None:
        """Takes what is equal at the front, so that nothing is kept where all agrees again."""
        at = 0
        while at < len(self.wanted) and at < len(self.found) and self.wanted[at][0] == self.found[at]:
            self.place += 1
            self.late(self.wanted[at][1], self.place)
            at += 1
        self.wanted, self.found = self.wanted[at:], self.found[at:]
        if not self.wanted and self.found:
            rest, actual = self.found, self.actual
            self.found = []
            self.actual = _chained(rest, actual)

    def _go(self, steps: list[tuple[str, int, int, int, int]]) -> None:
        wanted, found, place = self.wanted, self.found, self.place + 1
        for step, begin, end, first, last in steps:
            if step == "equal":
                for at in range(end - begin):
                    self.late(wanted[begin + at][1], place + first + at)
                continue
            pairs = min(end - begin, last - first) if step == "replace" else 0
            for at in range(pairs):
                self._differs("changed", place + first + at, *wanted[begin + at], found[first + at])
            for key, item in wanted[begin + pairs:end]:
                self._differs("missing", place + last, key, item, None)
            for at in range(first + pairs, last):
                self._differs("extra", place + at, None, None, found[at])


def _plainly(wanted: list, found: list) -> list[tuple[str, int, int, int, int]] | None:
    """The steps where but a few things at the front are changed, missing or too many, and all behind them is equal. Of sequences that
    repeat themselves a search for what is equal would find too much."""
    count = len(wanted)
    for few in range(1, 9):
        if 4 * few > count:
            return None
        if count <= len(found) and wanted[few:] == found[few:count]:
            return [("replace", 0, few, 0, few), ("equal", few, count, few, count)]
        if count <= len(found) + few and wanted[few:] == found[:count - few]:
            return [("delete", 0, few, 0, 0), ("equal", few, count, 0, count - few)]
        if count + few <= len(found) and wanted == found[few:count + few]:
            return [("insert", 0, 0, 0, few), ("equal", 0, count, few, count + few)]
    return None


def _chained(front: list, rest: Iterator) -> Iterator:
    yield from front
    yield from rest
