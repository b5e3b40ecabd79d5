"""Counts of each port, as the counters of a run have them, and by rule."""
from __future__ import annotations

from dataclasses import dataclass, field

from . import plain
from .reading import NAMES, Arrival
from .runs import Run


@dataclass
class PortCounts:
    """What became of the frames that came at a port, and what left there. `rules` counts what was ignored or dropped by its rule."""

    relayed: int = 0
    dropped: int = 0
    ignored: int = 0
    left: int = 0
    octets: int = 0
    rules: dict[str, int] = field(default_factory=dict)

    def text(self, port: int) -> str:
        return f"{NAMES[port]} relayed {self.relayed} dropped {self.dropped} ignored {self.ignored} left {self.left} octets {self.octets}"


class Counts:
    """The counts of all external ports."""

    def __init__(self, run: Run):
        self.ports = {port: PortCounts() for port in run.topology.external}

    def add(self, it: Arrival) -> None:
        here = self.ports[it.port]
        if it.is_relayed:
            here.relayed += 1
        else:
            here.ignored += 1
        if it.rule is not None:
            here.dropped += it.is_relayed
            here.rules[it.rule] = here.rules.get(it.rule, 0) + 1
        if it.targets:
            bare = len(it.frame) - (4 if plain.kind_of(it.frame)[0] != "plain" else 0)
            for port, kind in it.targets:
                there = self.ports[port]
                there.left += 1
                there.octets += bare + (4 if kind == "tagged" else 0)

    def lines(self) -> list[str]:
        return [counts.text(port) for port, counts in self.ports.items()]
