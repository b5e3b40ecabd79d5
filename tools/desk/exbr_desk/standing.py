"""What has to be said of a run before anything else: ports that stayed absent at the opening, and commands that were refused."""
from __future__ import annotations

from . import lists
from .journal import cause_in_words
from .reading import NAMES, Ordered, Told
from .topology import Command

SHOWN = 12


class Standing:
    """The ports that stayed absent, and the commands that were refused, each with its cause."""

    def __init__(self):
        self.absent: dict[int, str] = {}
        self.refused: dict[int, str] = {}

    def take(self, event: Told | Ordered) -> None:
        """Takes what isn't the arrival of a frame."""
        if event.__class__ is Ordered:
            if event.cause:
                self.refused[event.command.number] = event.cause
        elif event.kind == "noup":
            self.absent[event.port] = event.text.split(" ", 2)[2]

    def lines(self, commands: list[Command]) -> list[str]:
        """A line for the ports, and one for the commands, as far as there are any."""
        told = []
        if self.absent:
            names, cause = lists.ports([NAMES[it] for it in sorted(self.absent)], SHOWN), next(iter(self.absent.values()))
            stayed = "1 port stayed" if len(self.absent) == 1 else f"{len(self.absent):,} ports stayed"
            told.append(f"{stayed} absent at the opening, and nothing passes there: {names}; {cause_in_words(cause)}")
        if self.refused:
            were = "1 command was" if len(self.refused) == 1 else f"{len(self.refused):,} commands were"
            number, cause = next(iter(self.refused.items()))
            numbers = ", ".join(f"{one}-{last}" if last > one else str(one) for one, last in lists.runs(self.refused)[:SHOWN])
            first = f"{number} ({commands[number - 1].words()})" if len(self.refused) == 1 else f"{numbers}, the first ({commands[number - 1].words()})"
            told.append(f"{were} refused and changed nothing: {first}, since {cause_in_words(cause)}")
        return told

    def in_json(self) -> dict:
        """The same for programs."""
        return {"absent": [{"port": NAMES[port], "cause": cause} for port, cause in self.absent.items()],
                "refused": [{"command": number, "cause": cause} for number, cause in self.refused.items()]}
