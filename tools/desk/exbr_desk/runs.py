"""A run: its topology, what it was given, and the files that it wrote."""
from __future__ import annotations

import os
import resource
from dataclasses import dataclass, field

from . import plain, safe_files, topology
from .captures import PIECE, Capture
from .errors import DeskError

SETTLED = b"settled\n"
UNENDED = "this run didn't end, or is still going on"


@dataclass
class Run:
    """A run of a topology. Names in it are taken from `folder`, as the program takes them from the folder in which it is run."""

    topology: topology.Topology
    folder: str
    _captures: dict[int, Capture] | None = field(default=None, repr=False)

    def path(self, name: str) -> str:
        return os.path.normpath(os.path.join(self.folder, name))

    def out(self, rest: str) -> str:
        """The path of an output: `journal.txt`, `trace.txt`, `counters.txt`, or the name of a port and `.pcap`."""
        return self.path(self.topology.out + rest)

    @property
    def journal(self) -> str:
        return self.out("journal.txt")

    @property
    def trace(self) -> str | None:
        """The trace, where there is one."""
        return self.out("trace.txt") if os.path.exists(self.out("trace.txt")) else None

    @property
    def counters(self) -> str | None:
        """The counters, where there are any."""
        return self.out("counters.txt") if os.path.exists(self.out("counters.txt")) else None

    def output(self, port: int) -> str:
        """The capture of what left a port."""
        return self.out(f"{plain.name_of(port)}.pcap")

    @property
    def piece(self) -> int:
        """How many bytes of each file are read at once, so that many ports take no more memory than few."""
        return max(4096, min(PIECE, (64 << 20) // max(1, len(self.topology.external))))

    @property
    def captures(self) -> dict[int, Capture]:
        """The captures by port, each looked through once."""
        if self._captures is None:
            _allow_files()
            self._captures = {port: Capture(self.path(name), self.piece) for port, name in self.topology.captures.items()}
        return self._captures

    def take_captures(self, captures: dict[int, Capture]) -> None:
        """Takes captures that were looked through before."""
        _allow_files()
        self._captures = captures

    @property
    def arrivals(self) -> int:
        return sum(capture.count for capture in self.captures.values())

    def outputs(self) -> list[str]:
        """The files that every run writes. A trace and counters are written where they are asked for alone."""
        return [*map(self.output, self.topology.external), self.journal]

    def missing(self) -> list[str]:
        """Those of them that aren't there, the journal first."""
        return [file for file in (self.journal, *self.outputs()[:-1]) if not os.path.exists(file)]


def _allow_files() -> None:
    """A tree has up to 4,160 ports, with a capture and an output each."""
    soft, hard = resource.getrlimit(resource.RLIMIT_NOFILE)
    wanted = 16_384 if hard == resource.RLIM_INFINITY else min(hard, 16_384)
    if soft != resource.RLIM_INFINITY and soft < wanted:
        resource.setrlimit(resource.RLIMIT_NOFILE, (wanted, hard))


def read(place: str, folder: str | None = None) -> Run:
    """The run of a folder with a `topology.toml`, or of a topology file. Names are taken from its folder, or from the one given."""
    path = os.path.join(place, "topology.toml") if os.path.isdir(place) else place
    if not os.path.exists(path):
        what = f"there is no topology.toml in {place}" if os.path.isdir(place) else f"{path} isn't there"
        raise DeskError(f"{what}; name a topology file, or the folder of one")
    return Run(topology.read(path), folder if folder is not None else topology.folder_of(path))


def whole(place: str, folder: str | None = None) -> Run:
    """The same, where all files that a run writes have to be there."""
    run = read(place, folder)
    missing = run.missing()
    if missing:
        more = f" and {len(missing) - 1} more" if len(missing) > 1 else ""
        raise DeskError(f"{missing[0]}{more} isn't there: this topology wasn't run in {run.folder}, or its files were taken away")
    if why := unended(run):
        raise DeskError(why)
    return run


def unended(run: Run) -> str | None:
    """Why the run that wrote these files didn't end, where they can't be read for that: one is empty, or the journal ends within a line."""
    empty = [path for path in run.outputs() if os.path.isfile(path) and not os.path.getsize(path)]
    if empty:
        more = f" and {len(empty) - 1:,} more are" if len(empty) > 1 else " is"
        return f"{empty[0]}{more} empty: {UNENDED}"
    last = end_of(run.journal)
    return f"{run.journal} ends within a line: {UNENDED}" if last and not last.endswith(b"\n") else None


def end_of(path: str) -> bytes:
    """The last bytes of a journal, as many as its last line has where the run ended; nothing where it can't be read."""
    try:
        with safe_files.opened(path) as file:
            file.seek(max(0, os.path.getsize(path) - len(SETTLED)))
            return file.read(len(SETTLED))
    except (OSError, DeskError):
        return b""
