"""Files beside a run that aren't of it: those that an earlier run left.

A run writes a capture for each external port and a journal. Trace and counters are written where they are asked for, so those of an
earlier run may still lie there, and so may captures of ports that the topology no longer has.
"""
from __future__ import annotations

import os
import re

from . import plain
from .runs import SETTLED, UNENDED, Run, end_of

SHOWN = 3


def begun(run: Run) -> int:
    """The moment, in nanoseconds, from which on the files that every run writes were written. Without such a file it is 0."""
    times = [os.stat(path).st_mtime_ns for path in run.outputs() if os.path.exists(path)]
    return min(times, default=0)


def is_older(run: Run, path: str) -> bool:
    """Whether a file was there before this run began to write."""
    return os.stat(path).st_mtime_ns < begun(run)


def left_out(run: Run, path: str) -> str:
    """What is said of an older file that doesn't fit the run."""
    return f"{os.path.basename(path)} is older than {os.path.basename(run.journal)} and doesn't fit it: it is of an earlier run, and is left out"


def of_no_port(run: Run) -> list[str]:
    """Captures beside the outputs that have the name of an output, of a port that isn't an external one of this topology."""
    folder, head = os.path.split(run.out(""))
    try:
        names = os.listdir(folder or ".")
    except OSError:
        return []
    external = set(run.topology.external)
    form = re.compile(re.escape(head) + r"([bx][0-9.]+)\.pcap")
    found = [(plain.number_of(it[1]), it[0]) for it in map(form.fullmatch, names) if it and plain.is_port(it[1])]
    return [name for port, name in sorted(found) if port not in external]


def notes(run: Run) -> list[str]:
    """What has to be said of files that lie beside those of the run, and of a journal that is but the beginning of one."""
    last = end_of(run.journal)
    told = [] if last == SETTLED or not last.endswith(b"\n") else [f"{os.path.basename(run.journal)} doesn't end with 'settled': {UNENDED}"]
    names = of_no_port(run)
    if not names:
        return told
    more = f" and {len(names) - SHOWN:,} more" if len(names) > SHOWN else ""
    verb = "is no output" if len(names) == 1 else "are no outputs"
    return told + [f"{', '.join(names[:SHOWN])}{more} {verb} of this topology: of an earlier run, and left out"]
