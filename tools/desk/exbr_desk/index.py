"""What became of each frame of a run, kept in a file beside it, so that the next question needs no replay.

The file has the columns of a `Table` as they stand in memory. It says of which files it is: their sizes, times and places on the disk. Where
one of these is another one by now, or the tools are, it counts for nothing and is made anew. So a copy of a run makes its own.
"""
from __future__ import annotations

import hashlib
import json
import mmap
import os
import struct
import sys
import tempfile
from array import array
from typing import Iterator, Sequence

from . import plain, safe_files, standing, swift, trace_index
from .captures import SECOND, Blocks, Capture, Classic
from .errors import DeskError
from .judge import Fault, Judge, is_seeded
from .place import umask
from .progress import Progress
from .runs import Run
from .table import COLUMNS, NEVER, Done, Filling, Outcome, Table

MAGIC = b"exbr index 1 " + sys.byteorder.encode() + b"\n"
MOST_HEAD = 1 << 28
KINDS = ("H", "I", "i", "Q", "B")
RULES = (None, "absent", "short", "long", "reserved", "bad tag", "accept", "vlan", "filter", "never")
HOWS = (None, "static", "learned", "flooded")


def path_of(run: Run) -> str:
    """Where the index of a run stands."""
    return run.out("index")


# Of which files it is.

def stamp(run: Run) -> list:
    """What has to be the same for an index to count: the tools, and each file that the run was given or has written."""
    paths = [run.topology.path, *(run.path(name) for name in run.topology.captures.values()), *run.outputs(), run.out("trace.txt"), run.out("counters.txt")]
    return [tools(), run.folder and os.path.abspath(run.folder), *map(_place, paths)]


def _place(path: str) -> list | None:
    try:
        it = os.stat(path)
    except OSError:
        return None
    return [it.st_size, it.st_mtime_ns, it.st_ctime_ns, it.st_ino, it.st_dev]


def tools() -> str:
    """A sum over the sources of these tools."""
    here, its = os.path.dirname(os.path.abspath(__file__)), hashlib.sha256()
    paths = [os.path.join(here, name) for name in sorted(os.listdir(here)) if name.endswith(".py")]
    for path in [*paths, os.path.join(plain.HOME, "bridge.py")]:
        with open(path, "rb") as file:
            its.update(file.read())
    return its.hexdigest()


# Writing.

def _outcome_columns(outcomes: Sequence[Outcome]) -> dict[str, array]:
    """The outcomes as columns: what each has, and where its ports and tags begin."""
    found = {name: array(kind) for name, kind in (("vid", "H"), ("rule", "B"), ("how", "B"), ("to", "i"), ("first", "I"), ("at", "H"), ("tag", "H"))}
    for it in outcomes:
        found["vid"].append(it.vid or 0)
        found["rule"].append(RULES.index(it.rule))
        found["how"].append(HOWS.index(it.how))
        found["to"].append(-1 if it.to is None else it.to)
        found["first"].append(len(found["at"]))
        found["at"].extend(port for port, _ in it.left)
        found["tag"].extend(tag for _, tag in it.left)
    return {f"outcome {name}": it for name, it in found.items()}


def _captures(run: Run) -> tuple[dict, dict[str, array]]:
    """What is known of the captures: how many records, the first second, and where every 256th stands."""
    told, columns = {}, {"mark place": array("Q"), "mark moment": array("Q")}
    for port, it in run.captures.items():
        states = [state for state, _ in it.marks]
        told[str(port)] = [it.count, it.first_second, len(states), len(columns["mark place"]),
                           [[state.order, state.interfaces, state.time] for state in states] if states and isinstance(states[0], Blocks)
                           else [states[0].order, states[0].unit] if states else None]
        columns["mark place"].extend(state.start for state, _ in it.marks)
        columns["mark moment"].extend(moment for _, moment in it.marks)
    return told, columns


def _head(run: Run, table: Table, marks: dict, hops: list[str]) -> dict:
    faults = [[it.file, it.what, it.place, it.text, it.arrival, it.port, it.frame.hex() if it.frame is not None else None] for it in table.faults]
    return {"stamp": stamp(run), "captures": marks, "done": [[it.number, it.cause, it.row] for it in table.done],
            "absent": list(table.standing.absent.items()), "refused": list(table.standing.refused.items()), "faults": faults,
            "given up": table.given_up, "seeded": table.is_seeded, "trace": hops}


def write(run: Run, table: Table, path: str) -> None:
    """Writes the index of a run. It is made beside its place first, and nobody finds half of one."""
    hops, faults = trace_index.columns_of(run, table)
    marks, mark_columns = _captures(run)
    columns = {**table.columns, "place": table.place, **_outcome_columns(table.outcomes), **mark_columns, **hops,
               "address": array("B", b"".join(table.addresses[1:]))}
    head = _head(run, table, marks, faults)
    head["columns"] = {name: [_kind(it), len(it)] for name, it in columns.items()}
    text = json.dumps(head, separators=(",", ":")).encode()
    text += b" " * (-(len(MAGIC) + 8 + len(text)) % 8)
    with tempfile.NamedTemporaryFile(dir=os.path.dirname(path) or ".", prefix=".exbr-index-", delete=False) as file:
        try:
            file.write(MAGIC + struct.pack("<Q", len(text)) + text)
            for it in columns.values():
                data = memoryview(it).cast("B")
                file.write(data)
                file.write(bytes(-len(data) % 8))
            file.close()
            os.chmod(file.name, 0o666 & ~umask())
            os.replace(file.name, path)
        except BaseException:
            os.unlink(file.name)
            raise


def _kind(column) -> str:
    return column.typecode if isinstance(column, array) else column.format


# Reading.

class Outcomes(Sequence):
    """The outcomes of an index, each made when it is asked for."""

    def __init__(self, columns: dict[str, Sequence[int]]):
        self.vid, self.rule, self.how, self.to, self.first, self.at, self.tag = (
            columns[f"outcome {name}"] for name in ("vid", "rule", "how", "to", "first", "at", "tag"))
        self._made: dict[int, Outcome] = {0: NEVER}

    def __len__(self) -> int:
        return len(self.vid)

    def __getitem__(self, number: int) -> Outcome:
        found = self._made.get(number)
        if found is None:
            if not 0 <= number < len(self):
                raise IndexError(number)
            first, last = self.first[number], self.first[number + 1] if number + 1 < len(self) else len(self.at)
            left = tuple(zip(self.at[first:last], self.tag[first:last]))
            found = self._made[number] = Outcome(self.vid[number] or None, RULES[self.rule[number]], HOWS[self.how[number]],
                                                 self.to[number] if self.to[number] >= 0 else None, left)
        return found


def read(run: Run, path: str) -> Table | None:
    """The table of an index, where there is one that counts. What is odd in it makes it one that doesn't."""
    try:
        with safe_files.opened(path) as file:
            if file.read(len(MAGIC)) != MAGIC:
                return None
            size = struct.unpack("<Q", file.read(8))[0]
            if size > MOST_HEAD:
                return None
            head = json.loads(file.read(size))
            if head["stamp"] != json.loads(json.dumps(stamp(run))):
                return None
            data = memoryview(mmap.mmap(file.fileno(), 0, access=mmap.ACCESS_READ))
        return _table(run, head, dict(_columns(head["columns"], data, len(MAGIC) + 8 + size)))
    except (OSError, DeskError, ValueError, KeyError, TypeError, IndexError, struct.error, RecursionError):
        return None


def _columns(told: dict, data: memoryview, at: int) -> Iterator[tuple[str, memoryview]]:
    for name, (kind, count) in told.items():
        if kind not in KINDS or count < 0:
            raise ValueError(name)
        size = struct.calcsize(kind) * count
        if at + size > len(data):
            raise ValueError(name)
        yield name, data[at:at + size].cast(kind)
        at += size + -size % 8


def _table(run: Run, head: dict, columns: dict) -> Table:
    address = bytes(columns["address"])
    table = Table({name: columns[name] for name in COLUMNS}, columns["place"], Outcomes(columns), [b"", *(address[at:at + 6] for at in range(0, len(address), 6))])
    table.done = [Done(*it) for it in head["done"]]
    table.standing = standing.Standing()
    table.standing.absent, table.standing.refused = dict(map(tuple, head["absent"])), dict(map(tuple, head["refused"]))
    table.faults = [Fault(file, what, place, text, tuple(arrival) if arrival else None, port, bytes.fromhex(frame) if frame is not None else None)
                    for file, what, place, text, arrival, port, frame in head["faults"]]
    table.given_up, table.is_seeded = head["given up"], head["seeded"]
    table.hops, table.trace_faults = {name: it for name, it in columns.items() if name.startswith("hop ")}, head["trace"]
    run.take_captures({port: _capture(run, port, head["captures"][str(port)], columns) for port in run.topology.captures})
    return table


def _capture(run: Run, port: int, told: list, columns: dict) -> Capture:
    """A capture that isn't looked through once more."""
    count, second, many, first, states = told
    places, moments = columns["mark place"][first:first + many], columns["mark moment"][first:first + many]
    if states is None:
        marks = []
    elif states and isinstance(states[0], list):
        marks = [(Blocks(order, tuple(map(tuple, its)), time, place), moment) for (order, its, time), place, moment in zip(states, places, moments)]
    else:
        marks = [(Classic(*states, place), moment) for place, moment in zip(places, moments)]
    return Capture.known(run.path(run.topology.captures[port]), run.piece, count, second, marks)


# Both.

def may_stand(run: Run) -> bool:
    """Whether an index may be written beside a run."""
    return os.access(os.path.dirname(path_of(run)) or ".", os.W_OK | os.X_OK)


def made(run: Run, what: str, quiet: bool = False) -> Table:
    """What became of each frame, found by going through the run: quickly, or, where a file isn't what it has to be, with each difference."""
    table = swift.table_of(run, Progress(what, run.arrivals, quiet))
    return judged(run, Progress(what, run.arrivals, quiet)) if table is None else table


def judged(run: Run, progress: Progress) -> Table:
    """The same by the judge."""
    judge = Judge(run)
    filling = filling_of(judge)
    try:
        for at, event in enumerate(judge.events()):
            filling.take(event, judge.reading)
            if not at & 4095:
                progress.at(filling.table.count)
    finally:
        progress.end()
    return filled(judge, filling.table)


def filling_of(judge: Judge) -> Filling:
    """A table to be filled by the events of a judge."""
    filling = Filling(Table(is_seeded=is_seeded(judge.run)))
    judge.late_line, judge.late_place = filling.late_line, filling.late_place
    return filling


def filled(judge: Judge, table: Table) -> Table:
    """The table, when all events have come."""
    table.faults, table.given_up, table.notes = judge.faults, judge.given_up, judge.notes
    return table


def keep(run: Run, judge: Judge, table: Table) -> None:
    """Keeps a table that was filled beside other work, where it may be."""
    try:
        write(run, filled(judge, table), path_of(run))
    except OSError:
        return


def table_of(run: Run, what: str, keep: bool = True, quiet: bool = False) -> Table:
    """What became of each frame of a run: by its index, or found now. Where it may be kept, the index is written for the next question."""
    from . import earlier
    table = read(run, path_of(run))
    if table is not None:
        table.notes = earlier.notes(run)
        return table
    table = made(run, what, quiet)
    if keep:
        try:
            write(run, table, path_of(run))
        except OSError:
            return table
        kept = read(run, path_of(run)) or table
        kept.notes = table.notes
        return kept
    return table


__all__ = ["SECOND", "made", "path_of", "read", "stamp", "table_of", "write"]
