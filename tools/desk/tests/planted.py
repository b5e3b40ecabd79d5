"""Faults that are put into the files of a run on purpose."""
from __future__ import annotations

import os
import random
import struct
from typing import Callable

from exbr_desk import captures, runs
from exbr_desk.captures import Record


def _records(path: str) -> list[Record]:
    return list(captures.records(path))


def _write(path: str, records: list[Record]) -> str:
    with open(path, "wb") as out:
        out.write(captures.capture_text((it.time, it.frame) for it in records))
    return path


def _some_output(run: runs.Run, chance: random.Random) -> tuple[str, list[Record]] | None:
    """An output with a frame in it."""
    paths = [run.output(port) for port in run.topology.external if os.path.getsize(run.output(port)) > len(captures.HEADER)]
    if not paths:
        return None
    path = chance.choice(paths)
    return path, _records(path)


def frame_taken(run: runs.Run, chance: random.Random) -> str | None:
    """Takes a frame out of an output."""
    found = _some_output(run, chance)
    if found is None:
        return None
    path, records = found
    del records[chance.randrange(len(records))]
    return _write(path, records)


def frame_added(run: runs.Run, chance: random.Random) -> str | None:
    """Puts a frame into an output, which may be one that is there already."""
    paths = [run.output(port) for port in run.topology.external]
    path = chance.choice(paths)
    records, given = _records(path), [it for capture in run.captures.values() for it in capture.from_number(1)]
    other = chance.choice(records or given or [Record(1, 100 * captures.SECOND, bytes(60))])
    records.insert(chance.randrange(len(records) + 1), other)
    return _write(path, records)


def tag_changed(run: runs.Run, chance: random.Random) -> str | None:
    """Gives a frame of an output another tag, or takes it away, or puts one in."""
    found = _some_output(run, chance)
    if found is None:
        return None
    path, records = found
    at = chance.randrange(len(records))
    frame = records[at].frame
    if frame[12:14] != b"\x81\x00":
        frame = frame[:12] + b"\x81\x00\x00\x07" + frame[12:]
    elif chance.randrange(2):
        frame = frame[:12] + frame[16:]
    else:
        tag = struct.unpack_from(">H", frame, 14)[0]
        frame = frame[:14] + struct.pack(">H", tag & 0xF000 | (tag + 1) & 0xFFF) + frame[16:]
    records[at] = records[at]._replace(frame=frame)
    return _write(path, records)


def line_changed(run: runs.Run, chance: random.Random) -> str | None:
    """Changes a line of the journal, takes it out, or writes it twice."""
    with open(run.journal, encoding="ascii") as file:
        lines = file.read().splitlines()
    at = chance.randrange(len(lines))
    words = lines[at].split()
    ways: list[list[str]] = [[], [lines[at], lines[at]]]
    if words[0] in ("relay", "ignore"):
        ways += [[f"{'ignore' if words[0] == 'relay' else 'relay'} {words[1]} {words[2]}"], [f"{words[0]} {words[1]} {int(words[2]) + 1}"]]
    elif words[0] in ("commit", "tick"):
        ways += [[f"{words[0]} {int(words[1]) + 1}"], [f"refuse {words[1]} groups 3 2"]]
    lines[at:at + 1] = chance.choice(ways)
    with open(run.journal, "w", encoding="ascii") as out:
        out.write("".join(f"{line}\n" for line in lines))
    return run.journal


PLANTED: dict[str, Callable[[runs.Run, random.Random], str | None]] = {
    "a frame taken out": frame_taken, "a frame added": frame_added, "a tag changed": tag_changed, "a journal line changed": line_changed}
