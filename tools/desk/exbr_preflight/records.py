"""What looks like a mistake in captures: tags of other VLANs, a snapshot length, both directions, a check sequence, one file for two ports."""
from __future__ import annotations

import os
import struct
import zlib
from dataclasses import dataclass, field
from typing import Iterator

from exbr_desk import frames, plain
from exbr_desk.captures import SECOND, Classic, Pieces, form_of, opened
from exbr_desk.errors import DeskError
from exbr_desk.places import Placed
from exbr_desk.progress import Progress
from exbr_desk.topology import Topology, folder_of

from .lint import Warning

LOOK, CHECKED, SIMPLE = 20_000, 50, 3
NAMES = plain.name_of


@dataclass
class Seen:
    """What a capture holds: frames that were looked at, its last moment, tags, sources, frames that were cut, and those with a check
    sequence of those that were tried."""

    count: int = 0
    whole: bool = True
    first: int | None = None
    last: int = 0
    tags: set[int] = field(default_factory=set)
    sources: set[bytes] = field(default_factory=set)
    cut: int = 0
    tried: int = 0
    checked: int = 0


def seen_in(path: str, look: int) -> Seen:
    """Looks at the first frames of a capture, and at the moments of all."""
    found = Seen()
    with opened(path) as file:
        form = form_of(file, path)
        pieces = Pieces(file, path, form.start, 1 << 20)
        for place, time, frame in form.records(pieces):
            found.last = max(found.last, time)
            found.first = time if found.first is None else found.first
            found.count += 1
            if found.count <= look:
                _note(found, frame, len(frame) < _original(form, pieces, place))
    found.whole = found.count <= look
    return found


def _original(form, pieces: Pieces, place: int) -> int:
    """How long the frame of a record was before it was stored."""
    at = place - pieces.base
    if isinstance(form, Classic):
        return struct.unpack_from(form.order + "I", pieces.data, at + 12)[0]
    kind = struct.unpack_from(form.order + "I", pieces.data, at)[0]
    return struct.unpack_from(form.order + "I", pieces.data, at + (8 if kind == SIMPLE else 24))[0]


def _note(found: Seen, frame: bytes, is_cut: bool) -> None:
    kind, tag = plain.kind_of(frame)
    if kind == "tagged":
        found.tags.add(tag & 0xFFF)
    if kind in ("plain", "priority", "tagged") and not frame[6] & 1:
        found.sources.add(frame[6:12])
    found.cut += is_cut
    if found.tried < CHECKED and len(frame) > 18 and not is_cut:
        found.tried += 1
        found.checked += zlib.crc32(frame[:-4]) == struct.unpack("<I", frame[-4:])[0]


def of_captures(given: Topology, placed: Placed, look: int = LOOK) -> tuple[list[Warning], list[Warning]]:
    """The warnings on captures, and those captures that a run couldn't read."""
    seen, broken = all_seen(given, look)
    found = [*_same_files(given, folder_of(given.path)), *_tags(given, seen), *_signs(seen), *_directions(seen), *_ends(given, seen)]
    for it in (*found, *broken):
        it.place = placed.value(it.path) or placed.key(it.path)
    return found, broken


def all_seen(given: Topology, look: int) -> tuple[dict[int, Seen], list[Warning]]:
    """What each capture holds, and those that can't be read."""
    folder, progress = folder_of(given.path), Progress("looking at captures", len(given.captures))
    seen, broken = {}, []
    for at, (port, name) in enumerate(given.captures.items()):
        try:
            seen[port] = seen_in(os.path.join(folder, name), look)
        except (DeskError, OSError) as fault:
            broken.append(Warning("capture", f"the capture of {{}} can't be read: {fault.strerror if isinstance(fault, OSError) else fault}", [port], _path(port)))
        progress.at(at)
    progress.end()
    return seen, broken


def _same_files(given: Topology, folder: str) -> Iterator[Warning]:
    first: dict[str, int] = {}
    for port, name in given.captures.items():
        path = os.path.realpath(os.path.join(folder, name))
        if first.setdefault(path, port) != port:
            yield Warning("same-file", f"{name} is the capture of {NAMES(first[path])} and of {{}}: a station would speak at both", [port], _path(port))


def _path(port: int) -> tuple:
    return "captures", NAMES(port)


def ever_in(given: Topology) -> dict[int, set[int]]:
    """By port the VLANs in which it is at some moment."""
    now, found = given.start(), {}
    for vid in now.vlans:
        _note_members(found, vid, now)
    for command in given.commands:
        now.command(command.table)
        if command.table["op"] in ("vlan", "member"):
            _note_members(found, command.table["vid"], now)
    return found


def _note_members(found: dict[int, set[int]], vid: int, now: plain.Configuration) -> None:
    for port in {port for ports in now.vlans.get(vid, {}).values() for port in ports}:
        found.setdefault(port, set()).add(vid)


def _tags(given: Topology, seen: dict[int, Seen]) -> Iterator[Warning]:
    members = ever_in(given)
    for port, it in seen.items():
        strange = sorted(it.tags - members.get(port, set()))
        if strange:
            told = ", ".join(map(str, strange[:8])) + (f" and {len(strange) - 8} more" if len(strange) > 8 else "")
            yield Warning("foreign-tags", f"frames with a tag of VLAN {told} arrive at {{}}, which is never in it", [port], _path(port))


def _signs(seen: dict[int, Seen]) -> Iterator[Warning]:
    for port, it in seen.items():
        if it.cut:
            yield Warning("snap", f"{it.cut:,} frames of the capture of {{}} were cut by a snapshot length: what was cut off is lost (tcpdump -s 0)", [port], _path(port))
        if it.tried and 2 * it.checked > it.tried:
            yield Warning("fcs", "the frames of the capture of {} end with their check sequence, and would leave four bytes too long", [port], _path(port))


def _directions(seen: dict[int, Seen]) -> Iterator[Warning]:
    """Captures of which most addresses send in others too: one of them at least holds what left its port."""
    ports_of: dict[bytes, list[int]] = {}
    for port, address in ((port, address) for port, it in seen.items() for address in it.sources):
        ports_of.setdefault(address, []).append(port)
    yield from (found for port, it in seen.items() if (found := _both(port, it, ports_of)))


def _both(port: int, it: Seen, ports_of: dict[bytes, list[int]]) -> Warning | None:
    elsewhere = [address for address in it.sources if len(ports_of[address]) > 1]
    if len(it.sources) < 2 or 2 * len(elsewhere) <= len(it.sources):
        return None
    other = min({other for address in elsewhere for other in ports_of[address]} - {port})
    return Warning("both-directions", f"of {len(it.sources)} addresses that send in the capture of {{}} {len(elsewhere)} send in others too, as {frames.mac(min(elsewhere))} "
                   f"in that of {NAMES(other)}: it seems to hold what left the port (tcpdump -Q in)", [port], _path(port))


def _ends(given: Topology, seen: dict[int, Seen]) -> Iterator[Warning]:
    """Commands that come after the last frame."""
    starts = [it.first // SECOND for it in seen.values() if it.first is not None]
    if not starts:
        return
    start, last = min(starts), max(it.last for it in seen.values())
    late = [it for it in given.commands if (start + it.at) * SECOND > last]
    if late:
        which = f"command {late[0].number}" if len(late) == 1 else f"commands {late[0].number} to {late[-1].number}"
        yield Warning("after-end", f"{which} come{'s' * (len(late) == 1)} after the last frame, which arrives {(last - start * SECOND) / SECOND:.1f} s after the start: "
                      "no frame shows what that does", [], ("command", late[0].number - 1, "at"))
