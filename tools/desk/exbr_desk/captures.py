"""Captures: classic pcap in both byte orders, in micro- and nanoseconds, and pcapng.

They are read in pieces, so a capture of any length takes little memory. A `Capture` knows where each 256th record begins; so each
record is read by its number without those before it. Faults are named as exbr names them, with the byte at which they are.
"""
from __future__ import annotations

import os
import struct
from itertools import islice
from typing import BinaryIO, Iterable, Iterator, NamedTuple

from . import safe_files
from .errors import DeskError

SECOND = 1_000_000_000
STRIDE = 256
PIECE = 1 << 16
LONGEST = 262_144
BLOCK = 327_680
CLASSIC = {b"\xd4\xc3\xb2\xa1": ("<", 1000), b"\xa1\xb2\xc3\xd4": (">", 1000),
           b"\x4d\x3c\xb2\xa1": ("<", 1), b"\xa1\xb2\x3c\x4d": (">", 1)}
PCAPNG = b"\x0a\x0d\x0d\x0a"
HEADER = struct.pack("<IHHIIII", 0xA1B2C3D4, 2, 4, 0, 0, 65535, 1)


class Record(NamedTuple):
    """A frame of a capture: its number, counted from 1, its time in nanoseconds, and its bytes."""

    index: int
    time: int
    frame: bytes


class Pieces:
    """The bytes of a file from a place on. `data` from `at` on is what was read of it and not yet used."""

    def __init__(self, file: BinaryIO, name: str, start: int, piece: int):
        self.file, self.name, self.piece = file, name, piece
        self.data, self.at, self.base = b"", 0, start
        file.seek(start)

    def has(self, count: int) -> bool:
        """Whether so many bytes are left; then they stand in `data`."""
        if len(self.data) - self.at >= count:
            return True
        self.base += self.at
        self.data, self.at = self.data[self.at:], 0
        more = self.file.read(max(self.piece, count - len(self.data)))
        while more and len(self.data) + len(more) < count:
            self.data += more
            more = self.file.read(count)
        self.data += more
        return len(self.data) >= count

    def skip(self, count: int) -> bool:
        """Goes on by so many bytes, without reading those that it need not, and says whether the file has them."""
        if len(self.data) - self.at >= count:
            self.at += count
            return True
        place = self.place() + count
        if os.fstat(self.file.fileno()).st_size < place:
            return False
        self.data, self.at, self.base = b"", 0, self.file.seek(place)
        return True

    def place(self) -> int:
        return self.base + self.at

    def fault(self, what: str, place: int) -> DeskError:
        return DeskError(f"{self.name}: {what} at {place}")


class Found:
    """What a look through a capture has found so far: how many records, the moment of the last one, the time of the first one, and where
    each 256th begins, with the moment before it."""

    def __init__(self):
        self.count = self.moment = 0
        self.first: int | None = None
        self.marks: list[tuple[Classic | Blocks, int]] = []


class Classic:
    """Where the reading of a classic capture stands: byte order, unit of fractions, place."""

    def __init__(self, order: str, unit: int, place: int):
        self.order, self.unit, self.start = order, unit, place

    def records(self, pieces: Pieces) -> Iterator[tuple[Classic, int, bytes]]:
        """Each record with the place where it begins, from here on."""
        unpack, unit = struct.Struct(self.order + "III").unpack_from, self.unit
        while True:
            at = pieces.at
            if len(pieces.data) - at < 16 and not pieces.has(16):
                break
            at = pieces.at
            seconds, fraction, length = unpack(pieces.data, at)
            if fraction * unit >= SECOND:
                raise pieces.fault("Time", pieces.place() + 4)
            if length > LONGEST:
                raise pieces.fault("Length", pieces.place() + 8)
            if len(pieces.data) - at < 16 + length:
                if not pieces.has(16 + length):
                    raise pieces.fault("Cut", pieces.place())
                at = pieces.at
            place = pieces.base + at
            pieces.at = at + 16 + length
            yield place, seconds * SECOND + fraction * unit, pieces.data[at + 16:at + 16 + length]
        if pieces.has(1):
            raise pieces.fault("Cut", pieces.place())

    def at_place(self, place: int) -> Classic:
        return Classic(self.order, self.unit, place)

    def scan(self, pieces: Pieces, found: Found) -> None:
        """Goes through all records without taking their bytes out."""
        while len(pieces.data) - pieces.at >= 16 or pieces.has(16):
            if self._whole(pieces, found):
                continue
            # The next record is faulty, or not all of it is there.
            count = 16 + self._length(pieces)
            if not pieces.has(count):
                raise pieces.fault("Cut", pieces.place())
        if pieces.has(1):
            raise pieces.fault("Cut", pieces.place())

    def batch(self, pieces: Pieces) -> list[tuple[Classic, int, bytes]]:
        """The next records, as many as stand whole in a piece, but one at least where one is left."""
        return list(islice(self.records(pieces), 1)) + self._all(pieces)

    def _all(self, pieces: Pieces) -> list[tuple[Classic, int, bytes]]:
        unpack, unit, data, at, found = struct.Struct(self.order + "III").unpack_from, self.unit, pieces.data, pieces.at, []
        last = len(data) - 16
        while at <= last:
            seconds, fraction, length = unpack(data, at)
            end = at + 16 + length
            if fraction * unit >= SECOND or length > LONGEST or end > last + 16:
                break
            found.append((self, seconds * SECOND + fraction * unit, data[at + 16:end]))
            at = end
        pieces.at = at
        return found

    def _whole(self, pieces: Pieces, found: Found) -> bool:
        """Takes the records that stand whole in a piece, and says whether there was one."""
        unpack, unit, data, begin = struct.Struct(self.order + "III").unpack_from, self.unit, pieces.data, pieces.at
        at, last, base, moment, number, most = begin, len(data) - 16, pieces.base, found.moment, found.count, (SECOND - 1) // self.unit
        while at <= last:
            seconds, fraction, length = unpack(data, at)
            if fraction > most or length > LONGEST or at + length > last:
                break
            if not number % STRIDE:
                found.marks.append((self.at_place(base + at), moment))
            time = seconds * SECOND + fraction * unit
            if time > moment:
                moment = time
            if not number:
                found.first = time
            number += 1
            at += 16 + length
        pieces.at, found.moment, found.count = at, moment, number
        return at > begin

    def _length(self, pieces: Pieces) -> int:
        """The length of the next record, whose head is there."""
        _, fraction, length = struct.unpack_from(self.order + "III", pieces.data, pieces.at)
        if fraction * self.unit >= SECOND:
            raise pieces.fault("Time", pieces.place() + 4)
        if length > LONGEST:
            raise pieces.fault("Length", pieces.place() + 8)
        return length


class Blocks:
    """Where the reading of a pcapng file stands: the byte order of the section, its interfaces, the time of the record before."""

    def __init__(self, order: str = "<", interfaces: tuple = (), time: int = 0, place: int = 0):
        self.order, self.interfaces, self.time, self.start = order, interfaces, time, place

    def at_place(self, place: int) -> Blocks:
        return Blocks(self.order, self.interfaces, self.time, place)

    def records(self, pieces: Pieces) -> Iterator[tuple[int, int, bytes]]:
        """Each record with the place of its block, from here on."""
        while pieces.has(12):
            place, before = pieces.place(), self.at_place(0)
            kind, length = self.block(pieces)
            data, at = pieces.data, pieces.at
            pieces.at += length
            if kind == 0x0A0D0D0A:
                self.section(pieces, data, at, length, place)
            elif kind == 1:
                self.interface(pieces, data, at, length, place)
            elif kind in (3, 6):
                time, frame = (self.simple if kind == 3 else self.packet)(pieces, data, at, length, place)
                self.seen = before
                self.time = time
                yield place, time, frame
        if pieces.has(1):
            raise pieces.fault("Cut", pieces.place())

    def scan(self, pieces: Pieces, found: Found) -> None:
        """Goes through all records."""
        for place, time, _ in self.records(pieces):
            if not found.count % STRIDE:
                found.marks.append((self.seen.at_place(place), found.moment))
            found.moment = max(found.moment, time)
            found.first = time if not found.count else found.first
            found.count += 1

    def block(self, pieces: Pieces) -> tuple[int, int]:
        """Kind and length of the next block, all of which then stands in `pieces`. One that says nothing here is skipped, and has no length."""
        place, at = pieces.place(), pieces.at
        if pieces.data[at:at + 4] == PCAPNG:
            magic = pieces.data[at + 8:at + 12]
            if magic not in (b"\x4d\x3c\x2b\x1a", b"\x1a\x2b\x3c\x4d"):
                raise pieces.fault("Magic", place + 8)
            self.order = "<" if magic == b"\x4d\x3c\x2b\x1a" else ">"
        kind, length = struct.unpack_from(self.order + "II", pieces.data, at)
        ours = kind in (0x0A0D0D0A, 1, 3, 6)
        if length < 12 or length % 4 or (ours and length > BLOCK):
            raise pieces.fault("Length", place + 4)
        if not (pieces.has(length) if ours else pieces.skip(length)):
            raise pieces.fault("Cut", place)
        if not ours:
            return kind, 0
        if struct.unpack_from(self.order + "I", pieces.data, pieces.at + length - 4)[0] != length:
            raise pieces.fault("Length", place + length - 4)
        return kind, length

    def section(self, pieces, data, at, length, place) -> None:
        if length < 28:
            raise pieces.fault("Length", place + 4)
        if struct.unpack_from(self.order + "H", data, at + 12)[0] != 1:
            raise pieces.fault("Version", place + 12)
        self.interfaces = ()

    def interface(self, pieces, data, at, length, place) -> None:
        if length < 20:
            raise pieces.fault("Length", place + 4)
        if len(self.interfaces) == 256:
            raise pieces.fault("TooMany", place)
        link, _, snap = struct.unpack_from(self.order + "HHI", data, at + 8)
        self.interfaces += ((link, snap, self.resolution(pieces, data, at, length, place)),)

    def resolution(self, pieces, data, at, length, place) -> int:
        """How many nanoseconds a unit of the interface's times has."""
        option, found = 16, None
        while option < length - 4:
            if option + 4 > length - 4:
                raise pieces.fault("Length", place + option)
            code, size = struct.unpack_from(self.order + "HH", data, at + option)
            if code == 0:
                break
            if option + 4 + size > length - 4:
                raise pieces.fault("Length", place + option)
            if code == 9 and found is None:
                if size != 1 or data[at + option + 4] > 9:
                    raise pieces.fault("Resolution", place + option)
                found = data[at + option + 4]
            option += 4 + (size + 3) // 4 * 4
        return 10 ** (9 - (6 if found is None else found))

    def packet(self, pieces, data, at, length, place) -> tuple[int, bytes]:
        if length < 32:
            raise pieces.fault("Length", place + 4)
        number, high, low, stored = struct.unpack_from(self.order + "IIII", data, at + 8)
        if number >= len(self.interfaces):
            raise pieces.fault("Interface", place + 8)
        link, _, unit = self.interfaces[number]
        if link != 1:
            raise pieces.fault("LinkType", place + 8)
        time = (high << 32 | low) * unit
        if time >= SECOND << 32:
            raise pieces.fault("Time", place + 12)
        if stored > LONGEST or 32 + (stored + 3) // 4 * 4 > length:
            raise pieces.fault("Length", place + 20)
        return time, data[at + 28:at + 28 + stored]

    def simple(self, pieces, data, at, length, place) -> tuple[int, bytes]:
        if length < 16:
            raise pieces.fault("Length", place + 4)
        if not self.interfaces:
            raise pieces.fault("Interface", place)
        link, snap, _ = self.interfaces[0]
        if link != 1:
            raise pieces.fault("LinkType", place)
        stored = struct.unpack_from(self.order + "I", data, at + 8)[0]
        stored = min(stored, snap) if snap else stored
        if stored > LONGEST or 16 + (stored + 3) // 4 * 4 > length:
            raise pieces.fault("Length", place + 8)
        return self.time, data[at + 12:at + 12 + stored]


def form_of(file: BinaryIO, name: str) -> Classic | Blocks:
    """The format of a capture, by its first bytes, at its first record."""
    head = file.read(24)
    if head[:4] == PCAPNG:
        return Blocks()
    if head[:4] not in CLASSIC:
        raise DeskError(f"{name}: NotPcap at 0")
    if len(head) < 24:
        raise DeskError(f"{name}: Cut at 0")
    order, unit = CLASSIC[head[:4]]
    if struct.unpack_from(order + "HH", head, 4) != (2, 4):
        raise DeskError(f"{name}: Version at 4")
    if struct.unpack_from(order + "I", head, 20)[0] != 1:
        raise DeskError(f"{name}: LinkType at 20")
    return Classic(order, unit, 24)


def opened(path: str) -> BinaryIO:
    """The file, or a line that says why it can't be read."""
    return safe_files.opened(path)


def records(path: str, piece: int = PIECE) -> Iterator[Record]:
    """The records of a capture in order, read in pieces."""
    with opened(path) as file:
        form = form_of(file, path)
        pieces = Pieces(file, path, form.start, piece)
        for index, (_, time, frame) in enumerate(form.records(pieces), 1):
            yield Record(index, time, frame)


class Capture:
    """A capture whose records are read by number. Making one reads it through once, so a fault shows then."""

    def __init__(self, path: str, piece: int = PIECE):
        self.path, self.piece, self.count = path, piece, 0
        self.size = os.path.getsize(path) if os.path.exists(path) else 0
        self._marks: list[tuple[Classic | Blocks, int]] = []
        self._coming: Iterator[Record] = iter(())
        self._next = 0
        self.first_second: int | None = None
        self._scan()

    @classmethod
    def known(cls, path: str, piece: int, count: int, first_second: int | None, marks: list[tuple[Classic | Blocks, int]]) -> Capture:
        """A capture that was looked through before."""
        it = cls.__new__(cls)
        it.path, it.piece, it.count, it.first_second, it._marks = path, piece, count, first_second, marks
        it.size = os.path.getsize(path) if os.path.exists(path) else 0
        it._coming, it._next = iter(()), 0
        return it

    @property
    def marks(self) -> list[tuple[Classic | Blocks, int]]:
        """Where every 256th record begins, with the moment before it."""
        return self._marks

    def _scan(self) -> None:
        found = Found()
        with opened(self.path) as file:
            form = form_of(file, self.path)
            form.scan(Pieces(file, self.path, form.start, 1 << 20), found)
        self.count, self._marks = found.count, found.marks
        self.first_second = None if found.first is None else found.first // SECOND

    def from_number(self, index: int) -> Iterator[Record]:
        """The records from a number on, each with its moment: its time, or the moment of the record before it if that is greater."""
        if not 1 <= index <= self.count:
            return
        state, moment = self._marks[(index - 1) // STRIDE]
        number = (index - 1) // STRIDE * STRIDE
        form = state.at_place(state.start)
        with opened(self.path) as file:
            for _, time, frame in form.records(Pieces(file, self.path, state.start, self.piece)):
                moment = time if time > moment else moment
                number += 1
                if number >= index:
                    yield Record(number, moment, frame)

    def batches(self, port: int) -> Iterator[list[tuple]]:
        """All records, many at a time, each as its moment, 1, the port, its number and its bytes."""
        with opened(self.path) as file:
            form = form_of(file, self.path)
            pieces, moment, index = Pieces(file, self.path, form.start, self.piece), 0, 0
            while its := list(islice(form.records(pieces), 1)) if isinstance(form, Blocks) else form.batch(pieces):
                batch = []
                for _, time, frame in its:
                    moment = time if time > moment else moment
                    index += 1
                    batch.append((moment, 1, port, index, frame))
                yield batch

    def record(self, index: int) -> Record:
        """The record with a number, with its moment as its time. Reading them in order costs no more than reading through."""
        if not 1 <= index <= self.count:
            raise DeskError(f"{self.path}: it has {self.count} records and no record {index}")
        if index != self._next:
            self._coming = self.from_number(index)
        self._next = index + 1
        return next(self._coming)


def capture_text(frames: Iterable[tuple[int, bytes]]) -> bytes:
    """Moments in nanoseconds and frames as a classic capture in microseconds, as exbr writes one."""
    return HEADER + b"".join(
        struct.pack("<IIII", time // SECOND, time % SECOND // 1000, len(frame), len(frame)) + frame for time, frame in frames)
