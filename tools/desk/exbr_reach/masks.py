"""Sets of ports as numbers: bit p is set where port p is in the set. There are up to 4,160 ports."""
from __future__ import annotations

from typing import Iterable, Iterator

from exbr_desk.folding import folded


def of(ports: Iterable[int]) -> int:
    """The set of some ports."""
    found = bytearray(520)
    for port in ports:
        found[port >> 3] |= 1 << (port & 7)
    return int.from_bytes(found, "little")


def ports(mask: int) -> Iterator[int]:
    """The ports of a set, in port order."""
    while mask:
        lowest = mask & -mask
        yield lowest.bit_length() - 1
        mask ^= lowest


def first(mask: int) -> int:
    """The lowest port of a set that has one."""
    return (mask & -mask).bit_length() - 1


def second(mask: int) -> int | None:
    """The lowest port but one, if there are two."""
    rest = mask & (mask - 1)
    return first(rest) if rest else None


def count(mask: int) -> int:
    return mask.bit_count()


def split(mask: int, by: Iterable[int]) -> list[int]:
    """A set taken apart by whether its ports are in each of these sets."""
    parts = [mask] if mask else []
    for it in by:
        parts = [part for whole in parts for part in (whole & it, whole & ~it) if part]
    return parts


def words(mask: int, most: int = 0) -> str:
    """A set in words of a list of a topology."""
    return folded(ports(mask), most)
