"""Who reaches whom: blocks of ports that send, each with the ports that hear them.

A port never hears itself. So a block is two sets, and each of its ports reaches all of the second set but itself. Many ports that all hear
each other are one block then.
"""
from __future__ import annotations

from collections import Counter
from typing import Iterable, Iterator, NamedTuple

from . import masks


class Block(NamedTuple):
    """Ports that send, and those that hear each of them, itself left out."""

    senders: int
    heard_at: int

    def pairs(self) -> int:
        return masks.count(self.senders) * masks.count(self.heard_at) - masks.count(self.senders & self.heard_at)


Relation = tuple[Block, ...]
"""Blocks whose senders have no port in common."""
NOBODY: Relation = ()


def made(blocks: Iterable[tuple[int, int]]) -> Relation:
    """The relation of blocks that may have senders in common: a port reaches what it does by any of them."""
    parts: list[list[int]] = []
    for senders, heard_at in blocks:
        parts = _with(parts, senders, heard_at)
    return tidy((senders, heard_at) for senders, heard_at in parts)


def _with(parts: list[list[int]], senders: int, heard_at: int) -> list[list[int]]:
    found = []
    for mine, hearing in parts:
        both = mine & senders
        if both:
            found.append([both, hearing | heard_at])
        if mine & ~senders:
            found.append([mine & ~senders, hearing])
        senders &= ~mine
    return found + ([[senders, heard_at]] if senders else [])


def tidy(blocks: Iterable[tuple[int, int]]) -> Relation:
    """Blocks that are heard at the same ports put together, and those that nobody hears left out."""
    by: dict[int, int] = {}
    alone = []
    for senders, heard_at in blocks:
        if masks.count(senders) > 1:
            by[heard_at] = by.get(heard_at, 0) | senders
        elif heard_at & ~senders:
            alone.append((senders, heard_at & ~senders))
    for senders, heard_at in _placed(alone, by):
        by[heard_at] = by.get(heard_at, 0) | senders
    found = (Block(senders, heard_at) for heard_at, senders in by.items())
    return tuple(sorted((block for block in found if block.pairs()), key=lambda it: masks.first(it.senders)))


def _placed(alone: list[tuple[int, int]], by: dict[int, int]) -> list[tuple[int, int]]:
    """Ports that stand alone, each with the set by which it stands together with most others. Whether it is in its own set means nothing."""
    having, lacking = Counter(heard_at | port for port, heard_at in alone), Counter(heard_at for _, heard_at in alone)
    found = []
    for port, heard_at in alone:
        is_in = heard_at | port in by or heard_at not in by and having[heard_at | port] > lacking[heard_at]
        found.append((port, heard_at | port if is_in else heard_at))
    return found


def minus(one: Relation, other: Relation) -> Relation:
    """The pairs of one that aren't in the other."""
    found = []
    for senders, heard_at in one:
        rest = senders
        for theirs, hearing in other:
            both = senders & theirs
            if both:
                found.append((both, heard_at & ~hearing))
                rest &= ~both
        if rest:
            found.append((rest, heard_at))
    return tidy(found)


def plus(one: Relation, other: Relation) -> Relation:
    return made((*one, *other))


def within(relation: Relation, senders: int, heard_at: int) -> Relation:
    """The pairs from some ports to some."""
    return tidy((block.senders & senders, block.heard_at & heard_at) for block in relation if block.senders & senders)


def pairs(relation: Relation) -> int:
    return sum(block.pairs() for block in relation)


def each(relation: Relation) -> Iterator[tuple[int, int]]:
    """All pairs, one by one."""
    for senders, heard_at in relation:
        for port in masks.ports(senders):
            yield from ((port, other) for other in masks.ports(heard_at & ~(1 << port)))


def has(relation: Relation, port: int, other: int) -> bool:
    return port != other and any(block.senders >> port & 1 and block.heard_at >> other & 1 for block in relation)


def ports(relation: Relation) -> int:
    """All ports of all pairs."""
    found = 0
    for senders, heard_at in relation:
        found |= senders | heard_at
    return found


class Atom(NamedTuple):
    """Ports that are alike in a relation: what they reach, who reaches them, and whether they reach each other."""

    ports: int
    hears_itself: bool


def atoms(relation: Relation) -> tuple[list[Atom], list[list[bool]]]:
    """The ports of a relation taken apart until those of a part are alike, and which part reaches which."""
    parts = masks.split(ports(relation), [mask for block in relation for mask in block])
    found = [Atom(part, masks.count(part) > 1 and _reaches(relation, part, part)) for part in sorted(parts, key=masks.first)]
    return found, [[one is not other and _reaches(relation, one.ports, other.ports) for other in found] for one in found]


def _reaches(relation: Relation, part: int, other: int) -> bool:
    """Whether the ports of a part are heard at another, by two ports that aren't the same."""
    return any(block.senders & part and block.heard_at & other for block in relation)
