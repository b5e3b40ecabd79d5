"""A relation in few lines, each of which says some of its pairs; together they say each of them, and no other."""
from __future__ import annotations

from typing import Iterator

from . import masks, relation
from .relation import Atom, Relation

BOTH, ONE_WAY = "<->", "->"


def lines(given: Relation) -> list[str]:
    """Who reaches whom: sets that hear each other first, then both ways, then one way."""
    if not given:
        return []
    atoms, reaches = relation.atoms(given)
    done: set[tuple[int, int]] = set()
    told = list(_meshes(atoms, reaches, done))
    told += _pairs(atoms, reaches, done, True)
    return told + list(_pairs(atoms, reaches, done, False))


def _is_edge(reaches: list[list[bool]], one: int, other: int) -> bool:
    return reaches[one][other] and reaches[other][one]


def _meshes(atoms: list[Atom], reaches: list[list[bool]], done: set) -> Iterator[str]:
    """Sets of which each port hears each other one, the largest first. `done` gets their pairs of atoms."""
    free = [at for at, atom in enumerate(atoms) if atom.hears_itself or masks.count(atom.ports) == 1]
    free.sort(key=lambda at: (-masks.count(atoms[at].ports), at))
    while free:
        chosen = [free[0]]
        for at in free[1:]:
            if all(_is_edge(reaches, at, it) for it in chosen):
                chosen.append(at)
        whole = sum(atoms[at].ports for at in chosen)
        free = [at for at in free if at not in chosen]
        if masks.count(whole) > 1:
            done.update((one, other) for one in chosen for other in chosen)
            yield _mesh_words(whole)


def _mesh_words(whole: int) -> str:
    if masks.count(whole) == 2:
        first, second = masks.ports(whole)
        return f"{masks.words(1 << first)} {BOTH} {masks.words(1 << second)}"
    return f"{masks.words(whole)} <-> each other"


def _pairs(atoms: list[Atom], reaches: list[list[bool]], done: set, both: bool) -> Iterator[str]:
    """What is left: each atom with all that it reaches, or that reach it too."""
    by: dict[tuple[int, ...], int] = {}
    for one, atom in enumerate(atoms):
        its = [other for other in range(len(atoms)) if reaches[one][other] and (one, other) not in done and (not both or reaches[other][one])]
        if its:
            done.update((one, other) for other in its)
            if both:
                done.update((other, one) for other in its)
            key = tuple(its)
            by[key] = by.get(key, 0) | atom.ports
    for its, senders in by.items():
        yield f"{masks.words(senders)} {BOTH if both else ONE_WAY} {masks.words(sum(atoms[at].ports for at in its))}"


def vlan_lines(vid: int, given: Relation, sign: str = "") -> Iterator[str]:
    """The lines of a VLAN, with its number at the first."""
    head = f"{sign}VLAN {vid}: "
    for line in lines(given):
        yield head + line
        head = " " * len(head)


def tags(heard_tagged: int, every: Relation) -> str:
    """Which ports get a tag and which don't, of those at which something is heard."""
    hearing = 0
    for block in every:
        hearing |= block.heard_at
    parts = [f"{what} at {masks.words(mask)}" for what, mask in (("tagged", hearing & heard_tagged), ("no tag", hearing & ~heard_tagged)) if mask]
    return "; ".join(parts)
