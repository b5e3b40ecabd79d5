"""Many ports, or numbers, in few words."""
from __future__ import annotations

from typing import Iterable


def runs(numbers: Iterable[int]) -> list[tuple[int, int]]:
    """Numbers that follow each other, as first and last."""
    found: list[tuple[int, int]] = []
    for it in sorted(numbers):
        if found and found[-1][1] + 1 == it:
            found[-1] = (found[-1][0], it)
        else:
            found.append((it, it))
    return found


def split(port: str) -> tuple[str, int]:
    """A port's name as what stands before its last number, and that number."""
    head, dot, last = port.rpartition(".")
    return (head + dot, int(last)) if dot else (port[0], int(port[1:]))


def ports(names: Iterable[str], most: int = 0) -> str:
    """Ports as a topology file would list them: `b3, x1.1-4`. With `most` no more than so many words."""
    heads: dict[str, list[int]] = {}
    for name in names:
        head, number = split(name)
        heads.setdefault(head, []).append(number)
    words = [f"{head}{first}" + (f"-{last}" if last > first else "") for head, them in heads.items() for first, last in runs(them)]
    if most and len(words) > most:
        return ", ".join(words[:most]) + f" and {len(words) - most} more"
    return ", ".join(words) or "none"
