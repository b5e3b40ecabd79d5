"""Ports folded to ranges: `x2.1-8, b1-4`."""
from __future__ import annotations

from typing import Iterable, Iterator

from . import plain


def runs_of(ports: Iterable[int]) -> Iterator[tuple[int, int]]:
    """The first and the last of each run of ports that follow one another on one device."""
    first = last = None
    for port in sorted(set(ports)):
        if last is not None and port == last + 1 and port // 64 == first // 64:
            last = port
            continue
        if first is not None:
            yield first, last
        first = last = port
    if first is not None:
        yield first, last


def folded(ports: Iterable[int], most: int = 0) -> str:
    """Ports in words of a list of a topology. With `most`, so many words at most, and how many ports are left."""
    them = sorted(set(ports))
    words = [(plain.name_of(first) + (f"-{last % 64 + 1}" if last > first else ""), last - first + 1) for first, last in runs_of(them)]
    if most and len(words) > most:
        left = sum(count for _, count in words[most:])
        return ", ".join(word for word, _ in words[:most]) + f" and {left:,} more"
    return ", ".join(word for word, _ in words) or "nobody"
