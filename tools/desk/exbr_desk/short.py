"""Numbers and names in short."""
from __future__ import annotations

import re


def runs(numbers: list[int]) -> list[tuple[int, int]]:
    """Rising numbers that follow each other, as first and last."""
    found: list[tuple[int, int]] = []
    for it in numbers:
        if found and found[-1][1] + 1 == it:
            found[-1] = (found[-1][0], it)
        else:
            found.append((it, it))
    return found


def ranges(them: set[int] | list[int]) -> str:
    """Numbers in short, as `10,20-22`."""
    return ",".join(f"{first}-{last}" if last > first else str(first) for first, last in runs(sorted(set(them))))


def natural(name: str) -> list:
    """A key by which `swp2` stands before `swp10`."""
    return [(0, int(it), "") if it.isdigit() else (1, 0, it) for it in re.findall(r"\d+|\D+", name)]


def folded(names: list[str]) -> str:
    """Names that end with a number in short: `Ethernet101/1/1-8, Ethernet101/1/11`."""
    heads: dict[str, list[int]] = {}
    rest: list[str] = []
    for name in dict.fromkeys(names):
        it = re.fullmatch(r"(.*?)(0|[1-9]\d*)", name)
        if it:
            heads.setdefault(it[1], []).append(int(it[2]))
        else:
            rest.append(name)
    found = [f"{head}{ranges(numbers).replace(',', f', {head}')}" for head, numbers in sorted(heads.items(), key=lambda it: natural(it[0]))]
    return ", ".join(found + rest)


def compact(names: list[str]) -> str:
    """The same where several cards have the same numbers: `Ethernet101-112/1/1-32`."""
    same: dict[tuple[str, str], list[int]] = {}
    rest: list[str] = []
    heads: dict[str, list[str]] = {}
    for part in folded(names).split(", "):
        it = re.fullmatch(r"(.*?)(\d+)(/\d+/|/)([\d-]+)", part)
        heads.setdefault(it[1] + it[2] + it[3], []).append(it[4]) if it else rest.append(part)
    for head, tails in heads.items():
        it = re.fullmatch(r"(.*?)(\d+)(/\d+/|/)", head)
        same.setdefault((it[1], it[3] + ",".join(tails)), []).append(int(it[2]))
    return ", ".join([f"{kind}{ranges(boxes)}{tails}" for (kind, tails), boxes in same.items()] + rest)
