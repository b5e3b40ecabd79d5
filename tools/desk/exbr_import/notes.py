"""What isn't carried over, as lines: each statement with its line, the same ones at many ports together, counted by kind."""
from collections import Counter

from . import numbers
from .switch import Left, Switch

LINES, FEW = 6, 4


def kinds(left: list[Left]) -> list[tuple[str, int]]:
    """How many statements of each kind aren't carried over, most first. One that stands for many interfaces is one."""
    return Counter(kind for kind, _ in dict.fromkeys((it.kind, it.line) for it in left)).most_common()


def folded(left: list[Left]) -> dict[str, list[str]]:
    """The statements by kind. Those with one text are one line."""
    same: dict[tuple[str, str], list[Left]] = {}
    for it in left:
        same.setdefault((it.kind, it.text), []).append(it)
    found: dict[str, list[str]] = {}
    for (kind, text), them in same.items():
        found.setdefault(kind, []).append(statement(text, them))
    return found


def statement(text: str, them: list[Left]) -> str:
    """A statement with its lines, and where it stands."""
    at = sorted({it.line for it in them})
    told = f"line {at[0]} `{text}`" if len(at) == 1 else f"lines {numbers_of(at)} `{text}`"
    return told + (f", {places}" if (places := where(them).strip()) else "")


def numbers_of(at: list[int]) -> str:
    """Lines in short: the first few, and how many more there are."""
    rest = len(at) - LINES
    return ", ".join(map(str, at[:LINES])) + (f" and {rest} more" if rest > 0 else "")


def where(them: list[Left]) -> str:
    """The places of statements in short."""
    heads: dict[str, list[str]] = {}
    for it in them:
        head, _, names = it.where.partition(" ")
        if head:
            heads.setdefault(head.rstrip("s") if head in ("interfaces", "VLANs") else head, []).extend(expanded(names))
    return ", ".join(f"{head}{'s' if len(set(names)) > 1 and head in ('interface', 'VLAN') else ''} {numbers.compact(names)}" for head, names in heads.items())


def expanded(names: str) -> list[str]:
    """The names that stand for `Ethernet1/1-3, Ethernet1/7`."""
    found: list[str] = []
    for part in names.split(", "):
        head, dash, last = part.rpartition("-")
        first = head[len(head.rstrip("0123456789")):]
        if dash and last.isdigit() and first:
            found += [f"{head.removesuffix(first)}{it}" for it in range(int(first), int(last) + 1)]
        else:
            found.append(part)
    return found


def comments(switch: Switch) -> list[str]:
    """All that isn't carried over, for the head of a topology."""
    by_kind = folded(switch.left)
    told = []
    for kind, many in kinds(switch.left):
        told.append(f"{kind}: {many} statement{'s' * (many > 1)}")
        told += [f"  {it}" for it in by_kind[kind]]
    return told + switch.lost


def said(switch: Switch, whole: bool) -> list[str]:
    """The same for standard error: of each kind some, unless all are asked for."""
    by_kind, told = folded(switch.left), []
    for kind, many in kinds(switch.left):
        them = by_kind[kind]
        shown = them if whole or len(them) <= FEW else them[:FEW - 1]
        told.append(f"{kind}: {many} statement{'s' * (many > 1)}")
        told += shown + ([f"{len(them) - len(shown)} other statements of this kind; the topology has all of them"] if len(shown) < len(them) else [])
    return told + switch.lost


def in_json(switch: Switch) -> dict:
    """The same for programs, each statement by itself."""
    return {"not_carried": [{"kind": it.kind, "line": it.line, "statement": it.text, "where": it.where} for it in sorted(switch.left, key=lambda one: one.line)],
            "kinds": dict(kinds(switch.left)), "lost": switch.lost, "notes": switch.notes, "carried_lines": sorted(switch.carried)}
