"""A change as commands of a topology, and as a page that says what each of them is for."""
from __future__ import annotations

import json
from dataclasses import dataclass, field

from .change import Step
from .switch import Switch
from .text import comment


@dataclass
class Change:
    """A change: its steps with the second of each, what stays as it was, what the first refused command lacks, and what the check says."""

    before: Switch
    after: Switch
    steps: list[tuple[int, Step]]
    stays: list[str] = field(default_factory=list)
    refusal: str = ""
    is_whole: bool = True
    checked: str = ""
    differs: list[str] = field(default_factory=list)
    first: int = 1

    @property
    def count(self) -> int:
        """How many commands there are."""
        return sum(len(step.commands) for _, step in self.steps)


def value(it: object) -> str:
    """A value of TOML."""
    if isinstance(it, list):
        return f"[{', '.join(map(value, it))}]"
    return json.dumps(it, ensure_ascii=False)


def commands(change: Change) -> list[str]:
    """The commands as tables of a topology, each with its purpose."""
    found = []
    for number, (at, step) in enumerate(change.steps, 1):
        for unit in step.units:
            names = ", ".join(it.shown for it in unit.ports)
            said = f"step {number}: {names}: {unit.what}" if names else f"step {number}: {unit.what}"
            head = f"[[command]]   # {comment(said + lines_of(unit.lines, change))}"
            found += [f"{head}\nat = {at}\n" + "\n".join(f"{key} = {value(its)}" for key, its in it.items()) for it in unit.commands]
    return found


def raw(it: dict) -> str:
    """A command as it stands in a plan."""
    return "[[command]]\n" + "\n".join(f"{key} = {value(its)}" for key, its in it.items())


def lines_of(lines: tuple[int, int], change: Change) -> str:
    """The lines of both files in which a unit is said."""
    told = [f"{switch.file or 'line'}:{line}" for switch, line in zip((change.before, change.after), lines) if line]
    return f" ({' → '.join(told)})" if told else ""


def page(change: Change) -> str:
    """The page, as Markdown."""
    before, after = change.before.file or change.before.source, change.after.file or change.after.source
    lines = [f"# From {cell(before)} to {cell(after)}", ""]
    lines += [f"{plural(len(change.steps), 'step')}, {plural(change.count, 'command')}" + (f", from second {change.steps[0][0]} on." if change.steps else "."), ""]
    lines += [change.checked, ""]
    lines += [f"- {it}" for it in change.differs] + ([""] if change.differs else [])
    if change.refusal:
        sought = "in every order of these commands some command is refused" if change.is_whole else "no order without a refusal was found; not all were tried"
        lines += [f"**A command is refused**: {cell(change.refusal)}; {sought}.", ""]
    if change.steps:
        lines += ["| Step | Commands | Second | What it is for | Lines |", "|---|---|---|---|---|", *rows(change), ""]
    for title, them in (("What stays as it was", change.stays), ("What isn't carried over of the later configuration", change.after.lost)):
        lines += [f"## {title}", "", *(f"- {cell(it)}" for it in them), ""] if them else []
    return "\n".join(lines)


def rows(change: Change) -> list[str]:
    """A row for each step."""
    found, first = [], change.first
    for number, (at, step) in enumerate(change.steps, 1):
        last = first + len(step.commands) - 1
        lines = [lines_of(unit.lines, change).strip(" ()") for unit in step.units]
        told = "; ".join(it for it in lines[:3] if it) + (f" and {len(lines) - 3} more" if len(lines) > 3 else "")
        found.append(f"| {number} | {first if first == last else f'{first}-{last}'} | {at} | {cell(step.shown())} | {cell(told)} |")
        first = last + 1
    return found


def cell(text: str) -> str:
    """A text that can stand in a cell of a table."""
    return comment(text).replace("\\", "\\\\").replace("|", "\\|").replace("<", "&lt;").replace("`", "'")


def plural(count: int, word: str) -> str:
    """A number of things."""
    return f"{count} {word}{'' if count == 1 else 's'}"
