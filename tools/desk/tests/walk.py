"""Gives the commands of a page as they stand there, and holds what they print against the page:

    EXBR=FILE python3 tools/desk/tests/walk.py docs/night.md [--write]

A command is an indented line that begins with `$`; what follows it, indented, is what it prints. `..` alone stands for lines that are left
out. The first `cd` says from where on; all is done in a copy of that folder. With --write the page gets what was printed.
"""
import os
import re
import shutil
import subprocess
import sys
import tempfile
from dataclasses import dataclass, field

TOP = os.path.dirname(os.path.dirname(os.path.dirname(os.path.dirname(os.path.abspath(__file__)))))
INDENT = "    "


@dataclass
class Step:
    """A command of a page: its line there, and what ought to be printed."""

    line: int
    command: str
    printed: list[str] = field(default_factory=list)


def steps_of(text: str) -> list[Step]:
    """The commands of a page. A line without anything belongs to what is printed where an indented one follows that is no command."""
    found: list[Step] = []
    lines, inside = text.splitlines(), False
    for number, line in enumerate(lines):
        if line.startswith(INDENT + "$ "):
            found.append(Step(number, line[len(INDENT) + 2:]))
            inside = True
        elif inside and line.startswith(INDENT):
            found[-1].printed.append(line[len(INDENT):])
        elif inside and not line and number + 1 < len(lines) and re.match(INDENT + r"(?!\$ )", lines[number + 1]):
            found[-1].printed.append("")
        else:
            inside = False
    return found


class Walk:
    """A copy of the repository's parts that the commands need, in a folder of its own."""

    def __init__(self, program: str) -> None:
        self.folder = tempfile.mkdtemp(prefix="exbr-walk-")
        for part in ("examples", "tools", "docs"):
            shutil.copytree(os.path.join(TOP, part), os.path.join(self.folder, part), symlinks=True, ignore=shutil.ignore_patterns("out-*", "fixed-*"))
        os.makedirs(os.path.join(self.folder, "crates"))
        shutil.copytree(os.path.join(TOP, "crates", "exb_cases"), os.path.join(self.folder, "crates", "exb_cases"))
        os.symlink(os.path.abspath(program), os.path.join(self.folder, "exbr"))
        self.here = self.folder
        named = os.path.abspath(program)
        self.variables = os.environ | {"EXBR": named, "EXBR_PROGRAM": named}

    def end(self) -> None:
        shutil.rmtree(self.folder, ignore_errors=True)

    def give(self, command: str) -> list[str]:
        """What a command prints."""
        moved = re.fullmatch(r"cd (\S+)", command)
        if moved:
            self.here = os.path.join(self.here, moved[1])
            return []
        done = subprocess.run(["sh", "-c", command], cwd=self.here, env=self.variables, stdout=subprocess.PIPE, stderr=subprocess.STDOUT, text=True,
                              timeout=300)
        return [it.rstrip() for it in done.stdout.splitlines()]


def fits(wanted: list[str], printed: list[str]) -> bool:
    """Whether lines are those of a page, where `..` stands for any."""
    if not wanted:
        return not printed
    if wanted[0] == "..":
        return any(fits(wanted[1:], printed[at:]) for at in range(len(printed) + 1))
    return bool(printed) and wanted[0] == printed[0] and fits(wanted[1:], printed[1:])


def written(step: Step, printed: list[str]) -> list[str]:
    """What the page ought to say: as many lines at the front and at the end as it has now around `..`."""
    if ".." not in step.printed:
        return printed
    at = step.printed.index("..")
    end = len(step.printed) - at - 1
    return [*printed[:at], "..", *printed[len(printed) - end:]] if len(printed) > at + end else printed


def main(words: list[str]) -> int:
    """Says which commands print something else; with --write the page is changed."""
    path, program = words[0], os.environ.get("EXBR")
    if not program:
        print("name a built program: EXBR=FILE", file=sys.stderr)
        return 2
    with open(path, encoding="utf-8") as file:
        text = file.read()
    lines, wrong = text.splitlines(), 0
    walk = Walk(program)
    try:
        results = [(it, walk.give(it.command)) for it in steps_of(text)]
    finally:
        walk.end()
    for step, printed in reversed(results):
        if not fits(step.printed, printed):
            wrong += 1
            print(f"{path}:{step.line + 1}: $ {step.command}", *(f"  {it}" for it in printed[:60]), sep="\n")
            lines[step.line + 1:step.line + 1 + len(step.printed)] = [INDENT + it if it else "" for it in written(step, printed)]
    if "--write" in words:
        with open(path, "w", encoding="utf-8") as file:
            file.write("\n".join(lines) + "\n")
    return 1 if wrong else 0


if __name__ == "__main__":
    sys.exit(main(sys.argv[1:]))
