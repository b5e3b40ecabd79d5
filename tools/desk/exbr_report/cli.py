"""The words of exbr-report."""
import argparse
import os
import sys

from exbr_desk import names, place, runs, safe_files
from exbr_desk.errors import DeskError

from . import gather, naming, page

ABOUT = """Makes one HTML page of a run: its tree, ports, time line, commands and frames, and why each frame went where it went.
The page holds all it needs, and asks for nothing from outside."""
END = """status: 0: the page is made; 1: it is made, and says where a file of the run isn't what the rules ask for, or can't be read to its end;
2: no page is made, and a line on standard error says why."""


def parser() -> argparse.ArgumentParser:
    """The words of the tool."""
    it = argparse.ArgumentParser("exbr-report", description=ABOUT, epilog=END)
    it.add_argument("run", metavar="RUN", help="a folder with a topology.toml in which it was run, or a topology file")
    it.add_argument("-o", "--output", metavar="FILE", default="report.html", help="the page (report.html)")
    it.add_argument("--folder", metavar="FOLDER", help="the folder in which the program was run, if it isn't that of the topology file")
    it.add_argument("--frames", metavar="N", type=int, default=100_000, help="how many frames the page holds at most (100000)")
    names.option(it)
    it.add_argument("--quiet", action="store_true", help="show no progress")
    return it


def main(words: list[str] | None = None) -> int:
    """The status of the tool."""
    asked = parser().parse_args(words)
    if asked.frames < 1:
        raise DeskError("--frames takes a number from 1 on")
    place.check_place(asked.output)
    run = runs.read(asked.run, asked.folder)
    if not os.path.exists(run.journal):
        raise DeskError(f"{run.journal} isn't there: this topology wasn't run in {run.folder}")
    called = names.of(asked.run, asked.names)
    report = gather.report_of(run, asked.frames, asked.quiet)
    naming.put(report, called)
    write(asked.output, page.build(report))
    return 1 if any(it.level == "bad" and it.is_fault for it in report.notices) else 0


def write(path: str, text: str) -> None:
    """Writes the page."""
    if path == "-":
        sys.stdout.write(text)
        return
    safe_files.write(path, text.encode())
