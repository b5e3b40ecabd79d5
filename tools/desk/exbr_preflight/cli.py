"""The words of the command line, and what is done in which order."""
from __future__ import annotations

import argparse
import json
import os
import sys
from dataclasses import dataclass, field

from exbr_desk import play, topology
from exbr_desk.errors import DeskError
from exbr_desk.progress import Progress

from . import for_programs, lint, records, settling, show, tables, verdict

ABOUT = """Says everything that can be said of a topology before a run: its faults with line and column; whether channels and groups suffice at
rest, while the tree opens and during each command; how many beats each takes; and what is allowed and looks like a mistake."""
LINT_NAMES = "\n".join(f"  {name:<16} {text}" for name, text in lint.LINTS.items())
STATUS = f"""warnings, each of which --off switches off by its name:
{LINT_NAMES}
status: 0 nothing to tell; 1 a warning; 2 ports would stay absent or commands be refused; 3 the file is broken
examples:
  exbr-preflight topology.toml
  exbr-preflight topology.toml --least                     the least limits with which nothing is refused
  exbr-preflight topology.toml --fates 20 --beat 100       the worst of 20 drawn disturbances, where a beat is 100 ms
  exbr-preflight topology.toml --off one-member --strict   in a pipeline"""
FINE, WARNED, REFUSED, BROKEN = range(4)


@dataclass
class Report:
    """All that was found."""

    verdict: verdict.Verdict
    tables: tables.Tables | None = None
    least: dict[str, int | None] | None = None
    settling: settling.Settling | None = None
    warnings: list[lint.Warning] = field(default_factory=list)
    unread: list[lint.Warning] = field(default_factory=list)
    strict: bool = False

    @property
    def status(self) -> int:
        if not self.verdict.is_good or self.unread:
            return BROKEN
        if self.tables is not None and not self.tables.suffice:
            return REFUSED
        return (REFUSED if self.strict else WARNED) if self.warnings or not self.verdict.agrees else FINE


class Parser(argparse.ArgumentParser):
    """Wrong words are broken input, as a broken file is."""

    def error(self, message: str):
        self.print_usage(sys.stderr)
        self.exit(BROKEN, f"{self.prog}: {message}\n")


def words_of(words: list[str] | None) -> argparse.Namespace:
    parser = Parser(prog="exbr-preflight", description=ABOUT, epilog=STATUS, formatter_class=argparse.RawDescriptionHelpFormatter)
    parser.add_argument("topology", metavar="TOPOLOGY", help="a topology file, or the folder of one")
    parser.add_argument("--least", action="store_true", help="searches the least channels and groups with which nothing is refused")
    parser.add_argument("--ports", action="store_true", help="shows the tables of every port of the bridge")
    parser.add_argument("--commands", action="store_true", help="shows what each command needs")
    parser.add_argument("--fates", type=int, default=0, metavar="N", help="plays N drawn disturbances of control frames, and tells the worst")
    parser.add_argument("--disturbed", type=int, default=10, metavar="PERCENT", help="how many of 100 control frames are lost, repeated or late then (default 10)")
    parser.add_argument("--beat", type=float, metavar="MS", help="how many milliseconds a beat is")
    parser.add_argument("--off", action="append", default=[], metavar="NAME,..", help="switches warnings off; 'all' for all of them")
    parser.add_argument("--frames", type=int, default=records.LOOK, metavar="N", help=f"how many frames of each capture are looked at (default {records.LOOK})")
    parser.add_argument("--strict", action="store_true", help="a warning counts as a refusal: status 2")
    parser.add_argument("--json", action="store_true", help="all of it for programs")
    parser.add_argument("--program", metavar="FILE", help="the exbr to ask (default: the file that EXBR names, or that of the repository)")
    parser.add_argument("--version", action="version", version="exbr-preflight 1")
    return parser.parse_args(words)


def path_of(given: str) -> str:
    path = os.path.join(given, "topology.toml") if os.path.isdir(given) else given
    if not os.path.exists(path):
        raise DeskError(f"{path} isn't there; name a topology file, or the folder of one")
    return path


def off_of(asked: argparse.Namespace) -> set[str]:
    """The warnings that are switched off."""
    names = {name for words in asked.off for name in words.split(",")}
    unknown = sorted(names - lint.LINTS.keys() - {"all"})
    if unknown:
        raise DeskError(f"--off {unknown[0]}: there is no such warning; there are {', '.join(lint.LINTS)}")
    return set(lint.LINTS) if "all" in names else names


def checked(asked: argparse.Namespace) -> argparse.Namespace:
    """The words, where numbers are in their range."""
    for name, first, last in (("fates", 0, 10_000), ("disturbed", 0, 100), ("frames", 0, 1 << 60)):
        if not first <= getattr(asked, name) <= last:
            raise DeskError(f"--{name} {getattr(asked, name)}: it is {first} to {last:,}")
    if asked.beat is not None and not 0 < asked.beat <= 1e9:
        raise DeskError(f"--beat {asked.beat}: it is above 0, in milliseconds")
    return asked


def looked_at(asked: argparse.Namespace) -> Report:
    path, exbr, off = path_of(asked.topology), play.program(asked.program), off_of(checked(asked))
    report = Report(verdict.of_file(path, exbr), strict=asked.strict)
    if not report.verdict.is_good or report.verdict.placed is None:
        return report
    given = topology.of_text(report.verdict.placed.text, path)
    played = tables.player(exbr)
    report.tables = tables.tables_of(given, played)
    tables.confirmed(given, report.tables, played)
    if asked.least:
        progress = Progress("searching limits")
        report.least = tables.least(given, played, lambda _: progress.at(0))
        progress.end()
    _settle(report, given, played, asked)
    _warn(report, given, off, asked.frames)
    return report


def _settle(report: Report, given: topology.Topology, played: tables.Played, asked: argparse.Namespace) -> None:
    progress = Progress("drawn disturbances", asked.fates)
    report.settling = settling.settling_of(given, report.tables.own, played, asked.fates, asked.disturbed, progress.at)
    progress.end()


def _warn(report: Report, given: topology.Topology, off: set[str], frames: int) -> None:
    refused = {it.command for it in report.tables.refused if it.command}
    found = lint.of_topology(given, report.verdict.placed, refused)
    if given.captures:
        more, report.unread = records.of_captures(given, report.verdict.placed, frames)
        found += more
    report.warnings = [it for it in found if it.name not in off]


def lines(report: Report, asked: argparse.Namespace):
    yield from show.faults(report.verdict)
    if report.tables is None:
        return
    yield from show.warnings(report.verdict.path, report.unread, "error")
    yield from show.warnings(report.verdict.path, report.warnings)
    yield from show.tables(report.tables, asked.ports, asked.commands)
    if report.least:
        yield "the least with which nothing is refused: " + ", ".join(f"{kind} {count if count else 'none'}" for kind, count in report.least.items())
    yield from show.settling(report.settling, asked.beat, asked.commands)
    yield verdict_line(report)


def verdict_line(report: Report) -> str:
    """The verdict, in one line."""
    count, unread = len(report.warnings), len(report.unread)
    if unread:
        return f"{unread} capture{'s' * (unread != 1)} can't be read; " + show.table_verdict(report.tables)
    return show.table_verdict(report.tables) + (f"; {count} warning{'s' * (count != 1)}" if count else "; no warning")


def main(words: list[str] | None = None) -> int:
    asked = words_of(words)
    report = looked_at(asked)
    if asked.json:
        print(json.dumps(for_programs.of(report), indent=1))
    else:
        show.say(lines(report, asked))
    return report.status
