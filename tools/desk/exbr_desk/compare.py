"""`exbr-compare`: who reaches whom in one of two runs and not in the other."""
from __future__ import annotations

import argparse
import json
import os
import re
import sys
import tempfile
from dataclasses import dataclass

from . import differ, index, names, play, runs
from .beside import Beside
from .differ import Differences
from .errors import DeskError
from .place import check_place, put
from .reach import Reach, reach_of
from .told import detail, summary
from .told_json import in_json

LARGE = 4_000_000
ABOUT = """Two runs of the same captures: which frames now reach whom and didn't, and which no longer do, by VLAN, source and port. The first
ten lines say who loses connectivity: stations, and ports, that reached each other before and don't any more.

BEFORE and AFTER are folders with a topology.toml that was run there, or topology files. With --without one topology is enough: the
program is run twice, without these commands of the topology and with them, in a folder that is taken away again."""
STATUS = """status: 0 each frame reaches the same ports with the same tag; 1 some don't; 2 broken input
examples:
  exbr-compare tonight/before tonight/after
  exbr-compare topology.toml --without 3-5,9     what commands 3 to 5 and 9 do
  exbr-compare topology.toml --without all       what all commands do
  exbr-compare topology.toml --without all --html changes.html
  exbr-compare old.toml new.toml --play          runs both first"""
def words_of(words: list[str] | None) -> argparse.Namespace:
    parser = argparse.ArgumentParser(prog="exbr-compare", description=ABOUT, epilog=STATUS, formatter_class=argparse.RawDescriptionHelpFormatter)
    parser.add_argument("before", metavar="BEFORE", help="a folder or topology that was run")
    parser.add_argument("after", metavar="AFTER", nargs="?", help="another run of the same captures")
    parser.add_argument("--without", metavar="N,N-N..", help="runs BEFORE twice: without these commands, and with them; 'all' for all of them")
    parser.add_argument("--play", action="store_true", help="runs both topologies first, in folders of their own")
    parser.add_argument("--program", metavar="FILE", help="the exbr to run (default: the file that EXBR names, or the one that ./exbr runs)")
    parser.add_argument("--seed", metavar="N", help="runs it with this seed")
    parser.add_argument("--keep", metavar="FOLDER", help="keeps what was run, as FOLDER/before and FOLDER/after")
    parser.add_argument("--limit", type=int, default=200, metavar="N", help="how many lines each part of the detail has (default 200, 0: all)")
    parser.add_argument("--html", metavar="FILE", help="makes the page of differences as well: one HTML file, for a change ticket")
    parser.add_argument("--brief", action="store_true", help="the first lines alone, without detail")
    parser.add_argument("--json", action="store_true", help="all of it for programs")
    names.option(parser)
    return parser.parse_args(words)


def numbers_of(text: str, run: runs.Run) -> set[int]:
    """The commands that `--without` names."""
    if text == "all":
        return {it.number for it in run.topology.commands}
    if not re.fullmatch("[1-9][0-9]{0,5}(-[1-9][0-9]{0,5})?(,[1-9][0-9]{0,5}(-[1-9][0-9]{0,5})?)*", text):
        raise DeskError(f"--without {text}: numbers of commands with commas between them, as 3,4 or 3-5,9, or 'all'")
    found: set[int] = set()
    for first, dash, last in (it.partition("-") for it in text.split(",")):
        if dash and int(last) < int(first):
            raise DeskError(f"--without {text}: {first}-{last} goes from a higher number to a lower one")
        found |= set(range(int(first), int(last or first) + 1))
    return found


@dataclass
class Two:
    """Two runs that are compared, and the numbers that the commands of the first have in the topology from which it was made."""

    before: runs.Run
    after: runs.Run
    numbers: dict[int, int]


def played(asked: argparse.Namespace, folder: str) -> Two:
    """Both runs, made now, side by side where that pays."""
    exbr = play.program(asked.program)
    options = ["--seed", asked.seed] if asked.seed is not None else []
    before = runs.read(asked.before)
    after = runs.read(asked.after) if asked.after else before
    tables, numbers = before.topology.tables, {}
    if asked.without is not None:
        left_out = numbers_of(asked.without, before)
        tables = play.without(before.topology, left_out)
        numbers = dict(enumerate((it.number for it in before.topology.commands if it.number not in left_out), 1))
    places = os.path.join(folder, "before"), os.path.join(folder, "after")

    def first(quiet: bool = True) -> None:
        index.table_of(play.play(before, tables, places[0], exbr, options, quiet), "frames of BEFORE", quiet=quiet)

    def second() -> runs.Run:
        it = play.play(after, after.topology.tables, places[1], exbr, options)
        index.table_of(it, "frames of AFTER")
        return it

    if not is_large(before):
        first(False)
        return Two(runs.whole(places[0]), second(), numbers)
    with Beside(first):
        it = second()
    return Two(runs.whole(places[0]), it, numbers)


def is_large(run: runs.Run) -> bool:
    """Whether a run is so large that a process of its own pays."""
    names = [run.path(name) for name in run.topology.captures.values()]
    return sum(os.path.getsize(name) for name in names if os.path.exists(name)) > LARGE


def known(before: runs.Run, after: runs.Run) -> Two:
    """Two runs that are there. Their indexes are made side by side where that pays."""
    if before.folder != after.folder and is_large(before) and index.may_stand(before) and index.read(before, index.path_of(before)) is None:
        with Beside(lambda: index.table_of(before, "frames of BEFORE", quiet=True)):
            index.table_of(after, "frames of AFTER")
    return Two(before, after, {})


def compared(two: Two) -> Differences:
    """What differs."""
    one: Reach = reach_of(two.before, "frames of BEFORE", True)
    one.numbers = two.numbers
    other: Reach = reach_of(two.after, "frames of AFTER", False)
    differ.check_captures(one, other)
    return differ.differences(one, other)


def show(found: Differences, asked: argparse.Namespace) -> int:
    """Prints what was found, and makes the page of it where one is asked for."""
    if asked.html:
        put(asked.html, page_of(found, asked))
    called = names.of(asked.before, asked.names)
    if asked.json:
        print(json.dumps(in_json(found) | called.json(), indent=1))
    else:
        for line in summary(found):
            print(called.speak(line))
        for line in () if asked.brief else detail(found, asked.limit):
            print(called.speak(line))
    sys.stdout.flush()
    return 1 if found.differs else 0


def page_of(found: Differences, asked: argparse.Namespace) -> str:
    """The page of differences."""
    # It stands on the parts of the report's page, which nothing else here needs.
    from exbr_report import changes, changes_page
    without = f", without commands {asked.without} and with them" if asked.without not in (None, "all") else ", without its commands and with them"
    title = asked.before + (f" and {asked.after}" if asked.after else without)
    return changes_page.build(changes.changes_of(found, title))


def main(words: list[str] | None = None) -> int:
    asked = words_of(words)
    makes = asked.without is not None or asked.play
    if asked.without is not None and (asked.after is not None or asked.play):
        raise DeskError("--without runs one topology twice, so AFTER and --play have no place beside it")
    if asked.without is None and asked.after is None:
        raise DeskError("name BEFORE and AFTER, or one topology and --without")
    if not makes and (asked.keep or asked.program or asked.seed is not None):
        raise DeskError("--keep, --program and --seed are for runs that are made now, by --without or --play")
    if asked.limit < 0:
        raise DeskError("--limit is 0 or more")
    if asked.html:
        check_place(asked.html)
    if not makes:
        return show(compared(known(runs.whole(asked.before), runs.whole(asked.after))), asked)
    if asked.keep:
        return show(compared(played(asked, asked.keep)), asked)
    with tempfile.TemporaryDirectory(prefix="exbr-compare-") as folder:
        return show(compared(played(asked, folder)), asked)
