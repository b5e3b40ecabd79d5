"""The words of the command line, and what is done in which order."""
from __future__ import annotations

import argparse
import json
import os
import re
import sys
from dataclasses import dataclass
from typing import Iterator

from exbr_desk import play, runs
from exbr_desk.errors import DeskError

from . import differences, during, failures, for_programs, page, policies, question, show
from .answers import Answers, of_topology
from .probes import Asked

ABOUT = """Who reaches whom, whether or not anybody spoke. The program plays a frame for each port and VLAN, at the beginning and after each
command, and what left says who hears whom: by VLAN, what each command takes and gives, and what differs between two topologies."""
STATUS = """status: 0 nothing is lost or gained, and all policies hold; 1 something is, or one is broken; 2 broken input
examples:
  exbr-reach topology.toml                       what each command of a topology takes and gives
  exbr-reach before.toml after.toml              what differs at the end
  exbr-reach topology.toml --expect policies.toml
  exbr-reach topology.toml --from x3.1 --to x4.3 --vlan 20"""


def words_of(words: list[str] | None) -> argparse.Namespace:
    parser = argparse.ArgumentParser(prog="exbr-reach", description=ABOUT, epilog=STATUS, formatter_class=argparse.RawDescriptionHelpFormatter)
    parser.add_argument("before", metavar="BEFORE", help="a topology file, or the folder of one")
    parser.add_argument("after", metavar="AFTER", nargs="?", help="another topology")
    parser.add_argument("--leaks", action="store_true", help="each port uses all tags, and not only those of VLANs in which it is at some moment")
    parser.add_argument("--vlan", metavar="N,N-N..", help="asks in these VLANs alone")
    parser.add_argument("--from", dest="sender", metavar="PORT", help="one question: does a frame of this port come to the one of --to, and why")
    parser.add_argument("--to", metavar="PORT", help="the port that is asked for")
    parser.add_argument("--expect", metavar="FILE", help="policies: what must never, always or only be (docs/reach.md)")
    parser.add_argument("--fail", metavar="WHAT", help="what is lost with each of these: each-extender, each-port, or a list as x3,b4,x1.1-8+x2")
    parser.add_argument("--jobs", type=int, default=os.cpu_count() or 1, metavar="N", help="how many runs of --fail are made side by side (default: one for each processor)")
    parser.add_argument("--dask", metavar="ADDRESS", help="makes the runs of --fail on the workers of this scheduler of dask.distributed")
    parser.add_argument("--orders", type=int, default=2, metavar="N", help="in how many drawn orders frames meet commands on their way (default 2)")
    parser.add_argument("--html", metavar="FILE", help="makes a page of it")
    parser.add_argument("--json", action="store_true", help="all of it for programs")
    parser.add_argument("--brief", action="store_true", help="counts and policies alone")
    parser.add_argument("--unfolded", action="store_true", help="plays a frame for each port, and takes no ports as alike")
    parser.add_argument("--limit", type=int, default=40, metavar="N", help="how many lines each part has (default 40, 0: all)")
    parser.add_argument("--keep", metavar="FOLDER", help="keeps what was played of BEFORE in this folder, which has to be empty or not there")
    parser.add_argument("--program", metavar="FILE", help="the exbr to run (default: the file that EXBR names, or that of the repository)")
    parser.add_argument("--version", action="version", version="exbr-reach 1")
    return parser.parse_args(words)


def vids_of(text: str | None) -> frozenset[int] | None:
    """The VLANs that a word names."""
    if text is None:
        return None
    found: set[int] = set()
    for part in text.split(","):
        match = re.fullmatch("([1-9][0-9]{0,3})(?:-([1-9][0-9]{0,3}))?", part)
        first, last = (int(match[1]), int(match[2] or match[1])) if match else (1, 0)
        if not 1 <= first <= last <= 4094:
            raise DeskError(f"--vlan {text}: VLANs are 1 to 4094, as 10 or 10,20-29")
        found.update(range(first, last + 1))
    return frozenset(found)


def asked_of(words: argparse.Namespace) -> Asked:
    return Asked(words.leaks, words.unfolded, vids_of(words.vlan))


@dataclass
class Found:
    """All that was asked for, and what was found."""

    before: Answers
    after: Answers | None = None
    difference: differences.Difference | None = None
    seconds: during.Seconds | None = None
    held: list[policies.Held] | None = None
    losses: list[failures.Lost] | None = None

    @property
    def last(self) -> Answers:
        return self.after or self.before

    @property
    def status(self) -> int:
        if self.last.astray or self.seconds is not None and self.seconds.odd:
            return 1
        if self.held is not None:
            return 1 if any(it.broken for it in (*self.held, *(self.losses or ()))) else 0
        return 1 if self.difference else 0


def lines(found: Found, words: argparse.Namespace) -> Iterator[str]:
    """The answer in lines."""
    yield from (one(found, words) if found.after is None else two(found, words))
    if found.held is not None:
        yield from show.held(found.held, found.last, words.limit)
    if found.losses is not None:
        yield from failures.lines(found.losses, words.limit)


def one(found: Found, words: argparse.Namespace) -> Iterator[str]:
    """The answer for one topology."""
    answers = found.before
    yield show.played(answers)
    yield from show.absent(answers)
    if answers.given.commands and not words.brief:
        yield from show.commands(answers, words.limit)
    if answers.given.commands:
        yield f"at the end against the beginning: {show.summed(found.difference)}"
        yield from show.cut((f"  {line}" for line in show.difference(found.difference)), words.limit)
    if not words.brief:
        yield "at the end:" if answers.given.commands else "at rest:"
        yield from show.cut((f"  {line}" for line in show.state(answers, answers.end)), words.limit)
    yield from during.lines(found.seconds)
    yield from show.stations(answers)


def two(found: Found, words: argparse.Namespace) -> Iterator[str]:
    """The answer for two topologies: both at their end."""
    for name, answers in (("BEFORE", found.before), ("AFTER", found.after)):
        yield f"{name}: {show.played(answers)}"
        yield from show.absent(answers)
        yield from show.stations(answers)
    yield f"AFTER against BEFORE, at the end of both: {show.summed(found.difference)}"
    yield from show.cut((f"  {line}" for line in show.difference(found.difference)), words.limit)


def asked_for(words: argparse.Namespace, exbr: str) -> Found:
    """Plays all that is asked for."""
    given = runs.read(words.before).topology
    others = runs.read(words.after).topology if words.after else None
    wanted = policies.read(words.expect, others or given) if words.expect else None
    losses = failures.losses_of(others or given, words.fail) if words.fail else None
    found = Found(of_topology(given, exbr, asked_of(words), words.keep))
    if others is None:
        found.difference = differences.between(found.before, 0, found.before, found.before.end)
        found.seconds = during.watched(found.before, exbr, words.orders if words.vlan is None else 0)
    else:
        found.after = of_topology(others, exbr, asked_of(words))
        found.difference = differences.between(found.before, found.before.end, found.after, found.after.end)
    if wanted is not None:
        found.held = policies.held(wanted, found.last)
    if losses is not None:
        found.losses = failures.played(found.last, losses, exbr, asked_of(words), wanted or [], words.jobs, words.dask)
    return found


def asked_of_one(words: argparse.Namespace, exbr: str) -> int:
    """One question."""
    if words.after or words.expect or words.keep or words.html or words.fail or not (words.sender and words.to):
        raise DeskError("one question names --from and --to, of one topology, and perhaps --vlan")
    given = runs.read(words.before).topology
    sender, target = question.port_of(given, "--from", words.sender), question.port_of(given, "--to", words.to)
    vids = vids_of(words.vlan)
    found = question.ways(given, exbr, sender, target, vids)
    if words.json:
        print(json.dumps(question.in_json(found, sender, target), indent=1))
    else:
        print("\n".join(question.lines(found, sender, target, vids)))
    return 0 if question.comes_at_end(found) else 1


def written(text: str, path: str) -> None:
    """Writes a page whole or not at all."""
    part = f"{path}.part"
    try:
        with open(part, "w", encoding="utf-8") as out:
            out.write(text)
        os.replace(part, path)
    except BaseException:
        if os.path.exists(part):
            os.remove(part)
        raise


def main(words: list[str] | None = None) -> int:
    asked = words_of(words)
    if not 0 <= asked.orders <= 1000:
        raise DeskError(f"--orders {asked.orders}: it is 0 to 1,000")
    if not 1 <= asked.jobs <= 256:
        raise DeskError(f"--jobs {asked.jobs}: it is 1 to 256")
    exbr = play.program(asked.program)
    if asked.sender or asked.to:
        return asked_of_one(asked, exbr)
    found = asked_for(asked, exbr)
    if asked.html:
        written(page.of(found), asked.html)
    if asked.json:
        print(json.dumps(for_programs.of(found), indent=1))
    else:
        for line in lines(found, asked):
            print(line)
    sys.stdout.flush()
    return found.status
