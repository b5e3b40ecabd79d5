#!/usr/bin/env python3
"""Random topologies with commands: what exbr-reach and exbr-preflight say of each, held against the plain bridge of the cases.

    tools/desk/tests/sweep.py [COUNT] [--from N] [--program EXBR] [--limits-only | --reach-only]

Reachability has to be equal pair by pair, at each moment, in each VLAN, by all tags, folded here and unfolded there; frames that are on their way during commands have
to go as at one of the moments. Numbers have to be
those that the plain bridge counts; with the least limits nothing is refused in a run, and with one less something is.
"""
from __future__ import annotations

import argparse
import os
import sys
import time
from collections import Counter

sys.dont_write_bytecode = True
sys.path.insert(0, os.path.dirname(os.path.abspath(__file__)))
import desk_help
import plainly
from exbr_desk import topology
from exbr_preflight import tables
from exbr_reach import answers, during, relation
from exbr_reach.moments import vids_of
from exbr_reach.probes import Asked


def reach_of(text: str, program: str, told: Counter) -> None:
    """Holds reachability against the plain bridge."""
    given = topology.of_text(text)
    found = answers.of_topology(given, program, Asked(leaks=True))
    vids = sorted(vids_of(given) | {4093})
    places = {moment.number: moment.place for moment in found.moments}
    for number, it in plainly.moments(text):
        for vid, pairs in plainly.reach(it, vids).items():
            mine = set(relation.each(found.at(vid, places[number])))
            assert mine == pairs, f"after command {number}, VLAN {vid}: {sorted(mine ^ pairs)[:5]}"
            told["pairs that reach each other, over all moments and VLANs"] += len(pairs)
        static_of(found, it, places[number], told)
        told["moments"] += 1
    assert not found.astray, found.astray[:3]
    seen = during.watched(found, program, 1)
    assert not seen.odd, seen.odd[:3]
    told["frames on their way during commands"] += seen.frames
    told["of these between two commands of one second"] += seen.between
    told["frames played"] += len(found.plan.probes)
    told["frames without folding"] += found.plan.wanted
    told["frames to single stations"] += found.to_stations


def static_of(found: answers.Answers, it, place: int, told: Counter) -> None:
    """Holds what static entries lead to against the plain bridge."""
    for (vid, mac) in it.now.statics:
        wanted = set()
        for port in it.tree.external:
            for tag in (None, vid):
                passed, ports = plainly.heard(it, port, tag, mac)
                wanted |= {(port, other) for other in ports} if passed == vid else set()
        mine = set(relation.each(found.statics[vid, mac].at(place).every))
        assert mine == wanted, f"static entry {mac.hex()} in VLAN {vid}: {sorted(mine ^ wanted)[:5]}"
        told["static entries, over all moments"] += 1


def limits_of(text: str, program: str, told: Counter) -> None:
    """Holds numbers against the plain bridge, and limits against runs."""
    given, played = topology.of_text(text), tables.player(program)
    found = tables.tables_of(given, played)
    for (number, channels, groups), segment in zip(plainly.needs(text), found.wide, strict=True):
        for uses, wanted in ((segment.channels, channels), (segment.groups, groups)):
            wrong = [trunk for trunk, use in uses.items() if use.peak != wanted.get(trunk, use.peak)]
            assert number == segment.command and not wrong, (number, wrong, uses, wanted)
    least = tables.least(given, played)
    for kind in tables.KINDS:
        assert least[kind] == found.least(kind), (kind, least, found.most(kind))
    assert tables.is_enough(given, least, played)
    for kind in tables.KINDS:
        if least[kind] > 1:
            assert not tables.is_enough(given, least | {kind: least[kind] - 1}, played), kind
            told[f"one {kind[:-1]} less is refused"] += 1
    assert found.suffice == all(found.limits[kind] >= least[kind] for kind in tables.KINDS)
    told["topologies whose own limits suffice" if found.suffice else "topologies whose own limits don't"] += 1


def one(number: int, program: str, asked: argparse.Namespace, told: Counter) -> None:
    text = plainly.random_topology(number)
    if not asked.limits_only:
        reach_of(text, program, told)
    if not asked.reach_only:
        limits_of(text, program, told)
    told["topologies"] += 1


def main() -> None:
    parser = argparse.ArgumentParser(description=__doc__, formatter_class=argparse.RawDescriptionHelpFormatter)
    parser.add_argument("count", nargs="?", type=int, default=300)
    parser.add_argument("--from", dest="first", type=int, default=1)
    parser.add_argument("--program", default=desk_help.program())
    parser.add_argument("--limits-only", action="store_true")
    parser.add_argument("--reach-only", action="store_true")
    asked = parser.parse_args()
    told, begun = Counter(), time.monotonic()
    for number in range(asked.first, asked.first + asked.count):
        try:
            one(number, asked.program, asked, told)
        except AssertionError as fault:
            sys.exit(f"topology {number}: {fault}")
        if number % 50 == 0:
            print(f"{number} after {time.monotonic() - begun:.0f} s", file=sys.stderr, flush=True)
    for what, count in sorted(told.items()):
        print(f"{what}: {count:,}")


if __name__ == "__main__":
    main()
