"""`exbr-why`: the way of a frame, by the files of a run and by a second reading of the rules."""
from __future__ import annotations

import argparse
import json
import sys
from dataclasses import dataclass, field

from . import choose, earlier, explain, frames, index, names, plain, runs, trace, trace_index
from .captures import SECOND
from .course import Course
from .errors import DeskError
from .judge import Fault
from .reading import NAMES, Arrival, Where
from .table import Table

SHOWN = 20
ABOUT = """The way of a frame through a run: what the journal says, the VLAN in which it passed or the rule of its port that refused it,
whether its target was learned (when, and by which frame), static or flooded, where it left and with which tag, and with a trace
each hop with its E-TAG. The reason is computed by a second, plain reading of the rules. Where that doesn't agree with the files,
the file is named: then it is wrong, or the reading is.

FRAME is PORT:NUMBER (x1.2:3 is the third record of the capture of x1.2), or words that all have to fit:
  src=02:00:00:00:00:01  dst=broadcast  vlan=10  port=x1.2 (where it came)  to=b1 (where it left)  type=arp
  rule=filter (absent, short, long, reserved, bad, accept, vlan, filter, or passes)"""
STATUS = """status: 0 the files agree with the rules; 1 they don't; 2 broken input, or no frame fits
examples:
  exbr-why x1.2:3                            in the folder of a topology.toml that was run there
  exbr-why --run night/ dst=broadcast vlan=20
  exbr-why --filter 'icmp && ip.dst == 192.0.2.9'
  exbr-why --all                             no frame, but the whole run: each difference between files and rules"""


@dataclass
class Answer:
    """What is told of one frame."""

    arrival: Arrival
    told: list[explain.Sentence]
    hops: list[trace.Hop] = field(default_factory=list)
    faults: list[str] = field(default_factory=list)


class Why:
    """What is told of the frames of a run that are meant. `elsewhere` has the differences between its files and the rules that are of none
    of these, `notes` what is to be said of files that aren't of this run."""

    def __init__(self, run: runs.Run, choice: choose.Choice | None, limit: int, keep: bool = True):
        self.run, self.choice, self.limit, self.keep = run, choice, limit, keep
        self.table = Table()
        self.answers: list[Answer] = []
        self.more = 0
        self.elsewhere: list[str] = []
        self.notes: list[str] = []

    @property
    def count(self) -> int:
        return self.table.count

    @property
    def left(self) -> int:
        return self.table.left

    def go(self, quiet: bool = False) -> None:
        self.table = index.table_of(self.run, "frames followed", self.keep, quiet)
        self.notes = list(self.table.notes)
        course, rows = Course(self.run, self.table), self.choice.rows(self.table) if self.choice is not None else ()
        shown = rows[:self.limit] if self.limit else rows
        self.more = len(rows) - len(shown)
        self.answers = [Answer(it, explain.explain(course.at(it.row), it)) for it in map(course.arrival, shown)]
        self._sort_faults()
        if self.run.trace:
            self._follow(self.run.trace)

    def _sort_faults(self) -> None:
        """Puts each difference to the frame of which it is, or to those elsewhere."""
        of = {(it.arrival.port, it.arrival.index): it for it in self.answers}
        for fault in self.table.faults:
            text = f"{fault.file}: {fault.text}"
            if fault.arrival in of:
                of[fault.arrival].faults.append(text)
                continue
            self.elsewhere.append(text)
            for answer in self.answers:
                if fault.what == "extra" and fault.frame is not None and _looks_like(fault, answer.arrival):
                    answer.faults.append(f"{text}; it has addresses and content of this frame")
        self.elsewhere += [f"{file}: so many differences that no more were looked for" for file in self.table.given_up]

    def _follow(self, path: str) -> None:
        """The hops of the frames in the trace, and whether they lead where the rules do."""
        of = {(it.arrival.port, it.arrival.index): it for it in self.answers}
        try:
            found, faults = self._hops(path, of)
        except DeskError:
            if not earlier.is_older(self.run, path):
                raise
            found, faults = {}, ["it isn't a trace"]
        if faults and earlier.is_older(self.run, path):
            self.notes.append(earlier.left_out(self.run, path))
            return
        self.elsewhere += [f"{path}: {text}" for text in faults]
        external = set(self.run.topology.external)
        for where, hops in found.items():
            of[where].hops = hops
            of[where].faults += [f"{path}: {text}" for text in _hops_differ(of[where].arrival, hops, external)]

    def _hops(self, path: str, of: dict[Where, Answer]) -> tuple[dict[Where, list[trace.Hop]], list[str]]:
        """The hops of frames, by the index where it has them."""
        if not self.table.hops:
            return trace.hops(self.run.topology, path, set(of), self.run.journal)
        return {where: trace_index.hops(self.run, self.table, it.arrival.row) for where, it in of.items()}, self.table.trace_faults

    @property
    def agrees(self) -> bool:
        return not self.elsewhere and not any(it.faults for it in self.answers)


def _looks_like(fault: Fault, it: Arrival) -> bool:
    def bare(frame: bytes) -> bytes:
        return frame[:12] + (frame[16:] if frame[12:14] == b"\x81\x00" else frame[12:])
    return bare(fault.frame) == bare(it.frame)


def _hops_differ(it: Arrival, hops: list[trace.Hop], external: set[int]) -> list[str]:
    """Where the trace has a frame leave, and the rules don't, and the other way round."""
    out = {64 * hop.device + hop.side - 1: hop for hop in hops if hop.way == trace.OUT and hop.side and 64 * hop.device + hop.side - 1 in external}
    ought = {port: plain.egress(it.frame, kind, it.vid) for port, kind in it.targets}
    told = [f"line {out[port].line}: it leaves {NAMES[port]}, and by the rules it doesn't" for port in sorted(out.keys() - ought.keys())]
    told += [f"it doesn't leave {NAMES[port]}, and by the rules it does" for port in sorted(ought.keys() - out.keys())]
    return told + [f"line {out[port].line}: it leaves {NAMES[port]} with {frames.tag_in_words(out[port].frame)}, and by the rules with "
                   f"{frames.tag_in_words(ought[port])}" for port in sorted(out.keys() & ought.keys()) if out[port].frame != ought[port]]


# What is printed.

def in_words(why: Why) -> list[str]:
    """All that is told, in lines."""
    told = [f"FIRST: {it}" for it in why.table.standing.lines(why.run.topology.commands)]
    told += [f"note: {it}" for it in why.notes]
    told += [""] if told else []
    for answer in why.answers:
        told += _answer_in_words(why, answer) + [""]
    if why.more:
        told += [f"{explain.counted(why.more, 'more frame')} fit; --limit 0 shows all", ""]
    if why.elsewhere:
        told.append(f"{explain.counted(len(why.elsewhere), 'difference')}{' elsewhere' if why.answers else ''} between the files and the rules:")
        told += [f"  {text}" for text in why.elsewhere[:SHOWN]]
        told += [f"  and {len(why.elsewhere) - SHOWN} more"] if len(why.elsewhere) > SHOWN else []
        told.append("Where they differ the file that is named is wrong, or it isn't of this run, or the reading here is wrong.")
    elif why.agrees:
        told.append(f"The files agree with the rules: {explain.counted(why.count, 'frame')} came, {why.left:,} left.")
    return told


def _answer_in_words(why: Why, answer: Answer) -> list[str]:
    it = answer.arrival
    line = f"line {it.line}, '{it.text}'" if it.line else f"no line of it where '{it.text}' ought to be"
    told = [explain.came(it), f"  capture: record {it.index} of {why.run.captures[it.port].path}", f"  journal: {line}"]
    places = {NAMES[port]: place for (port, _), place in zip(it.targets, it.places)}
    for sentence in answer.told:
        text = sentence.text
        if sentence.code == "leaves":
            name = sentence.values["port"]
            text += f": record {places[name]} of {why.run.output(plain.number_of(name))}" if places[name] else ", by the rules; the file doesn't have it"
        told.append(f"  {text}")
    told += [f"  trace, line {hop.line}: {hop.words()}" for hop in answer.hops]
    told += [f"  NOT AS THE RULES HAVE IT: {text}" for text in answer.faults]
    return told + ["  the files say the same"] * (not answer.faults)


def in_json(why: Why) -> dict:
    """All that is told, for programs."""
    return {"frames": [_answer_in_json(why, it) for it in why.answers], "more": why.more, "elsewhere": why.elsewhere,
            "arrivals": why.count, "left": why.left, "agrees": why.agrees, "notes": why.notes,
            **why.table.standing.in_json()}


def _answer_in_json(why: Why, answer: Answer) -> dict:
    it = answer.arrival
    learned = {"port": NAMES[it.entry.port], "index": it.entry.index, "seconds_ago": it.clock - it.entry.clock} if it.entry else None
    left = [{"port": NAMES[port], "kind": kind, "tag": frames.tag_in_words(plain.egress(it.frame, kind, it.vid)), "record": place or None}
            for (port, kind), place in zip(it.targets, it.places)]
    hops = [{"line": hop.line, "way": hop.way, "place": hop.place, "etag": vars(etag) if (etag := frames.etag_of(hop.frame)) else None,
             "frame": hop.frame.hex()} for hop in answer.hops]
    return {"port": NAMES[it.port], "index": it.index, "time": it.moment / SECOND, "nanoseconds": it.moment, "frame": it.frame.hex(), "about": frames.describe(it.frame),
            "journal": {"line": it.line or None, "text": it.text}, "relayed": it.is_relayed, "rule": it.rule, "vlan": it.vid, "how": it.how,
            "learned": learned, "left": left, "because": [sentence.text for sentence in answer.told], "trace": hops, "faults": answer.faults}


def words_of(words: list[str] | None) -> argparse.Namespace:
    parser = argparse.ArgumentParser(prog="exbr-why", description=ABOUT, epilog=STATUS, formatter_class=argparse.RawDescriptionHelpFormatter)
    parser.add_argument("frame", nargs="*", metavar="FRAME", help="a frame, or words that it fits")
    parser.add_argument("--run", default=".", metavar="PLACE", help="the folder with topology.toml, or the topology file (default: here)")
    parser.add_argument("--folder", metavar="FOLDER", help="where the names in the topology are taken from (default: the topology's folder)")
    parser.add_argument("--filter", metavar="FILTER", help="a display filter of Wireshark over the captures; needs tshark")
    parser.add_argument("--all", action="store_true", help="no frame, but all differences between the files and the rules")
    parser.add_argument("--limit", type=int, default=5, metavar="N", help="how many frames are told where more fit (default 5, 0: all)")
    parser.add_argument("--no-index", action="store_true", help="keeps nothing beside the run for the next question")
    parser.add_argument("--json", action="store_true", help="the same for programs")
    names.option(parser)
    return parser.parse_args(words)


def main(words: list[str] | None = None) -> int:
    asked = words_of(words)
    if asked.all and (asked.frame or asked.filter):
        raise DeskError("--all goes over the whole run, so no frame is named beside it")
    if asked.limit < 0:
        raise DeskError("--limit is 0 or more")
    run = runs.whole(asked.run, asked.folder)
    called = names.of(asked.run, asked.names)
    # An index knows the captures, so they needn't be looked through before it is asked.
    index.read(run, index.path_of(run))
    choice = None if asked.all else choose.choice(run, [called.heard(it) for it in asked.frame], asked.filter)
    why = Why(run, choice, asked.limit, not asked.no_index)
    why.go()
    if choice is not None and not why.answers:
        raise DeskError(f"no frame fits; {why.count} frames came")
    print(json.dumps(in_json(why) | called.json(), indent=1) if asked.json else called.speak("\n".join(in_words(why))))
    sys.stdout.flush()
    return 0 if why.agrees else 1
