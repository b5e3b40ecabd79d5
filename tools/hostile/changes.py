#!/usr/bin/env python3
"""Changes one thing in the trace, the journal or a capture of each example's run, and has two judges say which rule that breaks:
`exbr audit`, and the judge of crates/exb_cases/world, which was written from the rules alone.

    tools/hostile/changes.py [--program FILE] [--only WORD] [--draw N] [--long N] [--every-bit] [--run-seed N] [--seed N] [--jobs N]
                             [--room FOLDER] [--keep FOLDER] [--quiet]

Every place of each kind of change is tried, and of each byte of a frame one bit, which is drawn. Of a trace of more than 2,000 lines so
many places of a kind are drawn as --long says. What is drawn depends on --seed alone. The audit has to end with `legal LINES` and
status 0 where the second judge finds that all rules hold, and else with the lowest rule that doesn't and status 11.

The last line is `changes: N changes of M traces, L legal, 0 differences`; the status is 0 where there is none, 1 where there is one,
and 2 for words that are not as above. Python 3.11 or later.
"""
import argparse
import collections
import multiprocessing
import os
import random
import shutil
import subprocess
import sys
import tempfile
import time

sys.dont_write_bytecode = True
HERE = os.path.dirname(os.path.abspath(__file__))
TOP = os.path.dirname(os.path.dirname(HERE))
sys.path[:0] = [HERE, os.path.join(TOP, "crates", "exb_cases")]
from bridge import capture_of, name_of, records_of
from folders import program_of, read, write
from world.judge import RULES, Files, Line, breaks, trace_of

TOPOLOGY, JOURNAL, TRACE = "topology.toml", "out-journal.txt", "out-trace.txt"
LONG = 2000


class Change:
    """Lines in the place of some of a trace; and, where they change too, the journal's lines and the records of a file."""

    def __init__(self, start, removed, lines, journal=None, file=None, records=None):
        self.start, self.removed, self.lines = start, removed, lines
        self.journal, self.file, self.records = journal, file, records


class Base:
    """An example's run as it is: its files, and what the rules of the second judge keep at places of its trace."""

    def __init__(self, name, files):
        self.name, self.text = name, files[TOPOLOGY].decode()
        self.files = files
        outputs = {file: data for file, data in files.items() if file.startswith("out-")}
        trace = trace_of(self.text, files, outputs)
        self.held, self.lines = trace.files, trace.lines
        self.journal = trace.journal
        self.told = [at for at, line in enumerate(self.lines) if line.journal is not None]
        self.frames = [at for at, line in enumerate(self.lines) if line.way]
        captured = {file: port for port, file in self.held.bridge.captures.items()}
        left = {f"out-{name_of(port)}.pcap": port for port in self.held.tree.external}
        self.records = {file: records_of(files[file]) for file in [*captured, *left]}
        self.port_of = captured | left
        self.step, self.kept = 0, []

    def is_long(self):
        return len(self.lines) > LONG

    def places(self):
        """All sides of all devices, and one more of each that isn't there."""
        return [("b" if not device else f"x{device}", "up" if not side else str(side)) for device, count in self.held.ports.items()
                for side in range(1 if not device else 0, min(count + 1, 64) + 1)]

    def keep(self, stops):
        """What each rule keeps in front of so many lines, or of each line."""
        rules, self.step = [rule(self.held) for rule in RULES], 1 + len(self.lines) // (stops + 1)
        for at, line in enumerate(self.lines):
            if at % self.step == 0:
                self.kept.append([rule.copied() for rule in rules])
            if not all([rule.takes(line) for rule in rules]):
                sys.exit(f"{self.name}: the second judge refuses its trace as it is, at line {at + 1}")
        self.kept.append([rule.copied() for rule in rules])

    def held_with(self, change):
        """What the lines of a change are held to."""
        if change.journal is None and change.file is None:
            return self.held
        captures, outputs = dict(self.held.captures), dict(self.held.outputs)
        if change.file is not None:
            side = outputs if change.file.startswith("out-") else captures
            side[self.port_of[change.file]] = [frame for _, frame in change.records]
        return Files(self.text, captures, self.journal if change.journal is None else change.journal, outputs)

    def judged(self, change):
        """The lowest rule that a change breaks, or None, by the second judge: from the place of the change on."""
        held, lines = self.held_with(change), [*change.lines, *self.lines[change.start + change.removed:]]
        if change.file is not None:
            found = breaks((rule(held) for rule in RULES), self.lines[:change.start] + lines)
        else:
            before = change.start // self.step
            lines = self.lines[before * self.step:change.start] + lines
            found = breaks((rule.copied(held) for rule in self.kept[before]), lines)
        return found and found[0]

    def judged_whole(self, change):
        """The same from the first line on."""
        lines = self.lines[:change.start] + change.lines + self.lines[change.start + change.removed:]
        found = breaks((rule(self.held_with(change)) for rule in RULES), lines)
        return found and found[0]

    def changed_files(self, change):
        """The files that a change makes of those of the run, and how many lines its trace has."""
        lines = self.lines[:change.start] + change.lines + self.lines[change.start + change.removed:]
        files = {TRACE: "".join(f"{line.text}\n" for line in lines).encode()}
        if change.journal is not None:
            files[JOURNAL] = "".join(f"{line}\n" for line in change.journal).encode()
        if change.file is not None:
            files[change.file] = capture_of(change.records)
        return files, len(lines)


# ---- kinds of changes. Each has the things that it can change, what it can do with one of them, and the change.


def nothing_more(base, at, chance):
    return [None]


def all_lines(base):
    return range(len(base.lines))


def all_but_the_last(base):
    return range(len(base.lines) - 1)


def line_taken_out(base, at, _):
    return Change(at, 1, [])


def line_doubled(base, at, _):
    return Change(at, 0, [base.lines[at]])


def line_swapped(base, at, _):
    return Change(at, 2, [base.lines[at + 1], base.lines[at]])


def a_bit_of_each_byte(base, at, chance):
    return [8 * byte + chance.randrange(8) for byte in range(len(base.lines[at].frame))]


def each_bit(base, at, _):
    return list(range(8 * len(base.lines[at].frame)))


def turned(data, bit):
    return bytes(it ^ (0x80 >> bit % 8 if at == bit // 8 else 0) for at, it in enumerate(data))


def line_of(way, place, frame):
    return Line(f"{way} {place[0]} {place[1]} {frame.hex()}")


def place_of(line):
    return tuple(line.text.split(" ")[1:3])


def bit_turned(base, at, bit):
    line = base.lines[at]
    return Change(at, 1, [line_of(line.way, place_of(line), turned(line.frame, bit))])


def other_places(base, at, _):
    return [place for place in base.places() if place != place_of(base.lines[at])]


def place_changed(base, at, place):
    line = base.lines[at]
    return Change(at, 1, [line_of(line.way, place, line.frame)])


def way_changed(base, at, _):
    line = base.lines[at]
    return Change(at, 1, [line_of({"in": "out", "out": "in"}[line.way], place_of(line), line.frame)])


def other_lines(base, at, _):
    """Where a line can be put once it is taken out."""
    return [to for to in range(len(base.lines)) if to != at]


def moved(them, at, to):
    """Things of which one is at another place, and from where and how far they are other ones."""
    rest = [*them[:at], *them[at + 1:]]
    return [*rest[:to], them[at], *rest[to:]], min(at, to), abs(at - to) + 1


def journal_line_moved(base, at, to, journal=None):
    lines, start, count = moved(base.lines, at, to)
    return Change(start, count, lines[start:start + count], journal)


def journal_line_moved_in_both(base, at, to):
    change = journal_line_moved(base, at, to)
    told = [line.journal for line in change.lines if line.journal is not None]
    first = sum(it < change.start for it in base.told)
    return journal_line_moved(base, at, to, [*base.journal[:first], *told, *base.journal[first + len(told):]])


def places_past_others(base, at, _):
    """Where a journal line can be put past another one, so that the journal becomes another one."""
    here = base.told.index(at)
    before = base.told[here - 1] if here else -1
    behind = base.told[here + 1] if here + 1 < len(base.told) else len(base.lines)
    return [to for to in range(len(base.lines)) if to <= before or to >= behind]


def journal_line_out_of_both(base, at, _):
    here = base.told.index(at)
    return Change(at, 1, [], [*base.journal[:here], *base.journal[here + 1:]])


def all_entries(base):
    return range(len(base.journal))


def entry_taken_out(base, at, _):
    return Change(base.told[at], 0, [], [*base.journal[:at], *base.journal[at + 1:]])


def entry_doubled(base, at, _):
    return Change(base.told[at], 0, [], [*base.journal[:at], *base.journal[at:at + 1], *base.journal[at:]])


def entry_swapped(base, at, _):
    return Change(base.told[at], 0, [], [*base.journal[:at], *base.journal[at:at + 2][::-1], *base.journal[at + 2:]])


def of_records(base):
    return [at for at in base.told if base.lines[at].journal.split()[0] in ("relay", "ignore")]


def other_records(base, at, _):
    """Each record that there is, and one in front and one behind those of each port, relayed and ignored; and an external port without."""
    bare = [port for port in base.held.tree.external if port not in base.held.captures][:1]
    named = [(port, index) for port, frames in base.held.captures.items() for index in range(len(frames) + 2)] + [(port, 1) for port in bare]
    told = [f"{kind} {name_of(port)} {index}" for port, index in named for kind in ("relay", "ignore")]
    return [it for it in told if it != base.lines[at].journal]


def record_named_otherwise(base, at, told):
    here = base.told.index(at)
    return Change(at, 1, [Line(f"= {told}")], [*base.journal[:here], told, *base.journal[here + 1:]])


def all_records(base):
    return [(file, at) for file, records in base.records.items() for at in range(len(records))]


def of_file(base, file, records):
    return Change(0, 0, [], None, file, records)


def record_taken_out(base, place, _):
    file, at = place
    return of_file(base, file, base.records[file][:at] + base.records[file][at + 1:])


def record_doubled(base, place, _):
    file, at = place
    return of_file(base, file, base.records[file][:at + 1] + base.records[file][at:])


def record_swapped(base, place, _):
    file, at = place
    return of_file(base, file, [*base.records[file][:at], *base.records[file][at:at + 2][::-1], *base.records[file][at + 2:]])


def a_bit_of_each_record(base, place, chance):
    file, at = place
    return [8 * byte + chance.randrange(8) for byte in range(len(base.records[file][at][1]))]


def record_turned(base, place, bit):
    file, at = place
    moment, frame = base.records[file][at]
    return of_file(base, file, [*base.records[file][:at], (moment, turned(frame, bit)), *base.records[file][at + 1:]])


KINDS = {
    "line taken out": (all_lines, nothing_more, line_taken_out),
    "line doubled": (all_lines, nothing_more, line_doubled),
    "line swapped with the next": (all_but_the_last, nothing_more, line_swapped),
    "bit of a frame turned": (lambda base: base.frames, a_bit_of_each_byte, bit_turned),
    "place of a frame changed": (lambda base: base.frames, other_places, place_changed),
    "way of a frame changed": (lambda base: base.frames, nothing_more, way_changed),
    "journal line moved": (lambda base: base.told, other_lines, journal_line_moved),
    "journal line moved, and the journal": (lambda base: base.told, places_past_others, journal_line_moved_in_both),
    "journal line taken out, and of the journal": (lambda base: base.told, nothing_more, journal_line_out_of_both),
    "record named otherwise, and in the journal": (of_records, other_records, record_named_otherwise),
    "line of the journal alone taken out": (all_entries, nothing_more, entry_taken_out),
    "line of the journal alone doubled": (all_entries, nothing_more, entry_doubled),
    "line of the journal alone swapped": (all_entries, nothing_more, entry_swapped),
    "frame of a file taken out": (all_records, nothing_more, record_taken_out),
    "frame of a file doubled": (all_records, nothing_more, record_doubled),
    "frame of a file swapped with the next": (all_records, nothing_more, record_swapped),
    "bit of a frame of a file turned": (all_records, a_bit_of_each_record, record_turned),
}


def drawn(things, does, base, chance, many):
    """So many places of a kind of change."""
    them, found = things(base), {}
    for _ in range(4 * many if them else 0):
        thing = chance.choice(them)
        more = does(base, thing, chance)
        if more:
            found[thing, chance.choice(more)] = None
        if len(found) == many:
            break
    return list(found)


def chosen(base, kind, words):
    """The places of a kind of change that are tried: things, and what is done with each."""
    things, does, _ = KINDS[kind]
    if words.every_bit and does is a_bit_of_each_byte:
        does = each_bit
    chance = random.Random(f"{words.seed} {base.name} {kind}")
    if base.is_long():
        return drawn(things, does, base, chance, words.long)
    them = [(thing, more) for thing in things(base) for more in does(base, thing, chance)]
    if words.draw and len(them) > words.draw:
        them = chance.sample(them, words.draw)
    return them


# ---- the runs, in workers that have a folder of their own


class Worker:
    """The program beside the second judge, in a folder for each example."""

    bases, program, room, keep = {}, None, None, None

    @staticmethod
    def begin(bases, program, room, keep):
        Worker.bases, Worker.program, Worker.keep = bases, program, keep
        Worker.room = os.path.join(room, str(os.getpid()))

    @staticmethod
    def folder(base):
        folder = os.path.join(Worker.room, base.name)
        if not os.path.isdir(folder):
            for name, data in base.files.items():
                write(os.path.join(folder, name), data)
        return folder

    @staticmethod
    def audited(base, change):
        """What `exbr audit` says of a change: its status, its line, and the number of lines of the trace."""
        folder = Worker.folder(base)
        files, lines = base.changed_files(change)
        for name, data in files.items():
            write(os.path.join(folder, name), data)
        ran = subprocess.run([Worker.program, "audit", TOPOLOGY], cwd=folder, stdin=subprocess.DEVNULL, capture_output=True, timeout=120, check=False)
        for name in files.keys() - {TRACE}:
            write(os.path.join(folder, name), base.files[name])
        return ran.returncode, (ran.stdout + ran.stderr).decode(errors="replace"), lines, files

    @staticmethod
    def one(base, kind, place, is_whole):
        """What the second judge says of a change, and what is different; None where nothing is."""
        change = KINDS[kind][2](base, *place)
        rule = base.judged(change)
        if is_whole and rule != base.judged_whole(change):
            return rule, f"the second judge says rule {rule} and then rule {base.judged_whole(change)}"
        status, said, lines, files = Worker.audited(base, change)
        wanted = (11, f"exbr: trace: rule {rule}\n") if rule else (0, f"legal {lines}\n")
        if (status, said) == wanted:
            return rule, None
        if Worker.keep:
            for name, data in {**base.files, **files}.items():
                write(os.path.join(Worker.keep, f"{base.name} {kind} {place[0]} {place[1]}".replace("/", "-"), name), data)
        return rule, f"status {status}, {said!r}, where the second judge comes to {wanted}"

    @staticmethod
    def some(task):
        """Some changes of a kind: how many there are by the rule that is broken, and what is different."""
        name, kind, places = task
        base, counts, wrong = Worker.bases[name], collections.Counter(), []
        for number, place in enumerate(places):
            rule, fault = Worker.one(base, kind, place, number % 50 == 0)
            counts[rule] += 1
            if fault:
                wrong.append(f"{name}: {kind} {place}: {fault}")
        return name, kind, counts, wrong


def run_of(program, name, room, words):
    """An example's run with a trace."""
    folder = os.path.join(room, "runs", name)
    shutil.copytree(os.path.join(TOP, "examples", name), folder, ignore=shutil.ignore_patterns("expected", "out-*"))
    played = ["run", TOPOLOGY, "--trace"] + ([] if words.run_seed is None else ["--seed", str(words.run_seed)])
    ran = subprocess.run([program, *played], cwd=folder, capture_output=True, text=True, check=False)
    if ran.returncode:
        sys.exit(f"{name}: exbr {' '.join(played)}: status {ran.returncode}, {ran.stdout}{ran.stderr}")
    base = Base(name, {file: read(os.path.join(folder, file)) for file in os.listdir(folder) if file.endswith((".toml", ".txt", ".pcap", ".pcapng"))})
    if base.is_long() and words.long:
        base.keep(min(500, 2 * words.long))
    elif not base.is_long():
        base.keep(2 * words.draw if words.draw else len(base.lines))
    return base


def tasks_of(base, words):
    """The changes of an example, in pieces for the workers."""
    size = 20 if base.is_long() else 500
    for kind in KINDS:
        places = chosen(base, kind, words)
        for at in range(0, len(places), size):
            yield base.name, kind, places[at:at + size]


def told(name, base, counts):
    """What became of the changes of an example, a line for each kind."""
    print(f"{name}: a trace of {len(base.lines):,} lines")
    for kind in KINDS:
        it = counts[name, kind]
        if it:
            rules = ", ".join(f"rule {rule} {it[rule]:,}" for rule in range(1, 6) if it[rule])
            print(f"    {kind}: {it.total():,}, legal {it[None]:,}{'; ' if rules else ''}{rules}")


def swept(bases, words, program, room):
    """All changes: how many there are by example and kind and by rule, and what is different."""
    tasks = [task for base in bases.values() for task in tasks_of(base, words)]
    all_of_them, done, begun = sum(len(places) for _, _, places in tasks), 0, time.monotonic()
    counts, wrong, said = collections.defaultdict(collections.Counter), [], time.monotonic()
    with multiprocessing.get_context("fork").Pool(words.jobs, Worker.begin, (bases, program, room, words.keep)) as pool:
        for name, kind, its, faults in pool.imap_unordered(Worker.some, tasks):
            counts[name, kind] += its
            wrong += faults
            done += its.total()
            for fault in faults:
                print(f"DIFFERS: {fault}", flush=True)
            if not words.quiet and time.monotonic() - said > 15:
                said = time.monotonic()
                print(f"{said - begun:.0f} s: {done:,} of {all_of_them:,} changes, {len(wrong)} differences", flush=True)
    return counts, wrong


def number(least):
    def read_it(text):
        value = int(text)
        if value < least:
            raise ValueError(text)
        return value
    read_it.__name__ = f"number from {least}"
    return read_it


def parsed():
    form = argparse.ArgumentParser(description=__doc__, formatter_class=argparse.RawDescriptionHelpFormatter)
    form.add_argument("--program", metavar="FILE", help="the program to try")
    form.add_argument("--only", metavar="WORD", default="", help="the examples whose name has the word")
    form.add_argument("--draw", type=number(1), metavar="N", help="at most so many changes of a kind and example, drawn")
    form.add_argument("--long", type=number(0), default=200, metavar="N", help="so many of a trace of more than 2,000 lines (200)")
    form.add_argument("--every-bit", action="store_true", help="each bit of each frame of a trace, and not one of each byte")
    form.add_argument("--run-seed", type=number(0), metavar="N", help="plays the examples in the order that N draws")
    form.add_argument("--seed", type=number(0), default=1, metavar="N", help="what is drawn (1)")
    form.add_argument("--jobs", type=number(1), default=len(os.sched_getaffinity(0)), metavar="N", help="how many at a time")
    form.add_argument("--room", metavar="FOLDER", help="where the runs have their folders, as /dev/shm, which is faster than a disk")
    form.add_argument("--keep", metavar="FOLDER", help="where the files of each difference are put")
    form.add_argument("--quiet", action="store_true", help="no progress and no table")
    words = form.parse_args()
    if words.room and not os.path.isdir(words.room):
        form.error(f"there is no folder {words.room}")
    there = os.path.join(TOP, "examples")
    words.names = [it for it in sorted(os.listdir(there)) if words.only in it and os.path.isfile(os.path.join(there, it, TOPOLOGY))]
    if not words.names:
        form.error(f"no example has {words.only!r} in its name")
    return words


def main():
    words = parsed()
    program = program_of(words.program)
    with tempfile.TemporaryDirectory(prefix="exbr-changes-", dir=words.room) as room:
        bases = {name: run_of(program, name, room, words) for name in words.names}
        counts, wrong = swept(bases, words, program, room)
    if not words.quiet:
        for name, base in bases.items():
            told(name, base, counts)
    whole = sum(counts.values(), collections.Counter())
    print(f"changes: {whole.total():,} changes of {len(bases)} traces, {whole[None]:,} legal, {len(wrong)} differences")
    return 1 if wrong else 0


if __name__ == "__main__":
    sys.exit(main())
