"""Cases of `audit`: what a run wrote as it is, with one thing changed, and with what can't be read."""
import sys

from fates import with_fate
from frames import *
from world.judge import judge_files
from world.schedule import run as run_world

A = {"x1.1": "a.pcap"}
AB = {"x1.1": "a.pcap", "x1.2": "b.pcap"}
ROW_1 = one_extender(2, A)
TRACE, JOURNAL = "out-trace.txt", "out-journal.txt"


class Evidence:
    """What a run of a topology was given and wrote, as the tree over links has it, by the names of its files."""

    def __init__(self, topology, captures, seed=None):
        self.topology, self.given = topology, {file: capture(*data) for file, data in captures.items()}
        written, _, _ = run_world(topology.replace("FOLDER/", ""), self.given, seed)
        self.written = written
        self.lines = written[TRACE].decode().splitlines()

    def with_lines(self, lines):
        """The same with other lines of the trace."""
        return {**self.given, **self.written, TRACE: "".join(f"{line}\n" for line in lines).encode()}

    def with_file(self, file, data):
        """The same with another file, or without it."""
        files = {**self.given, **self.written, file: data}
        return {name: data for name, data in files.items() if data is not None}

    def rule(self, files):
        """The lowest rule that the second judge says is broken, or None."""
        given = {file: files[file] for file in self.given}
        return judge_files(self.topology.replace("FOLDER/", ""), given, {file: files[file] for file in self.written})

    def judged(self, cases, name, files, wanted):
        """A case that is judged: legal, or broken by a rule, as the second judge says too."""
        rule = self.rule(files)
        if rule != wanted:
            sys.exit(f"{name}: the second judge says rule {rule}")
        lines = files[TRACE].count(b"\n")
        self.ends(cases, name, files, 11 if rule else 0, f"exbr: trace: rule {rule}" if rule else f"legal {lines}")

    def checked(self, cases, name):
        """A run is legal as it is."""
        self.judged(cases, name, self.with_lines(self.lines), None)

    def ends(self, cases, name, files, status, line):
        """A case that ends with this status and prints this line; it makes no file."""
        cases.put(name, {"topology.toml": self.topology, **files})
        absent = "out-counters.txt"
        cases.end(name, status, "audit FOLDER/topology.toml", [absent if status else f"!{absent}"], line)


def place(lines, front, at=0):
    """The place of a line that begins so: the first, or as many further."""
    return [index for index, line in enumerate(lines) if line.startswith(front)][at]


def without(lines, at):
    return lines[:at] + lines[at + 1:]


def swapped(lines, at):
    return lines[:at] + [lines[at + 1], lines[at]] + lines[at + 2:]


def turned(line):
    """The line with another last digit."""
    return line[:-1] + ("1" if line[-1] == "0" else "0")


def changed(lines, at, line):
    return lines[:at] + [line] + lines[at + 1:]


def of_rows(cases):
    """A run of one frame, as it is and with one change of each kind."""
    run = Evidence(ROW_1, {"a.pcap": [(100, F)]})
    lines = run.lines
    out = place(lines, "out x1 2 ")
    relay, came, left = place(lines, "= relay"), place(lines, "in x1 1 "), place(lines, "out b 1 ", -1)
    run.checked(cases, "audit")
    run.judged(cases, "audit-line-taken-out", run.with_lines(without(lines, out)), 2)
    run.ends(cases, "audit-beat-in-capitals", run.with_lines(["Beat", *lines[1:]]), 12, "exbr: trace line 1")
    run.judged(cases, "audit-line-doubled", run.with_lines(lines[:out + 1] + lines[out:]), 2)
    run.judged(cases, "audit-lines-swapped", run.with_lines(swapped(lines, relay - 1)), run.rule(run.with_lines(swapped(lines, relay - 1))))
    run.judged(cases, "audit-bit-turned", run.with_lines(changed(lines, came, turned(lines[came]))), 2)
    run.judged(cases, "audit-port-changed", run.with_lines(changed(lines, out, lines[out].replace("out x1 2 ", "out x1 1 "))), 2)
    run.judged(cases, "audit-journal-line-taken-out", run.with_lines(without(lines, relay)), 1)
    run.judged(cases, "audit-place-that-is-not-there", run.with_lines(changed(lines, out, lines[out].replace("x1 2", "x1 3"))), 1)
    run.judged(cases, "audit-word-lost-on-a-link", run.with_lines(without(lines, left)), run.rule(run.with_lines(without(lines, left))))
    run.judged(cases, "audit-of-nothing", run.with_lines([]), 1)
    run.judged(cases, "audit-output-without-its-frame", run.with_file("out-x1.2.pcap", HEADER), 4)
    run.judged(cases, "audit-capture-without-its-frame", run.with_file("a.pcap", HEADER), 4)
    moved = [line for line in lines if not line.startswith("= settled")] + [line for line in lines if line.startswith("= settled")]
    run.judged(cases, "audit-journal-lines-moved", run.with_lines(moved), 1)


def of_files(cases):
    """What isn't there or can't be read, and which comes first."""
    run = Evidence(ROW_1, {"a.pcap": [(100, F)]})
    journal, trace = run.written[JOURNAL], run.written[TRACE]
    entries, lines = journal.count(b"\n"), trace.count(b"\n")
    broken = run.written["out-x1.2.pcap"][:-1]
    for name, files, status, line in [
        ("audit-without-a-trace", run.with_file(TRACE, None), 5, "exbr: missing FOLDER/out-trace.txt"),
        ("audit-without-a-journal", run.with_file(JOURNAL, None), 5, "exbr: missing FOLDER/out-journal.txt"),
        ("audit-without-an-output", run.with_file("out-x1.2.pcap", None), 5, "exbr: missing FOLDER/out-x1.2.pcap"),
        ("audit-without-a-capture", run.with_file("a.pcap", None), 5, "exbr: missing FOLDER/a.pcap"),
        ("audit-capture-cut", run.with_file("a.pcap", run.given["a.pcap"][:-1]), 4, "exbr: capture x1.1: Cut at 24"),
        ("audit-output-cut", run.with_file("out-x1.2.pcap", broken), 4, "exbr: out x1.2: Cut at 24"),
        ("audit-output-as-pcapng", run.with_file("out-x1.1.pcap", bytes.fromhex("0A0D0D0A1C000000") + bytes(20)), 4, "exbr: out x1.1: NotPcap at 0"),
        ("audit-journal-without-a-newline", run.with_file(JOURNAL, journal[:-1]), 12, f"exbr: journal line {entries}"),
        ("audit-trace-without-a-newline", run.with_file(TRACE, trace[:-1]), 12, f"exbr: trace line {lines}"),
        ("audit-journal-line-of-nothing", run.with_file(JOURNAL, journal + b"\n"), 12, f"exbr: journal line {entries + 1}"),
        ("audit-journal-line-of-other-words", run.with_file(JOURNAL, b"up x1.1\nup  x1.2\n" + journal), 12, "exbr: journal line 2"),
        ("audit-trace-line-of-an-odd-digit", run.with_file(TRACE, trace + b"in b 1 0\n"), 12, f"exbr: trace line {lines + 1}"),
    ]:
        run.ends(cases, name, files, status, line)
    # The first in the order of reading decides: captures, output files, journal, trace, and then the rules.
    both = run.with_file(JOURNAL, b"up x1.1") | {"out-x1.2.pcap": broken}
    run.ends(cases, "audit-output-before-journal", both, 4, "exbr: out x1.2: Cut at 24")
    run.ends(cases, "audit-journal-before-trace", run.with_file(JOURNAL, b"up x1.1") | {TRACE: b"Beat"}, 12, "exbr: journal line 1")
    run.ends(cases, "audit-line-before-rule", run.with_file(TRACE, b"beat\nBeat\n"), 12, "exbr: trace line 2")


def of_runs(cases):
    """Runs with fates of every kind, in a drawn order, with commands, and over a journal that doesn't match: what is legal is so."""
    member = "1 member vid = 10, port = 'x1.2', kind = 'untagged', fate = 'LDTLD'"
    tagged_ten = "vlan = [{ vid = 10, tagged = ['x1.1-2'] }]\n"
    hostile = with_fate("LTDLDTLLDT", one_extender(2, A, more=tagged_ten + commands(member)))
    Evidence(hostile, {"a.pcap": [(100, tagged(10)), (102, tagged(10))]}).checked(cases, "audit-of-hostile-fates")
    drawn = one_extender(3, AB)
    played = {"a.pcap": [(100, F)] * 5, "b.pcap": [(100, frame(ONE, TWO))] * 5}
    Evidence(drawn, played, 7).checked(cases, "audit-of-a-seed")
    deep = tree([(1, "b1", 3), (2, "x1.3", 3), (3, "x2.3", 2)], {"x1.1": "a.pcap"}, "ports = 2", "")
    Evidence(deep, {"a.pcap": [(100, F), (101, F)]}).checked(cases, "audit-of-three-levels")


PARTS = (of_rows, of_files, of_runs)
