#!/usr/bin/env python3
"""Writes the folder data/ and the file stdout of this crate: topologies, captures, and what a run of each must answer and write; and the
folder nets/ (net_cases.py), of nets of several bridges.

The expected files come from what is said here of each case, which frames leave which port and when, and never from exbr. Beside
them stand a plain bridge (bridge.py), which has to come to the same in each case that is played to its end, and which alone says
what comes of the cases that are too long to be told; and the tree over links (world/), which has to come to the same again,
whatever its links lose, and which alone says what its trace is and in which order a seed plays. Run it in any folder:
`crates/exb_cases/cases.py` (Python 3.11 or later).
"""
import argparse
import os
import shutil
import struct
import sys

sys.dont_write_bytecode = True
HERE = os.path.dirname(os.path.abspath(__file__))
sys.path.insert(0, HERE)
import audits
import bridge
import campuses
import changes
import examples
import exchanges
import fates
import generated
import net_cases
import outcomes
import pcapng
import seeds
import stepped
import trees
import words
from frames import *
from world.judge import judge_files
from world.schedule import is_in_order, run as run_world

DATA = os.path.join(HERE, "data")


def agree_with_world(name, topology, files, seed=None):
    """What a run writes and prints, its trace and its counters among it. The tree over links and the plain bridge have to come to the
    same, and the trace and the order of events have to keep to their rules. Without a seed each event is played by itself."""
    written, line, world = run_world(topology, files, seed)
    plainly, summed = bridge.run(topology, files, None if seed is None else world.journal)
    trace = next(file for file in written if file.endswith("trace.txt"))
    counters = next(file for file in plainly if file.endswith("counters.txt"))
    if ({file: data for file, data in written.items() if file != trace}, line) != ({file: data for file, data in plainly.items() if file != counters}, summed):
        sys.exit(f"{name}: the tree over links and the plain bridge come to different files")
    if not is_in_order(world, topology, files, seed):
        sys.exit(f"{name}: the journal of the tree over links isn't in order")
    rule = judge_files(topology, files, written)
    if rule:
        sys.exit(f"{name}: the trace of the tree over links breaks rule {rule}")
    return written | {counters: plainly[counters]}, line

class Cases:
    """The lines of the list and of what is printed."""

    def __init__(self):
        shutil.rmtree(DATA, ignore_errors=True)
        os.makedirs(DATA)
        self.lines, self.printed = [], []

    def put(self, name, files):
        """Puts files into the folder of a case."""
        for file, data in files.items():
            path = os.path.join(DATA, name, file)
            os.makedirs(os.path.dirname(path), exist_ok=True)
            if isinstance(data, str):
                data = data.replace("FOLDER", name).encode()
            with open(path, "wb") as out:
                out.write(data)

    def end(self, name, status, words, files, line):
        """What the case is told, must answer, write and print."""
        self.lines.append(f"{name} {status} {words.replace('FOLDER', name)} : {' '.join(files)}".rstrip())
        how = f"0, {len(files)} files as expected" if status == 0 else f"{status}, none of {len(files)} files is there"
        self.printed += [line.replace("FOLDER", name), f"{name}: {how}"]

    def runs(self, name, topology, captures, expected, line, before=None, options=""):
        """A case that is played to its end. Frames of an expected capture are given as records. A port without frames has no capture here,
        and a trace isn't told."""
        written, printed = self.plays(name, topology, captures, before, options)
        whole = {file: capture(*data) if isinstance(data, list) else data for file, data in expected.items()}
        silent = {file: data if file.endswith(("trace.txt", "counters.txt")) else HEADER for file, data in written.items() if not file.endswith("journal.txt")}
        for file, data in (silent | whole).items():
            if written.get(file) != data:
                sys.exit(f"{name}: the plain bridge comes to another {file}: {written.get(file)} {data}")
        if printed != line:
            sys.exit(f"{name}: the plain bridge comes to {printed}")

    def plays(self, name, topology, captures, before=None, options="", seed=None, file="topology.toml"):
        """A case that is played to its end, of which the plain bridge alone says what comes of it, and the tree over links what its trace is.
        Further words of the run, as `--trace`, stand in `options`, or all of its words."""
        given = {file: capture(*data) if isinstance(data, list) else data for file, data in captures.items()}
        files = {f"{name}/{file}": data for file, data in given.items()}
        topology = topology.replace("FOLDER", name)
        written, line = agree_with_world(name, topology, files, seed)
        written = {file.removeprefix(f"{name}/"): data for file, data in written.items()}
        absent = [next(file for file in written if file.endswith(f"{kind}.txt")) for kind in ("counters", "trace") if f"--{kind}" not in options]
        for output in absent:
            del written[output]
        self.put(name, {file: topology, **given, **(before or {})})
        self.put(name, {f"expected/{file}": data for file, data in written.items()})
        words = options if "run" in options else f"run FOLDER/{file} {options}".rstrip()
        self.end(name, 0, words, sorted(written) + [f"!{output}" for output in absent], line)
        return written, line

    def stops(self, name, status, topology, captures, line, words="run FOLDER/topology.toml"):
        """A case that makes no file."""
        self.put(name, {"topology.toml": topology, **captures})
        self.end(name, status, words, ["out-counters.txt", "out-journal.txt", "out-trace.txt", "out-x1.1.pcap", "out-x1.2.pcap"], line)

    def prints(self, name, words, lines, topology=""):
        """A case that prints lines and makes no file."""
        self.put(name, {"topology.toml": topology})
        self.end(name, 0, words, ["!out-journal.txt", "!out-x1.1.pcap"], "\n".join(lines))

    def write(self):
        with open(os.path.join(DATA, "cases.txt"), "w", encoding="utf-8") as out:
            out.write("".join(f"{line}\n" for line in self.lines))
        with open(os.path.join(HERE, "stdout"), "w", encoding="utf-8") as out:
            out.write("".join(f"{line}\n" for line in self.printed))


A = {"x1.1": "a.pcap"}
AB = {"x1.1": "a.pcap", "x1.2": "b.pcap"}
TWO_PORTS = one_extender(2, A)


def frames(cases):
    """Frames of every kind through one extender of two ports."""
    one = {"out-x1.1.pcap": [], "out-x1.2.pcap": [(100, F)], "out-journal.txt": journal(*UP, *relays("x1.1 1"))}
    cases.runs("broadcast", TWO_PORTS, {"a.pcap": [(100, F)]}, one, summary(1, 1, 0, 1))
    cases.runs("no-frame", TWO_PORTS, {"a.pcap": []},
               {"out-x1.1.pcap": [], "out-x1.2.pcap": [], "out-journal.txt": journal(*UP)}, summary(0, 0, 0, 0))
    # Files that are there before are longer than what is written, and are replaced.
    cases.runs("files-before", TWO_PORTS, {"a.pcap": [(100, F)]}, one, summary(1, 1, 0, 1),
               {file: b"before" * 50 for file in one})
    short, shortest, longest, long = [frame(size=size) for size in (13, 14, 9216, 9217)]
    cases.runs("lengths", TWO_PORTS, {"a.pcap": [(100, it) for it in (short, shortest, longest, long)]},
               {"out-x1.1.pcap": [], "out-x1.2.pcap": [(100, shortest), (100, longest)],
                "out-journal.txt": journal(*UP, "ignore x1.1 1", "settled", *relays("x1.1 2", "x1.1 3"), "ignore x1.1 4", "settled")},
               summary(4, 2, 2, 2))
    # More than one piece of 65,536 bytes is read and written.
    many = [(100 + at / 10, frame(size=9216, rest=PLAIN + bytes([at]))) for at in range(8)]
    cases.runs("long-files", TWO_PORTS, {"a.pcap": many},
               {"out-x1.1.pcap": [], "out-x1.2.pcap": many,
                "out-journal.txt": journal(*UP, *relays(*[f"x1.1 {at}" for at in range(1, 9)]))}, summary(8, 8, 0, 8))
    lldp = bytes.fromhex("0180C200000E 024542010001 88CC 02070402454201000104030775700602 0078FE0502454201020000")
    cases.runs("announcement", TWO_PORTS, {"a.pcap": [(100, lldp)]},
               {"out-x1.1.pcap": [], "out-x1.2.pcap": [], "out-journal.txt": journal(*UP, "ignore x1.1 1", "settled")},
               summary(1, 0, 1, 0))
    etags = [frame(rest=b"\x89\x3f"), frame(rest=bytes.fromhex("893F000010000000"))]
    cases.runs("e-tag-of-a-station", TWO_PORTS, {"a.pcap": [(100, it) for it in etags]},
               {"out-x1.1.pcap": [], "out-x1.2.pcap": [(100, it) for it in etags],
                "out-journal.txt": journal(*UP, *relays("x1.1 1", "x1.1 2"))}, summary(2, 2, 0, 2))
    tags = [tagged(0xFFF), tagged(0), tagged(1, size=17)]
    cases.runs("tagged-only", one_extender(2, A, more="port = [{ name = 'x1.1', accept = 'tagged' }]\n"),
               {"a.pcap": [(100, it) for it in tags]},
               {"out-x1.1.pcap": [], "out-x1.2.pcap": [],
                "out-journal.txt": journal(*UP, *relays("x1.1 1", "x1.1 2", "x1.1 3"))}, summary(3, 3, 0, 0))


def vlans(cases):
    """VLANs, learning, and local ports."""
    sent = tagged(10, high=0xB)
    cases.runs("tagged-and-untagged", one_extender(3, A, more="vlan = [{ vid = 10, tagged = ['x1.1-2'], untagged = ['x1.3'] }]\n"),
               {"a.pcap": [(100, sent)]},
               {"out-x1.1.pcap": [], "out-x1.2.pcap": [(100, sent)], "out-x1.3.pcap": [(100, F)],
                "out-journal.txt": journal(*UP3, *relays("x1.1 1"))}, summary(1, 1, 0, 2))
    back = frame(ONE, TWO)
    cases.runs("station-of-its-own-port", TWO_PORTS, {"a.pcap": [(100, F), (100, back)]},
               {"out-x1.1.pcap": [], "out-x1.2.pcap": [(100, F)], "out-journal.txt": journal(*UP, *relays("x1.1 1", "x1.1 2"))},
               summary(2, 2, 0, 1))
    itself = frame(ONE, ONE)
    cases.runs("address-of-itself", TWO_PORTS, {"a.pcap": [(100, itself), (100, itself)]},
               {"out-x1.1.pcap": [], "out-x1.2.pcap": [(100, itself)], "out-journal.txt": journal(*UP, *relays("x1.1 1", "x1.1 2"))},
               summary(2, 2, 0, 1))
    cases.runs("ageing", one_extender(3, AB, bridge="ports = 1, ageing = 10"),
               {"a.pcap": [(100, F)], "b.pcap": [(109, back), (110, back)]},
               {"out-x1.1.pcap": [(109, back), (110, back)], "out-x1.2.pcap": [(100, F)], "out-x1.3.pcap": [(100, F), (110, back)],
                "out-journal.txt": journal(*UP3, *relays("x1.1 1"), "tick 9", *relays("x1.2 1"), "tick 1", *relays("x1.2 2"))},
               summary(3, 3, 0, 5))
    local = ("bridge = { ports = 3, out = 'FOLDER/out-' }\nextender = [{ number = 7, on = 'b2', ports = 2 }]\n"
             "captures = { b1 = 'FOLDER/a.pcap', 'x7.2' = 'FOLDER/b.pcap' }\n")
    control = frame(bytes.fromhex("0180C200000F"))
    cases.runs("local-ports", local, {"a.pcap": [(100, F), (102, control)], "b.pcap": [(101, back)]},
               {"out-b1.pcap": [(101, back)], "out-b3.pcap": [(100, F)], "out-x7.1.pcap": [(100, F)], "out-x7.2.pcap": [(100, F)],
                "out-journal.txt": journal("up x7.1", "up x7.2", "settled", *relays("b1 1"), "tick 1", *relays("x7.2 1"),
                                           "tick 1", "ignore b1 2", "settled")}, summary(3, 2, 1, 4))
    rules = ("port = [{ name = 'x1.1', pvid = 20 }, { name = 'b2', filter = true }]\n"
             "vlan = [{ vid = 20, tagged = ['b2'] }, { vid = 30, untagged = ['x1.2'] }]\n")
    other = tagged(30, source=TWO)
    # b2 filters what is not of its VLANs; x1.1 doesn't, so its frame of VLAN 30 passes.
    cases.runs("vlan-of-the-port", one_extender(2, {"b2": "b.pcap", "x1.1": "a.pcap"}, bridge="ports = 2", more=rules),
               {"a.pcap": [(100, F), (100, other)], "b.pcap": [(100, other)]},
               {"out-b2.pcap": [(100, tagged(20))], "out-x1.1.pcap": [], "out-x1.2.pcap": [(100, frame(source=TWO))],
                "out-journal.txt": journal(*UP, *relays("b2 1", "x1.1 1", "x1.1 2"))}, summary(3, 3, 0, 2))
    forty = one_extender(3, A, more="vlan = [{ vid = 20, last = 59, tagged = ['x1.1', 'x1.3'] }, { vid = 1, untagged = ['*'] }]\n")
    cases.runs("forty-vlans", forty, {"a.pcap": [(100, tagged(59)), (100, tagged(60))]},
               {"out-x1.1.pcap": [], "out-x1.2.pcap": [], "out-x1.3.pcap": [(100, tagged(59))],
                "out-journal.txt": journal(*UP3, *relays("x1.1 1", "x1.1 2"))}, summary(2, 2, 0, 1))


def counters(cases):
    """Counters: each of the five numbers by itself, in port order."""
    cases.runs("counters", TWO_PORTS, {"a.pcap": [(100, F)]},
               {"out-x1.1.pcap": [], "out-x1.2.pcap": [(100, F)], "out-journal.txt": journal(*UP, *relays("x1.1 1")),
                "out-counters.txt": b"x1.1 relayed 1 dropped 0 ignored 0 left 0 octets 0\nx1.2 relayed 0 dropped 0 ignored 0 left 1 octets 60\n"},
               summary(1, 1, 0, 1), options="--counters")
    # A file that was there is replaced, and a port at which nothing happens has its line.
    cases.runs("counters-of-nothing", one_extender(3, A, bridge="ports = 2"), {"a.pcap": []},
               {"out-journal.txt": journal(*UP3),
                "out-counters.txt": "".join(f"{port} relayed 0 dropped 0 ignored 0 left 0 octets 0\n" for port in ("b2", "x1.1", "x1.2", "x1.3")).encode()},
               summary(0, 0, 0, 0), {"out-counters.txt": b"before" * 99}, options="--counters")
    # x1.2 takes tagged frames alone, and b2 those of its VLANs: three and one are dropped. A frame that is too short is ignored. What
    # leaves b2 has a tag, so it has four bytes more.
    rules = ("port = [{ name = 'x1.2', accept = 'tagged' }, { name = 'b2', filter = true }]\n"
             "vlan = [{ vid = 1, tagged = ['b2'], untagged = ['x1.*'] }]\n")
    other = frame(source=TWO)
    cases.runs("counters-of-drops", one_extender(2, {"b2": "c.pcap", "x1.1": "a.pcap", "x1.2": "b.pcap"}, bridge="ports = 2", more=rules),
               {"a.pcap": [(100, F), (100, frame(size=13))], "b.pcap": [(101, other)] * 3, "c.pcap": [(102, tagged(7, source=TWO))]},
               {"out-b2.pcap": [(100, tagged(1))], "out-x1.1.pcap": [], "out-x1.2.pcap": [(100, F)],
                "out-journal.txt": journal(*UP, *relays("x1.1 1"), "ignore x1.1 2", "settled", "tick 1", *relays("x1.2 1", "x1.2 2", "x1.2 3"), "tick 1",
                                           *relays("b2 1")),
                "out-counters.txt": b"b2 relayed 1 dropped 1 ignored 0 left 1 octets 64\nx1.1 relayed 1 dropped 0 ignored 1 left 0 octets 0\n"
                                    b"x1.2 relayed 3 dropped 3 ignored 0 left 1 octets 60\n"},
               summary(6, 5, 1, 2), options="--counters")
    # With a trace beside them, and in a drawn order.
    cases.plays("counters-and-trace", TWO_PORTS, {"a.pcap": [(100, F)]}, options="--trace --counters")
    cases.plays("counters-of-a-seed", one_extender(3, AB), {"a.pcap": [(100, F)] * 5, "b.pcap": [(100, frame(ONE, TWO))] * 5}, options="--counters --seed 7", seed=7)


def files(cases):
    """Captures and names of files."""
    later = frame(rest=b"\x08\x01")
    cases.runs("falling-time", TWO_PORTS, {"a.pcap": [(100, F), (99, later)]},
               {"out-x1.1.pcap": [], "out-x1.2.pcap": [(100, F), (100, later)],
                "out-journal.txt": journal(*UP, *relays("x1.1 1", "x1.1 2"))}, summary(2, 2, 0, 2))
    # By moment, and then by port. The record at 101 s that stands behind one at 102 s comes at 102 s.
    first = [(102, frame(rest=b"\x08\x01")), (101, frame(rest=b"\x08\x02")), (105, frame(rest=b"\x08\x03"))]
    second = [(101, frame(rest=b"\x08\x04")), (102, frame(rest=b"\x08\x05")), (104, frame(rest=b"\x08\x06"))]
    raised = [first[0], (102, first[1][1]), first[2]]
    cases.runs("order-in-time", one_extender(3, {"x1.1": "a.pcap", "x1.2": "b.pcap", "x1.3": "c.pcap"}),
               {"a.pcap": first, "b.pcap": second, "c.pcap": []},
               {"out-x1.1.pcap": second, "out-x1.2.pcap": raised,
                "out-x1.3.pcap": [second[0], raised[0], raised[1], second[1], second[2], raised[2]],
                "out-journal.txt": journal(*UP3, *relays("x1.2 1"), "tick 1", *relays("x1.1 1", "x1.1 2", "x1.2 2"), "tick 2",
                                           *relays("x1.2 3"), "tick 1", *relays("x1.1 3"))}, summary(6, 6, 0, 12))
    nanoseconds = struct.pack(">IHHIIII", 0xA1B23C4D, 2, 4, 0, 0, 65535, 1) + struct.pack(">IIII", 100, 999, 60, 60) + F
    cases.runs("nanoseconds", TWO_PORTS, {"a.pcap": nanoseconds},
               {"out-x1.1.pcap": [], "out-x1.2.pcap": [(100, F)], "out-journal.txt": journal(*UP, *relays("x1.1 1"))},
               summary(1, 1, 0, 1))
    seven = ("[bridge]\nports = 1\nout = 'FOLDER/run-'\n[[extender]]\nnumber = 7\non = 'b1'\nports = 3\n"
             "[captures]\n'x7.2' = 'FOLDER/b.pcap'\n'x7.1' = 'FOLDER/a.pcap'\n")
    cases.runs("extender-7", seven, {"a.pcap": [(100, F)], "b.pcap": [(103, later)]},
               {"run-x7.1.pcap": [(103, later)], "run-x7.2.pcap": [(100, F)], "run-x7.3.pcap": [(100, F), (103, later)],
                "run-journal.txt": journal("up x7.1", "up x7.2", "up x7.3", "settled", *relays("x7.1 1"), "tick 3", *relays("x7.2 1"))},
               summary(2, 2, 0, 4))
    cases.runs("one-capture-for-two-ports", one_extender(2, {"x1.1": "a.pcap", "x1.2": "a.pcap"}), {"a.pcap": [(100, F)]},
               {"out-x1.1.pcap": [(100, F)], "out-x1.2.pcap": [(100, F)], "out-journal.txt": journal(*UP, *relays("x1.1 1", "x1.2 1"))},
               summary(2, 2, 0, 2))
    opening = {"out-x1.1.pcap": [], "out-x1.2.pcap": [], "out-journal.txt": journal(*UP)}
    said = one_extender(2, A, bridge="ports = 1, channels = 4094, groups = 12288",
                        more="vlan = [{ vid = 1, untagged = ['*'] }]\nport = [{ name = 'x1.1', isolated = false }]\n"
                             "links = { fate = '' }\nstatic = []\ncommand = []\n")
    cases.runs("defaults-that-are-said", said, {"a.pcap": []}, opening, summary(0, 0, 0, 0))


def faults(cases):
    """Runs that make no file: topologies and captures with a fault."""
    two = "bridge = {{ ports = 1, out = 'FOLDER/out-' }}\nextender = [{{ number = 1, on = '{}', ports = 1 }}, {{ number = 2, on = '{}', ports = 1 }}]\n"
    for name, topology, fault in [("not-toml", "nothing of the kind", "NotToml"), ("empty-topology", "", "Missing at bridge"),
                                  ("shared-port", two.format("b1", "b1"), "SharedPort at extender[1].on"),
                                  ("loop", two.format("x2.1", "x1.1"), "Loop at extender[0].on"),
                                  ("vlan-0", "bridge = { ports = 1 }\nvlan = [{ vid = 0 }]\n", "Range at vlan[0].vid")]:
        cases.stops(name, 3, topology, {}, f"exbr: topology: {fault}")
    whole = bytearray(capture((100, F)))
    for name, place, byte, size, fault in [("empty-capture", 0, 0xD4, 0, "NotPcap at 0"), ("capture-of-3-bytes", 0, 0xD4, 3, "NotPcap at 0"),
                                           ("another-magic", 0, 0x0A, 100, "NotPcap at 0"), ("cut-header", 0, 0xD4, 23, "Cut at 0"),
                                           ("version-3", 4, 3, 100, "Version at 4"), ("link-type-2", 20, 2, 100, "LinkType at 20"),
                                           ("cut-record-header", 0, 0xD4, 25, "Cut at 24"), ("a-million-microseconds", 31, 1, 100, "Time at 28"),
                                           ("record-too-long", 35, 0xFF, 100, "Length at 32"), ("cut-frame", 0, 0xD4, 99, "Cut at 24")]:
        file = bytearray(whole)
        file[place] = byte
        cases.stops(name, 4, TWO_PORTS, {"a.pcap": bytes(file[:size])}, f"exbr: capture x1.1: {fault}")
    cases.stops("topology-as-capture", 4, one_extender(2, {"x1.2": "topology.toml"}), {}, "exbr: capture x1.2: NotPcap at 0")
    # The first capture in port order with a fault decides, in whatever order the file has them.
    both = one_extender(2, {"x1.2": "b.pcap", "x1.1": "a.pcap"})
    cases.stops("first-missing", 5, both, {"b.pcap": HEADER[:20]}, "exbr: missing FOLDER/a.pcap")
    cases.stops("first-broken", 4, both, {"a.pcap": HEADER[:3]}, "exbr: capture x1.1: NotPcap at 0")
    cases.stops("second-broken", 4, both, {"a.pcap": HEADER, "b.pcap": HEADER[:20]}, "exbr: capture x1.2: Cut at 0")
    cases.stops("no-topology", 5, "", {}, "exbr: missing FOLDER/other.toml", "run FOLDER/other.toml")


def outputs_that_are_read(cases):
    """What is read is never made: a capture or the topology that the first output's name leads to, by itself, by a dot or through another
    folder. It stays as it was, and no file is made."""
    files = ["out-x1.2.pcap", "out-journal.txt"]
    for name, spelled in [("capture-is-an-output-by-a-dot", "./out-x1.1.pcap"),
                          ("capture-is-an-output-by-a-folder", "../FOLDER/out-x1.1.pcap")]:
        cases.put(name, {"topology.toml": one_extender(2, {"x1.2": spelled}), "out-x1.1.pcap": capture((100, F))})
        cases.end(name, 7, "run FOLDER/topology.toml", files, "exbr: write fault")
    name = "topology-is-an-output"
    cases.put(name, {"out-x1.1.pcap": one_extender(2, {})})
    cases.end(name, 7, "run FOLDER/out-x1.1.pcap", files, "exbr: write fault")
    name = "topology-is-an-output-by-a-folder"
    cases.put(name, {"out-x1.1.pcap": one_extender(2, {}).replace("'FOLDER/out-", "'FOLDER/../FOLDER/out-")})
    cases.end(name, 7, "run FOLDER/out-x1.1.pcap", files, "exbr: write fault")


def main():
    argparse.ArgumentParser(description=__doc__, formatter_class=argparse.RawDescriptionHelpFormatter).parse_args()
    print(f"the plain bridge comes to the {outcomes.agree()} rows of outcomes.py")
    print(f"{exchanges.agree()} rows of exchanges.py and {stepped.agree()} cases of exb_schedule_tests come to the same over links")
    cases = Cases()
    for part in (examples.play, frames, vlans, counters, files, *trees.PARTS, *changes.PARTS, *generated.PARTS, *fates.PARTS, *seeds.PARTS,
                 *words.PARTS, *pcapng.PARTS, *audits.PARTS, faults, outputs_that_are_read):
        part(cases)
    cases.write()
    campuses.make()
    print(f"{net_cases.make()} cases of nets")


if __name__ == "__main__":
    main()
