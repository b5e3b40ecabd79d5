"""Cases of nets: writes the folder nets/ of this crate, a folder a case with what is read and `expected`, and its list.

A line of `nets/cases.txt` has the name of a case, which is its folder's, the status, the words that the program is given in that
folder, why the case is there, and the line that it prints. At status 0 exactly the files of `expected` are written, and otherwise
none is made or changed.

What comes of a case is told here, at least in part; what the plain net (nets.py) comes to must be the same, and it says the rest. A
fault is told here, and the second reader (net_faults.py) has to find the same one.
"""
import os
import shutil
import sys

import bridge
import net_faults
import nets
from examples import write
from frames import F, HEADER, ONE, TWO, block_capture, capture, commands, commits, frame, journal, relays, summary, tagged
from words import USAGE

FOLDER = os.path.join(os.path.dirname(os.path.abspath(__file__)), "nets")
BACK = frame(ONE, TWO)


def net(bridges, *wires):
    """The file of a net: bridges, each by its name alone or with its topology's, and the ends of wires."""
    tables = [it if isinstance(it, tuple) else (it, f"{it}.toml") for it in (bridges.split() if isinstance(bridges, str) else bridges)]
    text = "".join(f'[[bridge]]\nname = "{name}"\ntopology = "{file}"\n' for name, file in tables)
    return text + "".join('[[wire]]\na = "{}"\nb = "{}"\n'.format(*it.split(" - ")) for it in wires)


def leaf(captures="", more="", ports=2):
    """A bridge with an extender of one port on b1, and captures."""
    named = ", ".join(f"'{port}' = '{file}'" for port, file in (it.split("=") for it in captures.split()))
    return f"bridge = {{ ports = {ports} }}\nextender = [{{ number = 1, on = 'b1', ports = 1 }}]\n{more}captures = {{ {named} }}\n"


def plain(ports, captures="", more="", out=""):
    """A bridge without extenders."""
    named = ", ".join(f"'{port}' = '{file}'" for port, file in (it.split("=") for it in captures.split()))
    return f"bridge = {{ ports = {ports}{out} }}\n{more}captures = {{ {named} }}\n"


PAIR = net("a b", "a:b2 - b:b2")
UP = ["up x1.1", "settled"]


class Cases:
    """The lines of the list."""

    def __init__(self):
        shutil.rmtree(FOLDER, ignore_errors=True)
        self.lines, self.names = [], set()

    def put(self, name, why, words, status, line, files, expected=None):
        if name in self.names or any("|" in it for it in (name, words, why)):
            sys.exit(f"net case {name}: its name is there, or a word has a bar")
        self.names.add(name)
        for file, data in files.items():
            write(os.path.join(FOLDER, name), file, data if isinstance(data, bytes) else data.encode())
        for file, data in (expected or {}).items():
            write(os.path.join(FOLDER, name, "expected"), file, data)
        self.lines.append(f"{name} | {status} | {words} | {why} | {line}\n")

    def plays(self, name, why, text, files, told, line, words="net net.toml", before=None):
        """A net that is played to its end. Files of `told` are so; a list is the records of a capture."""
        given = {file: capture(*data) if isinstance(data, list) else data for file, data in files.items()}
        found, summed = nets.run(text, {file: data.encode() if isinstance(data, str) else data for file, data in given.items()})
        wanted = {file: data for file, data in found.items() if "--counters" in words or not file.endswith("counters.txt")}
        for file, data in told.items():
            data = capture(*data) if isinstance(data, list) else data
            if wanted.get(file) != data:
                sys.exit(f"net case {name}: the plain net comes to another {file}: {wanted.get(file)}, where {data} is told")
        if summed != line:
            sys.exit(f"net case {name}: the plain net comes to {summed}")
        self.put(name, why, words, 0, line, {words.split()[-1]: text, **given, **(before or {})}, wanted)

    def stops(self, name, why, status, line, text, files=None, words="net net.toml", flaws=(), read=None):
        """A net that is refused: nothing is made or changed. `read` is what the second reader says, where that isn't so."""
        given = {file: capture(*data) if isinstance(data, list) else data for file, data in (files or {}).items()}
        if text is not None:
            given["net.toml"] = text
        data = {file: it.encode() if isinstance(it, str) else it for file, it in given.items()}
        found = net_faults.fault_of(words.split()[-1], data, flaws) if status in (3, 4, 5) else (status, line)
        if found != (status, line):
            sys.exit(f"net case {name}: the second reader finds {found}, where {line} is told")
        self.put(name, why, words, status, line, given)

    def write(self):
        with open(os.path.join(FOLDER, "cases.txt"), "w", encoding="utf-8") as out:
            out.writelines(self.lines)


# ---- nets that are played


def crossings(cases):
    """Frames over one wire."""
    two = {"a.toml": leaf("x1.1=a.pcap"), "a.pcap": [(100, F)], "b.toml": leaf()}
    cases.plays("a-frame-crosses", "a frame to all leaves the wired port, and arrives at the far end", PAIR, two,
                {"a-b2.pcap": [(100, F)], "b-x1.1.pcap": [(100, F)], "a-x1.1.pcap": [], "b-b2.pcap": [],
                 "a-journal.txt": journal(*UP, *relays("x1.1 1")), "b-journal.txt": journal(*UP, *relays("b2 1"))}, summary(2, 2, 0, 2))
    back = two | {"b.toml": leaf("x1.1=b.pcap"), "b.pcap": [(101, BACK)]}
    cases.plays("an-answer-goes-back", "both bridges have heard the first station, so the answer goes to it alone; both clocks go on", PAIR, back,
                {"b-b2.pcap": [(101, BACK)], "a-x1.1.pcap": [(101, BACK)], "a-b2.pcap": [(100, F)], "b-x1.1.pcap": [(100, F)],
                 "a-journal.txt": journal(*UP, *relays("x1.1 1"), "tick 1", *relays("b2 1")),
                 "b-journal.txt": journal(*UP, *relays("b2 1"), "tick 1", *relays("x1.1 1"))}, summary(4, 4, 0, 4))
    counted = {"a-counters.txt": b"b2 relayed 1 dropped 0 ignored 0 left 1 octets 60\nx1.1 relayed 1 dropped 0 ignored 0 left 1 octets 60\n",
               "b-counters.txt": b"b2 relayed 1 dropped 0 ignored 0 left 1 octets 60\nx1.1 relayed 1 dropped 0 ignored 0 left 1 octets 60\n"}
    for name, words in (("counters", "net --counters net.toml"), ("counters-behind-the-file", "net -- net.toml"), ("dashes-and-counters", "net --counters -- net.toml")):
        told = counted if "--counters" in words else {}
        cases.plays(name, "each bridge has a file of counters" if told else "a word behind the dashes is the file", PAIR, back, told, summary(4, 4, 0, 4), words)
    cases.plays("a-file-with-a-dash", "behind the dashes a name may begin with one", PAIR, two, {"a-b2.pcap": [(100, F)]}, summary(2, 2, 0, 2), "net -- -net")
    cases.plays("files-before", "outputs that are there are replaced whole, and other files stay", PAIR, two, {"a-b2.pcap": [(100, F)]}, summary(2, 2, 0, 2),
                before={"a-b2.pcap": b"before" * 100, "b-journal.txt": b"before" * 100, "a-counters.txt": b"stays", "out-b2.pcap": b"stays"})
    moments = [(100, F), (99.5, F), (100.000001, F)]
    cases.plays("moments", "a moment that falls is raised, and goes over the wire so", PAIR, two | {"a.pcap": moments},
                {"a-b2.pcap": [(100, F), (100, F), (100.000001, F)], "b-x1.1.pcap": [(100, F), (100, F), (100.000001, F)]}, summary(6, 6, 0, 6))
    cases.plays("pcapng", "a capture in the other format", PAIR, two | {"a.pcap": block_capture((100, F))}, {"b-x1.1.pcap": [(100, F)]}, summary(2, 2, 0, 2))
    cases.plays("no-frame", "openings alone", PAIR, {"a.toml": leaf("x1.1=a.pcap"), "a.pcap": HEADER, "b.toml": leaf()},
                {"a-journal.txt": journal(*UP), "b-journal.txt": journal(*UP)}, summary(0, 0, 0, 0))
    cases.plays("lossy-links", "control words of one bridge are lost, repeated and late: nothing of that is seen at ports", PAIR,
                two | {"a.toml": leaf("x1.1=a.pcap", "links = { fate = 'LTDPLLTD' }\n")}, {"b-x1.1.pcap": [(100, F)]}, summary(2, 2, 0, 2))


def wires(cases):
    """Where wires may be, and what may come at their far end."""
    tree = "bridge = { ports = 1 }\nextender = [{ number = 1, on = 'b1', ports = 2 }, { number = 9, on = 'x1.2', ports = 2 }]\n"
    cases.plays("wires-at-extenders", "a wire between ports of extenders, one of them below another", net("a b", "a:x9.2 - b:x1.1"),
                {"a.toml": tree + "captures = { 'x1.1' = 'a.pcap' }\n", "a.pcap": [(100, F)], "b.toml": leaf()},
                {"a-x9.1.pcap": [(100, F)], "a-x9.2.pcap": [(100, F)], "b-b2.pcap": [(100, F)],
                 "b-journal.txt": journal(*UP, *relays("x1.1 1"))}, summary(2, 2, 0, 3))
    long = frame(size=9216)
    trunk = "vlan = [{ vid = 1, untagged = ['b1'], tagged = ['b2'] }]\n"
    cases.plays("too-long-with-its-tag", "a frame of 9,216 bytes leaves with a tag of 4, and the far end ignores it",
                PAIR, {"a.toml": plain(2, "b1=a.pcap", trunk), "b.toml": plain(2, "", trunk), "a.pcap": [(100, long)]},
                {"a-b2.pcap": [(100, long[:12] + b"\x81\x00\x00\x01" + long[12:])], "b-b1.pcap": [], "b-journal.txt": b"settled\nignore b2 1\nsettled\n"},
                summary(2, 1, 1, 1))
    cases.plays("a-port-that-is-down", "what arrives at a wired port that is down is ignored, by its next number, and then relayed again", PAIR,
                {"a.toml": plain(2, "b1=a.pcap"), "b.toml": plain(2, "", commands("1 down port='b2'", "2 up port='b2'")),
                 "a.pcap": [(100, F), (101, F), (102, F)]},
                {"b-b1.pcap": [(100, F), (102, F)],
                 "b-journal.txt": journal("settled", *relays("b2 1"), "tick 1", *commits(1), "ignore b2 2", "settled", "tick 1", *commits(2), *relays("b2 3"))},
                summary(6, 5, 1, 5, 2))
    cases.plays("a-vlan-of-one-side", "a tagged frame of a VLAN that the far end doesn't know: counted as dropped at its end of the wire",
                PAIR, {"a.toml": plain(2, "b1=a.pcap", "vlan = [{ vid = 7, tagged = ['*'] }]\n"), "b.toml": plain(2), "a.pcap": [(100, tagged(7))]},
                {"a-b2.pcap": [(100, tagged(7))], "b-b1.pcap": [], "b-journal.txt": journal("settled", *relays("b2 1")),
                 "b-counters.txt": b"b1 relayed 0 dropped 0 ignored 0 left 0 octets 0\nb2 relayed 1 dropped 1 ignored 0 left 0 octets 0\n"},
                summary(2, 2, 0, 1), "net --counters net.toml")
    cases.plays("retagged-on-the-way", "a wire between a tagged member of VLAN 7 and an untagged one of VLAN 8 joins the two",
                PAIR, {"a.toml": plain(2, "b1=a.pcap", "vlan = [{ vid = 7, tagged = ['b1'], untagged = ['b2'] }]\n"),
                       "b.toml": plain(2, "", "port = [{ name = 'b2', pvid = 8 }]\nvlan = [{ vid = 8, tagged = ['b1'], untagged = ['b2'] }]\n"),
                       "a.pcap": [(100, tagged(7, 10))]},
                {"b-b1.pcap": [(100, frame(rest=b"\x81\x00\x00\x08\x08\x00", size=64))]}, summary(2, 2, 0, 2))
    star = net("c a b d", "a:b2 - c:b1", "c:b2 - b:b2", "d:b2 - c:b3")
    cases.plays("a-star", "a frame comes from one arm, and goes into all others, each once", star,
                {"c.toml": plain(3), "a.toml": plain(2, "b1=a.pcap"), "b.toml": plain(2), "d.toml": plain(2), "a.pcap": [(100, F)]},
                {"b-b1.pcap": [(100, F)], "d-b1.pcap": [(100, F)], "c-b1.pcap": [], "c-journal.txt": journal("settled", *relays("b1 1"))}, summary(4, 4, 0, 5))
    cases.plays("one-topology-file", "two bridges have one topology file, with its capture and its prefix, which isn't taken", net([("a", "t"), ("b", "t")], "a:b2 - b:b2"),
                {"t": leaf("x1.1=a.pcap").replace("ports = 2 }", "ports = 2, out = 'mine-' }", 1), "a.pcap": [(100, F)]},
                {"a-b2.pcap": [(100, F)], "b-b2.pcap": [(100, F)], "a-x1.1.pcap": [(100, F)], "b-x1.1.pcap": [(100, F)],
                 "a-journal.txt": journal(*UP, *relays("x1.1 1", "b2 1")), "b-journal.txt": journal(*UP, *relays("b2 1", "x1.1 1"))}, summary(4, 4, 0, 4))
    cases.plays("one-bridge", "a net of one bridge: what `run` writes, under another prefix", net("only"), {"only.toml": leaf("x1.1=a.pcap"), "a.pcap": [(100, F)]},
                {"only-b2.pcap": [(100, F)], "only-journal.txt": journal(*UP, *relays("x1.1 1"))}, summary(1, 1, 0, 1))
    cases.plays("no-wire", "bridges that nothing joins have one clock: each tells the seconds of the other", net("a b"),
                {"a.toml": plain(2, "b1=a.pcap"), "b.toml": plain(2, "b1=b.pcap"), "a.pcap": [(100, F), (107, F)], "b.pcap": [(105, F)]},
                {"a-journal.txt": journal("settled", *relays("b1 1"), "tick 5", "tick 2", *relays("b1 2")),
                 "b-journal.txt": journal("settled", "tick 5", *relays("b1 1"), "tick 2"), "a-b2.pcap": [(100, F), (107, F)]}, summary(3, 3, 0, 3))


def order(cases):
    """Which event comes first."""
    three = net("b m a", "m:b1 - a:b2", "b:b2 - m:b2")
    cases.plays("bridges-in-their-order", "of two frames of one moment that of the earlier bridge of the file comes first, whatever the wires' order or names", three,
                {"a.toml": plain(2, "b1=a.pcap"), "b.toml": plain(2, "b1=b.pcap"), "m.toml": plain(2), "a.pcap": [(100, F)], "b.pcap": [(100, BACK)]},
                {"m-journal.txt": journal("settled", *relays("b2 1", "b1 1")), "b-b1.pcap": [(100, F)], "a-b1.pcap": [(100, BACK)]},
                summary(6, 6, 0, 6))
    cases.plays("commands-before-frames", "a command of the last bridge comes before a frame of its moment at the first", PAIR,
                {"a.toml": plain(2, "b1=a.pcap"), "b.toml": plain(2, "", commands("0 down port='b2'")), "a.pcap": [(100, F)]},
                {"b-journal.txt": journal("settled", *commits(1), "ignore b2 1", "settled")}, summary(2, 1, 1, 1, 1))
    cases.plays("commands-of-all", "commands of one moment: those of the first bridge, in their order, and then those of the next; the start is that of all captures", PAIR,
                {"a.toml": plain(2, "b1=a.pcap", commands("2 down port='b2'", "2 up port='b2'")), "b.toml": plain(2, "b1=b.pcap", commands("2 pvid port='b1', vid=9")),
                 "a.pcap": [(105, F)], "b.pcap": [(100, BACK)]},
                {"a-journal.txt": journal("settled", *relays("b2 1"), "tick 2", *commits(1), *commits(2), "tick 3", *relays("b1 1")),
                 "b-journal.txt": journal("settled", *relays("b1 1"), "tick 2", *commits(1), "tick 3", *relays("b2 1"))}, summary(4, 4, 0, 4, 3))
    cases.plays("commands-alone", "no capture: commands of two bridges in their seconds", PAIR,
                {"a.toml": plain(2, "", commands("3 down port='b2'")), "b.toml": plain(2, "", commands("1 down port='b1'", "3 up port='b1'"))},
                {"a-journal.txt": journal("settled", "tick 2", *commits(1)), "b-journal.txt": journal("settled", *commits(1), "tick 2", *commits(2))},
                summary(0, 0, 0, 0, 3))
    cases.plays("refused-in-one", "a command that is refused in one bridge for want of a group leaves the others alone", PAIR,
                {"a.toml": "bridge = { ports = 2, groups = 1 }\nextender = [{ number = 1, on = 'b1', ports = 2 }]\n" + commands("1 isolate port='x1.1', isolated=true"),
                 "b.toml": plain(2, "b1=b.pcap"), "b.pcap": [(100, F), (102, F)]},
                {"a-journal.txt": journal("up x1.1", "noup x1.2 groups 2 1", "settled", *relays("b2 1"), "tick 1", "commit 1", "settled", "tick 1", *relays("b2 2")),
                 "b-journal.txt": journal("settled", *relays("b1 1"), "tick 1", "tick 1", *relays("b1 2"))}, summary(4, 4, 0, 4, 1))
    cases.plays("ageing-over-a-wire", "an address that was heard over a wire is known 9 seconds later, and forgotten at the ageing time of 10, in each bridge by its own time",
                net("a b", "a:b3 - b:b3"),
                {"a.toml": plain(3, "b1=a.pcap").replace("ports = 3", "ports = 3, ageing = 10"), "b.toml": plain(3, "b1=b.pcap").replace("ports = 3", "ports = 3, ageing = 12"),
                 "a.pcap": [(100, F)], "b.pcap": [(109, BACK), (110, BACK), (112, BACK)]},
                {"a-b1.pcap": [(109, BACK), (110, BACK), (112, BACK)], "a-b2.pcap": [(100, F), (110, BACK), (112, BACK)],
                 "b-b2.pcap": [(100, F), (112, BACK)]}, summary(8, 8, 0, 13))


def row(count):
    """Bridges in a row, of three ports each: b1 to the one before, b2 to the next, and b3 for a station."""
    names = [f"n{at}" for at in range(1, count + 1)]
    text = net([(name, {names[0]: "first", names[-1]: "last"}.get(name, "middle")) for name in names], *(f"{a}:b2 - {b}:b1" for a, b in zip(names, names[1:])))
    return names, text


def rows(cases):
    """As many bridges as there may be, in a row."""
    names, text = row(16)
    files = {"first": plain(3, "b3=first.pcap"), "middle": plain(3), "last": plain(3, "b3=last.pcap"), "first.pcap": [(100, F)], "last.pcap": [(101, BACK)]}
    told = {f"{name}-b3.pcap": [(100, F)] for name in names[1:]} | {f"{name}-b2.pcap": [(100, F)] for name in names[:-1]}
    told |= {"n1-b3.pcap": [(101, BACK)]} | {f"{name}-b1.pcap": [(101, BACK)] for name in names[1:]}
    told |= {"n8-journal.txt": journal("settled", *relays("b1 1"), "tick 1", *relays("b2 1")), "n1-b1.pcap": [(100, F)], "n16-b2.pcap": [(100, F)]}
    cases.plays("sixteen-in-a-row", "a frame to all goes through 16 bridges, and the answer back through all of them alone; 14 of them have one topology file", text, files,
                told, summary(32, 32, 0, 48))


# ---- nets that are refused

WORDS = {
    "no-file": ("net", "one FILE"),
    "two-files": ("net net.toml net.toml", "one FILE, and no more"),
    "an-empty-word": ('net ""', "an empty name is a name, and that file is missing"),
    "counters-alone": ("net --counters", "an option is no FILE"),
    "counters-twice": ("net --counters net.toml --counters", "once at most"),
    "counters-with-a-value": ("net net.toml --counters=1", "it takes none"),
    "with-a-trace": ("net net.toml --trace", "a net has no trace"),
    "with-a-seed": ("net net.toml --seed 7", "a net has no drawn order"),
    "with-a-seed-in-one-word": ("net net.toml --seed=7", "nor in this form"),
    "in-other-letters": ("NET net.toml", "words are in small letters"),
    "dashes-before-the-word": ("-- net net.toml", "the word comes first"),
    "an-option-behind-dashes": ("net -- net.toml --counters", "behind the dashes all words are names, and there are two"),
    "option-before-the-word": ("--counters net net.toml", "the word comes first"),
}


def words(cases):
    good = {"net.toml": net("a"), "a.toml": plain(1)}
    for name, (given, why) in WORDS.items():
        if given == 'net ""':
            cases.put(name, why, given, 5, "exbr: missing ", good)
        else:
            cases.put(name, why, given, 2, USAGE, good)


A = '[[bridge]]\nname = "a"\ntopology = "a.toml"\n'
WIRE = '[[wire]]\na = "a:b1"\nb = "b:b1"\n'
# Each fault of the file by itself: nothing that it names is there.
SHAPES = [
    ("no-toml", "NotToml", "no equals sign", "bridge\n"),
    ("no-text", "NotToml", "no UTF-8", b"# \xff\n" + A.encode()),
    ("a-key-twice", "NotToml", "TOML takes a key once", A + 'name = "b"\n'),
    ("unknown-table", "Unknown at links", "a table that a topology has", A + "[links]\n"),
    ("unknown-tables-in-their-order", "Unknown at Wire", "of two unknown keys the first in byte order, before a bridge that isn't there", "zoo = 1\nWire = 1\n"),
    ("no-bridge", "Missing at bridge", "an empty file", ""),
    ("no-bridge-in-the-list", "Missing at bridge", "an empty list", "bridge = []\n"),
    ("bridge-is-no-list", "Kind at bridge", "one table in the place of a list", '[bridge]\nname = "a"\ntopology = "a.toml"\n'),
    ("bridge-with-a-number", "Kind at bridge", "a list that has something else than tables, before a fault of its first table", "bridge = [{}, 1]\n"),
    ("seventeen-bridges", "Range at bridge", "one more than there may be, before a fault of one of them", "[[bridge]]\n" * 17),
    ("unknown-key-of-a-bridge", "Unknown at bridge[0].out", "before its own keys that aren't there", '[[bridge]]\nout = "a-"\n'),
    ("no-name", "Missing at bridge[0].name", "before a topology of another kind", "[[bridge]]\ntopology = 1\n"),
    ("name-is-a-number", "Kind at bridge[0].name", "", "[[bridge]]\nname = 1\n"),
    ("name-in-capitals", "Name at bridge[0].name", "small letters and digits", '[[bridge]]\nname = "A"\n'),
    ("name-with-a-hyphen", "Name at bridge[0].name", "so prefixes never clash", '[[bridge]]\nname = "a-b"\n'),
    ("name-of-nothing", "Name at bridge[0].name", "1 letter at least", '[[bridge]]\nname = ""\n'),
    ("name-of-33", "Name at bridge[0].name", "32 letters at most", f'[[bridge]]\nname = "{"a" * 33}"\n'),
    ("no-topology", "Missing at bridge[0].topology", "", '[[bridge]]\nname = "a"\n'),
    ("topology-is-a-list", "Kind at bridge[0].topology", "", '[[bridge]]\nname = "a"\ntopology = ["a.toml"]\n'),
    ("second-bridge", "Missing at bridge[1].name", "elements count from 0", A + "[[bridge]]\n"),
    ("bridges-before-wires", "Missing at bridge[1].name", "a fault of the last bridge before one of the list of wires", "wire = 1\n" + A + "[[bridge]]\n"),
    ("wire-is-no-list", "Kind at wire", "", A + '[wire]\na = "a:b1"\nb = "a:b2"\n'),
    ("sixteen-wires", "Range at wire", "one more than there may be, before a fault of one of them", A + "[[wire]]\n" * 16),
    ("unknown-key-of-a-wire", "Unknown at wire[0].c", "of two the first in byte order", A + "[[wire]]\nzoo = 1\nc = 1\n"),
    ("no-end-a", "Missing at wire[0].a", "before an end b of another kind", A + "[[wire]]\nb = 1\n"),
    ("no-end-b", "Missing at wire[0].b", "", A + '[[wire]]\na = "a:b1"\n'),
    ("end-is-a-number", "Kind at wire[1].a", "", A + WIRE + "[[wire]]\na = 1\n"),
    ("end-b-is-a-list", "Kind at wire[0].b", "", A + '[[wire]]\na = "a:b1"\nb = ["b:b1"]\n'),
    ("end-without-a-port", "Name at wire[0].a", "", A + '[[wire]]\na = "a"\nb = "b:b1"\n'),
    ("end-without-a-bridge", "Name at wire[0].b", "", A + '[[wire]]\na = "a:b1"\nb = ":b1"\n'),
    ("end-of-port-65", "Name at wire[0].a", "no port has that number", A + '[[wire]]\na = "a:b65"\nb = "b:b1"\n'),
    ("end-with-a-zero", "Name at wire[0].a", "numbers have no zero in front", A + '[[wire]]\na = "a:b01"\nb = "b:b1"\n'),
    ("end-of-many-ports", "Name at wire[0].b", "an end is one port", A + '[[wire]]\na = "a:b1"\nb = "b:b1-2"\n'),
    ("a-name-twice", "Repeat at bridge[1].name", "before any topology is looked for", A + A),
    ("shapes-before-names", "Name at wire[0].a", "a name that stands twice comes behind the shape of all wires", A + A + '[[wire]]\na = "a:c1"\nb = "a:b1"\n'),
]


def shapes(cases):
    for name, fault, why, text in SHAPES:
        cases.stops(name, why or f"what {fault.split(' at ')[-1]} is not", 3, f"exbr: net: {fault}", text)


def topologies(cases):
    """What the topologies that it names may have."""
    bad = {"bad": "bridge = { ports = 0 }\n", "none": "nothing\n"}
    flaws = {"bad": "Range at bridge.ports", "none": "NotToml"}
    cases.stops("topology-missing", "a topology isn't there", 5, "exbr: missing b.toml", PAIR, {"a.toml": leaf()})
    cases.stops("topology-of-no-name", "an empty name is taken, and is missing", 5, "exbr: missing ", net([("a", "")]))
    cases.stops("topology-with-a-fault", "its own fault, by the bridge's name", 3, "exbr: topology b: Range at bridge.ports",
                net([("a", "a.toml"), ("b", "bad")]), {"a.toml": leaf(), **bad}, flaws=flaws)
    cases.stops("topology-that-is-no-toml", "a fault without a key", 3, "exbr: topology b: NotToml", net([("a", "a.toml"), ("b", "none")]), {"a.toml": leaf(), **bad}, flaws=flaws)
    cases.stops("missing-before-a-fault", "topologies are read in order: the first is missing, the second has a fault", 5, "exbr: missing a.toml",
                net([("a", "a.toml"), ("b", "bad")]), bad, flaws=flaws)
    cases.stops("fault-before-missing", "and the other way round", 3, "exbr: topology a: Range at bridge.ports", net([("a", "bad"), ("b", "b.toml")]), bad, flaws=flaws)
    cases.stops("topologies-before-wires", "a wire to nowhere comes behind the topologies", 5, "exbr: missing b.toml", net("a b", "z:b1 - a:b9"), {"a.toml": leaf()})
    cases.stops("capture-of-its-own-prefix", "a topology is refused as `run` refuses it, by the prefix that the net doesn't take", 3, "exbr: topology a: Repeat at captures.b1",
                net("a"), {"a.toml": plain(1, "b1=out-b1.pcap"), "out-b1.pcap": HEADER}, flaws={"a.toml": "Repeat at captures.b1"})
    big = "bridge = { ports = 64 }\n" + "".join(f"[[extender]]\nnumber = {at}\non = 'b{at}'\nports = 64\n" for at in range(1, 65))
    many = {"big": big, "wide": plain(64), "one": plain(1)}
    cases.stops("too-many-ports", "4,096 ports of one bridge, 64 of the second and 1 of the third: one more than there may be, before a wire to nowhere", 3, "exbr: net: Range at bridge",
                net([("a", "big"), ("b", "wide"), ("c", "one")], "z:b1 - a:b1"), many)


def captures(cases):
    """Captures that are outputs, that are missing, or that have a fault."""
    def repeats(name, why, bridge_at, a, b, text=PAIR):
        files = {"a.toml": a, "b.toml": b}
        cases.stops(name, why, 3, f"exbr: net: Repeat at bridge[{bridge_at}].topology", text, files | {"a-b2.pcap": HEADER, "b-x1.1.pcap": HEADER, "b-trace.txt": HEADER})

    repeats("capture-is-its-own-output", "a capture has the name of an output of its bridge", 0, leaf("x1.1=a-b2.pcap"), leaf())
    repeats("capture-is-anothers-output", "of an output of another bridge; the index is that of the bridge that reads it", 0, leaf("x1.1=b-x1.1.pcap"), leaf())
    repeats("capture-is-an-earlier-output", "of an output of an earlier bridge", 1, leaf(), leaf("x1.1=a-b2.pcap"))
    repeats("capture-is-a-journal", "a journal's", 1, leaf(), leaf("x1.1=a-journal.txt"))
    repeats("capture-is-a-trace", "a trace's, though a net writes none", 0, leaf("x1.1=b-trace.txt"), leaf())
    repeats("capture-is-a-file-of-counters", "that of counters that nobody asked for", 1, leaf(), leaf("x1.1=b-counters.txt"))
    repeats("captures-before-wires", "before a wire to nowhere", 1, leaf(), leaf("x1.1=a-b2.pcap"), net("a b", "z:b1 - a:b2"))
    cases.plays("capture-is-nearly-an-output", "names of ports that the bridges haven't, of no bridge, or with another hyphen: they are captures like others", PAIR,
                {"a.toml": leaf("x1.1=a-b1.pcap"), "b.toml": leaf("x1.1=ab2.pcap"), "a-b1.pcap": [(100, F)], "ab2.pcap": HEADER}, {"b-x1.1.pcap": [(100, F)]},
                summary(2, 2, 0, 2))
    cases.plays("prefixes-that-look-alike", "bridges `a`, `a1` and `1`: a hyphen ends each prefix", net("a a1 1", "a:b2 - a1:b1", "1:b1 - a1:b2"),
                {"a.toml": plain(2, "b1=in.pcap"), "a1.toml": plain(2), "1.toml": plain(2), "in.pcap": [(100, F)]},
                {"1-b2.pcap": [(100, F)], "a-b1.pcap": [], "a1-b2.pcap": [(100, F)]}, summary(3, 3, 0, 3))
    two = {"a.toml": leaf("x1.1=a.pcap"), "b.toml": leaf("x1.1=b.pcap")}
    cut = capture((100, F))[:99]
    cases.stops("capture-missing", "a capture isn't there; outputs of an earlier run stay as they were", 5, "exbr: missing b.pcap", PAIR,
                two | {"a.pcap": HEADER, "a-b2.pcap": b"before", "b-journal.txt": b"before"})
    cases.stops("capture-cut", "PORT is named with its bridge; outputs of an earlier run stay as they were", 4, "exbr: capture b:x1.1: Cut at 24", PAIR,
                two | {"a.pcap": HEADER, "b.pcap": cut, "a-b2.pcap": b"before", "b-journal.txt": b"before"})
    cases.stops("capture-that-is-none", "at a port of a bridge", 4, "exbr: capture a:b1: NotPcap at 0", net("a"), {"a.toml": plain(1, "b1=a.toml")})
    cases.stops("pcapng-cut", "a fault of the other format", 4, "exbr: capture a:x1.1: Cut at 48", PAIR, two | {"a.pcap": block_capture((100, F))[:-1], "b.pcap": HEADER})
    cases.stops("captures-in-the-order-of-bridges", "the first bridge's second port before the second bridge's first", 4, "exbr: capture a:b2: NotPcap at 0", net("a b"),
                {"a.toml": plain(2, "b2=cut b1=good"), "b.toml": plain(1, "b1=none"), "good": HEADER, "cut": b"abc"})
    cases.stops("captures-in-port-order", "in port order within a bridge: one of the bridge before one of an extender", 5, "exbr: missing none", net("a"),
                {"a.toml": leaf("x1.1=cut b2=none"), "cut": b"abc"})
    cases.stops("wires-before-captures", "a fault of a wire before a capture that isn't there", 3, "exbr: net: Name at wire[0].a", net("a b", "z:b2 - b:b2"), two)


def joins(cases):
    """Faults of wires, end a before end b before the loop, and each wire before the next."""
    files = {"a.toml": leaf("x1.1=a.pcap", ports=3), "b.toml": plain(3), "c.toml": plain(3), "a.pcap": HEADER}
    rows = [
        ("end-of-no-bridge", "Name at wire[0].a", "before an end b that isn't there either", "z:b1 - y:b1"),
        ("end-b-of-no-bridge", "Name at wire[0].b", "", "a:b2 - z:b1"),
        ("end-of-no-port", "UnknownPort at wire[0].a", "before an end b of no bridge", "b:b4 - z:b1"),
        ("end-below-an-extender", "UnknownPort at wire[0].a", "an extender hangs on that port", "a:b1 - b:b1"),
        ("end-of-another-bridges-port", "UnknownPort at wire[0].b", "a has x1.1, and b hasn't", "a:b2 - b:x1.1"),
        ("end-with-a-capture", "SharedPort at wire[0].b", "a capture says what arrives there", "b:b1 - a:x1.1"),
        ("end-that-is-taken", "SharedPort at wire[1].a", "a port has one wire", "a:b2 - b:b1", "b:b1 - c:b1"),
        ("end-b-that-is-taken", "SharedPort at wire[1].b", "before the loop that it would make", "a:b2 - b:b1", "a:b3 - b:b1"),
        ("wire-to-its-own-port", "SharedPort at wire[0].b", "end a has it, before the loop", "b:b1 - b:b1"),
        ("wire-within-a-bridge", "Loop at wire[0].a", "its bridges are the same", "b:b1 - b:b2"),
        ("two-wires-between-two", "Loop at wire[1].a", "earlier wires join them", "a:b2 - b:b1", "b:b2 - a:b3"),
        ("a-triangle", "Loop at wire[2].a", "a to b, b to c, c to a", "a:b2 - b:b1", "b:b2 - c:b1", "c:b2 - a:b3"),
        ("wires-in-their-order", "Loop at wire[0].a", "a fault of the first wire's loop before one of the second's end", "b:b1 - b:b2", "z:b1 - b:b1"),
        ("an-end-before-a-loop", "Name at wire[0].b", "an end of no bridge before that a loop can be looked for", "b:b1 - z:b1", "b:b1 - b:b2"),
    ]
    for name, fault, why, *wires in rows:
        cases.stops(name, why or fault, 3, f"exbr: net: {fault}", net("a b c", *wires), files)
    cases.stops("a-ring-of-four", "the wire that closes it, whatever the order of the others", 3, "exbr: net: Loop at wire[3].a",
                net("a b c d", "a:b2 - b:b1", "d:b1 - c:b1", "b:b2 - c:b2", "d:b2 - a:b3"), files | {"d.toml": plain(3)})


def inputs_that_are_outputs(cases):
    """What is read is never made, whatever leads to it: FILE, a topology or a capture with the name of the first output."""
    for name, why, first, files in (
        ("file-is-an-output", "FILE has the name of the first output", "a-b1.pcap", {"a-b1.pcap": net("a"), "a.toml": plain(1)}),
        ("topology-is-an-output", "a topology has it", "net.toml", {"net.toml": net([("a", "a-b1.pcap")]), "a-b1.pcap": plain(1)}),
        ("capture-is-an-output-by-a-dot", "a capture leads to it by another name", "net.toml", {"net.toml": net("a"), "a.toml": plain(1, "b1=./a-b1.pcap"), "a-b1.pcap": capture((100, F))}),
    ):
        cases.put(name, f"{why}: it stays as it was, and no file is made", f"net {first}", 7, "exbr: write fault", files)
    cases.stops("no-such-file", "FILE isn't there", 5, "exbr: missing other.toml", PAIR, {"a.toml": leaf(), "b.toml": leaf()}, "net other.toml")


def make():
    """Writes them all, and says how many."""
    cases = Cases()
    for part in (crossings, wires, order, rows, words, shapes, topologies, captures, joins, inputs_that_are_outputs):
        part(cases)
    cases.write()
    return len(cases.lines)
