"""exbr-preflight: faults where they stand, the program's last word, tables by playing, beats, and warnings."""
from __future__ import annotations

import contextlib
import io
import json
import os
import random
import struct
import subprocess
import unittest
import zlib

import desk_help
import mistakes
import plainly
import verdicts
from exbr_desk import captures, errors, places, topology
from exbr_preflight import cli, faults, lint, numbers, tables, verdict, wording

TWO = "[bridge]\nports = 2\n"
X1 = TWO + "[[extender]]\nnumber = 1\non = 'b1'\nports = 4\n"
# One extender of four ports, two VLANs, and two groups: at rest they suffice, and while the tree opens they don't.
SHORT = """[bridge]
ports = 1
groups = 2
[[extender]]
number = 1
on = "b1"
ports = 4
[[vlan]]
vid = 10
untagged = ["x1.1-3"]
[[vlan]]
vid = 20
untagged = ["x1.2-4"]
"""


class Told(desk_help.FolderTest):
    """A test that asks the tool."""

    def ask(self, text: str | bytes, *words: str) -> tuple[int, str, str]:
        path = self.write("topology.toml", text)
        out, said = io.StringIO(), io.StringIO()
        with contextlib.redirect_stdout(out), contextlib.redirect_stderr(said):
            try:
                status = errors.ended("exbr-preflight", lambda: cli.main([path, "--program", desk_help.needs_program(), *words]), cli.BROKEN)
            except SystemExit as end:
                status = end.code
        return status, out.getvalue().replace(path, "topology.toml"), said.getvalue()


class Places(unittest.TestCase):
    def test_each_value_stands_where_it_is_said(self):
        text = X1 + "[[vlan]]\nvid = 1 # one\ntagged = ['b2',\n  'x1.1-2' ]\n[captures]\n'x1.1' = \"\"\"a\"\"\"\n[links]\nfate = 'PL'\n"
        placed = places.read(text)
        for path, line, column, length in ((("vlan", 0, "tagged", 1), 10, 3, 8), (("vlan", 0, "vid"), 8, 7, 1), (("captures", "x1.1"), 12, 10, 7),
                                           (("extender", 0), 3, 1, 12), (("links", "fate"), 14, 8, 4), (("extender", 0, "missing"), 3, 1, 12)):
            place = placed.value(path)
            self.assertEqual((place.line, place.column, place.length), (line, column, length), path)
        self.assertEqual(placed.key(("captures", "x1.1"))[:3], (12, 1, 6))

    def test_what_is_cut_out_there_is_the_value(self):
        for name in ("campus", "night", "static-group", "too-few-groups"):
            with open(os.path.join(desk_help.TOP, "examples", name, "topology.toml"), encoding="utf-8") as file:
                placed = places.read(file.read())
            for path, value in _leaves(placed.tables):
                place = placed.value(path)
                cut = places.read(f"v = {place.text[place.column - 1:place.column - 1 + place.length]}\n")
                self.assertEqual(cut.tables["v"], value, path)

    def test_the_tables_are_those_of_tomllib(self):
        import tomllib
        for _, rows in verdicts.topologies():
            for data, _ in rows[:20]:
                if len(data) < 10_000:
                    with contextlib.suppress(UnicodeDecodeError, tomllib.TOMLDecodeError, places.NotToml):
                        self.assertEqual(places.read(data.decode()).tables, tomllib.loads(data.decode()))

    def test_faults_of_the_text_have_places(self):
        for text, place in (("a = 1\nb = \"x\nc = 2\n", (2, 7)), ("[bridge\n", (1, 8)), ("a = 1\na = 2\n", (2, 6)), ("a = [1,\n", (1, 8)),
                            ("a = 9223372036854775808", (1, 5))):
            with self.assertRaises(places.NotToml) as caught:
                places.read(text)
            self.assertEqual(caught.exception.place[:2], place, text)


def _leaves(node, path=()):
    for key, value in node.items() if isinstance(node, dict) else enumerate(node):
        if isinstance(value, (dict, list)):
            yield from _leaves(value, (*path, key))
        else:
            yield (*path, key), value


# The one row that Python's reader of TOML doesn't take, and the program's does: an escape of a later version of TOML.
LATER_TOML = b'bridge.ports = 1\n"\\xE9" = 1\n'


class Agreement(unittest.TestCase):
    """Whether and where: the first fault here is the one that the rows have, which are held against the program by ./test."""

    def own(self, data: bytes) -> str:
        return verdict.of_data("t", data, None).own or "ok"

    def test_every_fourth_row_of_the_verdicts(self):
        rows = [row for name, table in verdicts.topologies() if not name.startswith("limits") for row in table]
        for data, wanted in rows[::4]:
            if data != LATER_TOML:
                self.assertEqual(self.own(data), wanted, data[:200])

    def test_changed_topologies(self):
        program = desk_help.needs_program()
        with open(os.path.join(desk_help.TOP, "examples", "campus", "topology.toml"), encoding="utf-8") as file:
            text = file.read()
        self.assertEqual(differing(program, changed(text, 60, 1)), [])


def changed(text: str, count: int, seed: int) -> list[str]:
    """Copies of a topology, each with some small changes of its text: lines taken out, doubled or changed for others, words and numbers
    changed for others."""
    chance, found = random.Random(seed), []
    for _ in range(count):
        lines = text.splitlines()
        for _ in range(chance.randrange(1, 4)):
            CHANGES[chance.randrange(len(CHANGES))](lines, chance)
        found.append("\n".join(lines) + "\n")
    return found


def _swap(lines: list[str], chance: random.Random) -> None:
    one, other = chance.randrange(len(lines)), chance.randrange(len(lines))
    lines[one], lines[other] = lines[other], lines[one]


def _letter(lines: list[str], chance: random.Random) -> None:
    at = chance.randrange(len(lines))
    if lines[at]:
        place = chance.randrange(len(lines[at]))
        lines[at] = lines[at][:place] + chance.choice(["", "x", "1", "0", "9", ".", "-", "*", '"', "[", "]", "b", " "]) + lines[at][place + 1:]


def _number(lines: list[str], chance: random.Random) -> None:
    at = chance.randrange(len(lines))
    head, equals, _ = lines[at].partition(" = ")
    if equals:
        lines[at] = head + equals + chance.choice(["0", "1", "3", "65", "4095", "-1", "true", '"x1.1"', '"b9"', '["x1.*"]', '["x9.*", "b1"]', "1.5", '"pvid"', "[]"])


CHANGES = (lambda lines, chance: lines.pop(chance.randrange(len(lines))), lambda lines, chance: lines.insert(chance.randrange(len(lines)), chance.choice(lines)),
           _swap, _letter, _letter, _number, _number)


def differing(program: str, texts: list[str]) -> list[tuple[str, str]]:
    """The topologies of which the tool reads something else than the program says."""
    import tempfile
    found = []
    with tempfile.TemporaryDirectory() as folder:
        for text in texts:
            with open(os.path.join(folder, "t.toml"), "w", encoding="utf-8") as out:
                out.write(text)
            it = verdict.of_file(os.path.join(folder, "t.toml"), program)
            if not it.agrees:
                found.append((str(it.own), str(it.words)))
    return found


class Faults(Told):
    def test_line_caret_and_what_would_be_right(self):
        status, out, _ = self.ask(X1 + "[[vlan]]\nvid = 20\nuntagged = [\"x1.2\", \"x1.49\"]\n")
        self.assertEqual(status, 3)
        self.assertEqual(out.splitlines(), ['topology.toml:9:21: error: "x1.49" is no external port', '    9 | untagged = ["x1.2", "x1.49"]',
                                            "      |                     ^^^^^^^", "      = x1 has ports 1 to 4", "exbr says: UnknownPort at vlan[0].untagged"])

    def test_each_kind_says_what_would_be_right(self):
        command = "[[command]]\nat = 20\nop = 'down'\nport = 'b2'\n[[command]]\nat = 10\nop = 'up'\nport = 'b2'\n"
        for text, words in (
                ("[bridge]\nprots = 2\n", ['no key "prots"', 'did you mean "ports"?']), ("[bridge]\nports = '2'\n", ["without quotes"]),
                (TWO + "[extender]\nnumber = 1\n", ["write [[extender]]"]), (TWO + "[vlna]\n", ['did you mean "vlan"?']),
                (TWO + "ageing = 5\n", ["10 to 1,000,000 seconds"]), (X1 + command, ["at = 10 comes after 20 of command 1", "command 1 is here"]),
                (X1 + command.replace("'up'", "'dwon'"), ['did you mean "down"?']), (X1.replace("b1", "b9"), ["the bridge has ports 1 to 2"]),
                (X1.replace("b1", "b01"), ['did you mean "b1"?']), (X1 + "[[vlan]]\nvid = 5\nlast = 4\n", ["last = 4 is below vid = 5"]),
                (X1 + "[[port]]\nname = 'x1.1-2'\n", ["one port"]), (X1 + "[[vlan]]\nvid = 1\ntagged = 'x1.1'\n", ['write tagged = ["x1.1"]']),
                (X1 + "[[vlan]]\nvid = 1\ntagged = ['x4.3O']\n", ['did you mean "x4.30"?']), (X1 + "[[vlan]]\nvid = 1\ntagged = ['b1']\n", ["x1 hangs on b1"]),
                (X1 + X1[len(TWO):], ["extender 1 is there already", "given first here"]), (X1.replace("b1", "x1.2"), ["x1 hangs on x1, and so never reaches the bridge"]),
                (X1 + "[[vlan]]\nvid = 1\n[[vlan]]\nvid = 1\n", ["VLAN 1 is given before"]), (X1 + "[captures]\nx1.1 = 'a'\n", ["needs quotes"]),
                (X1 + "[captures]\nb2 = 'out-b2.pcap'\n", ["a file that a run writes"]), (X1 + "[[port]]\nname = 'x1.1'\nfilter = 'true'\n", ["filter = true, without"]),
                ("[bridge]\nports = 2\nout = \"a\nageing = 0\n", ["no TOML", "a quote is missing"]), ("[bridge]\nports = “2”\n", ["text processor"]),
                ("[bridge]\nports 2\n", ["have = between them"]), (TWO + "ports = 3\n", ["given twice"]), (X1 + "[[port]]\nname = 'x1.1'\nfilter = True\n", ["written small"])):
            status, out, _ = self.ask(text)
            self.assertEqual(status, 3, out)
            for word in words:
                self.assertIn(word, out, text)
            self.assertIn("exbr says: ", out)
            self.assertNotIn("note: ", out)

    def test_all_faults_of_a_pass_are_told(self):
        _, out, _ = self.ask(TWO + "[[vlan]]\nvid = 0\n[[vlan]]\nvid = 5000\ntagged = ['c1']\n")
        self.assertEqual(out.count("error: "), 3)

    def test_where_the_program_takes_what_this_reader_does_not(self):
        status, out, _ = self.ask(LATER_TOML.replace(b'"\\xE9" = 1\n', b'bridge.out = "\\x61-"\n'))
        self.assertEqual(status, 1)
        self.assertIn("note: exbr takes this file, and this tool reads NotToml in it; what exbr says counts", out)

    def test_input_that_is_not_there(self):
        out, said = io.StringIO(), io.StringIO()
        with contextlib.redirect_stdout(out), contextlib.redirect_stderr(said):
            self.assertEqual(errors.ended("exbr-preflight", lambda: cli.main([self.path("none"), "--program", desk_help.needs_program()]), cli.BROKEN), 3)
        self.assertEqual(said.getvalue().count("\n"), 1)
        self.assertEqual(self.ask(TWO, "--off", "nonsense")[0], 3)
        self.assertEqual(self.ask(TWO, "--nonsense")[0], 3)


class Tables(Told):
    def test_the_opening_needs_more_than_rest(self):
        status, out, _ = self.ask(SHORT, "--off", "all")
        self.assertEqual(status, 2)
        self.assertIn("error: 2 ports would stay absent: x1.2-3", out)
        self.assertIn("x1.2: 3 groups would be needed below one port of the bridge, and there are 2", out)
        self.assertIn("tables don't suffice: the opening needs 4 groups and there are 2; 4 groups suffice", out)
        self.assertEqual(self.ask(SHORT.replace("groups = 2", "groups = 4"), "--off", "all")[0], 0)
        self.assertEqual(self.ask(SHORT.replace("groups = 2", "groups = 3"), "--off", "all")[0], 2)

    def test_too_few_channels(self):
        status, out, _ = self.ask(SHORT.replace("groups = 2", "channels = 3"), "--off", "all")
        self.assertEqual(status, 2)
        self.assertIn("the opening needs 4 channels and there are 3; 4 channels suffice", out)

    def test_least(self):
        _, out, _ = self.ask(SHORT, "--off", "all", "--least", "--json")
        self.assertEqual(json.loads(out)["least"], {"channels": 4, "groups": 4})

    def test_a_command_that_would_be_refused(self):
        with open(os.path.join(desk_help.TOP, "examples", "too-few-groups", "topology.toml"), encoding="utf-8") as file:
            text = file.read()
        status, out, _ = self.ask(text.partition("[captures]")[0], "--off", "all", "--commands")
        self.assertEqual(status, 2)
        self.assertIn("error: command 2 would be refused: 4 groups would be needed below one port of the bridge, and there are 3", out)
        self.assertIn("4 groups suffice", out)

    def test_random_topologies_need_what_the_plain_bridge_counts(self):
        played = tables.player(desk_help.needs_program())
        for number in range(1, 9):
            text = plainly.random_topology(number)
            given = topology.of_text(text)
            found = tables.tables_of(given, played)
            for (command, channels, groups), segment in zip(plainly.needs(text), found.wide, strict=True):
                for uses, wanted in ((segment.channels, channels), (segment.groups, groups)):
                    self.assertEqual({trunk: use.peak for trunk, use in uses.items()}, {trunk: wanted[trunk] for trunk in uses}, (number, command))
            self.assertTrue(tables.is_enough(given, {kind: found.least(kind) for kind in tables.KINDS}, played))
            for kind in tables.KINDS:
                if found.least(kind) > 1:
                    limits = tables.WIDEST | {kind: found.least(kind) - 1}
                    self.assertFalse(tables.is_enough(given, limits, played), (number, kind))

    def test_beats(self):
        with open(os.path.join(desk_help.TOP, "examples", "private-hosts", "topology.toml"), encoding="utf-8") as file:
            text = file.read().partition("[captures]")[0]
        _, out, _ = self.ask(text, "--off", "all", "--beat", "100", "--fates", "2")
        self.assertIn("settling: the opening takes 36 beats (3.6 s); a command at most 3 beats (300 ms) (command 1)", out)
        self.assertIn("the worst of 2 drawn disturbances", out)


def frame(source: int, vid: int | None = None, size: int = 60) -> bytes:
    tag = b"" if vid is None else struct.pack(">HH", 0x8100, vid)
    return (b"\xff" * 6 + bytes((2, 0, 0, 0, 0, source)) + tag + b"\x08\x00").ljust(size, b"\0")


def cut_capture(frames: list[bytes], length: int) -> bytes:
    return captures.HEADER + b"".join(struct.pack("<IIII", at, 0, length, len(it)) + it[:length] for at, it in enumerate(frames))


class Warnings(Told):
    """Each warning by its name: where it stands, and that it can be switched off."""

    BASE = X1 + "[[port]]\nname = 'x1.1'\npvid = 10\n[[port]]\nname = 'x1.2'\npvid = 10\n[[vlan]]\nvid = 10\nuntagged = ['x1.1-2']\n"

    def names(self, text: str, *words: str) -> list[str]:
        status, out, said = self.ask(text, "--json", *words)
        found = json.loads(out)
        self.assertEqual(status, 1 if found["warnings"] else 0, said)
        return [it["name"] for it in found["warnings"]]

    def test_nothing_to_warn_of(self):
        self.assertEqual(self.names(self.BASE), [])

    def test_each_of_what_is_set(self):
        command = "[[command]]\nat = 5\nop = '{}'\n{}\n"
        for text, name in (
                (self.BASE + "[[vlan]]\nvid = 20\nuntagged = ['x1.1', 'x1.3']\ntagged = ['b2']\n[[port]]\nname = 'x1.3'\npvid = 20\n", "two-untagged"),
                (self.BASE.replace("pvid = 10\n[[vlan]]", "pvid = 30\n[[vlan]]"), "pvid-member"),
                (self.BASE + "[[vlan]]\nvid = 20\nuntagged = ['x1.3']\ntagged = ['b2']\n[[vlan]]\nvid = 1\ntagged = ['x1.3', 'x1.4']\n[[port]]\nname = 'x1.4'\naccept = 'tagged'\n", "asymmetric"),
                (self.BASE + "[[vlan]]\nvid = 20\ntagged = ['x1.3', 'b2']\n[[port]]\nname = 'b2'\naccept = 'untagged'\n", "kept-out"),
                (self.BASE + "[[vlan]]\nvid = 20\nuntagged = ['x1.3']\ntagged = ['b2']\n[[port]]\nname = 'x1.3'\nfilter = true\n", "kept-out"),
                (self.BASE + "[[vlan]]\nvid = 20\ntagged = ['b2']\n", "one-member"),
                (self.BASE + "[[static]]\nvid = 10\nmac = '01:00:5e:00:00:01'\nports = ['x1.1', 'x1.3']\n", "static-members"),
                (self.BASE.replace("pvid = 10\n[[vlan]]", "pvid = 10\nisolated = true\n[[vlan]]"), "isolated-alone"),
                (self.BASE + command.format("unmember", "vid = 77\nport = 'x1.1'"), "no-change"),
                (self.BASE + command.format("filter", "port = 'x1.1'\nfilter = false"), "no-change")):
            found = self.names(text)
            self.assertIn(name, found, text)
            self.assertNotIn(name, self.names(text, "--off", name))

    def test_what_a_command_leaves_behind_is_told_with_it(self):
        text = self.BASE + "[[command]]\nat = 5\nop = 'member'\nvid = 20\nport = 'x1.1'\nkind = 'untagged'\n[[command]]\nat = 9\nop = 'unmember'\nvid = 10\nport = 'x1.1'\n"
        _, out, _ = self.ask(text)
        self.assertIn("warning (two-untagged): after command 1: x1.1 is untagged in VLANs 10 and 20", out)
        self.assertIn("(until command 2)", out)

    def test_commands_of_one_second_are_one_change(self):
        text = self.BASE + "".join(f"[[command]]\nat = 5\nop = '{op}'\nvid = {vid}\nport = '{port}'\n{rest}" for op, vid, port, rest in (
            ("member", 20, "x1.1", "kind = 'untagged'\n"), ("member", 20, "x1.2", "kind = 'untagged'\n"), ("pvid", 20, "x1.1", ""), ("pvid", 20, "x1.2", ""),
            ("unmember", 10, "x1.1", ""), ("unmember", 10, "x1.2", "")))
        self.assertEqual(self.names(text), [])

    def test_each_of_captures(self):
        them = [frame(1), frame(2), frame(3)]
        for files, text, name in (
                ({"a.pcap": captures.capture_text([(10**9, frame(1, 30))])}, "'x1.1' = 'a.pcap'\n", "foreign-tags"),
                ({"a.pcap": cut_capture(them, 40)}, "'x1.1' = 'a.pcap'\n", "snap"),
                ({"a.pcap": captures.capture_text([(10**9 * at, it + struct.pack("<I", zlib.crc32(it))) for at, it in enumerate(them)])}, "'x1.1' = 'a.pcap'\n", "fcs"),
                ({name: captures.capture_text([(10**9, it) for it in them]) for name in ("a.pcap", "b.pcap")}, "'x1.1' = 'a.pcap'\n'x1.2' = 'b.pcap'\n", "both-directions"),
                ({"a.pcap": captures.capture_text([(10**9, frame(1))])}, "'x1.1' = 'a.pcap'\n'x1.2' = './a.pcap'\n", "same-file")):
            for file, data in files.items():
                self.write(file, data)
            found = self.names(self.BASE + "[captures]\n" + text)
            self.assertEqual(sorted(set(found)), [name], text)
            self.assertEqual(self.names(self.BASE + "[captures]\n" + text, "--off", name), [])

    def test_captures_that_cannot_be_read(self):
        self.write("bad.pcap", b"no capture")
        status, out, _ = self.ask(self.BASE + "[captures]\n'x1.1' = 'none.pcap'\n'x1.2' = 'bad.pcap'\n")
        self.assertEqual(status, 3)
        self.assertIn("topology.toml:17:10: error: the capture of x1.1 can't be read: ", out)
        self.assertIn("NotPcap at 0", out)
        self.assertIn("2 captures can't be read; tables suffice", out)

    def test_a_command_after_the_last_frame(self):
        self.write("a.pcap", captures.capture_text([(10**9, frame(1)), (3 * 10**9, frame(1))]))
        text = self.BASE + "[[command]]\nat = {}\nop = 'down'\nport = 'x1.1'\n[captures]\n'x1.1' = 'a.pcap'\n"
        self.assertEqual(self.names(text.format(3)), ["after-end"])
        self.assertEqual(self.names(text.format(2)), [])

    def test_strict(self):
        self.assertEqual(self.ask(self.BASE + "[[vlan]]\nvid = 20\ntagged = ['b2']\n", "--strict")[0], 2)


class Command(desk_help.FolderTest):
    def test_as_it_is_called(self):
        path = self.write("topology.toml", SHORT)
        done = subprocess.run([os.path.join(desk_help.TOOLS, "exbr-preflight"), path, "--program", desk_help.needs_program()], capture_output=True, text=True, check=False)
        self.assertEqual((done.returncode, done.stderr), (2, ""))
        for word in ("--help", "--version"):
            self.assertEqual(self.script("exbr-preflight", word).returncode, 0)
        self.assertEqual(sorted(os.listdir(self.folder)), ["topology.toml"])


class Page(unittest.TestCase):
    def test_the_page_of_mistakes_is_as_the_tool_speaks(self):
        self.assertEqual(len(mistakes.MISTAKES), 64)
        with open(mistakes.PAGE, encoding="utf-8") as file:
            self.assertEqual(file.read(), mistakes.page(desk_help.needs_program()))


class Names(unittest.TestCase):
    def test_every_operation_and_table_is_known(self):
        self.assertEqual(set(faults.OPERATIONS), set(topology.OPERATIONS))
        self.assertEqual(set(faults.KEYS) | {"command", "captures"}, set(faults.TABLES))
        self.assertEqual(set(wording.WORDED), {"Unknown", "Missing", "Kind", "Range", "Name", "UnknownPort", "TwoUpstreams", "SharedPort", "Loop", "FewChannels", "Repeat"})
        self.assertEqual(len(lint.LINTS), 14)
        self.assertEqual(numbers.FIRST_GROUP, 0x1000)


if __name__ == "__main__":
    unittest.main()
