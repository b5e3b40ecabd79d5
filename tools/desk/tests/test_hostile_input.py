"""What strangers send to the tools: files that never end, that are huge for their size, or lead elsewhere, and names that drive a terminal. Each tool
ends with status 2 and a line, soon and within little memory, and writes nothing through a link. The table is that of a security review."""
import os
import resource
import struct
import subprocess
import sys
import time
import unittest

import ground
from exbr_desk import captures, safe_files, shown, toml_text, topology
from exbr_desk.errors import DeskError
from exbr_watch import course

OWN = "# The user's own file.\n"
TWO = "[bridge]\nports = 2\n[captures]\nb1 = 'in.pcap'\n"
SECONDS, MEMORY = 20, 400 << 20
TOOLS = {"exbr-why": ["--all"], "exbr-report": ["."], "exbr-compare": [".", "."]}


def capture(*frames):
    return captures.HEADER + b"".join(struct.pack("<IIII", 100, 0, len(it), len(it)) + it for it in frames)


class Hostile(ground.InFolder):
    def setUp(self):
        super().setUp()
        self.write("in.pcap", capture(bytes.fromhex("ffffffffffff020000000001") + b"\x08\x00"))
        self.write("topology.toml", TWO)
        self.write("out-journal.txt", "settled\nrelay b1 1\nsettled\n")
        self.write("out-b1.pcap", captures.HEADER)
        self.write("out-b2.pcap", self.read("in.pcap"))

    def read(self, name):
        with open(self.path(name), "rb") as file:
            return file.read()

    def call(self, name, *words):
        """A tool in a process that may take so much memory, and how long it took. Standard input never ends and is never read."""
        def limit():
            resource.setrlimit(resource.RLIMIT_AS, (MEMORY, MEMORY))
        begun = time.monotonic()
        reading, writing = os.pipe()
        try:
            done = subprocess.run([sys.executable, "-I", os.path.join(ground.TOOLS, name), *words], cwd=self.folder, stdin=reading, capture_output=True,
                                  timeout=120, preexec_fn=limit, check=False)
        finally:
            os.close(reading)
            os.close(writing)
        done.stdout, done.stderr = done.stdout.decode(errors="surrogateescape"), done.stderr.decode(errors="surrogateescape")
        self.assertLess(time.monotonic() - begun, SECONDS, name)
        self.assertNotIn("Traceback", done.stderr, name)
        return done

    def refused(self, *words, tools=TOOLS):
        """Each tool ends with a line that has these words. exbr-report may make its page, where the fault is in a file that it can tell of."""
        for name in tools:
            done = self.call(name, *TOOLS[name])
            with self.subTest(name, said=done.stderr, printed=done.stdout[:300]):
                self.assertEqual(done.returncode, 2)
                self.assertEqual(done.stderr.count("\n"), 1)
                for it in words:
                    self.assertIn(it, done.stderr)


class Sizes(Hostile):
    """Small inputs that take much, and such as never end."""

    def test_a_run_that_is_none_of_these(self):
        for name, words in TOOLS.items():
            self.assertEqual(self.call(name, *words).returncode, 0, name)

    def test_keys_of_many_parts(self):
        for many in (5_000, 80_000, 4_000_000):
            self.write("topology.toml", "a" + ".a" * many + "=1\n")
            self.refused("NotToml (a key has more than 16 parts)")
            self.assertIsNone(course.input_of(self.path("topology.toml")))

    def test_keys_of_few_parts_and_texts_of_many_dots(self):
        text = "# " + "x." * 40 + "\na.b.c = '" + "1." * 40 + "'\nd = \"\"\"\n\\\"\"\"" + "1." * 40 + "\"\"\"\ne = [1.5" + ", 2.5" * 40 + "]\n"
        self.assertEqual(toml_text.tables(text)["a"], {"b": {"c": "1." * 40}})
        for deep in ("[a" + ".b" * 20 + "]", "x = {a" + " . b" * 20 + " = 1}", "x = '''\n'''\na" + ".'b.c'" * 17 + " = 1"):
            with self.assertRaises(ValueError):
                toml_text.tables(deep)

    def test_nets_that_name_nets(self):
        for at in range(12):
            self.write(f"n{at}.toml", "".join(f"[[bridge]]\nname = 'a{it}'\ntopology = '{self.path(f'n{at + 1}.toml')}'\n" for it in range(16)))
        begun = time.monotonic()
        self.assertIsNone(course.input_of(self.path("n0.toml")))
        self.assertLess(time.monotonic() - begun, 1)

    def test_a_net_with_a_device(self):
        for place in ("/dev/zero", self.path("fifo")):
            if place.startswith(self.folder):
                os.mkfifo(place)
            self.write("net.toml", f"[[bridge]]\nname = 'a'\ntopology = '{place}'\n")
            self.assertIsNone(course.input_of(self.path("net.toml")))

    def test_a_pipe_or_a_device_as_a_capture_or_a_topology(self):
        for name in ("in.pcap", "topology.toml", "out-b2.pcap", "out-journal.txt"):
            kept = self.read(name)
            for make in (os.mkfifo, lambda path: os.symlink("/dev/zero", path)):
                os.remove(self.path(name))
                make(self.path(name))
                tools = ("exbr-why", "exbr-compare") if name.startswith("out-b") else TOOLS
                self.refused("it isn't a file of the disk", tools=tools)
                self.call("exbr-report", ".")
            os.remove(self.path(name))
            self.write(name, kept)

    def test_captures_of_an_import_that_are_pipes(self):
        os.mkfifo(self.path("b2.pcap"))
        done = self.call("exbr-import", "--captures", ".")
        self.assertEqual((done.returncode, done.stderr.count("\n")), (2, 1), done.stderr)

    def test_a_block_of_four_gigabytes(self):
        head = struct.pack("<IIIHHqI", 0x0A0D0D0A, 28, 0x1A2B3C4D, 1, 0, -1, 28)
        block = struct.pack("<II", 0x0BAD, 0xFFFFFFFC)
        interface = struct.pack("<IIHHII", 1, 20, 1, 0, 0, 20)
        frame = bytes.fromhex("ffffffffffff020000000001") + b"\x08\x00" + bytes(2)
        packet = struct.pack("<IIIIIII", 6, 48, 0, 0, 0, 14, 14) + frame + struct.pack("<I", 48)
        with open(self.path("in.pcap"), "wb") as file:
            file.write(head + block)
            file.seek(len(head) + 0xFFFFFFFC)
            file.write(interface + packet)
        self.assertEqual([len(it.frame) for it in captures.records(self.path("in.pcap"))], [14])
        for name, words in TOOLS.items():
            self.assertIn(self.call(name, *words).returncode, (0, 1), name)
        os.truncate(self.path("in.pcap"), len(head) + 0xFFFFFFF0)
        with self.assertRaisesRegex(DeskError, "Cut at 28"):
            list(captures.records(self.path("in.pcap")))

    def test_a_journal_of_one_line(self):
        with open(self.path("out-journal.txt"), "wb") as file:
            file.truncate(1 << 30)
        self.refused("out-journal.txt", " line", tools=("exbr-why", "exbr-compare"))
        self.call("exbr-report", ".")

    def test_thousands_of_commands(self):
        commands = "".join(f"[[command]]\nat = {at}\nop = 'vlan'\nvid = {at % 4000 + 1}\ntagged = ['*']\n" for at in range(4000))
        self.write("topology.toml", "[bridge]\nports = 64\n[captures]\nb1 = 'in.pcap'\n" + commands)
        its = topology.read(self.path("topology.toml"))
        from exbr_desk import reading, runs
        begun, it = time.monotonic(), reading.Reading(runs.Run(its, self.folder))
        for command in its.commands:
            self.assertIsNone(it.obey(command, 0).cause)
        self.assertLess(time.monotonic() - begun, 10)

    def test_a_capture_called_dash(self):
        import shutil
        if not shutil.which("tshark"):
            self.skipTest("tshark (Debian's package tshark) is not here")
        os.rename(self.path("in.pcap"), self.path("-"))
        self.write("topology.toml", TWO.replace("in.pcap", "-"))
        TOOLS_OF = self.call("exbr-why", "--filter", "eth.dst == ff:ff:ff:ff:ff:ff")
        self.assertIn("frame 1 of b1", TOOLS_OF.stdout, TOOLS_OF.stderr)


class Lines(Hostile):
    """What ended with what Python says of a fault."""

    def test_numbers_of_thousands_of_digits(self):
        self.write("topology.toml", "[bridge]\nports = " + "1" * 5000 + "\n")
        self.refused("NotToml")

    def test_names_with_a_nul(self):
        for text in (TWO.replace("'in.pcap'", '"in\\u0000.pcap"'), TWO.replace("[captures]", 'out = "o\\u0000"\n[captures]')):
            self.write("topology.toml", text)
            self.refused("Name at ")

    def test_a_folder_whose_name_is_no_text(self):
        place = os.path.join(self.folder.encode(), b"bad\xff")
        os.mkdir(place)
        for name in ("in.pcap", "topology.toml", "out-journal.txt", "out-b1.pcap", "out-b2.pcap"):
            os.rename(self.path(name), os.path.join(place, name.encode()))
        for name in TOOLS:
            done = self.call(name, *{"exbr-why": ["--run", os.fsdecode(place), "--all"], "exbr-report": [os.fsdecode(place)],
                                     "exbr-compare": [os.fsdecode(place)] * 2}[name])
            self.assertEqual((done.returncode, done.stderr), (0, ""), name)
        with open(self.path("report.html"), encoding="utf-8") as file:
            self.assertIn("bad\\xff", file.read())

    def test_an_answer_with_a_number_of_hundreds_of_digits(self):
        link = '[{"ifname": "br0", "linkinfo": {"info_kind": "bridge", "info_data": {"ageing_time": ' + "9" * 400 + '}}}, {"ifname": "p1", "master": "br0", ' \
               '"linkinfo": {"info_slave_kind": "bridge", "info_slave_data": {}}}]'
        self.write("link.json", link)
        done = self.call("exbr-import", "--link", "link.json")
        self.assertIn(done.returncode, (0, 2))
        self.assertEqual(done.stderr.count("\n"), len(done.stderr.splitlines()))

    def test_traces_that_are_none(self):
        for text in ("= tick 99999999999999999999\nin b 1 00\n", f"in b 1 00\n= relay {'b' * 70_000}\n"):
            self.write("out-trace.txt", text)
            done = self.call("trace_to_pcapng.py", "out-trace.txt", "to.pcapng")
            self.assertEqual((done.returncode, done.stderr.count("\n")), (2, 1), done.stderr)
        for place in ("/dev/zero", "."):
            done = self.call("trace_to_pcapng.py", place, "to.pcapng")
            self.assertEqual((done.returncode, done.stderr.count("\n")), (2, 1), done.stderr)
        os.symlink("/dev/zero", self.path("zero.toml"))
        done = self.call("trace_break.py", "zero.toml")
        self.assertEqual((done.returncode, done.stderr.count("\n")), (2, 1), done.stderr)
        self.write("topology.toml", TWO.replace("[captures]", 'out = "o\\u0000"\n[captures]'))
        done = self.call("trace_break.py", "topology.toml")
        self.assertEqual((done.returncode, done.stderr.count("\n")), (2, 1), done.stderr)


class Terminal(Hostile):
    """Nothing that is printed drives a terminal, or makes lines of its own."""

    BAD = "\x1b]0;pwned\x07\r\nexbr: all is well\u202e\x9b"
    KEY = '"\\u001b]52;c;cHduZWQ=\\u0007\\n\\u202e\\u009b2J"'

    def is_plain(self, text):
        self.assertIsNone(shown.IN_TEXT.search(text), ascii(text))

    def test_keys_and_names(self):
        for text in (f"{self.KEY} = 1\n", f"[bridge]\nports = 2\n{self.KEY} = 1\n", f"[bridge]\nports = 2\n[captures]\n{self.KEY} = 'in.pcap'\n",
                     f"[bridge]\nports = 2\nout = {self.KEY}\n", f"[bridge]\nports = 2\n[captures]\nb1 = {self.KEY}\n"):
            self.write("topology.toml", text)
            for name, words in TOOLS.items():
                done = self.call(name, *words)
                self.assertEqual((done.returncode, done.stderr.count("\n"), done.stdout), (2, 1, ""))
                self.is_plain(done.stderr)

    def test_lines_of_files(self):
        self.write("out-journal.txt", b"settled\nrelay b1 1\x1b[2J\r\x9b\nsettled\n")
        for name, words in TOOLS.items():
            done = self.call(name, *words)
            self.is_plain(done.stderr + done.stdout)
            self.assertEqual(done.returncode, 0 if name == "exbr-compare" else 1, name)
        with open(self.path("report.html"), encoding="utf-8") as file:
            self.is_plain(file.read())

    def test_names_of_interfaces(self):
        import json
        link = [{"ifname": "br0", "linkinfo": {"info_kind": "bridge", "info_data": {"vlan_filtering": 0}}}]
        link += [{"ifname": f"p{self.BAD}", "master": "br0", "linkinfo": {"info_slave_kind": "bridge", "info_slave_data": {"state": self.BAD, "learning": False}}}]
        self.write("link.json", json.dumps(link))
        done = self.call("exbr-import", "--link", "link.json")
        self.assertEqual(done.returncode, 0, done.stderr)
        self.is_plain(done.stdout + done.stderr)
        self.assertNotIn("\nexbr: all is well", done.stderr)

    def test_what_is_shown(self):
        self.assertEqual(shown.line("a\x1b\n\t\udcff\u202eé\x85"), "a\\u001b\\u000a\t\\xff\\u202eé\\u0085")
        self.assertEqual(shown.shown("a\nb\r"), "a\nb\\u000d")
        import json
        text = "\x1b\r\n\\u202e\u202e\\\u2066\b\x7fé<"
        self.assertEqual(json.loads(shown.in_json(json.dumps(text))), shown.shown(text))

    def test_a_stream(self):
        import io
        out = io.StringIO()
        to = shown.Screen(out, by_line=True)
        print("a\nb\x1b[2J", file=to)
        print("\rhalf\x1b\033[K", end="", file=to)
        to.write("usage: a\n  b\n")
        self.assertEqual(out.getvalue(), "a\\u000ab\\u001b[2J\n\rhalf\\u001b\033[Kusage: a\n  b\n")


class Writing(Hostile):
    """Nothing is written through a link."""

    def setUp(self):
        super().setUp()
        self.own = self.write("home/own", OWN)

    def stays(self):
        self.assertEqual(self.read("home/own").decode(), OWN)
        self.assertEqual(os.listdir(self.path("home")), ["own"])

    def test_a_page(self):
        os.symlink(self.own, self.path("report.html.part"))
        self.assertEqual(self.call("exbr-report", ".").returncode, 0)
        self.assertTrue(os.path.isfile(self.path("report.html")) and not os.path.islink(self.path("report.html")))
        self.stays()
        for target in (self.own, self.path("home/new")):
            os.remove(self.path("report.html"))
            os.symlink(target, self.path("report.html"))
            done = self.call("exbr-report", ".")
            self.assertEqual((done.returncode, done.stderr), (2, "exbr-report: report.html: it is a link, and nothing is written through it; name a file\n"))
            self.stays()
        self.assertEqual([it for it in os.listdir(self.folder) if it.startswith(".")], [])

    def test_an_import(self):
        os.symlink(self.own, self.path("made.toml"))
        os.mkdir(self.path("in"))
        self.write("in/b1.pcap", self.read("in.pcap"))
        done = self.call("exbr-import", "--captures", "in", "-o", "made.toml")
        self.assertEqual(done.returncode, 2, done.stderr)
        self.stays()

    def test_a_trace(self):
        os.symlink(self.own, self.path("to.pcapng"))
        self.write("out-trace.txt", "in b 1 00\n")
        self.assertEqual(self.call("trace_to_pcapng.py", "out-trace.txt", "to.pcapng").returncode, 2)
        self.stays()

    @unittest.skipUnless(os.environ.get("EXBR_PROGRAM"), "no program is named")
    def test_runs_that_are_kept(self):
        os.mkdir(self.path("kept"))
        os.symlink(self.path("home"), self.path("kept/before"))
        words = ["topology.toml", "topology.toml", "--play", "--keep", "kept", "--program", os.environ["EXBR_PROGRAM"]]
        self.assertEqual(self.call("exbr-compare", *words).returncode, 2)
        self.stays()
        os.remove(self.path("kept/before"))
        os.mkdir(self.path("kept/before"))
        os.symlink(self.own, self.path("kept/before/topology.toml"))
        self.assertEqual(self.call("exbr-compare", *words).returncode, 2)
        self.stays()

    def test_modes(self):
        for umask, mode in ((0o000, 0o666), (0o022, 0o644), (0o077, 0o600)):
            before = os.umask(umask)
            self.addCleanup(os.umask, before)
            path = self.path(f"made-{umask}")
            safe_files.write(path, b"one")
            os.umask(before)
            self.assertEqual(os.stat(path).st_mode & 0o777, mode)
        os.chmod(path, 0o640)
        safe_files.write(path, b"two")
        self.assertEqual((os.stat(path).st_mode & 0o777, self.read(path)), (0o640, b"two"))


if __name__ == "__main__":
    unittest.main()
