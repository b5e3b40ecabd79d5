"""What ports are called: names.toml, and what the tools make of it."""
import json
import os
import unittest

from desk_help import FolderTest
import ground
from exbr_desk import names, short

NAMES = """switch = "agg-1"
[extender]
x1 = { name = "FEX 101", rack = "r1" }
[port]
"b1" = { interface = "port-channel1", description = "core", members = ["Ethernet1/1", "Ethernet1/2"] }
"b2" = { interface = "Ethernet1/2" }
"x1.1" = { interface = "Ethernet101/1/1", description = "web-01", rack = "r1" }
"x1.2" = { interface = "Ethernet101/1/2" }
"x1.3" = { interface = "Ethernet101/1/3" }
"x1.4" = { interface = "Ethernet101/1/4", description = "web-04" }
[vlan]
10 = "staff"
"""


class Words(FolderTest):
    """Names in texts and words."""

    def setUp(self) -> None:
        super().setUp()
        self.names = names.read(self.write("names.toml", NAMES))

    def test_read(self):
        self.assertEqual((self.names.switch, self.names.extenders, self.names.vlans), ("agg-1", {1: "FEX 101"}, {10: "staff"}))
        self.assertEqual([self.names.shown(it) for it in ("x1.1", 64, "x1.2", "x9.9", 0)],
                         ["Ethernet101/1/1 (web-01)", "Ethernet101/1/1 (web-01)", "Ethernet101/1/2", "x9.9", "port-channel1 (core)"])

    def test_speak(self):
        for text, said in (("left b1 with tag 10", "left port-channel1 (core) with tag 10"), ("x1.1 -> x1.2, all", "Ethernet101/1/1 (web-01) -> Ethernet101/1/2, all"),
                           ("frame 3 (x1.1:3)", "frame 3 (Ethernet101/1/1:3)"), ("record 1 of out-x1.1.pcap", "record 1 of out-x1.1.pcap"),
                           ("journal: line 9, 'relay x1.1 1'", "journal: line 9, 'relay x1.1 1'"), ("tagged x1.1-3 x2.1-3", "tagged Ethernet101/1/1-3 x2.1-3"),
                           ("at x9.1, b1.", "at x9.1, port-channel1 (core)."), ("/runs/x1.1/b1", "/runs/x1.1/b1"), ("x1.1.", "Ethernet101/1/1 (web-01)."),
                           ("0xb1 and b10 isn't b1", "0xb1 and b10 isn't port-channel1 (core)"), ("x1.*", "x1.*")):
            self.assertEqual(self.names.speak(text), said)
        self.assertEqual(names.NOTHING.speak("b1"), "b1")

    def test_heard(self):
        for word, heard in (("Ethernet101/1/1:5", "x1.1:5"), ("eth101/1/1:5", "x1.1:5"), ("port=web-01", "port=x1.1"), ("to=po1", "to=b1"), ("x1.1:5", "x1.1:5"),
                            ("vlan=10", "vlan=10"), ("src=02:00:00:00:00:01", "src=02:00:00:00:00:01"), ("port=nobody", "port=nobody"), ("arp", "arp")):
            self.assertEqual(self.names.heard(word), heard)

    def test_captures(self):
        files = ["Ethernet101_1_1.pcap", "eth101-1-2.pcapng", "in-Eth101.1.3.cap", "Ethernet1_1.pcap", "e1-2.pcap", "out-x1.4.pcap", "x1.4.txt", "swp1.pcap", "Ethernet101_1_11.pcap"]
        self.assertEqual(self.names.captures(files), {"x1.1": ["Ethernet101_1_1.pcap"], "x1.2": ["eth101-1-2.pcapng"], "x1.3": ["in-Eth101.1.3.cap"],
                                                     "b1": ["Ethernet1_1.pcap", "e1-2.pcap"]})

    def test_faults(self):
        for text, said in (("x", "no TOML"), ("[ports]\n", "it has the tables"), ('[port]\nx1 = 3\n', "has to be a port with its interface"),
                           ('[port]\nb1 = { interface = 3 }\n', "has to be a port with its interface"), ('[port]\nb1 = { interface = "a", description = 3 }\n', "are texts"),
                           ("port = 3\n", "it has the tables")):
            with self.subTest(said), self.assertRaisesRegex(names.DeskError, said):
                names.read(self.write("bad.toml", text))
        with self.assertRaisesRegex(names.DeskError, "No such file"):
            names.read(self.path("nope.toml"))
        self.assertEqual(names.read(self.write("odd.toml", '[port]\nb1 = { interface = "a\\u001b[31m\\nb" }\n')).shown("b1"), "a?[31m?b")

    def test_short(self):
        self.assertEqual(short.folded(["swp1", "swp2", "swp10", "br0", "eth"]), "br0, swp1-2, swp10, eth")
        self.assertEqual(short.compact([f"Ethernet{box}/1/{at}" for box in (101, 102, 104) for at in (1, 2, 7)]), "Ethernet101-102,104/1/1-2,7")
        self.assertEqual(short.ranges([5, 1, 2, 3]), "1-3,5")


class Tools(FolderTest):
    """The tools with names beside a topology."""

    def setUp(self) -> None:
        super().setUp()
        self.office = self.example("office")
        self.write("office/names.toml", NAMES)

    def test_why(self):
        done = self.tool("exbr-why", "port-channel1:1", at=self.office)
        self.assertEqual(done.returncode, 0, done.stderr)
        self.assertIn("frame 1 of port-channel1 (core), at", done.stdout)
        self.assertIn("left Ethernet101/1/1 (web-01) with no tag: record 1 of out-x1.1.pcap", done.stdout.replace("./", ""))
        self.assertIn("'relay b1 1'", done.stdout)
        told = json.loads(self.tool("exbr-why", "b1:1", "--json", at=self.office).stdout)
        self.assertEqual(told["names"]["x1.1"], {"interface": "Ethernet101/1/1", "description": "web-01", "rack": "r1"})
        self.assertEqual(told["frames"][0]["port"], "b1")
        self.assertNotIn("Ethernet", self.tool("exbr-why", "b1:1", "--names", "", at=self.office).stdout)

    def test_compare(self):
        other = self.example("office", "other")
        done = self.tool("exbr-compare", self.office, other)
        self.assertEqual(done.returncode, 0, done.stderr)
        self.assertIn("names", json.loads(self.tool("exbr-compare", self.office, other, "--json").stdout))
        self.assertIn("no TOML", self.refused("exbr-compare", self.office, other, "--names", self.write("bad.toml", "x")))

    def test_report(self):
        done = ground.tool("exbr-report", self.office, "-o", self.path("r.html"), "--quiet")
        self.assertEqual(done.returncode, 0, done.stderr)
        with open(self.path("r.html"), encoding="utf-8") as file:
            page = file.read()
        self.assertIn(">Ethernet101/1/1 (web-01)</a>", page)
        self.assertIn("Port port-channel1 (core), VLAN 10", page)
        self.assertIn(">101/1/1</text>", page)
        self.assertIn("x1 FEX 101", page)
        os.remove(os.path.join(self.office, "names.toml"))
        ground.tool("exbr-report", self.office, "-o", self.path("r.html"), "--quiet")
        with open(self.path("r.html"), encoding="utf-8") as file:
            self.assertNotIn("Ethernet101", file.read())


if __name__ == "__main__":
    unittest.main()
