"""`exbr-why` over the examples as they must be, over files with planted faults, and over broken input."""
from __future__ import annotations

import json
import os
import random
import shutil
import unittest

from desk_help import TOP, FolderTest, program
from exbr_desk import captures, runs
from planted import PLANTED
from world.schedule import run as run_world
from random_runs import given_of, looked_at, named_by, one, write_run

# Those of one bridge: a net has the topologies of its bridges, and arrivals over wires that no capture holds.
EXAMPLES = sorted(it for it in os.listdir(os.path.join(TOP, "examples")) if os.path.isfile(os.path.join(TOP, "examples", it, "topology.toml"))
                  and os.path.isdir(os.path.join(TOP, "examples", it, "expected")))


class Examples(FolderTest):
    def told(self, example: str, *words: str) -> str:
        done = self.tool("exbr-why", *words, at=self.example(example))
        self.assertEqual((done.returncode, done.stderr), (0, ""), done.stdout)
        return done.stdout

    def test_all_examples_agree(self):
        self.assertIn("office", EXAMPLES)
        for example in EXAMPLES:
            self.assertIn("The files agree with the rules", self.told(example, "--all"))

    def test_rules_that_keep_a_frame_out(self):
        topology = ("[bridge]\nports = 1\n[[extender]]\nnumber = 1\non = 'b1'\nports = 2\n[captures]\n'x1.1' = 'a.pcap'\n"
                    "[[vlan]]\nvid = 1\nuntagged = ['*']\n[[vlan]]\nvid = 5\ntagged = ['x1.2']\n"
                    + "".join(f"[[command]]\nat = {at}\nop = {rest}\n" for at, rest in
                              enumerate(("'filter'\nport = 'x1.1'\nfilter = true", "'accept'\nport = 'x1.1'\naccept = 'untagged'",
                                         "'down'\nport = 'x1.1'"), 2)))
        five, nine = (b"\xff" * 6 + b"\x02" + bytes(5) + b"\x81\x00\x00" + bytes([vid]) + b"\x08\x00" + bytes(42) for vid in (5, 9))
        given = captures.capture_text((at * captures.SECOND, it) for at, it in ((100, five), (100, nine), (100, five[:14]), (102, five), (103, five), (104, five)))
        written, _, _ = run_world(topology, {"a.pcap": given})
        for file, data in {"topology.toml": topology.encode(), "a.pcap": given, **written}.items():
            self.write(file, data)
        done = self.tool("exbr-why", "--limit", "9", "port=x1.1")
        self.assertEqual(done.returncode, 0, done.stdout)
        for line in ("left x1.2 with tag 5: record 1", "refused: VLAN 9 has no member, so nothing passes in it (its tag says so)",
                     "relayed to nobody: its VLAN tag is cut off or names VLAN 4095", "ignored: x1.1 is down (as command 3 left it)",
                     "refused by x1.1, which filters (as command 1 left it) and isn't a member of VLAN 5 (its tag says so)",
                     "refused by x1.1, which accepts frames without a VLAN alone (as command 2 left it); this one has tag 5"):
            self.assertIn(line, done.stdout)

    def test_flooded_learned_and_aged(self):
        text = self.told("office", "--limit", "9", "vlan=10")
        for line in ("target: broadcast is for a group, and no static entry names it in VLAN 10, so it is flooded",
                     "left b1 with tag 10: record 1 of out-b1.pcap", "left x1.2 with no tag: record 1 of out-x1.2.pcap",
                     "learned in VLAN 10 at x1.1, by frame 1 of x1.1, 1 s before (ageing 300 s)",
                     "last seen in VLAN 10 at x1.1, by frame 1 of x1.1, 400 s before. That is too old"):
            self.assertIn(line, text)

    def test_isolated_and_static(self):
        self.assertIn("not at x1.2: it is isolated, as x1.1 is", self.told("private-hosts", "x1.1:1"))
        self.assertIn("target: a static entry names 01:00:5e:00:00:05 in VLAN 1: ", self.told("static-group", "x1.1:3"))

    def test_hops_of_a_trace(self):
        text = self.told("lossy-links", "x1.1:1")
        for line in ("into x1 at x1.1: no tag", "into the bridge at b1: E-TAG channel 2, no tag", "out of the bridge at b2: tag 10",
                     "out of x1 at x1.3: E-TAG group 0 (E-CID 0x1000), not back to channel 2, no tag", "out of x2 at x2.1: no tag"):
            self.assertIn(line, text)

    def test_json(self):
        it = json.loads(self.told("lossy-links", "--json", "b2:1"))
        self.assertEqual((it["agrees"], it["arrivals"], it["frames"][0]["vlan"], it["frames"][0]["how"]), (True, 4, 10, "learned"))
        self.assertEqual(it["frames"][0]["left"], [{"port": "x1.1", "kind": "untagged", "tag": "no tag", "record": 1}])
        self.assertEqual(it["frames"][0]["learned"], {"port": "x1.1", "index": 1, "seconds_ago": 1})
        self.assertTrue(it["frames"][0]["trace"])

    def test_words_choose(self):
        for words, count in ((["src=02:00:00:00:00:02"], 3), (["src=02-00-00-00-00-02", "dst=broadcast"], 3), (["port=b2"], 1), (["to=x2.2"], 2),
                             (["type=arp"], 4), (["rule=passes"], 4), (["x1.1:1", "x1.1:3"], 2)):
            it = json.loads(self.told("lossy-links", "--json", *words))
            self.assertEqual(len(it["frames"]), count, words)
            shutil.rmtree(self.path("lossy-links"))

    def test_a_display_filter(self):
        if shutil.which("tshark") is None:
            self.skipTest("no tshark")
        folder = self.example("office")
        its = json.loads(self.tool("exbr-why", "--json", "--filter", "arp.opcode == 2", at=folder).stdout)["frames"]
        self.assertEqual([(it["port"], it["index"]) for it in its], [("b1", 1)])
        self.assertIn("tshark", self.refused("exbr-why", "--filter", "no such (", at=folder))
        self.assertIn("no frame fits", self.refused("exbr-why", "--filter", "lldp && ipv6", at=folder))


class Differences(FolderTest):
    def planted(self, what: str, seed: int = 1) -> tuple[str, str]:
        folder = self.example("office")
        path = PLANTED[what](runs.whole(folder), random.Random(seed))
        done = self.tool("exbr-why", "--all", at=folder)
        self.assertEqual(done.returncode, 1, done.stdout)
        return os.path.basename(path), done.stdout

    def test_a_frame_taken_out(self):
        path, text = self.planted("a frame taken out")
        self.assertRegex(text, f"1 difference between .*\n  {path}: frame [0-9]+ of [bx.0-9]+ is missing before record")

    def test_a_frame_added(self):
        path, text = self.planted("a frame added")
        self.assertRegex(text, f"1 difference between .*\n  {path}: record [0-9]+ ought not to be there")

    def test_a_tag_changed(self):
        path, text = self.planted("a tag changed")
        self.assertRegex(text, f"1 difference between .*\n  {path}: record [0-9]+ ought to be frame .*: it has .*tag.* and not ")

    def test_a_line_changed(self):
        path, text = self.planted("a journal line changed")
        self.assertIn(f"  {path}: ", text)

    def test_the_frame_itself_is_told(self):
        folder = self.example("office")
        path = os.path.join(folder, "out-x1.2.pcap")
        its = [(time, frame) for _, time, frame in captures.records(path)]
        self.write("office/out-x1.2.pcap", captures.capture_text(its[1:]))
        done = self.tool("exbr-why", "x1.1:1", at=folder)
        self.assertEqual(done.returncode, 1)
        self.assertIn("left x1.2 with no tag, by the rules; the file doesn't have it", done.stdout)
        self.assertIn("NOT AS THE RULES HAVE IT: out-x1.2.pcap: frame 1 of x1.1 is missing before record 1", done.stdout)

    def test_a_trace_that_is_changed(self):
        folder = self.example("lossy-links")
        with open(os.path.join(folder, "out-trace.txt"), encoding="ascii") as file:
            lines = file.read().splitlines()
        at = next(at for at, line in enumerate(lines) if line == "= relay x1.1 1")
        for change in ([], ["= relay x1.1 2"]):
            self.write("lossy-links/out-trace.txt", "".join(f"{line}\n" for line in lines[:at] + change + lines[at + 1:]))
            done = self.tool("exbr-why", "x1.1:1", at=folder)
            self.assertEqual(done.returncode, 1, done.stdout)
            self.assertIn("out-trace.txt: ", done.stdout)

    def test_counters(self):
        folder = self.example("first-path")
        good = "".join(f"x1.{port} relayed {int(port == 1)} dropped 0 ignored 0 left {int(port > 1)} octets {60 * (port > 1)}\n" for port in range(1, 5))
        self.write("first-path/out-counters.txt", good)
        self.assertEqual(self.tool("exbr-why", "--all", at=folder).returncode, 0)
        self.write("first-path/out-counters.txt", good.replace("octets 60", "octets 64", 1))
        done = self.tool("exbr-why", "--all", at=folder)
        self.assertEqual((done.returncode, "out-counters.txt: line 2 is" in done.stdout), (1, True))

    def test_random_runs_of_the_tree_in_python(self):
        from collections import Counter
        told = Counter()
        for number in range(1, 13):
            one(number, None, True, told)
        self.assertEqual(told["runs"], 12)
        self.assertTrue(all(told[f"{what}: found"] >= 10 for what in PLANTED), told)

    def test_random_runs_of_the_program(self):
        exbr = program()
        if exbr is None:
            self.skipTest("no program: set EXBR_PROGRAM")
        for number in range(5001, 5021):
            folder = self.path(str(number))
            os.mkdir(folder)
            found = looked_at(write_run(given_of(number), folder, exbr))
            self.assertEqual(named_by(found), set(), number)


class Broken(FolderTest):
    def test_no_run(self):
        self.assertIn("there is no topology.toml", self.refused("exbr-why", "x1.1:1"))
        self.assertIn("isn't there", self.refused("exbr-why", "--run", "nowhere.toml", "x1.1:1"))
        folder = self.example("office")
        os.remove(os.path.join(folder, "out-journal.txt"))
        self.assertIn("out-journal.txt isn't there: this topology wasn't run", self.refused("exbr-why", "x1.1:1", at=folder))

    def test_no_frame(self):
        folder = self.example("office")
        for words, line in ((["x1.1:0"], "a frame is named by its port"), (["x1.1:99"], "has 2 frames"), (["x9.1:1"], "no external port"),
                            (["b9"], "a frame is named"), (["color=red"], "no such word"), (["vlan=4095"], "a VLAN is 1 to 4094"),
                            (["src=1:2"], "an address is six pairs"), (["type=foo"], "a type is one of"), (["rule=luck"], "the rules are"),
                            ([], "no frame is named"), (["src=02:00:00:00:00:77"], "no frame fits"), (["--all", "x1.1:1"], "--all goes over"),
                            (["--limit", "-1", "x1.1:1"], "--limit is 0 or more"), (["vlan=1", "vlan=2"], "vlan= is given twice")):
            self.assertIn(line, self.refused("exbr-why", *words, at=folder), words)

    def test_broken_files(self):
        for name, data, line in (("topology.toml", b"\xff", "NotToml"), ("topology.toml", b"[bridge]\nports = 0\n", "Range at bridge.ports"),
                                 ("in-x1.1.pcap", b"hello", "in-x1.1.pcap: NotPcap at 0"), ("out-x1.2.pcap", b"\xd4\xc3\xb2\xa1", "out-x1.2.pcap: Cut at 0"),
                                 ("out-journal.txt", b"settled", "out-journal.txt ends within a line: this run didn't end"), ("out-trace.txt", b"in x1 up zz\n", "no line of a trace")):
            folder = self.example("office")
            self.write(f"office/{name}", data)
            self.assertIn(line, self.refused("exbr-why", "x1.1:1", at=folder))
            shutil.rmtree(folder)

    def test_files_of_anything(self):
        chance = random.Random(7)
        for turn in range(30):
            folder = self.example("lossy-links", f"run{turn}")
            name = chance.choice(["topology.toml", "in-b2.pcap", "out-b2.pcap", "out-journal.txt", "out-trace.txt", "out-x2.1.pcap"])
            with open(os.path.join(folder, name), "rb") as file:
                data = bytearray(file.read())
            for _ in range(1 + turn % 3):
                at = chance.randrange(len(data))
                data[at:at + chance.randrange(3)] = chance.randbytes(chance.randrange(3))
            self.write(f"run{turn}/{name}", bytes(data))
            self.assertIn(self.tool("exbr-why", "x1.1:1", at=folder).returncode, (0, 1, 2))

    def test_help(self):
        done = self.script("exbr-why", "--help")
        self.assertEqual(done.returncode, 0)
        self.assertIn("status: 0 the files agree", done.stdout)


if __name__ == "__main__":
    unittest.main()
