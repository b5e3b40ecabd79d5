"""exbr-reach: who reaches whom, by moment, by command, by policy; held against the plain bridge, port by port."""
from __future__ import annotations

import contextlib
import io
import json
import os
import subprocess
import unittest
from collections import Counter

import desk_help
import plainly
import sweep
from exbr_desk import errors, plain, topology
from exbr_reach import answers, cli, during, failures, masks, moments, policies, probes, relation, wording

NIGHT = os.path.join(desk_help.TOP, "examples", "night", "topology.toml")
HEAD = """[bridge]
ports = 3
[[extender]]
number = 1
on = "b3"
ports = 4
"""
PLAIN = HEAD + "[[vlan]]\nvid = 10\ntagged = ['b1']\nuntagged = ['x1.1-2']\n" + "".join(f"[[port]]\nname = 'x1.{port}'\npvid = 10\n" for port in (1, 2))


def found_in(text: str, **asked) -> answers.Answers:
    return answers.of_topology(topology.of_text(text), desk_help.needs_program(), probes.Asked(**asked))


class Masks(unittest.TestCase):
    def test_sets(self):
        them = [0, 3, 63, 64, 65, 4159]
        mask = masks.of(them)
        self.assertEqual((list(masks.ports(mask)), masks.count(mask), masks.first(mask), masks.second(mask)), (them, 6, 0, 3))
        self.assertEqual(masks.words(mask), "b1, b4, b64, x1.1-2, x64.64")
        self.assertEqual(sorted(masks.split(mask, (masks.of([0, 64]), masks.of([64, 65])))), sorted(map(masks.of, ([64], [0], [65], [3, 63, 4159]))))


class Relations(unittest.TestCase):
    """Blocks, held against sets of pairs."""

    def drawn(self, chance) -> tuple[relation.Relation, set]:
        blocks = [(chance.getrandbits(12), chance.getrandbits(12)) for _ in range(chance.randrange(5))]
        pairs = {(one, other) for senders, heard in blocks for one in range(12) for other in range(12) if senders >> one & 1 and heard >> other & 1 and one != other}
        return relation.made(blocks), pairs

    def test_they_are_sets_of_pairs(self):
        import random
        chance = random.Random(7)
        for _ in range(400):
            (one, pairs), (other, others) = self.drawn(chance), self.drawn(chance)
            self.assertEqual(set(relation.each(one)), pairs)
            self.assertEqual(relation.pairs(one), len(pairs))
            self.assertEqual(set(relation.each(relation.minus(one, other))), pairs - others)
            self.assertEqual(set(relation.each(relation.plus(one, other))), pairs | others)
            some, heard = chance.getrandbits(12), chance.getrandbits(12)
            self.assertEqual(set(relation.each(relation.within(one, some, heard))), {(a, b) for a, b in pairs if some >> a & 1 and heard >> b & 1})
            self.assertEqual({(a, b) for a in range(12) for b in range(12) if relation.has(one, a, b)}, pairs)

    def test_lines_say_each_pair_and_no_other(self):
        import random
        chance = random.Random(8)
        for _ in range(300):
            given, pairs = self.drawn(chance)
            self.assertEqual(said(wording.lines(given)), pairs)

    def test_lines_are_few(self):
        mesh = relation.made([(0b1111, 0b1111)])
        self.assertEqual(wording.lines(mesh), ["b1-4 <-> each other"])
        self.assertEqual(wording.lines(relation.made([(0b11, 0b1100), (0b1100, 0b11)])), ["b1-2 <-> b3-4"])
        self.assertEqual(wording.lines(relation.made([(0b1, 0b1110)])), ["b1 -> b2-4"])
        # As many blocks of one port each they are the same.
        self.assertEqual(relation.made([(1 << port, 0b1111 & ~(1 << port)) for port in range(4)]), mesh)


def ports_in(words: str) -> set[int]:
    tree = topology.of_text("[bridge]\nports = 64\n").tree
    return {port for word in words.split(", ") for port in tree.ports(word)}


def said(lines: list[str]) -> set[tuple[int, int]]:
    """The pairs that lines say."""
    found = set()
    for line in lines:
        if line.endswith(" <-> each other"):
            them = ports_in(line.removesuffix(" <-> each other"))
            found |= {(one, other) for one in them for other in them if one != other}
            continue
        one_way = " <-> " not in line
        senders, heard = map(ports_in, line.split(" -> " if one_way else " <-> "))
        pairs = {(one, other) for one in senders for other in heard if one != other}
        found |= pairs if one_way else pairs | {(other, one) for one, other in pairs}
    return found


class BesideThePlainBridge(unittest.TestCase):
    """A sample of tools/desk/tests/sweep.py, which goes over 300 topologies."""

    def test_pair_by_pair(self):
        told = Counter()
        for number in (3, 4, 9, 12):
            sweep.reach_of(plainly.random_topology(number), desk_help.needs_program(), told)
        self.assertGreater(told["pairs that reach each other, over all moments and VLANs"], 1000)
        self.assertLess(told["frames played"], told["frames without folding"])

    def test_folded_is_unfolded(self):
        text = plainly.random_topology(7)
        one, other = found_in(text), found_in(text, unfolded=True)
        self.assertLess(len(one.plan.probes), len(other.plan.probes))
        for vid in one.vlans.keys() | other.vlans.keys():
            for moment in one.moments:
                self.assertEqual(set(relation.each(one.at(vid, moment.place))), set(relation.each(other.at(vid, moment.place))), (vid, moment))

    def test_frames_on_their_way(self):
        for number in (5, 8):
            seen = during.watched(found_in(plainly.random_topology(number)), desk_help.needs_program(), 2)
            self.assertEqual(seen.odd, [])
            self.assertGreater(seen.frames, 50)


class Answers(unittest.TestCase):
    def test_a_vlan(self):
        its = found_in(PLAIN)
        heard = its.heard(10, 0)
        self.assertEqual(wording.lines(heard.every), ["b1, x1.1-2 <-> each other"])
        self.assertEqual(masks.words(heard.tagged), "b1")
        self.assertEqual((its.astray, its.flooded), ([], 0))

    def test_leaks(self):
        self.assertEqual(wording.lines(found_in(PLAIN, leaks=True).at(10, 0)), ["b1, x1.1-2 <-> each other", "b2, x1.3-4 -> b1, x1.1-2"])
        filtering = PLAIN + "".join(f"[[port]]\nname = '{port}'\nfilter = true\n" for port in ("b2", "x1.3", "x1.4"))
        self.assertEqual(wording.lines(found_in(filtering, leaks=True).at(10, 0)), ["b1, x1.1-2 <-> each other"])

    def test_a_static_entry(self):
        its = found_in(PLAIN + "[[static]]\nvid = 10\nmac = '01:00:5e:00:00:01'\nports = ['x1.1', 'x1.3']\n")
        line = its.statics[10, bytes.fromhex("01005e000001")]
        self.assertEqual(wording.lines(line.at(0).every), ["b1, x1.2 -> x1.1"])

    def test_moments_between_commands_of_one_second(self):
        text = PLAIN + "".join(f"[[command]]\nat = 5\nop = 'isolate'\nport = 'x1.{port}'\nisolated = {on}\n" for port, on in ((1, "true"), (2, "true"), (1, "false")))
        its = found_in(text)
        self.assertEqual([moment.at_rest for moment in its.moments], [True, False, False, True])
        self.assertEqual(wording.lines(its.at(10, 2)), ["b1 <-> x1.1-2"])
        self.assertEqual(wording.lines(its.at(10, 3)), ["b1, x1.1-2 <-> each other"])

    def test_ports_that_stay_absent_and_commands_that_are_refused(self):
        text = HEAD.replace("ports = 3", "ports = 3\ngroups = 2") + "[[vlan]]\nvid = 10\nuntagged = ['x1.1-3']\n[[vlan]]\nvid = 20\nuntagged = ['x1.2-4']\n"
        its = found_in(text)
        self.assertEqual(masks.words(masks.of(its.course.absent)), "x1.2-3")

    def test_two_hundred_vlans_are_asked_where_a_command_touched_them(self):
        text = HEAD + "[[vlan]]\nvid = 1\nlast = 200\ntagged = ['*']\n[[command]]\nat = 1\nop = 'unmember'\nvid = 7\nport = 'b1'\n"
        its = found_in(text)
        self.assertEqual([len(vids) for vids in its.plan.touched], [200, 1])
        self.assertEqual(wording.lines(its.at(7, 1)), ["b1 -> b2, x1.1-4", "b2, x1.1-4 <-> each other"][::-1])


class Asked(desk_help.FolderTest):
    """The tool as it is called, and its policies."""

    def ask(self, *words: str) -> tuple[int, str, str]:
        out, said_there = io.StringIO(), io.StringIO()
        with contextlib.redirect_stdout(out), contextlib.redirect_stderr(said_there):
            try:
                status = errors.ended("exbr-reach", lambda: cli.main([*words, "--program", desk_help.needs_program()]))
            except SystemExit as end:
                status = end.code
        return status, out.getvalue(), said_there.getvalue()

    def test_by_command(self):
        status, out, _ = self.ask(NIGHT)
        self.assertEqual(status, 1)
        self.assertIn("command 6 (isolate port x4.3 isolated true) at 60 s: 10 pairs lost, 0 gained\n  - VLAN 20: x3.1-3, x4.1-2 <-> x4.3\n", out)
        self.assertIn("at the end against the beginning: 30 pairs lost, 0 gained\n  - VLAN 20: x3.1-3, x4.1-3 <-> each other\n", out)

    def test_two_topologies(self):
        fixed = os.path.join(os.path.dirname(NIGHT), "fixed.toml")
        status, out, _ = self.ask(NIGHT, fixed)
        self.assertEqual(status, 1)
        self.assertIn("0 pairs lost, 10 gained\n  + VLAN 20: x3.1-3, x4.1-2 <-> x4.3\n", out)
        self.assertEqual(self.ask(NIGHT, NIGHT)[0], 0)

    def test_one_question(self):
        status, out, _ = self.ask(NIGHT, "--from", "x3.1", "--to", "x4.3", "--vlan", "20")
        self.assertEqual(status, 1)
        self.assertIn("from command 6 on (isolate port x4.3 isolated true): no\n", out)
        self.assertIn("not at x4.3: it is isolated (as command 6 left it), as x3.1 is (as command 1 left it)\n", out)
        self.assertEqual(self.ask(NIGHT, "--from", "x3.1", "--to", "b4")[0], 0)

    def policy(self, text: str, *words: str) -> tuple[int, str, str]:
        return self.ask(NIGHT, "--expect", self.write("policies.toml", text), "--brief", *words)

    def test_policies_hold_and_break(self):
        for text, status, word in (
                ("[[never]]\nfrom = 'x3.*'\nto = 'x3.*'\nwhen = 'end'\n", 0, "holds"), ("[[never]]\nfrom = 'x3.*'\nto = 'x3.*'\n", 1, "at the beginning, until command 3"),
                ("[[always]]\nfrom = 'x3.*'\nto = 'x4.3'\nvlan = 20\nwhen = 'beginning'\n", 0, "holds"),
                ("[[always]]\nfrom = 'x3.*'\nto = 'x4.3'\nvlan = 20\n", 1, "command 6 (isolate port x4.3 isolated true) at 60 s: these have to reach each other"),
                ("[[always]]\nfrom = 'x3.*'\nto = 'x4.3'\nwhen = 'end'\n", 1, "in no VLAN: x3.1-3 -> x4.3"),
                ("[[only]]\nfrom = 'x3.*'\nto = ['b4', 'x4.3']\nwhen = 'end'\n", 0, "holds"), ("[[only]]\nfrom = 'x3.*'\nto = 'x4.3'\nvlan = '20-29'\nwhen = 'end'\n", 1, "x3.1-3 -> b4"),
                ("[[never]]\nfrom = 'x4.2'\nto = 'x1.*'\nwhen = 'rest'\n", 0, "holds")):
            done = self.policy(text)
            self.assertEqual(done[0], status, (text, done))
            self.assertIn(word, done[1], text)

    def test_a_leak_breaks_a_policy(self):
        done = self.policy("[[never]]\nfrom = 'x4.2'\nto = 'x1.*'\nvlan = 10\n", "--leaks")
        self.assertEqual(done[0], 1)
        self.assertIn("at the beginning, until command 8 (filter port x4.2 filter true) at 61 s: these reach each other\n    VLAN 10: x4.2 -> x1.1-2\n", done[1])

    def test_faults_of_policies_have_their_line(self):
        for text, line in (("[[nevr]]\n", "1:3: there is no policy nevr"), ("[[never]]\nfrom = 'x3.*'\n", "1:1: this policy has no to"), ("[never]\n", "1:1: write [[never]]"),
                           ("[[never]]\nfrom = 'x9.*'\nto = 'b4'\n", "2:8: x9.* names no external ports"), ("[[never]]\nfrom = ['b3', 'b9']\nto = 'b4'\n", "2:15: b9 names no"),
                           ("[[never]]\nfrom = 'b3'\nto = 'b4'\nvlan = 5000\n", "4:8: 5000 is no VLAN"), ("[[never]]\nfrom = 'b3'\nto = 'b4'\nwhen = 'now'\n", "4:8: when is one of"),
                           ("[[never]]\nfrom = 'b3'\nto = 'b4'\nwho = 1\n", "4:1: a policy has no key who"), ("", " there is no policy in it"), ("a = \n", "1:5: no TOML")):
            status, out, said_there = self.policy(text)
            self.assertEqual((status, out, said_there.count("\n")), (2, "", 1), said_there)
            self.assertIn(f"policies.toml:{line}", said_there)

    def test_input_that_cannot_be_used(self):
        for words in ((self.path("none"),), (NIGHT, "--vlan", "5000"), (NIGHT, "--from", "x3.1"), (NIGHT, "--from", "x9.9", "--to", "b4"), (NIGHT, "--from", "b4", "--to", "b4"),
                      (NIGHT, "--expect", self.path("none")), (NIGHT, "--orders", "-1")):
            status, out, said_there = self.ask(*words)
            self.assertEqual((status, out, said_there.count("\n")), (2, "", 1), (words, said_there))

    def test_for_programs(self):
        told = json.loads(self.ask(NIGHT, "--json")[1])
        self.assertEqual((told["status"], told["difference"]["lost"], told["before"]["end"]["vlans"]["20"]["reach"][0]["to"]), (1, 30, ["x3.1-3", "x4.1-3"]))
        self.assertEqual([it["lost"] for it in told["before"]["commands"]], [0, 2, 4, 6, 8, 10, 0, 0])

    def test_the_page_asks_for_nothing_and_says_all_of_it(self):
        path = self.path("page.html")
        self.ask(NIGHT, "--brief", "--leaks", "--fail", "each-extender", "--html", path, "--expect",
                 self.write("policies.toml", "[[never]]\nname = '<b>\"&'\nfrom = 'x3.*'\nto = 'x3.*'\n"))
        with open(path, encoding="utf-8") as file:
            text = file.read()
        for part in ("default-src &#x27;none&#x27;", "command 8 (filter port x4.2 filter true) at 61 s", "VLAN 20: x3.1-3, x4.1-3 &lt;-&gt; each other", '&lt;b&gt;"&amp;',
                     "– (was →)", "↔ t", "frames played for 1,966", 'id="policies"', 'id="losses"'):
            self.assertIn(part, text)
        for part in ("http:", "https:", "<script", "src=", "url(", "<b>\""):
            self.assertNotIn(part, text)
        self.assertEqual(os.listdir(self.folder).count("page.html.part"), 0)
        self.assertEqual(self.ask(NIGHT, "--html", self.path("none/page.html"))[0], 2)

    def test_what_was_played_can_be_kept(self):
        self.ask(NIGHT, "--keep", self.path("kept"))
        self.assertTrue(os.path.exists(self.path("kept/out-x1.1.pcap")))
        status, _, said_there = self.ask(NIGHT, "--keep", self.path("kept"))
        self.assertEqual(status, 2)
        self.assertIn("has files in it", said_there)

    def test_as_it_is_called(self):
        done = subprocess.run([os.path.join(desk_help.TOOLS, "exbr-reach"), NIGHT, NIGHT, "--program", desk_help.needs_program()], capture_output=True, text=True, check=False)
        self.assertEqual((done.returncode, done.stderr), (0, ""))
        for word in ("--help", "--version"):
            self.assertEqual(self.script("exbr-reach", word).returncode, 0)


class Losses(unittest.TestCase):
    """The loss of extenders and ports, held against a topology in which they are down."""

    def setUp(self) -> None:
        self.base = found_in(open_text(NIGHT))

    def test_what_is_lost(self):
        given = self.base.given
        self.assertEqual([masks.words(it.ports) for it in failures.losses_of(given, "each-extender")], ["x1.1-2, x2.1-3, x3.1-3", "x2.1-3", "x3.1-3", "x4.1-3"])
        self.assertEqual(len(failures.losses_of(given, "each-port")), 13)
        self.assertEqual([(it.name, masks.words(it.ports)) for it in failures.losses_of(given, "x3+b4,x1.1-2")], [("x3+b4", "b4, x3.1-3"), ("x1.1-2", "x1.1-2")])
        for words in ("x9", "b1", "nobody", "", "x1.*,", "x1-2"):
            with self.assertRaises(errors.DeskError):
                failures.losses_of(given, words)

    def test_each_is_a_topology_in_which_the_ports_are_down(self):
        exbr = desk_help.needs_program()
        losses = failures.losses_of(self.base.given, "x2,x4.1-2+b4,x1")
        for lost, loss in zip(failures.played(self.base, losses, exbr, probes.Asked(), [], 1, None), losses, strict=True):
            down = "".join(f"[[command]]\nat = 70\nop = 'down'\nport = '{name}'\n" for name in map(plain.name_of, masks.ports(loss.ports)))
            other = found_in(open_text(NIGHT) + down)
            wanted = {vid: set(relation.each(self.base.at(vid, self.base.end))) - set(relation.each(other.at(vid, other.end))) for vid in other.vlans}
            self.assertEqual({vid: set(relation.each(its)) for vid, its in lost.vlans.items()}, {vid: pairs for vid, pairs in wanted.items() if pairs})
            self.assertEqual(lost.others, 0)

    def test_side_by_side_is_one_after_the_other(self):
        losses = failures.losses_of(self.base.given, "each-port")
        one, other = (failures.played(self.base, losses, desk_help.needs_program(), probes.Asked(), [], jobs, None) for jobs in (1, 3))
        self.assertEqual(one, other)
        self.assertEqual({vid: masks.words(ports) for vid, ports in one[1].alone.items()}, {20: "x3.1-3, x4.1-3"})

    def test_a_policy_that_one_port_suffices_for(self):
        policy = policies.Policy("always", "out", masks.of([64, 128]), masks.of([2, 3]), None, "end", 1, True)
        losses = failures.losses_of(self.base.given, "b3,b4,b3-4,x1.1+b3")
        found = failures.played(self.base, losses, desk_help.needs_program(), probes.Asked(), [policy], 1, None)
        self.assertEqual([(it.name, it.broken) for it in found], [("b3", []), ("b4", []), ("b3-4", ["out"]), ("x1.1+b3", [])])


def open_text(path: str) -> str:
    """The text of a topology without its captures."""
    with open(path, encoding="utf-8") as file:
        return file.read().partition("[captures]")[0]


class Names(unittest.TestCase):
    def test_what_a_policy_may_be(self):
        self.assertEqual((policies.KINDS, policies.TIMES), (("never", "always", "only"), ("beginning", "end", "rest", "every moment")))
        self.assertEqual(moments.WIDE, ("vlan", "member", "unmember"))


if __name__ == "__main__":
    unittest.main()
