"""`exbr-compare` over the examples, over small changes of their files, and over broken input."""
from __future__ import annotations

import json
import os
import shutil

from desk_help import TOP, FolderTest, needs_program, unittest
from exbr_desk import captures
from world.schedule import run as run_world


class Compare(FolderTest):
    def run_of(self, name: str, topology: str, files: dict[str, bytes]) -> str:
        """A run of a topology, made by the tree over links in Python."""
        written, _, _ = run_world(topology, files)
        for file, data in {"topology.toml": topology.encode(), **files, **written}.items():
            if not file.endswith("trace.txt"):
                self.write(f"{name}/{file}", data)
        return self.path(name)

    def of_example(self, example: str, drop: tuple[str, ...] = ()) -> tuple[str, dict[str, bytes]]:
        """Text and captures of an example, without the commands that hold these words."""
        folder = os.path.join(TOP, "examples", example)
        with open(os.path.join(folder, "topology.toml"), encoding="utf-8") as file:
            head, *commands = file.read().split("[[command]]")
        *commands, last = commands
        last, bracket, tail = last.partition("[captures]")
        kept = [it for it in (*commands, last) if not any(word in it for word in drop)]
        files = {}
        for name in os.listdir(folder):
            if name.startswith("in-"):
                with open(os.path.join(folder, name), "rb") as file:
                    files[name] = file.read()
        return head + "".join(f"[[command]]{it}" for it in kept) + bracket + tail, files


def topology(vlans: str, more: str = "") -> str:
    return ("[bridge]\nports = 1\n[[extender]]\nnumber = 1\non = 'b1'\nports = 3\n" + vlans + more
            + "[captures]\n'x1.1' = 'a.pcap'\n'x1.2' = 'b.pcap'\n")


def frame(to: int, source: int) -> bytes:
    return bytes([255] * 6 if not to else [2, 0, 0, 0, 0, to]) + bytes([2, 0, 0, 0, 0, source]) + b"\x08\x00" + bytes(46)


TALK = {"a.pcap": captures.capture_text((at * 10**9, frame(to, 1)) for at, to in ((100, 0), (102, 2), (104, 2), (106, 2))),
        "b.pcap": captures.capture_text((at * 10**9, frame(1, 2)) for at in (101, 103, 105))}
ALL = "[[vlan]]\nvid = 1\nuntagged = ['*']\n"


class Small(Compare):
    def test_the_same(self):
        one, other = self.run_of("one", topology(ALL), TALK), self.run_of("other", topology(ALL), TALK)
        done = self.tool("exbr-compare", one, other)
        self.assertEqual(done.returncode, 0, done.stderr)
        self.assertTrue(done.stdout.startswith("who loses connectivity: nobody\nframes: 7 as before\n"))

    def test_a_pair_that_is_parted(self):
        one = self.run_of("one", topology(ALL), TALK)
        keeps_out = "[[port]]\nname = 'x1.2'\nfilter = true\n"
        other = self.run_of("other", topology(ALL.replace("*", "x1.1', 'x1.3"), keeps_out), TALK)
        done = self.tool("exbr-compare", one, other)
        self.assertEqual(done.returncode, 1, done.stderr)
        lines = done.stdout.splitlines()
        self.assertEqual(lines[0], "who loses connectivity: 1 pair of stations and 1 pair of ports (frames to all)")
        self.assertTrue(lines[1].startswith("  02:00:00:00:00:01 (x1.1) <-> 02:00:00:00:00:02 (x1.2): VLAN 1: 3 frames and 3 back (x1.1:2"), lines[1])
        self.assertIn("  x1.1 -> x1.2, frames to all: VLAN 1: 1 frame (x1.1:1); now it is flooded in VLAN 1, without that port", lines)
        self.assertIn("    no longer to x1.2 (no tag): 4 frames (x1.1:1, x1.1:2, x1.1:3, ..); now it is flooded", done.stdout)
        back = self.tool("exbr-compare", other, one, "--brief").stdout.splitlines()
        self.assertEqual(back[:2], ["who loses connectivity: nobody", "who gains connectivity: 1 pair of stations and 1 pair of ports (frames to all)"])

    def test_from_some_frame_on_or_for_a_while(self):
        down, up = ("[[command]]\nat = {}\nop = '{}'\nport = 'x1.2'\n".format(*it) for it in ((3, "down"), (5, "up")))
        one = self.run_of("one", topology(ALL), TALK)
        its = json.loads(self.tool("exbr-compare", one, self.run_of("off", topology(ALL, down), TALK), "--json").stdout)
        self.assertEqual([(it["source"], it["frames"], it["first"]) for it in its["loses"]],
                         [("02:00:00:00:00:01", 2, ["x1.1:3", "x1.1:4"]), ("02:00:00:00:00:02", 2, ["x1.2:2", "x1.2:3"])])
        its = json.loads(self.tool("exbr-compare", one, self.run_of("flap", topology(ALL, down + up), TALK), "--json").stdout)
        self.assertEqual((its["loses"], [(it["source"], it["frames"]) for it in its["fewer"]]),
                         ([], [("02:00:00:00:00:01", 1), ("02:00:00:00:00:02", 1)]))
        self.assertEqual(its["commands"]["after"], {"commits": [1, 2], "refusals": {}})

    def test_another_tag_alone(self):
        one = self.run_of("one", topology(ALL), TALK)
        other = self.run_of("other", topology("[[vlan]]\nvid = 1\nuntagged = ['x1.1', 'x1.3']\ntagged = ['x1.2']\n"), TALK)
        done = self.tool("exbr-compare", one, other)
        self.assertEqual(done.returncode, 1)
        self.assertTrue(done.stdout.startswith("who loses connectivity: nobody\nframes: 3 as before, 4 leave with another tag"), done.stdout)
        self.assertIn("to x1.2 with tag 1 and not no tag: 4 frames", done.stdout)

    def test_what_files_have_counts(self):
        one, other = self.run_of("one", topology(ALL), TALK), self.run_of("other", topology(ALL), TALK)
        its = [(time, data) for _, time, data in captures.records(os.path.join(other, "out-x1.2.pcap"))]
        self.write("other/out-x1.2.pcap", captures.capture_text(its[:2] + its[3:]))
        done = self.tool("exbr-compare", one, other)
        self.assertEqual(done.returncode, 1)
        self.assertIn("1 reach fewer ports", done.stdout)
        self.assertIn("AFTER: 1 difference between its files and the rules", done.stdout)
        self.write("other/out-x1.2.pcap", captures.capture_text(its + [(107 * 10**9, bytes(60))]))
        done = self.tool("exbr-compare", one, other)
        self.assertEqual((done.returncode, "AFTER has frames out of x1.2 for which no record accounts" in done.stdout), (1, True))


class Paused(Compare):
    """A pair that was cut off for a while, and would arrive at the end."""

    DOWN, UP = ("[[command]]\nat = {}\nop = '{}'\nport = 'x1.2'\n".format(*it) for it in ((3, "down"), (7, "up")))

    def compared(self, commands: str, other: str = "", talk: dict = TALK) -> dict:
        one = self.run_of("one", topology(ALL, other), talk)
        its = json.loads(self.tool("exbr-compare", one, self.run_of("two", topology(ALL, commands), talk), "--json").stdout)
        self.text = self.tool("exbr-compare", one, self.path("two")).stdout
        return its

    def test_down_and_up_again(self):
        its = self.compared(self.DOWN + self.UP)
        self.assertEqual((its["loses"], its["gains"]), ([], []))
        self.assertEqual([(it["source"], it["frames"], it["pause"], it["command"]) for it in its["paused"]],
                         [("02:00:00:00:00:01", 2, {"from": 3, "to": 7, "by": 1, "again_by": 2}, 1), ("02:00:00:00:00:02", 2, {"from": 3, "to": 7, "by": 1, "again_by": 2}, 1)])
        self.assertTrue(self.text.startswith("who loses connectivity: nobody\ncut off for a while: 1 pair of stations, from 3 s to 7 s (commands 1, 2); "
                                             "at the end their frames would arrive\n"), self.text)
        self.assertIn("cut off from 3 s to 7 s (commands 1, 2); would arrive at the end", self.text)

    def test_down_and_not_up(self):
        its = self.compared(self.DOWN)
        self.assertEqual((len(its["loses"]), its["paused"]), (2, []))
        self.assertEqual({it["command"] for it in its["loses"]}, {1})

    def test_the_other_way_round_nothing_is_gained(self):
        its = self.compared("", self.DOWN + self.UP)
        self.assertEqual((its["loses"], its["gains"], [it["frames"] for it in its["more"]]), ([], [], [2, 2]))

    def test_out_of_its_vlan_and_in_again(self):
        out = "[[command]]\nat = 3\nop = 'unmember'\nvid = 1\nport = 'x1.2'\n[[command]]\nat = 6\nop = 'filter'\nport = 'x1.2'\nfilter = true\n"
        back = "[[command]]\nat = 8\nop = 'member'\nvid = 1\nport = 'x1.2'\nkind = 'tagged'\n"
        its = self.compared(out + back)
        self.assertEqual([it["pause"] for it in its["paused"] if it["source"] == "02:00:00:00:00:01"], [{"from": 3, "to": 8, "by": 1, "again_by": 3}])
        self.assertEqual([it["source"] for it in self.compared(out)["loses"]], ["02:00:00:00:00:01"])


class ByCommand(Compare):
    """Each lost or gained pair is told with the command that did it."""

    def test_the_campus(self):
        text, files = self.of_example("campus", ("op",))
        before, after = self.run_of("before", text, files), self.example("campus")
        its = json.loads(self.tool("exbr-compare", before, after, "--json").stdout)
        self.assertEqual([(it["command"], it["loses"], it["gains"]) for it in its["by_command"]], [(1, 4, 0), (2, 0, 1)])
        self.assertEqual({it["command"] for it in its["loses"]}, {1})
        self.assertEqual(its["loses"][0]["why"][0]["run"], "after")
        self.assertTrue(all(isinstance(it["first"][0], str) for it in its["loses"]))
        back = json.loads(self.tool("exbr-compare", after, before, "--json").stdout)
        self.assertEqual({(it["run"], it["command"]) for it in back["by_command"]}, {("before", 1), ("before", 2)})

    def test_ranges_of_without(self):
        exbr = needs_program()
        folder = self.example("campus")
        said = [self.tool("exbr-compare", folder, "--without", it, "--program", exbr, "--json").stdout for it in ("1,2,3", "1-3", "1-2,3", "all")]
        self.assertEqual(len(set(said)), 1)
        self.assertIn("no command 4", self.refused("exbr-compare", folder, "--without", "2-9", "--program", exbr))
        for words in ("3-1", "1-", "-3", "1,,2", "1-2-3"):
            self.assertIn("--without", self.refused("exbr-compare", folder, f"--without={words}", "--program", exbr))

    def test_commands_that_are_left_out_keep_their_numbers(self):
        """Without command 1 those that follow have other numbers in the run BEFORE; they are told by those of the topology."""
        exbr = needs_program()
        folder = self.example("campus")
        its = json.loads(self.tool("exbr-compare", folder, "--without", "1", "--program", exbr, "--json").stdout)
        self.assertEqual(its["commands"]["before"]["commits"], [2, 3])
        self.assertEqual({it["command"] for it in its["by_command"]}, {1})


class FirstLine(Compare):
    def test_refused_commands_and_absent_ports_come_first(self):
        one, other = self.example("too-few-groups", "one"), self.example("too-few-groups", "other")
        done = self.tool("exbr-compare", one, other)
        self.assertTrue(done.stdout.startswith("FIRST: BEFORE: 1 command was refused and changed nothing: 2 (vlan"), done.stdout)
        its = json.loads(self.tool("exbr-compare", one, other, "--json").stdout)
        self.assertEqual(its["standing"]["after"]["refused"], [{"command": 2, "cause": "groups 4 3"}])


class Examples(Compare):
    def test_campus_without_its_commands(self):
        text, files = self.of_example("campus", ("op",))
        before, after = self.run_of("before", text, files), self.example("campus")
        done = self.tool("exbr-compare", before, after)
        self.assertEqual(done.returncode, 1, done.stderr)
        lines = done.stdout.splitlines()
        self.assertEqual(lines[0], "who loses connectivity: 1 pair of stations and 3 pairs of ports (frames to all)")
        self.assertLessEqual(lines.index(""), 10)
        self.assertIn("  x4.1 -> x3.2, frames to all: VLAN 20: 1 frame (x4.1:1); now it is flooded in VLAN 20, without that port (command 1)", lines)

    def test_without_runs_the_program(self):
        exbr = needs_program()
        folder = self.example("private-hosts")
        done = self.tool("exbr-compare", folder, "--without", "1", "--program", exbr, "--keep", self.path("kept"))
        self.assertEqual(done.returncode, 1, done.stderr)
        self.assertIn("who gains connectivity: 1 pair of stations and 1 pair of ports", done.stdout)
        kept = self.tool("exbr-compare", self.path("kept/before"), self.path("kept/after"))
        self.assertEqual((kept.returncode, kept.stdout), (1, done.stdout))
        for name in ("out-journal.txt", "out-b1.pcap", "out-x1.1.pcap"):
            with open(os.path.join(folder, name), "rb") as one, open(self.path(f"kept/after/{name}"), "rb") as other:
                self.assertEqual(one.read(), other.read())
        self.assertEqual(self.tool("exbr-compare", folder, folder, "--play", "--seed", "7", "--program", exbr).returncode, 0)
        self.assertIn("no command 9", self.refused("exbr-compare", folder, "--without", "9", "--program", exbr))


class Broken(Compare):
    def test_words(self):
        folder = self.example("office")
        for words, line in (([folder], "name BEFORE and AFTER"), ([folder, folder, "--without", "1"], "--without runs one topology twice"),
                            ([folder, "--without", "1;2"], "numbers of commands"), ([folder, "nowhere"], "nowhere isn't there"),
                            ([folder, folder, "--keep", "x"], "--keep, --program and --seed"), ([folder, folder, "--limit", "-1"], "--limit is"),
                            ([folder, "--without", "all", "--program", "/nowhere"], "/nowhere is no program"),
                            ([folder, "--without", "all", "--program", shutil.which("false")], "exbr ended with status 1")):
            self.assertIn(line, self.refused("exbr-compare", *words), words)

    def test_not_the_same_captures(self):
        one = self.run_of("one", topology(ALL), TALK)
        other = self.run_of("other", topology(ALL), TALK | {"b.pcap": TALK["a.pcap"]})
        self.assertIn("hold other frames, so these aren't two runs of the same captures", self.refused("exbr-compare", one, other))

    def test_files_that_are_gone_or_broken(self):
        one, other = self.run_of("one", topology(ALL), TALK), self.run_of("other", topology(ALL), TALK)
        self.write("other/out-x1.2.pcap", b"nothing")
        self.assertIn("out-x1.2.pcap: NotPcap at 0", self.refused("exbr-compare", one, other))
        os.remove(self.path("other/out-x1.2.pcap"))
        self.assertIn("out-x1.2.pcap isn't there", self.refused("exbr-compare", one, other))

    def test_help(self):
        done = self.script("exbr-compare", "--help")
        self.assertEqual((done.returncode, "status: 0 each frame" in done.stdout), (0, True))
        self.assertEqual(self.script("exbr-compare").returncode, 2)


if __name__ == "__main__":
    unittest.main()
