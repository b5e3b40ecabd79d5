"""Files that aren't of the run that is looked at: older ones, those of ports that are gone, and those of a run that didn't end."""
from __future__ import annotations

import json
import os
import resource
import signal
import subprocess
import unittest

from desk_help import FolderTest, needs_program
from exbr_report import gather
from exbr_desk import runs

COUNTERS = "".join(f"x1.{port} relayed {int(port == 1)} dropped 0 ignored 0 left {int(port > 1)} octets {60 * (port > 1)}\n" for port in range(1, 5))


class Older(FolderTest):
    """Trace and counters of a run before this one."""

    def older(self, name: str, data: str, seconds: int) -> str:
        """An example with a file that was written so many seconds before the others."""
        folder = self.example("first-path")
        path = self.write(f"first-path/{name}", data)
        first = min(os.stat(os.path.join(folder, it)).st_mtime for it in os.listdir(folder) if it.startswith("out-"))
        os.utime(path, (first - seconds, first - seconds))
        return folder

    def test_counters_of_an_earlier_run_are_left_out(self):
        folder = self.older("out-counters.txt", COUNTERS.replace("octets 60", "octets 64"), 60)
        done = self.tool("exbr-why", "--all", at=folder)
        self.assertEqual(done.returncode, 0, done.stdout)
        self.assertIn("note: out-counters.txt is older than out-journal.txt and doesn't fit it: it is of an earlier run, and is left out", done.stdout)
        notices = gather.report_of(runs.read(folder), 100, quiet=True).notices
        self.assertEqual([it.text for it in notices if it.is_fault], [])
        self.assertTrue(any("out-counters.txt is older than" in it.text for it in notices))

    def test_counters_of_this_run_are_held_against_it(self):
        folder = self.older("out-counters.txt", COUNTERS.replace("octets 60", "octets 64"), -60)
        done = self.tool("exbr-why", "--all", at=folder)
        self.assertEqual((done.returncode, "out-counters.txt: line 2 is" in done.stdout), (1, True))
        done = self.tool("exbr-why", "--all", at=self.older_that_fits())
        self.assertEqual((done.returncode, "note" in done.stdout), (0, False), "an older file that fits is one of this run, copied first")

    def older_that_fits(self) -> str:
        self.folder = self.path("fits")
        os.mkdir(self.folder)
        return self.older("out-counters.txt", COUNTERS, 60)

    def test_a_trace_of_an_earlier_run_is_left_out(self):
        for text in ("in x1 1 00\n= relay x1.1 9\n", "no trace\n"):
            self.folder = self.path(str(len(text)))
            os.mkdir(self.folder)
            done = self.tool("exbr-why", "x1.1:1", at=self.older("out-trace.txt", text, 60))
            self.assertEqual(done.returncode, 0, done.stdout)
            self.assertIn("note: out-trace.txt is older than out-journal.txt", done.stdout)
            self.assertNotIn("trace, line", done.stdout)

    def test_outputs_of_an_extender_that_is_gone(self):
        folder = self.example("first-path")
        for port in (1, 2, 3, 4):
            self.write(f"first-path/out-x9.{port}.pcap", b"")
        done = self.tool("exbr-why", "--all", at=folder)
        self.assertEqual(done.returncode, 0, done.stdout)
        self.assertIn("note: out-x9.1.pcap, out-x9.2.pcap, out-x9.3.pcap and 1 more are no outputs of this topology", done.stdout)
        self.assertEqual(len(json.loads(self.tool("exbr-why", "--all", "--json", at=folder).stdout)["notes"]), 1)


class Unended(FolderTest):
    """A run that was stopped leaves outputs that are empty or cut off beside those of the run before."""

    def stopped(self, name: str, data: bytes | None, cut: int = 0) -> str:
        folder = self.example("office")
        path = os.path.join(folder, name)
        if data is None:
            with open(path, "rb") as file:
                data = file.read()[:-cut]
        self.write(f"office/{name}", data)
        return folder

    def test_an_empty_output(self):
        folder = self.stopped("out-b1.pcap", b"")
        line = "out-b1.pcap is empty: this run didn't end, or is still going on"
        self.assertIn(line, self.refused("exbr-why", "x1.1:1", at=folder))
        self.assertIn(line, self.refused("exbr-compare", folder, folder))
        notices = gather.report_of(runs.read(folder), 100, quiet=True).notices
        self.assertIn(line, notices[0].text)

    def test_an_output_that_is_cut(self):
        self.assertIn("this run didn't end", self.refused("exbr-why", "x1.1:1", at=self.stopped("out-x1.2.pcap", None, 7)))

    def test_a_journal_without_its_end(self):
        self.assertIn("out-journal.txt ends within a line: this run didn't end", self.refused("exbr-why", "x1.1:1", at=self.stopped("out-journal.txt", None, 3)))
        self.folder = self.path("whole-lines")
        os.mkdir(self.folder)
        done = self.tool("exbr-why", "--all", at=self.stopped("out-journal.txt", None, len("settled\n")))
        self.assertEqual(done.returncode, 1)
        self.assertIn("note: out-journal.txt doesn't end with 'settled': this run didn't end", done.stdout)

    def test_a_run_that_is_stopped(self):
        """The program itself, which may write no more than so many bytes into a file, so that it stops in its midst."""
        exbr = needs_program()
        for most in (0, 100):
            folder = self.example("office", f"office{most}")

            def limited(most: int = most) -> None:
                signal.signal(signal.SIGXFSZ, signal.SIG_IGN)
                resource.setrlimit(resource.RLIMIT_FSIZE, (most, most))

            done = subprocess.run([exbr, "run", "topology.toml"], cwd=folder, stdout=subprocess.PIPE, preexec_fn=limited, timeout=20, check=False)
            self.assertEqual((done.returncode, done.stdout), (7, b"exbr: write fault\n"))
            self.assertIn("this run didn't end, or is still going on", self.refused("exbr-why", "x1.1:1", at=folder))


class Absent(FolderTest):
    """Ports that stayed absent, and refused commands, are told first."""

    def test_refused_commands(self):
        folder = self.example("too-few-groups")
        first = self.tool("exbr-why", "--all", at=folder).stdout.splitlines()[0]
        self.assertEqual(first, "FIRST: 1 command was refused and changed nothing: 2 (vlan vid 40 tagged [x1.2 x1.4]), since 4 groups would be needed below "
                                "one port of the bridge, and there are 3")
        self.assertTrue(gather.report_of(runs.read(folder), 100, quiet=True).notices[0].text.startswith("Command 2 "))

    def test_absent_ports(self):
        from world.schedule import run as run_world
        text = ("[bridge]\nports = 1\ngroups = 2\n[[extender]]\nnumber = 1\non = 'b1'\nports = 4\n[[vlan]]\nvid = 10\n"
                "untagged = ['x1.1', 'x1.2', 'x1.3']\n[[vlan]]\nvid = 20\nuntagged = ['x1.2', 'x1.3', 'x1.4']\n")
        written, _, _ = run_world(text, {})
        for name, data in {"topology.toml": text.encode(), **written}.items():
            if not name.endswith("trace.txt"):
                self.write(name, data)
        done = self.tool("exbr-why", "--all")
        self.assertIn("ports stayed absent at the opening, and nothing passes there: x1.", done.stdout.splitlines()[0])
        its = json.loads(self.tool("exbr-why", "--all", "--json").stdout)
        self.assertEqual([it["cause"] for it in its["absent"]], ["groups 3 2"] * len(its["absent"]))
        self.assertTrue(its["absent"])
        notices = gather.report_of(runs.read(self.folder), 100, quiet=True).notices
        self.assertIn("stayed absent at the opening", notices[0].text)


if __name__ == "__main__":
    unittest.main()
