"""Small words that were wrong: numbers of things, of commands, and of VLANs, times for programs, and the one variable that names the program."""
from __future__ import annotations

import json
import os
import re
import sys
import unittest
from unittest import mock

import ground
from desk_help import FolderTest
from exbr_desk import errors, play, runs
from exbr_report import gather, page
from exbr_report.rows import ordinal

NONE = os.path.join(ground.TOP, "README.md")


class OneVariable(FolderTest):
    """EXBR names the program; --program names it before that, and what is named and isn't a program is said."""

    def named(self, option: str | None = None, **variables: str) -> str:
        kept = {key: value for key, value in os.environ.items() if key not in ("EXBR", "EXBR_PROGRAM")}
        with mock.patch.dict(os.environ, kept | variables, clear=True):
            return play.program(option)

    def test_the_order(self):
        self.assertEqual(self.named(sys.executable, EXBR="/bin/true"), sys.executable)
        self.assertEqual(self.named(EXBR="/bin/true", EXBR_PROGRAM="/bin/false"), "/bin/true")

    def test_what_is_no_program_is_said(self):
        for option, variables, line in (("/nope", {}, "/nope is no program (it is named by --program)"), (None, {"EXBR": "/nope"}, "/nope is no program (it is named by EXBR)"),
                                        (None, {"EXBR": NONE}, f"{NONE} is no program (it is named by EXBR)")):
            with self.assertRaises(errors.DeskError) as caught:
                self.named(option, **variables)
            self.assertEqual(str(caught.exception), line)


class Numbers(ground.InFolder):
    """One thing is told as one, and each of many is counted."""

    def test_which_of_some(self):
        self.assertEqual([ordinal(it) for it in (2, 3, 4, 11, 12, 13, 21, 22, 101, 111)],
                         ["second", "third", "4th", "11th", "12th", "13th", "21st", "22nd", "101st", "111th"])

    def test_one_frame_arrived(self):
        text = page.build(gather.report_of(runs.read(self.played("first-path")), 100, quiet=True))
        self.assertIn("<b>1</b><span>frame arrived</span>", text)
        self.assertIn("<b>0</b><span>commands refused</span>", text)

    def test_a_port_in_many_vlans(self):
        self.write("topology.toml", "[bridge]\nports = 2\n[[vlan]]\nvid = 100\nlast = 299\ntagged = ['b1']\n")
        for name, data in (("out-journal.txt", b"settled\n"), ("out-b1.pcap", ground.HEADER), ("out-b2.pcap", ground.HEADER)):
            self.write(name, data)
        text = page.build(gather.report_of(runs.read(self.folder), 100, quiet=True))
        self.assertIn(">200 VLANs<", text)
        self.assertIn("and 188 more", text)
        self.assertNotIn("65 VLANs", text)


class ForPrograms(FolderTest):
    def test_a_time_is_a_number(self):
        its = json.loads(self.tool("exbr-why", "--json", "b1:1", at=self.example("office")).stdout)["frames"][0]
        self.assertEqual((its["time"], its["nanoseconds"]), (1.0, 1_000_000_000))

    def test_limit_0_is_all(self):
        folder = self.example("office")
        its = json.loads(self.tool("exbr-why", "--json", "--limit", "0", "type=arp", at=folder).stdout)
        self.assertEqual((len(its["frames"]) > 2, its["more"]), (True, 0))
        more = self.tool("exbr-why", "--limit", "1", "type=arp", at=folder).stdout
        self.assertRegex(more, re.compile(r"more frames? fit; --limit 0 shows all"))


if __name__ == "__main__":
    unittest.main()
