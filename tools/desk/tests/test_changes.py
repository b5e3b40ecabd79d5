"""The page of differences: what it says of small changes, that it stands alone, and how it looks in a browser."""
from __future__ import annotations

import os
import re
import unittest

import browser
from desk_help import TOP, FolderTest, needs_program
from exbr_desk import runs
from exbr_desk.compare import Two, compared
from exbr_report import changes, changes_page
from row import make
from test_page import CONTRAST


class Pages(FolderTest):
    """Of a change in an example."""

    def page(self, folder: str, *words: str) -> str:
        path = self.path("changes.html")
        done = self.tool("exbr-compare", folder, *(words or ("--without", "all")), "--program", needs_program(), "--html", path, "--brief")
        self.assertIn(done.returncode, (0, 1), done.stderr)
        with open(path, encoding="utf-8") as file:
            return file.read()

    def test_the_campus(self):
        text = self.page(self.example("campus"))
        self.assertIn("1 pair of stations and 3 pairs of ports (frames to all) lose connectivity for good; 1 pair of stations gain connectivity.", text)
        self.assertIn("now its address is learned at x3.1, which gets nothing of VLAN 20 from there", text)
        self.assertIn("VLAN 20: tagged b4, untagged x4.*", text)
        for part in ("By command", "Lose connectivity", "Gain connectivity", "By VLAN", "Rules that differ at the end"):
            self.assertIn(f">{part}", text)

    def test_it_stands_alone(self):
        text = self.page(os.path.join(TOP, "examples", "night"), "--without", "6")
        self.assertNotRegex(text, r"(src|href)=\"(?!#)")
        self.assertNotIn("<script", text)
        names = re.findall(r' id="([^"]+)"', text)
        self.assertEqual(len(names), len(set(names)))
        self.assertEqual(set(re.findall(r'href="#([^"]+)"', text)) - set(names), set())

    def test_the_same(self):
        folder = self.example("office")
        text = self.page(folder, folder, "--play")
        self.assertIn("No pair loses or gains connectivity.", text)
        self.assertIn("No VLAN differs.", text)

    def test_rules_at_the_end(self):
        text = self.page(os.path.join(TOP, "examples", "night"))
        rows = re.findall(r"<tr><th scope=\"row\">(\S+?)</th><td data-of=\"\">([^<]+)</td><td data-of=\"before\">([^<]*)</td><td data-of=\"after\">([^<]*)</td>"
                          r"<td data-of=\"by command\">([^<]*)</td>", text)
        self.assertIn(("x4.3", "isolation", "off", "on", "6"), rows)
        self.assertIn(("x4.2", "ingress filtering", "off", "on", "8"), rows)
        self.assertEqual(len(rows), 8)

    def test_where_it_can_not_be_written(self):
        folder = self.example("office")
        for place, line in ((self.path("no/page.html"), "there is no folder"), (folder, "it is a folder")):
            self.assertIn(line, self.refused("exbr-compare", folder, folder, "--html", place))

    def test_refused_commands_come_first(self):
        self.assertRegex(self.page(self.example("too-few-groups")), r'<main><ul class="notices"><li class="bad">AFTER: 1 command was refused and changed nothing: 2 \(vlan')


class OfARow(FolderTest):
    """A small row of racks."""

    def setUp(self) -> None:
        super().setUp()
        from exbr_desk import play
        exbr, folder = needs_program(), self.path("row")
        make(folder, 3000, 3, 60)
        given = runs.read(folder)
        both = [play.play(given, tables, self.path(name), exbr, []) for name, tables in
                (("before", play.without(given.topology, {it.number for it in given.topology.commands})), ("after", given.topology.tables))]
        self.found = compared(Two(*both, {}))
        self.text = changes_page.build(changes.changes_of(self.found, "a row"))
        self.write("page.html", self.text)

    def test_each_pair_is_on_the_page(self):
        lost = changes.pair_rows(self.found, self.found.loses, "loses")
        self.assertTrue(lost)
        for it in lost[:200]:
            self.assertIn(it.first, self.text)
        self.assertTrue(all(it.command for it in lost), [it for it in lost if not it.command])

    @unittest.skipUnless(browser.found(), "no Chromium here: apt-get install chromium")
    def test_in_a_browser(self):
        with browser.Browser() as it:
            for width in (320, 400, 768, 1400):
                for dark in (False, True):
                    it.look(width, dark)
                    it.open(self.path("page.html"))
                    self.assertLessEqual(it.run("document.documentElement.scrollWidth"), width)
                    self.assertEqual(it.run(CONTRAST), [])
            it.printed(self.path("page.pdf"))
            self.assertEqual(it.complaints(), [])
        self.assertGreater(os.path.getsize(self.path("page.pdf")), 20_000)


if __name__ == "__main__":
    unittest.main()
