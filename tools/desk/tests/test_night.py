"""The walk through a night's change: its captures, its pictures, and its commands where a built program is named by EXBR=FILE."""
import filecmp
import os
import re
import shutil
import subprocess
import sys
import unittest

import ground
import walk

PAGE = os.path.join(ground.TOP, "docs", "night.md")
NIGHT = os.path.join(ground.EXAMPLES, "night")


class Night(ground.InFolder):
    """The page and what it stands on."""

    def test_captures_are_those_of_the_script(self):
        shutil.copy(os.path.join(NIGHT, "make.py"), self.folder)
        subprocess.run([sys.executable, self.path("make.py")], check=True, stdout=subprocess.DEVNULL)
        names = [it for it in os.listdir(NIGHT) if it.startswith("in-")]
        self.assertEqual(len(names), 13)
        self.assertEqual(filecmp.cmpfiles(NIGHT, self.folder, names, shallow=False), (names, [], []))

    @unittest.skipUnless(shutil.which("tshark"), "no tshark here: apt-get install tshark")
    def test_tshark_finds_no_malformed_frame(self):
        for name in ("in-b3.pcap", "in-b4.pcap", "in-x2.3.pcap", "in-x4.2.pcap", "in-x4.3.pcap"):
            with self.subTest(name):
                done = subprocess.run(["tshark", "-r", os.path.join(NIGHT, name), "-Y", "_ws.malformed || _ws.expert.severity == 0x800000"],
                                      capture_output=True, text=True, check=True)
                self.assertEqual(done.stdout, "", name)

    def test_pictures_are_there(self):
        with open(PAGE, encoding="utf-8") as file:
            named = re.findall(r"!\[[^\]]+\]\(([^)]+)\)", file.read())
        self.assertEqual(len(named), 4)
        for it in named:
            self.assertTrue(os.path.getsize(os.path.join(ground.TOP, "docs", it)) < 100_000, it)

    @unittest.skipUnless(os.environ.get("EXBR") and shutil.which("tshark"), "needs a built program, EXBR=FILE, and tshark")
    def test_commands_print_what_the_page_says(self):
        self.assertEqual(walk.main([PAGE]), 0)


class Walks(unittest.TestCase):
    """How a page is read."""

    def test_steps(self):
        text = "Text.\n\n    $ one\n    a\n\n      b\n\nMore.\n\n    $ two\n    $ three\n    c\n"
        self.assertEqual([(it.line, it.command, it.printed) for it in walk.steps_of(text)],
                         [(2, "one", ["a", "", "  b"]), (9, "two", []), (10, "three", ["c"])])

    def test_lines_that_are_left_out(self):
        self.assertTrue(walk.fits(["a", "..", "c"], ["a", "b", "b", "c"]))
        self.assertTrue(walk.fits([".."], []))
        self.assertFalse(walk.fits(["a", "..", "c"], ["a", "b"]))
        self.assertFalse(walk.fits(["a"], ["a", "b"]))


if __name__ == "__main__":
    unittest.main()
