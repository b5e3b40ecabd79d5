"""A part of the changes of the examples' traces, with a fixed seed, on the program that EXBR_PROGRAM names."""
import os
import subprocess
import sys
import unittest

HERE = os.path.dirname(os.path.abspath(__file__))
PROGRAM = os.environ.get("EXBR_PROGRAM")


def ran(tool, *words):
    return subprocess.run([sys.executable, os.path.join(HERE, tool), *words], capture_output=True, text=True, check=False)


@unittest.skipIf(sys.version_info < (3, 11), "the models in Python need Python 3.11")
class Changes(unittest.TestCase):
    def some_of_each_kind(self, *words):
        found = ran("changes.py", "--program", PROGRAM, "--draw", "6", "--long", "0", "--jobs", "2", "--quiet", *words)
        self.assertEqual(found.returncode, 0, found.stdout + found.stderr)
        self.assertRegex(found.stdout.splitlines()[-1], r"^changes: [67]\d\d changes of 8 traces, \d+ legal, 0 differences$")

    @unittest.skipUnless(PROGRAM, "no program is named")
    def test_some_of_each_kind(self):
        """Of each example but the long ones, in its order."""
        self.some_of_each_kind()

    @unittest.skipUnless(PROGRAM, "no program is named")
    def test_some_of_each_kind_in_a_drawn_order(self):
        self.some_of_each_kind("--run-seed", "7")

    @unittest.skipUnless(PROGRAM, "no program is named")
    def test_a_long_trace(self):
        """Of 64 extenders."""
        found = ran("long_traces.py", "--program", PROGRAM, "--runs", "1", "--lines", "5000", "--changes", "0")
        self.assertEqual(found.returncode, 0, found.stdout + found.stderr)
        self.assertRegex(found.stdout.splitlines()[-1], r"^long traces: 1 traces of [\d,]+ lines, 0 changes, 0 differences$")

    def test_words_that_are_none(self):
        for words in (["--draw", "0"], ["--only", "nothing of that name"], ["--room", "/nowhere"]):
            found = ran("changes.py", *words)
            self.assertEqual((found.returncode, found.stdout), (2, ""))


if __name__ == "__main__":
    unittest.main()
