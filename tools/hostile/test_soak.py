"""Eighty inputs of the soak with fixed seeds, on the program that EXBR_PROGRAM names."""
import os
import subprocess
import sys
import unittest

HERE = os.path.dirname(os.path.abspath(__file__))
PROGRAM = os.environ.get("EXBR_PROGRAM")


def soak(*words):
    return subprocess.run([sys.executable, os.path.join(HERE, "soak.py"), *words], capture_output=True, text=True, check=False)


class Soak(unittest.TestCase):
    def plays(self, seed):
        """Twenty inputs of a seed, each under eight faults that are drawn."""
        if not PROGRAM:
            self.skipTest("no program is named")
        if sys.version_info < (3, 11):
            self.skipTest("the models in Python need Python 3.11")
        ran = soak("--program", PROGRAM, "--inputs", "20", "--seed", str(seed), "--quiet")
        self.assertEqual(ran.returncode, 0, ran.stdout + ran.stderr)
        self.assertRegex(ran.stdout.splitlines()[-1], r"^soak: 1\d\d runs of 20 inputs, 0 unexplained$")

    def test_seed_48(self):
        self.plays(48)

    def test_seed_49(self):
        self.plays(49)

    def test_seed_50(self):
        self.plays(50)

    def test_seed_51(self):
        self.plays(51)

    def test_words_that_are_none(self):
        for name, word in (("--seconds", "soon"), ("--inputs", "0")):
            ran = soak(name, word)
            self.assertEqual(ran.returncode, 2)
            self.assertIn(name, ran.stderr)


if __name__ == "__main__":
    unittest.main()
