"""Some random nets and wrong players, with a fixed seed, on the program that EXBR_PROGRAM names."""
import os
import subprocess
import sys
import unittest

HERE = os.path.dirname(os.path.abspath(__file__))
PROGRAM = os.environ.get("EXBR_PROGRAM")
# Each run brings its files to the disk, which are many here: in memory that takes no time.
MEMORY = ["--room", "/dev/shm"] if os.access("/dev/shm", os.W_OK) else []


def ran(*words):
    return subprocess.run([sys.executable, os.path.join(HERE, "random_nets.py"), *words], capture_output=True, text=True, check=False)


def has_nets():
    return PROGRAM and "exbr net " in subprocess.run([PROGRAM], stdin=subprocess.DEVNULL, capture_output=True, text=True, check=False).stdout


@unittest.skipIf(sys.version_info < (3, 11), "the models in Python need Python 3.11")
class Nets(unittest.TestCase):
    @unittest.skipUnless(PROGRAM, "no program is named")
    def test_some(self):
        """The program does as the second player and the second reader say."""
        if not has_nets():
            self.skipTest("this program's usage line has no word 'net'")
        found = ran("--program", PROGRAM, "--nets", "20", "--faults", "12", "--jobs", "2", "--quiet", *MEMORY)
        self.assertEqual(found.returncode, 0, found.stdout + found.stderr)
        self.assertRegex(found.stdout.splitlines()[-1], r"^nets: \d+ nets of \d+ bridges, [1-9][\d,]* frames across wires, [1-9]\d\d with a fault, 0 differences$")

    def test_wrong_players(self):
        """Each is seen in some nets, but those that no file can show."""
        found = ran("--players", "--nets", "24", "--jobs", "2")
        self.assertEqual(found.returncode, 0, found.stdout + found.stderr)
        self.assertRegex(found.stdout.splitlines()[-1], r"^players: 30 wrong ones, 28 seen, 2 that no file can show, 0 otherwise$")

    def test_words_that_are_none(self):
        for words in (["--nets", "0"], ["--room", "/nowhere"], ["--seed", "one"]):
            found = ran(*words)
            self.assertEqual((found.returncode, found.stdout), (2, ""))


if __name__ == "__main__":
    unittest.main()
