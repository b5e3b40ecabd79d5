"""The examples over the bridge of the Linux kernel, where it can be had: what leaves each port, in frames, bytes and counts."""
import os
import subprocess
import sys
import unittest

TOP = os.path.dirname(os.path.dirname(os.path.dirname(os.path.abspath(__file__))))
TOOL = os.path.join(TOP, "tools", "kernel_bridge.py")
PROGRAM = os.environ.get("EXBR_PROGRAM") or os.path.join(TOP, "dist", "exbr")
# Those in which no time of ageing passes: they take a second or less.
EXAMPLES = {"first-path": (4, 3), "private-hosts": (7, 11), "campus": (13, 29), "lossy-links": (5, 12), "too-few-groups": (4, 2)}


def ran(*words):
    return subprocess.run([sys.executable, TOOL, *words], capture_output=True, text=True, check=False)


@unittest.skipIf(sys.version_info < (3, 11), "the models in Python need Python 3.11")
class KernelBridge(unittest.TestCase):
    @unittest.skipUnless(os.access(PROGRAM, os.X_OK), "there is no program")
    def test_the_examples(self):
        for name, (ports, frames) in EXAMPLES.items():
            found = ran(os.path.join(TOP, "examples", name, "topology.toml"), "--program", PROGRAM, "--each-vlan")
            last = found.stdout.splitlines()[-1] if found.stdout else ""
            if found.returncode == 77:
                self.skipTest(last)
            with self.subTest(name):
                self.assertEqual(found.returncode, 0, found.stdout + found.stderr)
                self.assertRegex(last, rf"^kernel bridge: {ports} ports, {frames} frames, \d+ octets: as exbr says$")

    @unittest.skipUnless(os.access(PROGRAM, os.X_OK), "there is no program")
    def test_an_entry_that_the_kernel_has_not(self):
        found = ran(os.path.join(TOP, "examples", "static-group", "topology.toml"), "--program", PROGRAM)
        self.assertEqual((found.returncode, found.stdout.splitlines()[-1][:9]), (77, "skipped: "), found.stdout + found.stderr)

    def test_words_that_are_none(self):
        for words in ([], ["nothing.toml"], [TOOL, "--second", "0"]):
            found = ran(*words)
            self.assertEqual((found.returncode, found.stdout), (2, ""))


if __name__ == "__main__":
    unittest.main()
