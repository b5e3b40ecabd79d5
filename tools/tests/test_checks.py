"""./test itself: a program that answers or writes anything else fails its tests, and one that does as it must passes them."""
import os
import subprocess
import sys
import tempfile
import unittest

TOP = os.path.dirname(os.path.dirname(os.path.dirname(os.path.abspath(__file__))))
PROGRAM = os.environ.get("EXBR_PROGRAM") or os.path.join(TOP, "dist/exbr")
# Runs the program, and then does one thing more where it played the case.
WRAPPED = """#!/bin/sh
"{program}" "$@"
status=$?
case "$1 $2" in
"run broadcast/topology.toml") {more} ;;
esac
exit $status
"""
WRONG = {
    "another byte of a file": ("printf x >>broadcast/out-journal.txt", "out-journal.txt: "),
    "a file is missing": ("rm broadcast/out-x1.1.pcap", "out-x1.1.pcap isn't there"),
    "another file": ("printf x >broadcast/out-x1.9.pcap", "broadcast/out-x1.9.pcap was made or changed"),
    "a trace that nobody asked for": ("printf x >broadcast/out-trace.txt", "out-trace.txt is there, and must not be"),
    "an input has changed": ("printf x >>broadcast/a.pcap", "broadcast/a.pcap was made or changed"),
    "another line": ("echo and more", "it printed "),
    "another status": ("status=3", "status 3, where 0 is wanted"),
    "a word on standard error": ("echo fault >&2", "on standard error"),
}


class Judged(unittest.TestCase):
    def setUp(self):
        if not os.path.isfile(PROGRAM):
            self.skipTest("no program: EXBR_PROGRAM names none, and dist/exbr is not here")
        self.room = tempfile.TemporaryDirectory(prefix="exbr-judged-")
        self.addCleanup(self.room.cleanup)

    def judged(self, more):
        wrapped = f"{self.room.name}/exbr"
        with open(wrapped, "w", encoding="utf-8") as it:
            it.write(WRAPPED.format(program=os.path.abspath(PROGRAM), more=more))
        os.chmod(wrapped, 0o755)
        ran = subprocess.run([sys.executable, f"{TOP}/test", "--program", wrapped, "--only", "cases: broadcast"], stdin=subprocess.DEVNULL,
                             capture_output=True, text=True)
        return ran.returncode, ran.stdout

    def test_what_is_right_passes(self):
        status, printed = self.judged(":")
        self.assertEqual((status, printed.splitlines()[-1]), (0, "1 passed, 0 failed"), printed)

    def test_what_is_wrong_fails(self):
        for what, (more, said) in WRONG.items():
            with self.subTest(what):
                status, printed = self.judged(more)
                self.assertEqual((status, printed.splitlines()[-1]), (1, "0 passed, 1 failed"), printed)
                self.assertIn(said, printed)

    def test_no_such_program(self):
        ran = subprocess.run([sys.executable, f"{TOP}/test", "--program", "/nowhere"], capture_output=True, text=True)
        self.assertEqual(ran.returncode, 2)
        self.assertIn("there is no /nowhere", ran.stderr)

    def test_a_program_that_does_not_start(self):
        with open(f"{self.room.name}/none", "w", encoding="utf-8") as it:
            it.write("no program")
        ran = subprocess.run([sys.executable, f"{TOP}/test", "--program", f"{self.room.name}/none", "--only", "program"], capture_output=True, text=True)
        self.assertEqual(ran.returncode, 1)
        self.assertIn("does not start", ran.stdout)


if __name__ == "__main__":
    unittest.main()
