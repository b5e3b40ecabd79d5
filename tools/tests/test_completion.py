"""What bash completes of exbr's words, and that zsh can read its functions."""
import os
import shutil
import subprocess
import tempfile
import unittest

TOP = os.path.dirname(os.path.dirname(os.path.dirname(os.path.abspath(__file__))))
ASK = """. "$1"; shift
COMP_WORDS=("$@"); COMP_CWORD=$(($# - 1)); COMP_LINE="$*"; COMP_POINT=${#COMP_LINE}
_exbr
[ ${#COMPREPLY[@]} -eq 0 ] || printf '%s\\n' "${COMPREPLY[@]}"
"""


class Bash(unittest.TestCase):
    def setUp(self):
        if not shutil.which("bash"):
            self.skipTest("bash is not here, so its completion was not tried")
        self.room = tempfile.TemporaryDirectory(prefix="exbr-completion-")
        self.addCleanup(self.room.cleanup)
        os.mkdir(f"{self.room.name}/nets")
        for name in ("topology.toml", "two words.toml", "in-x1.1.pcap"):
            open(f"{self.room.name}/{name}", "w").close()

    def completed(self, *words):
        ran = subprocess.run(["bash", "-c", ASK, "ask", f"{TOP}/tools/completion/exbr.bash", "exbr", *words], cwd=self.room.name,
                             stdin=subprocess.DEVNULL, capture_output=True, text=True)
        self.assertEqual((ran.returncode, ran.stderr), (0, ""))
        return sorted(ran.stdout.splitlines())

    def test_first_words(self):
        self.assertEqual(self.completed(""), ["audit", "check", "make", "net", "run"])
        self.assertEqual(self.completed("c"), ["check"])
        self.assertEqual(self.completed("x"), [])
        self.assertEqual(self.completed("-"), ["--version"])

    def test_topologies(self):
        every = ["nets", "topology.toml", "two words.toml"]
        self.assertEqual(self.completed("run", ""), every)
        self.assertEqual(self.completed("check", "to"), ["topology.toml"])
        self.assertEqual(self.completed("run", "--trace", "t"), ["topology.toml", "two words.toml"])
        self.assertEqual(self.completed("net", "to"), ["topology.toml"])
        self.assertEqual(self.completed("make", ""), [])

    def test_options(self):
        self.assertEqual(self.completed("run", "-"), ["--counters", "--seed", "--trace"])
        self.assertEqual(self.completed("run", "topology.toml", "--trace", "--"), ["--counters", "--seed"])
        self.assertEqual(self.completed("run", "--counters", "-"), ["--seed", "--trace"])
        self.assertEqual(self.completed("net", "-"), ["--counters"])
        self.assertEqual(self.completed("net", "--counters", "topology.toml", "-"), [])
        self.assertEqual(self.completed("run", "--seed", ""), [])
        self.assertEqual(self.completed("check", "--"), [])


class Zsh(unittest.TestCase):
    def test_it_reads_them(self):
        if not shutil.which("zsh"):
            self.skipTest("zsh (Debian's package zsh) is not here, so its completion was not read")
        ran = subprocess.run(["zsh", "-n", f"{TOP}/tools/completion/_exbr"], capture_output=True, text=True)
        self.assertEqual((ran.returncode, ran.stderr), (0, ""))


if __name__ == "__main__":
    unittest.main()
