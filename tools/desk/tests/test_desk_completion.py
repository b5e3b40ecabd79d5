"""What bash completes of the words of exbr-preflight and exbr-reach: each option that the tools have, and no other."""
import os
import re
import shutil
import subprocess
import tempfile
import unittest

import desk_help
from exbr_preflight import lint

ASK = """. "$1"; shift
COMP_WORDS=("$@"); COMP_CWORD=$(($# - 1)); COMP_LINE="$*"; COMP_POINT=${#COMP_LINE}
_exbr_desk
[ ${#COMPREPLY[@]} -eq 0 ] || printf '%s\\n' "${COMPREPLY[@]}"
"""
FILE = os.path.join(desk_help.TOOLS, "completion", "exbr-desk.bash")


class Bash(unittest.TestCase):
    def setUp(self):
        if not shutil.which("bash"):
            self.skipTest("bash is not here, so its completion was not tried")
        held = tempfile.TemporaryDirectory(prefix="exbr-completion-")
        self.addCleanup(held.cleanup)
        self.room = held.name
        for name in ("topology.toml", "policies.toml", "in-x1.1.pcap"):
            open(os.path.join(self.room, name), "w").close()

    def completed(self, *words: str) -> list[str]:
        ran = subprocess.run(["bash", "-c", ASK, "ask", FILE, *words], cwd=self.room, stdin=subprocess.DEVNULL, capture_output=True, text=True, check=False)
        self.assertEqual((ran.returncode, ran.stderr), (0, ""))
        return sorted(ran.stdout.splitlines())

    def test_options_are_those_of_the_tools(self):
        for name in ("exbr-preflight", "exbr-reach"):
            said = subprocess.run([os.path.join(desk_help.TOOLS, name), "--help"], capture_output=True, text=True, check=True).stdout
            options = set(re.findall(r"^  (?:-h, )?(--[a-z]+)", said, re.M))
            self.assertEqual(set(self.completed(name, "-")), options, name)
            with open(os.path.join(desk_help.TOOLS, "completion", "_exbr-desk"), encoding="utf-8") as file:
                zsh = file.read()
            self.assertEqual({it for it in options - {"--help", "--version"} if f"{it}[" not in zsh}, set(), name)

    def test_values(self):
        self.assertEqual(self.completed("exbr-reach", "--fail", "each-p"), ["each-port"])
        self.assertEqual(self.completed("exbr-reach", "--expect", "p"), ["policies.toml"])
        self.assertEqual(self.completed("exbr-reach", ""), ["policies.toml", "topology.toml"])
        self.assertEqual(set(self.completed("exbr-preflight", "--off", "")), {"all", *lint.LINTS})
        self.assertEqual(self.completed("exbr-preflight", "--beat", ""), [])


if __name__ == "__main__":
    unittest.main()
