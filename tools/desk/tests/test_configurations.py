"""Twelve configurations, as operators have them: what exbr-import makes of each stands beside it, and each of its statements is carried or named.

    python3 tools/desk/tests/test_configurations.py --write      makes the files beside them anew, to be read before they are kept
"""
import os
import subprocess
import sys
import unittest

import ground
from exbr_desk import play, topology
from exbr_desk.errors import DeskError
from exbr_import import nxos, sets
from exbr_import.blocks import Reader

HERE = os.path.join(ground.TESTS, "configurations")
NXOS = ("all-defaults", "case-and-lists", "large", "native", "private", "profiles", "rack", "taken-back", "vpc")
JUNOS = ("ex-legacy", "fusion", "fusion-ranges")
WORDS = {"rack": ["--fex", "101-102=4"], "fusion": ["--fex", "101-102=6"]}
MADE = ("topology.toml", "names.toml", "notes.txt")
SECRETS = ("$5$", "$6$", "$1$", "0x5c4f", "notahash", "example", "hunter2")


def words(name: str) -> list[str]:
    """The words with which a configuration is read."""
    return ["--nxos" if name in NXOS else "--junos", os.path.join(HERE, name, "running.cfg"), *WORDS.get(name, []), "--all"]


def made(name: str, folder: str) -> dict[str, str]:
    """What the tool makes of a configuration."""
    done = ground.tool("exbr-import", *words(name), "-o", os.path.join(folder, "topology.toml"))
    if done.returncode:
        raise AssertionError(done.stderr)
    found = {"notes.txt": done.stderr}
    for it in MADE[:2]:
        with open(os.path.join(folder, it), encoding="utf-8") as file:
            found[it] = file.read()
    return found


def expected(name: str, file: str) -> str:
    """What stands beside a configuration."""
    with open(os.path.join(HERE, name, file), encoding="utf-8") as it:
        return it.read()


class Configurations(ground.InFolder):
    """Each configuration."""

    def test_there_are_twelve(self):
        self.assertEqual(sorted([*NXOS, *JUNOS]), sorted(os.listdir(HERE)))
        self.assertEqual(len(NXOS) + len(JUNOS), 12)

    def test_what_is_made(self):
        for name in (*NXOS, *JUNOS):
            os.makedirs(self.path(name))
            for file, text in made(name, self.path(name)).items():
                with self.subTest(name=name, file=file):
                    self.assertEqual(text, expected(name, file))

    def test_each_statement_is_carried_or_named(self):
        for name in (*NXOS, *JUNOS):
            path = os.path.join(HERE, name, "running.cfg")
            read = Reader(path) if name in NXOS else sets.Reader(path)
            read.read()
            if name in NXOS:
                nxos.Maker(read, {}).made()
            with open(path, encoding="utf-8") as file:
                statements = {number for number, line in enumerate(file, 1) if line.strip()}
            named = {it.line for it in read.left}
            with self.subTest(name):
                self.assertEqual(statements - read.carried - named, set())
                self.assertEqual(read.carried & named, set())
                self.assertGreater(len(read.carried), len(statements) // 4)

    def test_nothing_that_may_be_secret_is_shown(self):
        for name in (*NXOS, *JUNOS):
            for file in MADE:
                shown = [it for it in SECRETS if it in expected(name, file)]
                with self.subTest(name=name, file=file):
                    self.assertEqual(shown, [])

    def test_the_program_takes_them(self):
        try:
            exbr = play.program()
        except DeskError as fault:
            self.skipTest(str(fault))
        for name in (*NXOS, *JUNOS):
            topology.read(os.path.join(HERE, name, "topology.toml"))
            done = subprocess.run([exbr, "check", os.path.join(HERE, name, "topology.toml")], capture_output=True, text=True, check=False)
            with self.subTest(name):
                self.assertEqual(done.returncode, 0, done.stdout)

    def test_and_back_through_a_plan(self):
        """A topology as a plan, and that as a topology again, means the same."""
        from exbr_import import ends
        for name in (*NXOS, *JUNOS):
            plan, again = self.path(f"{name}-plan.toml"), self.path(f"{name}.toml")
            one = ground.tool("exbr-import", "--to-plan", os.path.join(HERE, name, "topology.toml"), "-o", plan)
            other = ground.tool("exbr-import", "--plan", plan, "-o", again, "--names", self.path(f"{name}-names.toml"))
            with self.subTest(name):
                self.assertEqual((one.returncode, other.returncode), (0, 0), one.stderr + other.stderr)
                self.assertEqual(ends.differences(topology.read(os.path.join(HERE, name, "topology.toml")), topology.read(again)), [])


def write() -> None:
    """Makes the files beside the configurations anew."""
    import tempfile
    for name in (*NXOS, *JUNOS):
        with tempfile.TemporaryDirectory() as folder:
            for file, text in made(name, folder).items():
                with open(os.path.join(HERE, name, file), "w", encoding="utf-8") as out:
                    out.write(text)


if __name__ == "__main__":
    write() if sys.argv[1:] == ["--write"] else unittest.main()
