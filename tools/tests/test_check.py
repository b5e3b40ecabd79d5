"""What tools/check lays and says, over a toolchain that only seems to be one."""
import os
import shutil
import subprocess
import tempfile
import unittest

TOP = os.path.dirname(os.path.dirname(os.path.dirname(os.path.abspath(__file__))))
# It keeps proofs in kit/kept/NAME-KEY, and gives one only into a folder that has none. A crate's key has the text of its own and what was given of those below.
RT = '''#!/usr/bin/env python3
import os, shutil, types

KIT = os.path.dirname(os.path.realpath(__file__))


class Crate:
    def __init__(self, top, name, below):
        self.name, self.folder, self.deps, self.is_program = name, f"{top}/crates/{name}", below, name == "exbr"

    def below(self):
        return [*self.deps, *(it for dep in self.deps for it in dep.below())]

    def text(self):
        with open(f"{self.folder}/src/lib.rt") as it:
            return it.read().strip()

    def stamp(self):
        with open(f"{KIT}/sums", "a") as it:
            it.write(f"{self.name}\\n")
        return "+".join([self.text(), *(it.stamp() for it in self.deps)])


rtlib = types.SimpleNamespace(Crate=Crate)


def crates_of(top):
    made = {}
    with open(f"{top}/crates.txt") as it:
        for line in it:
            name, _, below = line.partition(":")
            made[name] = Crate(top, name, [made[it] for it in below.split()])
    return made.values()


class Kept:
    def __init__(self, crates, anew):
        self.rlibs = {}

    def key(self, crate):
        return "-".join([crate.text(), *(self.rlibs[it.name] for it in crate.below())])

    def place(self, crate, tests, key):
        return f"{KIT}/kept/{crate.name}-{key}"

    def give(self, crate, tests, key):
        if os.path.exists(f"{crate.folder}/out/rlib"):
            shutil.rmtree(self.place(crate, tests, key))
            return False
        shutil.copytree(self.place(crate, tests, key), f"{crate.folder}/out/rlib")
        return True

    def is_built(self, crate):
        self.rlibs[crate.name] = "built"


def main(words):
    Crate("../..", "exb_high", []).stamp(), Crate("../..", "exb_high", []).stamp()
    print(os.path.basename(os.getcwd()), *words)
    return 3


if __name__ == "__main__":
    raise SystemExit("it is to be taken as a module")
'''
CRATES = {"exb_low": "", "exb_mid": " exb_low", "exb_high": " exb_mid exb_low", "exbr": " exb_high exb_mid exb_low"}


class Check(unittest.TestCase):
    def setUp(self):
        self.top = self.enterContext(tempfile.TemporaryDirectory())
        os.mkdir(f"{self.top}/tools")
        shutil.copy(f"{TOP}/tools/check", f"{self.top}/tools/check")
        os.makedirs(f"{self.top}/kit")
        self.put("kit/rt", RT)
        os.chmod(f"{self.top}/kit/rt", 0o755)
        self.put("crates.txt", "".join(f"{name}:{below}\n" for name, below in CRATES.items()))
        for name in CRATES:
            os.makedirs(f"{self.top}/crates/{name}/src")
            self.put(f"crates/{name}/src/lib.rt", name)
        for kept in ("exb_low-exb_low", "exb_mid-exb_mid-built"):
            os.makedirs(f"{self.top}/kit/kept/{kept}")
            self.put(f"kit/kept/{kept}/format", kept)

    def put(self, path, text):
        with open(f"{self.top}/{path}", "w", encoding="utf-8") as file:
            file.write(text)

    def read(self, path):
        with open(f"{self.top}/{path}", encoding="utf-8") as file:
            return file.read()

    def check(self, *words, path="kit:"):
        env = {"PATH": f"{path.replace('kit', f'{self.top}/kit')}/usr/bin:/bin"}
        return subprocess.run([f"{self.top}/tools/check", *words], env=env, capture_output=True, text=True, check=False)

    def test_what_is_kept_is_laid_and_the_rest_named(self):
        ran = self.check()
        self.assertEqual((ran.returncode, ran.stdout), (0, ""))
        self.assertEqual(ran.stderr, "tools/check: 2 libraries laid; not kept: exb_high\n")
        self.assertEqual(self.read("crates/exb_mid/out/rlib/format"), "exb_mid-exb_mid-built")
        self.assertEqual(self.read("crates/exb_mid/out/rlib/stamp"), "exb_mid+exb_low")
        self.assertFalse(os.path.exists(f"{self.top}/crates/exb_high/out"))

    def test_what_lies_there_makes_way(self):
        self.check()
        self.assertEqual(self.check().stderr, "tools/check: 2 libraries laid; not kept: exb_high\n")

    def test_of_another_text_nothing_is_laid(self):
        self.put("crates/exb_low/src/lib.rt", "another")
        self.assertEqual(self.check().stderr, "tools/check: 0 libraries laid; not kept: exb_low exb_mid exb_high\n")

    def test_a_crate_is_checked_in_its_folder_and_summed_once(self):
        ran = self.check("exb_high", "--only", "f")
        self.assertEqual((ran.returncode, ran.stdout), (3, "exb_high check --only f\n"))
        sums = self.read("kit/sums").split()
        self.assertEqual([sums.count(it) for it in CRATES], [1, 1, 1, 0])

    def test_words_that_name_no_crate(self):
        for word in ("exb_no", "--only"):
            ran = self.check(word)
            self.assertEqual((ran.returncode, ran.stderr), (2, f"tools/check: {word} is no crate: tools/check CRATE [FLAG ..]\n"))

    def test_no_toolchain_and_another_one(self):
        ran = self.check(path="")
        self.assertEqual((ran.returncode, ran.stderr), (1, "tools/check: it takes the Rattle toolchain, and there is no rt in the path\n"))
        self.put("kit/rt", "#!/bin/sh\necho rt\n")
        self.assertIn("no script of Python", self.check().stderr)
        self.put("kit/rt", "rtlib = main = None\n")
        self.assertIn("has no Kept and no crates_of", self.check().stderr)


if __name__ == "__main__":
    unittest.main()
