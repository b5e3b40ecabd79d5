"""./install puts files where they go, takes exactly these away, and replaces nothing."""
import os
import shutil
import subprocess
import sys
import tempfile
import unittest

TOP = os.path.dirname(os.path.dirname(os.path.dirname(os.path.abspath(__file__))))
PROGRAM = "/bin/echo"


def tree(folder):
    return sorted(os.path.relpath(os.path.join(at, it), folder) for at, folders, names in os.walk(folder) for it in [*folders, *names])


class Installed(unittest.TestCase):
    def setUp(self):
        self.room = tempfile.TemporaryDirectory(prefix="exbr-install-")
        self.addCleanup(self.room.cleanup)
        self.prefix = f"{self.room.name}/a b/prefix"

    def install(self, *words, env=None):
        ran = subprocess.run([sys.executable, f"{TOP}/install", *words], stdin=subprocess.DEVNULL, capture_output=True, text=True,
                             env={**os.environ, **(env or {})})
        return ran.returncode, ran.stdout, ran.stderr

    def put(self):
        status, printed, said = self.install("--program", PROGRAM, self.prefix)
        self.assertEqual((status, said), (0, ""))
        return printed

    def test_files_are_where_they_go(self):
        self.put()
        there = tree(self.prefix)
        for name in ("bin/exbr", "lib/exbr/exbr", "share/exbr/version", "bin/exbr-trace-to-pcapng", "share/man/man1/exbr.1", "share/bash-completion/completions/exbr",
                     "share/zsh/site-functions/_exbr", "share/exbr/installed"):
            self.assertIn(name, there)
        self.assertEqual(self.ran("exbr", "hello", "", "--version"), "hello  --version\n")
        os.symlink(f"{self.prefix}/bin/exbr", f"{self.room.name}/linked")
        ran = subprocess.run([f"{self.room.name}/linked", "hello"], cwd="/", capture_output=True, text=True)
        self.assertEqual(ran.stdout, "hello\n")
        self.assertFalse([it for it in there if "/tests/" in it or it.endswith(".pyc")])

    def ran(self, name, *words):
        """What an installed command prints, with nothing of the repository in the environment."""
        env = {name: its for name, its in os.environ.items() if name not in ("EXBR", "EXBR_PROGRAM")}
        return subprocess.run([f"{self.prefix}/bin/{name}", *words], stdin=subprocess.DEVNULL, capture_output=True, text=True, env=env).stdout

    def test_version_is_written_down(self):
        self.put()
        wanted = subprocess.run([f"{TOP}/tools/version", PROGRAM], capture_output=True, text=True).stdout
        self.assertEqual(self.ran("exbr", "--version"), wanted)
        self.assertEqual([it.split()[0] for it in wanted.splitlines()], ["commit", "kit", "sources"])

    def test_tools_run_the_program_that_is_installed(self):
        self.put()
        self.assertEqual(self.ran("exbr-watch", "--", "hello", "there"), "hello there\n")

    def test_each_tool_answers(self):
        self.put()
        tools = [it for it in os.listdir(f"{self.prefix}/bin") if it != "exbr"]
        for name in tools:
            ran = subprocess.run([f"{self.prefix}/bin/{name}", "--help"], stdin=subprocess.DEVNULL, capture_output=True, text=True, cwd="/")
            self.assertNotIn("Traceback", ran.stderr, name)
            self.assertTrue((ran.stdout + ran.stderr).strip(), name)

    def test_nothing_is_left(self):
        os.makedirs(f"{self.room.name}/a b")
        self.put()
        self.assertEqual(self.install("--remove", self.prefix)[0], 0)
        self.assertFalse(os.path.exists(self.prefix))

    def test_what_was_there_stays(self):
        for name in ("bin/other", "share/man/man1/other.1"):
            os.makedirs(os.path.dirname(f"{self.prefix}/{name}"), exist_ok=True)
            with open(f"{self.prefix}/{name}", "w") as it:
                it.write("other")
        before = tree(self.prefix)
        self.put()
        with open(f"{self.prefix}/share/exbr/mine", "w") as it:
            it.write("put there later")
        self.install("--remove", self.prefix)
        self.assertEqual(tree(self.prefix), sorted([*before, "share/exbr", "share/exbr/mine"]))

    def test_nothing_is_replaced(self):
        os.makedirs(f"{self.prefix}/bin")
        with open(f"{self.prefix}/bin/exbr", "w") as it:
            it.write("another")
        status, _, said = self.install("--program", PROGRAM, self.prefix)
        self.assertEqual(status, 1)
        self.assertIn("bin/exbr is there already", said)
        self.assertEqual(tree(self.prefix), ["bin", "bin/exbr"])

    def test_twice(self):
        self.put()
        before = tree(self.prefix)
        status, _, said = self.install("--program", PROGRAM, self.prefix)
        self.assertEqual(status, 1)
        self.assertIn("has exbr already", said)
        self.assertEqual(tree(self.prefix), before)

    def test_removing_what_is_not_there(self):
        status, _, said = self.install("--remove", self.prefix)
        self.assertEqual(status, 1)
        self.assertIn("has no exbr that this script put there", said)

    def test_a_list_that_leads_outside(self):
        os.makedirs(f"{self.prefix}/share/exbr")
        victim = f"{self.room.name}/victim"
        for line in (victim, "../../victim"):
            with open(victim, "w") as it:
                it.write("stays")
            with open(f"{self.prefix}/share/exbr/installed", "w") as it:
                it.write(f"{line}\n")
            self.assertEqual(self.install("--remove", self.prefix)[0], 1)
            self.assertTrue(os.path.exists(victim))

    def test_below_another_folder(self):
        env = {"DESTDIR": self.room.name}
        self.assertEqual(self.install("--program", PROGRAM, "/usr", env=env)[0], 0)
        self.assertTrue(os.path.isfile(f"{self.room.name}/usr/bin/exbr"))
        self.assertEqual(self.install("--remove", "/usr", env=env)[0], 0)
        self.assertFalse(os.path.exists(f"{self.room.name}/usr"))

    def test_bad_words(self):
        self.assertEqual(self.install("--bad")[0], 2)
        self.assertEqual(self.install("one", "two")[0], 2)
        status, _, said = self.install("--program", "/nowhere", self.prefix)
        self.assertEqual((status, said), (1, "install: there is no /nowhere\n"))

    def test_a_package_of_debian(self):
        if not shutil.which("dpkg-deb") or not os.path.isfile(PROGRAM):
            self.skipTest("dpkg-deb (Debian's package dpkg) is not here, so no package was made")
        env = {**os.environ, "EXBR_PROGRAM": PROGRAM, "EXBR_VERSION": "1.2"}
        ran = subprocess.run([f"{TOP}/tools/debian/package", self.room.name], capture_output=True, text=True, env=env)
        self.assertEqual(ran.returncode, 0, ran.stderr)
        file = ran.stdout.strip()
        self.assertTrue(file.endswith("/exbr_1.2_amd64.deb"))
        said = subprocess.run(["dpkg-deb", "--info", file], capture_output=True, text=True).stdout
        self.assertRegex(said, r"Depends: libc6 \(>= 2\.\d+\)")
        listed = subprocess.run(["dpkg-deb", "--contents", file], capture_output=True, text=True).stdout
        for name in ("./usr/bin/exbr", "./usr/lib/exbr/exbr", "./usr/share/exbr/version", "./usr/share/man/man1/exbr.1.gz", "./usr/share/zsh/vendor-completions/_exbr"):
            self.assertIn(f" {name}\n", listed)
        self.assertNotIn("installed", listed)


if __name__ == "__main__":
    unittest.main()
