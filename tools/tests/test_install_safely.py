"""./install under any umask and over what strangers put there, and the list of sums that it goes by."""
import importlib.machinery
import importlib.util
import os
import shutil
import stat
import subprocess
import sys
import tempfile
import unittest

TOP = os.path.dirname(os.path.dirname(os.path.dirname(os.path.abspath(__file__))))
PROGRAM = "/bin/echo"
LIST = "share/exbr/installed"


def sums():
    loader = importlib.machinery.SourceFileLoader("sums", f"{TOP}/tools/sums")
    module = importlib.util.module_from_spec(importlib.util.spec_from_loader("sums", loader))
    loader.exec_module(module)
    return module


def entries(folder):
    """Each file and folder below a folder with its mode."""
    for at, folders, names in os.walk(folder):
        for it in [*folders, *names]:
            path = os.path.join(at, it)
            yield os.path.relpath(path, folder), stat.S_IMODE(os.lstat(path).st_mode), os.path.isdir(path)


class Safely(unittest.TestCase):
    def setUp(self):
        self.room = tempfile.TemporaryDirectory(prefix="exbr-install-")
        self.addCleanup(self.room.cleanup)
        self.prefix, self.away = f"{self.room.name}/new/prefix", f"{self.room.name}/away"
        os.mkdir(self.away)

    def install(self, *words, umask=0o022, top=TOP):
        ran = subprocess.run([sys.executable, f"{top}/install", *words], stdin=subprocess.DEVNULL, capture_output=True, text=True, umask=umask)
        return ran.returncode, ran.stdout, ran.stderr

    def put(self, *words, **how):
        return self.install("--unchecked", "--program", PROGRAM, self.prefix, *words, **how)

    def write(self, name, text):
        os.makedirs(os.path.dirname(name), exist_ok=True)
        with open(name, "w", encoding="utf-8") as it:
            it.write(text)

    def test_modes_under_any_umask(self):
        for umask in (0o000, 0o022, 0o077, 0o777):
            self.assertEqual(self.put(umask=umask)[0], 0)
            for name, mode, is_folder in entries(f"{self.room.name}/new"):
                must_run = is_folder or name.startswith("prefix/bin/") or name == "prefix/lib/exbr/exbr"
                may_run = must_run or os.path.basename(name).startswith("exbr-")
                with self.subTest(name, umask=oct(umask)):
                    self.assertIn(mode, (0o755,) if must_run else (0o755, 0o644) if may_run else (0o644,))
            self.assertEqual(stat.S_IMODE(os.stat(f"{self.room.name}/new").st_mode), 0o755)
            self.assertEqual(self.install("--remove", self.prefix)[0], 0)
            shutil.rmtree(f"{self.room.name}/new")

    def test_nothing_is_put_through_a_link(self):
        for place in ("bin", "share", "share/exbr", "share/man"):
            os.makedirs(os.path.dirname(f"{self.prefix}/{place}"), exist_ok=True)
            os.symlink(self.away, f"{self.prefix}/{place}")
            status, _, said = self.put()
            self.assertEqual((status, said), (1, f"install: {self.prefix}/{place} is a link, and nothing is put through it\n"))
            self.assertEqual(os.listdir(self.away), [])
            shutil.rmtree(self.prefix)

    def test_a_planted_list_removes_nothing_elsewhere(self):
        self.write(f"{self.away}/keep", "kept")
        os.makedirs(self.prefix)
        os.symlink(self.away, f"{self.prefix}/bin")
        for line in ("bin/keep", f"{'0' * 64}  bin/keep"):
            self.write(f"{self.prefix}/{LIST}", f"{line}\n{LIST}\n")
            status, _, said = self.install("--remove", self.prefix)
            self.assertEqual(status, 1, said)
            self.assertIn("lies behind a link", said)
        self.assertEqual(os.listdir(self.away), ["keep"])

    def test_a_list_that_others_may_write_has_to_have_sums(self):
        self.write(f"{self.prefix}/bin/keep", "kept")
        self.write(f"{self.prefix}/{LIST}", f"bin/keep\n{LIST}\n")
        os.chmod(f"{self.prefix}/{LIST}", 0o666)
        self.assertEqual(self.install("--remove", self.prefix)[0], 1)
        self.assertTrue(os.path.exists(f"{self.prefix}/bin/keep"))

    def test_what_was_changed_stays(self):
        self.put()
        self.write(f"{self.prefix}/bin/exbr-why", "another")
        os.remove(f"{self.prefix}/bin/exbr-report")
        os.symlink(f"{self.away}/there", f"{self.prefix}/bin/exbr-report")
        self.write(f"{self.away}/there", "there")
        status, printed, _ = self.install("--remove", self.prefix)
        self.assertEqual(status, 0)
        self.assertIn("; bin/exbr-why was changed, and stays", printed)
        self.assertEqual(sorted(os.listdir(f"{self.prefix}/bin")), ["exbr-report", "exbr-why"])
        self.assertEqual(os.listdir(self.away), ["there"])

    def test_tools_take_no_modules_of_the_environment(self):
        self.put()
        self.write(f"{self.away}/json.py", "print('planted')\n")
        for name in sorted(os.listdir(f"{self.prefix}/bin")):
            ran = subprocess.run([f"{self.prefix}/bin/{name}", "--help"], capture_output=True, text=True, cwd=self.away, env={**os.environ, "PYTHONPATH": self.away})
            self.assertNotIn("planted", ran.stdout + ran.stderr, name)


class Sums(unittest.TestCase):
    def test_the_list_is_of_the_files_as_they_are(self):
        self.assertIsNone(sums().fault())

    def test_a_file_that_was_changed_is_not_installed(self):
        with tempfile.TemporaryDirectory(prefix="exbr-install-") as room:
            top = f"{room}/top"
            for name in (*sums().files(), "dist/sums"):
                os.makedirs(os.path.dirname(f"{top}/{name}"), exist_ok=True)
                shutil.copy2(f"{TOP}/{name}", f"{top}/{name}")
            # What the version is made of.
            for name in ("crates.txt", *(f"crates/{it}" for it in os.listdir(f"{TOP}/crates"))):
                if not os.path.lexists(f"{top}/{name}"):
                    os.symlink(f"{TOP}/{name}", f"{top}/{name}")
            subprocess.run([f"{top}/tools/sums", "--write"], check=True)
            self.assertEqual(self.put(top, f"{room}/one"), (0, ""))
            with open(f"{top}/tools/desk/exbr_desk/errors.py", "a", encoding="utf-8") as it:
                it.write("\n")
            status, said = self.put(top, f"{room}/two")
            self.assertEqual(status, 1)
            self.assertIn("tools/desk/exbr_desk/errors.py isn't as dist/sums says", said)
            self.assertFalse(os.path.exists(f"{room}/two"))
            self.assertIn("isn't of tools/desk/exbr_desk/errors.py as it is", sums().fault(top))
            self.assertEqual(self.put(top, f"{room}/two", "--unchecked")[0], 0)
            os.remove(f"{top}/dist/sums")
            self.assertEqual(self.put(top, f"{room}/three")[0], 1)

    def put(self, top, prefix, *more):
        ran = subprocess.run([sys.executable, f"{top}/install", "--program", PROGRAM, prefix, *more], stdin=subprocess.DEVNULL, capture_output=True, text=True)
        return ran.returncode, ran.stderr

    def test_sums_in_a_package_of_debian(self):
        if not shutil.which("dpkg-deb"):
            self.skipTest("dpkg-deb (Debian's package dpkg) is not here, so no package was made")
        with tempfile.TemporaryDirectory(prefix="exbr-install-") as room:
            env = {**os.environ, "EXBR_PROGRAM": PROGRAM, "EXBR_VERSION": "1.2"}
            ran = subprocess.run([f"{TOP}/tools/debian/package", room], capture_output=True, text=True, env=env)
            self.assertEqual(ran.returncode, 0, ran.stderr)
            subprocess.run(["dpkg-deb", "-x", ran.stdout.strip(), f"{room}/it"], check=True)
            subprocess.run(["dpkg-deb", "-e", ran.stdout.strip(), f"{room}/control"], check=True)
            checked = subprocess.run(["md5sum", "-c", f"{room}/control/md5sums"], cwd=f"{room}/it", capture_output=True, text=True)
            self.assertEqual(checked.returncode, 0, checked.stdout + checked.stderr)
            self.assertGreater(len(checked.stdout.splitlines()), 30)


if __name__ == "__main__":
    unittest.main()
