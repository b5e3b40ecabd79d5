"""What the tests of the desk share: folders of runs, the tools, and the program where there is one."""
from __future__ import annotations

import contextlib
import io
import os
import shutil
import subprocess
import sys
import tempfile
import unittest

sys.dont_write_bytecode = True
HERE = os.path.dirname(os.path.abspath(__file__))
TOP = os.path.normpath(os.path.join(HERE, "..", "..", ".."))
TOOLS = os.path.join(TOP, "tools")
sys.path[:0] = [path for path in (os.path.join(HERE, ".."), HERE, os.path.join(TOP, "crates", "exb_cases")) if path not in sys.path]

from exbr_desk import compare, errors, why

MAINS = {"exbr-why": why.main, "exbr-compare": compare.main}


def program() -> str | None:
    """The program: of the environment, or that of dist/."""
    for path in (os.environ.get("EXBR_PROGRAM"), os.environ.get("EXBR"), os.path.join(TOP, "dist", "exbr")):
        if path and os.access(path, os.X_OK) and os.path.isfile(path):
            return os.path.abspath(path)
    return None


def needs_program() -> str:
    """The program, or the test is skipped."""
    found = program()
    if found is None:
        raise unittest.SkipTest("no program: set EXBR_PROGRAM")
    return found


class FolderTest(unittest.TestCase):
    """A test with a folder of its own."""

    def setUp(self) -> None:
        held = tempfile.TemporaryDirectory(prefix="exbr-desk-")
        self.addCleanup(held.cleanup)
        self.folder = held.name

    def path(self, name: str) -> str:
        return os.path.join(self.folder, name)

    def write(self, name: str, data: str | bytes) -> str:
        os.makedirs(os.path.dirname(self.path(name)), exist_ok=True)
        with open(self.path(name), "wb") as out:
            out.write(data.encode() if isinstance(data, str) else data)
        return self.path(name)

    def example(self, name: str, to: str = "") -> str:
        """An example as it is after its run."""
        folder = self.path(to or name)
        shutil.copytree(os.path.join(TOP, "examples", name), folder)
        for file in os.listdir(os.path.join(folder, "expected")):
            shutil.copy(os.path.join(folder, "expected", file), os.path.join(folder, file))
        return folder

    def tool(self, name: str, *words: str, at: str | None = None) -> subprocess.CompletedProcess:
        """What a tool says, in this process, since to begin a Python for each call takes long. Whatever else it raises fails the test."""
        out, err, before = io.StringIO(), io.StringIO(), os.getcwd()
        os.chdir(at or self.folder)
        try:
            with contextlib.redirect_stdout(out), contextlib.redirect_stderr(err):
                status = errors.ended(name, lambda: MAINS[name](list(words)))
        except SystemExit as end:
            status = end.code
        finally:
            os.chdir(before)
        return subprocess.CompletedProcess(words, status, out.getvalue(), err.getvalue())

    def script(self, name: str, *words: str) -> subprocess.CompletedProcess:
        """What a tool says as the user calls it."""
        return subprocess.run([os.path.join(TOOLS, name), *words], cwd=self.folder, capture_output=True, text=True, check=False)

    def refused(self, name: str, *words: str, at: str | None = None) -> str:
        """The one line with which a tool ends for broken input."""
        done = self.tool(name, *words, at=at)
        self.assertEqual((done.returncode, done.stdout), (2, ""), done.stderr)
        self.assertEqual(done.stderr.count("\n"), 1, done.stderr)
        return done.stderr.removeprefix(f"{name}: ").strip()
