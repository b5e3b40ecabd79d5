"""What the tests of report, import, watch and the walk stand on: runs of the examples whose files are known, and the tools as they are
called."""
import contextlib
import importlib
import io
import os
import shutil
import subprocess
import sys
import tempfile
import unittest
import warnings

TESTS = os.path.dirname(os.path.abspath(__file__))
DESK = os.path.dirname(TESTS)
TOOLS = os.path.dirname(DESK)
TOP = os.path.dirname(TOOLS)
EXAMPLES = os.path.join(TOP, "examples")
HEADER = bytes.fromhex("d4c3b2a1020004000000000000000000ffff000001000000")
PLAYED = ("campus", "first-path", "lossy-links", "office", "private-hosts", "static-group", "too-few-groups")
if DESK not in sys.path:
    sys.path.insert(0, DESK)

from exbr_desk.errors import ended


def process(name: str, *words: str, **options) -> subprocess.CompletedProcess:
    """A tool as it is called, in a process of its own."""
    return subprocess.run([sys.executable, os.path.join(TOOLS, name), *words], capture_output=True, text=True, timeout=300, **options)


def tool(name: str, *words: str) -> subprocess.CompletedProcess:
    """The same in this process, which takes a tenth of the time."""
    main = importlib.import_module(f"{name.replace('-', '_')}.cli").main
    printed, said = io.StringIO(), io.StringIO()
    with contextlib.redirect_stdout(printed), contextlib.redirect_stderr(said):
        try:
            status = ended(name, lambda: main(list(words)))
        except SystemExit as end:
            status = end.code
    return subprocess.CompletedProcess([name, *words], status, printed.getvalue(), said.getvalue())


class InFolder(unittest.TestCase):
    """A test with a folder of its own."""

    def setUp(self) -> None:
        # A run's captures stay open as long as the run is of use.
        warnings.simplefilter("ignore", ResourceWarning)
        self.folder = tempfile.mkdtemp(prefix="exbr-test-")
        self.addCleanup(shutil.rmtree, self.folder, True)

    def path(self, *names: str) -> str:
        return os.path.join(self.folder, *names)

    def played(self, example: str) -> str:
        """An example with the files that its run leaves."""
        to = self.path(example)
        source = os.path.join(EXAMPLES, example)
        os.makedirs(to, exist_ok=True)
        for folder in (source, os.path.join(source, "expected")):
            for name in os.listdir(folder):
                if name.endswith((".pcap", ".pcapng", ".txt", ".toml")) and not (folder == source and name.startswith("out-")):
                    shutil.copy(os.path.join(folder, name), to)
        return to

    def write(self, name: str, content: str | bytes) -> str:
        """A file of the test's folder."""
        path = self.path(name)
        os.makedirs(os.path.dirname(path), exist_ok=True)
        with open(path, "wb") as file:
            file.write(content if isinstance(content, bytes) else content.encode())
        return path

    def assert_line(self, done: subprocess.CompletedProcess, status: int, *words: str) -> None:
        """A tool ended with a status and a clear line, and not with what Python says of a fault."""
        self.assertEqual(done.returncode, status, done.stderr)
        self.assertNotIn("Traceback", done.stderr)
        for it in words:
            self.assertIn(it, done.stderr)
