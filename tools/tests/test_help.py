"""Each tool answers --help at once: it says what it is for, makes nothing, and ends with status 0."""
import concurrent.futures
import os
import subprocess
import tempfile
import unittest

TOP = os.path.dirname(os.path.dirname(os.path.dirname(os.path.abspath(__file__))))
# ./exbr hands its words to the program, of which `exbr --help` is a case, and .ci/run to tools/gate.
OTHERS = {"exbr", ".ci/run"}
LEFT_OUT = {".git", "out", "dist"}


def tools():
    """The scripts of this repository that can be called."""
    found = []
    for at, folders, names in os.walk(TOP):
        folders[:] = [it for it in folders if it not in LEFT_OUT]
        for name in names:
            path = os.path.join(at, name)
            if os.access(path, os.X_OK):
                with open(path, "rb") as file:
                    found += [os.path.relpath(path, TOP)] * (file.read(2) == b"#!")
    return sorted(set(found) - OTHERS)


def answer(tool):
    """What is wrong with what a tool says, if anything is."""
    with tempfile.TemporaryDirectory() as folder:
        env = {"PATH": "/usr/local/bin:/usr/bin:/bin", "HOME": folder, "TMPDIR": folder, "PYTHONDONTWRITEBYTECODE": "1"}
        how = {"stdin": subprocess.DEVNULL, "capture_output": True, "text": True, "timeout": 60}
        ran = subprocess.run([os.path.join(TOP, tool), "--help"], cwd=folder, env=env, check=False, **how)
        if ran.returncode or not ran.stdout.strip():
            return f"{tool}: status {ran.returncode}: {(ran.stderr or ran.stdout).strip()[-200:]}"
        made = os.listdir(folder)
        return f"{tool}: it made {' '.join(made)}" if made else None


class Help(unittest.TestCase):
    def test_each_tool_says_what_it_is_for(self):
        found = tools()
        self.assertIn("tools/pages.py", found)
        with concurrent.futures.ThreadPoolExecutor(4) as pool:
            self.assertEqual([it for it in pool.map(answer, found) if it], [])


if __name__ == "__main__":
    unittest.main()
