"""What tools/trace_break.py says of the trace of an example: as it is, with a line taken out, and with files that aren't what they are to be."""
import os
import shutil
import subprocess
import tempfile
import unittest

TOP = os.path.dirname(os.path.dirname(os.path.dirname(os.path.abspath(__file__))))
PROGRAM = os.environ.get("EXBR_PROGRAM", os.path.join(TOP, "dist", "exbr"))


@unittest.skipUnless(os.access(PROGRAM, os.X_OK), "there is no program to write a trace")
class TraceBreak(unittest.TestCase):
    def setUp(self):
        top = self.enterContext(tempfile.TemporaryDirectory())
        self.folder = shutil.copytree(f"{TOP}/examples/first-path", f"{top}/run")
        subprocess.run([PROGRAM, "run", "topology.toml", "--trace"], cwd=self.folder, stdout=subprocess.DEVNULL, check=True)

    def says(self, *words):
        ran = subprocess.run([f"{TOP}/tools/trace_break.py", *words], cwd=self.folder, capture_output=True, text=True, check=False)
        return ran.returncode, ran.stdout, ran.stderr

    def lines(self, change):
        with open(f"{self.folder}/out-trace.txt", "r+", encoding="utf-8") as file:
            kept = change(file.read().splitlines(keepends=True))
            file.seek(0)
            file.truncate()
            file.writelines(kept)

    def test_a_legal_trace(self):
        self.assertEqual(self.says("topology.toml"), (0, "legal 128\n", ""))

    def test_a_line_that_is_gone(self):
        self.lines(lambda them: [it for it in them if not it.startswith("out x1 2 ")])
        status, out, _ = self.says("topology.toml", "1")
        told = out.splitlines()
        self.assertEqual((status, told[:2]), (11, ["trace: rule 2: each extender sends what the machine of an extender sends", "line 124 may not stand there"]))
        self.assertEqual([it[:8] for it in told[2:]], ["     123", ">    124", "     125"])

    def test_a_line_that_is_none(self):
        self.lines(lambda them: [*them, "in x1 nowhere\n"])
        status, out, err = self.says("topology.toml")
        self.assertEqual((status, out), (2, ""))
        self.assertIn("`exbr audit topology.toml` names the first", err)

    def test_files_that_are_not_there_or_no_topology(self):
        os.remove(f"{self.folder}/out-journal.txt")
        self.assertEqual(self.says("topology.toml"), (2, "", "trace_break: out-journal.txt: No such file or directory\n"))
        for text in ("x = [", "[[extender]]\nnumber = 1\n"):
            with open(f"{self.folder}/bad.toml", "w", encoding="utf-8") as file:
                file.write(text)
            status, out, err = self.says("bad.toml")
            self.assertEqual((status, out, err.split(":")[1]), (2, "", " bad.toml is no topology"))


if __name__ == "__main__":
    unittest.main()
