"""Faults of a net that only a system has, on the program that EXBR_PROGRAM names: a folder in the place of a file, a capture that changes while
it is played, an output that goes away. Each output stays as it was, or is a front of what it holds otherwise."""
import os
import subprocess
import sys
import tempfile
import unittest

HERE = os.path.dirname(os.path.abspath(__file__))
sys.path.insert(0, HERE)
from faults_under_way import append, change
from folders import Input, end, frames, go_on, held, pause_when, play, size_of, start

PROGRAM = os.environ.get("EXBR_PROGRAM")
NET = b'[[bridge]]\nname = "a"\ntopology = "a.toml"\n[[bridge]]\nname = "b"\ntopology = "b.toml"\n[[wire]]\na = "a:b2"\nb = "b:b2"\n'
BEFORE = {name: b"This was here before.\n" for name in ("a-b1.pcap", "a-b2.pcap", "b-journal.txt")}


def files(count):
    """Two bridges of two ports, with a wire, and stations that speak at both."""
    given = {f"{name}.toml": f'[bridge]\nports = 2\n[captures]\n"b1" = "{name}.pcap"\n'.encode() for name in "ab"}
    return given | {"net.toml": NET, "a.pcap": frames(count, source=1), "b.pcap": frames(count, source=2)}


def has_nets():
    return PROGRAM and b"exbr net " in subprocess.run([PROGRAM], stdin=subprocess.DEVNULL, capture_output=True, check=False).stdout


@unittest.skipUnless(PROGRAM, "no program is named")
class Nets(unittest.TestCase):
    def setUp(self):
        if not has_nets():
            self.skipTest("this program's usage line has no word 'net'")
        self.room = tempfile.TemporaryDirectory(prefix="exbr-net-faults-")
        self.addCleanup(self.room.cleanup)
        self.folder = os.path.join(self.room.name, "it")

    def test_a_folder_in_the_place_of_a_file(self):
        """Of what is read: 6, and nothing is made. Of an output: 7, and those that were made before it are fronts."""
        whole = Input(files(3), ["net", "net.toml"]).learn(PROGRAM, self.folder)
        for name, status in [("net.toml", 6), ("b.toml", 6), ("b.pcap", 6), ("a-b1.pcap", 7), ("b-journal.txt", 7)]:
            with self.subTest(name):
                folder = os.path.join(self.room.name, name)
                it = Input({file: data for file, data in whole.files.items() if file != name}, whole.words, whole.whole, whole.printed)
                before = {file: data for file, data in BEFORE.items() if file != name}
                it.put(folder, before)
                os.mkdir(os.path.join(folder, name))
                ran = play(PROGRAM, folder, it.words)
                it.judge(folder, ran, (status,), before, changed=(name,))
                if status == 6:
                    self.assertEqual(held(folder), {**it.files, **before})

    def changes(self, do, status, line):
        """What a run answers, where this is done to its folder after it has written some."""
        it = Input(files(40_000), ["net", "net.toml"]).learn(PROGRAM, self.folder)
        for name in it.whole:
            os.remove(os.path.join(self.folder, name))
        child = start(PROGRAM, self.folder, it.words)
        try:
            pause_when(child, lambda: size_of(os.path.join(self.folder, "b-b2.pcap")) > 300_000)
        except BaseException:
            child.kill()
            end(child)
            raise
        changed = do(self.folder)
        go_on(child)
        ran = end(child)
        it.judge(self.folder, ran, (status,), changed=changed)
        self.assertTrue(ran.printed.decode().startswith(line), ran.printed)

    def test_a_capture_that_changes(self):
        """PORT is named with its bridge, be it the first or another one."""
        for name in "ab":
            with self.subTest(name):
                def do(folder, name=name):
                    change(-500)(os.path.join(folder, f"{name}.pcap"))
                    return [f"{name}.pcap"]
                self.changes(do, 10, f"exbr: capture {name}:b1: Changed at ")

    def test_a_capture_that_grows(self):
        def do(folder):
            append(b"more")(os.path.join(folder, "b.pcap"))
            return ["b.pcap"]
        size = len(files(40_000)["b.pcap"])
        self.changes(do, 10, f"exbr: capture b:b1: Changed at {size}\n")

    def test_an_output_that_goes_away(self):
        def do(folder):
            os.remove(os.path.join(folder, "b-b1.pcap"))
            return ["b-b1.pcap"]
        self.changes(do, 7, "exbr: write fault\n")


if __name__ == "__main__":
    unittest.main()
