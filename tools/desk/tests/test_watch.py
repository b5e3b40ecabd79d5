"""exbr-watch: what it takes from the system, what it shows, and what passes through."""
import os
import subprocess
import sys
import unittest

import ground
from exbr_desk import captures
from exbr_watch import cli, course, process

SLOW = """import sys, time
for turn in range(2):
    with open("in.pcap", "rb") as file:
        while file.read(100_000):
            time.sleep(0.04)
print("arrivals", *sys.argv[1:])
sys.exit(7)
"""


TWO = '[bridge]\nports = 2\n[captures]\n"b1" = "in.pcap"\n'


class Causes(ground.InFolder):
    """The file that a run couldn't read or write, over the program itself where it is there."""

    def watched(self, *words: str) -> subprocess.CompletedProcess:
        program = os.environ.get("EXBR_PROGRAM") or os.path.join(ground.TOP, "dist", "exbr")
        if not os.access(program, os.X_OK):
            self.skipTest("no program: set EXBR_PROGRAM")
        return ground.process("exbr-watch", "--program", program, "--", *(words or ("run", "topology.toml")), cwd=self.folder)

    def test_what_can_not_be_read(self):
        self.write("topology.toml", TWO)
        os.mkdir(self.path("in.pcap"))
        done = self.watched()
        self.assertEqual((done.returncode, done.stdout, done.stderr), (6, "exbr: read fault\n", "exbr-watch: in.pcap: it isn't a file of the disk\n"))

    def test_what_can_not_be_written(self):
        self.write("topology.toml", TWO)
        self.write("in.pcap", captures.HEADER)
        os.mkdir(self.path("out-b2.pcap"))
        done = self.watched()
        self.assertEqual((done.returncode, done.stdout, done.stderr), (7, "exbr: write fault\n", "exbr-watch: out-b2.pcap: Is a directory\n"))
        os.rmdir(self.path("out-b2.pcap"))
        self.write("topology.toml", TWO.replace("[captures]", 'out = "there/"\n[captures]'))
        done = self.watched()
        self.assertEqual((done.returncode, done.stderr), (7, "exbr-watch: there/b1.pcap: No such file or directory\n"))
        self.assertFalse(os.path.exists(self.path("there")))

    def test_of_a_net(self):
        self.write("net.toml", '[[bridge]]\nname = "one"\ntopology = "topology.toml"\n[[bridge]]\nname = "two"\ntopology = "second.toml"\n')
        self.write("topology.toml", TWO)
        self.write("second.toml", "[bridge]\nports = 1\n")
        self.write("in.pcap", captures.HEADER)
        os.mkdir(self.path("two-b1.pcap"))
        done = self.watched("net", "net.toml")
        self.assertEqual((done.returncode, done.stderr), (7, "exbr-watch: two-b1.pcap: Is a directory\n"))

    def test_the_number_of_a_command(self):
        self.write("topology.toml", "[bridge]\nports = 2\n" + "[[command]]\nat = {}\nop = 'up'\nport = 'b2'\n".format(2) + "[[command]]\nat = 1\nop = 'up'\nport = 'b2'\n")
        done = self.watched()
        self.assertEqual((done.returncode, done.stdout), (3, "exbr: topology: Range at command[1].at\n"))
        self.assertEqual(done.stderr, "exbr-watch: command[1] is command 2, as journals and tools count them\n")


class Courses(unittest.TestCase):
    """How far a run is, by the bytes that it has read."""

    def test_both_readings(self):
        watch = course.Watch(course.Input(2, 1_000_000))
        self.assertEqual(watch.course(0, 0.0), course.Course("looking through", 0.0, 0, None))
        self.assertEqual(watch.course(500_000, 1.0).part, 0.5)
        self.assertEqual(watch.course(1_000_000, 2.0), course.Course("playing", 0.0, 0, None))
        self.assertEqual(watch.course(1_500_000, 6.0), course.Course("playing", 0.5, 500_000, 4.0))
        self.assertEqual(watch.course(9_000_000, 9.0).part, 1.0)

    def test_without_bytes(self):
        self.assertEqual(course.Watch(course.Input(0, 0)).course(0, 0.0).doing, "looking through")
        self.assertEqual(course.Watch(course.Input(1, 0)).course(100, 0.0).part, 1.0)

    def test_topology_among_words(self):
        for words, path in ((["run", "t.toml"], "t.toml"), (["run", "--trace", "t.toml", "--seed", "3"], "t.toml"), (["check", "t.toml"], None),
                            (["net", "n.toml", "--counters"], "n.toml"),
                            (["run"], None), (["run", "a", "b"], None)):
            self.assertEqual(cli.topology_of(words), path)

    def test_line(self):
        given = course.Input(3, 2_000_000)
        said = cli.line(course.Course("playing", 0.25, 500_000, 65.0), given, 7.0, 41_000_000)
        self.assertEqual(said, "exbr: playing 3 captures [#####...............]  25 % (500 kB of 2.0 MB) after 0:07, 41.0 MB of memory, 1:05 left")
        self.assertEqual(cli.line(None, None, 3661.0, None), "exbr: at work after 1:01:01")

    def test_this_process(self):
        before = process.bytes_read(os.getpid())
        with open(__file__, "rb") as file:
            size = len(file.read())
        self.assertGreaterEqual(process.bytes_read(os.getpid()) - before, size)
        self.assertGreater(process.memory(os.getpid()), 1_000_000)
        self.assertIsNone(process.bytes_read(2 ** 22 + 1))


class Watching(ground.InFolder):
    """The tool over programs that stand in for exbr."""

    def program(self, text: str, start: str = f"#!{sys.executable}\n") -> str:
        path = self.write("program", start + text)
        os.chmod(path, 0o755)
        return path

    def test_shows_and_passes_through(self):
        self.write("in.pcap", bytes(3_000_000))
        self.write("topology.toml", '[captures]\n"b1" = "in.pcap"\n')
        done = ground.process("exbr-watch", "--program", self.program(SLOW), "--every", "0.2", "--", "run", "topology.toml", "--trace", cwd=self.folder)
        self.assertEqual((done.returncode, done.stdout), (7, "arrivals run topology.toml --trace\n"))
        self.assertIn("exbr: looking through 1 captures [", done.stderr)
        self.assertIn("exbr: playing 1 captures [", done.stderr)

    def test_a_net(self):
        """The captures of all its bridges."""
        for name, data in {"net.toml": '[[bridge]]\nname = "a"\ntopology = "a.toml"\n[[bridge]]\nname = "b"\ntopology = "b.toml"\n',
                           "a.toml": '[captures]\n"b1" = "1.pcap"\n"b2" = "2.pcap"\n', "b.toml": '[captures]\n"b1" = "2.pcap"\n', "1.pcap": b"1", "2.pcap": b"22"}.items():
            self.write(name, data)
        self.addCleanup(os.chdir, os.getcwd())
        os.chdir(self.folder)
        self.assertEqual(course.input_of("net.toml"), course.Input(3, 5))
        self.write("b.toml", '[[bridge]]\ntopology = "b.toml"\n')
        self.assertIsNone(course.input_of("net.toml"))

    def test_signal(self):
        done = ground.process("exbr-watch", "--program", self.program("import os; os.abort()"), "--", "run", "topology.toml", cwd=self.folder)
        self.assertEqual(done.returncode, 128 + 6)

    def test_topology_that_is_not_there(self):
        program = self.program("print('exbr: missing nope'); raise SystemExit(5)")
        done = ground.process("exbr-watch", "--program", program, "--", "run", "nope", cwd=self.folder)
        self.assertEqual((done.returncode, done.stdout, done.stderr), (5, "exbr: missing nope\n", ""))

    def test_bad_words(self):
        self.assert_line(ground.process("exbr-watch", "--program", self.path("nope"), "--", "run", "t"), 2, "exbr-watch: ", "is no program")
        self.assert_line(ground.process("exbr-watch"), 2, "usage: exbr-watch")
        self.assert_line(ground.process("exbr-watch", "--every", "0", "--", "run", "t"), 2, "--every")
        self.assert_line(ground.process("exbr-watch", "--help"), 0)


if __name__ == "__main__":
    unittest.main()
