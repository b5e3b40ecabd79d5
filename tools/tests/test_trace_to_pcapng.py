"""What tools/trace_to_pcapng.py makes of a trace: a capture whose packets are its frames in order, and a line for what is no trace."""
import importlib.util
import os
import subprocess
import sys
import tempfile
import unittest

TOP = os.path.dirname(os.path.dirname(os.path.dirname(os.path.abspath(__file__))))
sys.path.insert(0, f"{TOP}/crates/exb_cases")
import captured

TRACE = """= up x1.1
in x1 up 0180c200000e024542010001
out x1 1 020000000002020000000001080045
= tick 2
beat
in b 1 ffffffffffff0200000000018100000a
= settled
"""


class TraceToPcapng(unittest.TestCase):
    def setUp(self):
        self.folder = self.enterContext(tempfile.TemporaryDirectory())

    def says(self, text):
        with open(f"{self.folder}/trace.txt", "wb") as file:
            file.write(text)
        ran = subprocess.run([f"{TOP}/tools/trace_to_pcapng.py", "trace.txt", "trace.pcapng"], cwd=self.folder, capture_output=True, text=True, check=False)
        return ran.returncode, ran.stdout + ran.stderr

    def test_packets_are_the_frames_in_order(self):
        self.assertEqual(self.says(TRACE.encode()), (0, ""))
        with open(f"{self.folder}/trace.pcapng", "rb") as file:
            text = file.read()
        records, fault = captured.read(text)
        self.assertIsNone(fault)
        self.assertEqual([frame.hex() for _, frame in records], [line.split()[3] for line in TRACE.splitlines() if line.startswith(("in", "out"))])
        moments = [moment for moment, _ in records]
        self.assertEqual(moments, sorted(moments))
        self.assertGreaterEqual(moments[2] - moments[1], 2_000_000_000)
        for words in (b"x1 up", b"x1 1", b"b 1", b"up x1.1"):
            self.assertIn(words, text)

    def test_a_trace_is_not_held_in_memory(self):
        """Packets come as soon as their step is over, however long the trace is."""
        spec = importlib.util.spec_from_file_location("trace_to_pcapng", f"{TOP}/tools/trace_to_pcapng.py")
        module = importlib.util.module_from_spec(spec)
        spec.loader.exec_module(module)
        taken = []

        def lines():
            for at in range(1_000_000):
                taken.append(at)
                yield ("in b 1 00", "= relay b1 1", "out b 2 00", "= settled")[at % 4]

        pieces = module.blocks_of(module.packets_of(lines()))
        # A section, an interface and a packet, which its step's comment is in; then the packet that leaves.
        its = [next(pieces) for _ in range(5)]
        self.assertLess(len(taken), 10)
        self.assertIn(b"relay b1 1", its[2])

    def test_what_can_not_be_written(self):
        os.mkdir(f"{self.folder}/trace.pcapng")
        self.assertEqual(self.says(TRACE.encode()), (2, "trace_to_pcapng.py: trace.pcapng: it is a folder\n"))
        self.assertEqual(sorted(os.listdir(self.folder)), ["trace.pcapng", "trace.txt"])

    def test_what_is_no_trace(self):
        for text, why in ((b"in x1 up\n", "line 1 is none of a trace"), (b"beat\n= tick\n", "line 2 is none of a trace"), (b"in x1 up zz\n", "line 1 is none of a trace"),
                          (b"\xff\n", "no trace, which is a text of ASCII")):
            self.assertEqual(self.says(text), (2, f"trace_to_pcapng.py: trace.txt: {why}\n"))
            self.assertFalse(os.path.exists(f"{self.folder}/trace.pcapng"))


if __name__ == "__main__":
    unittest.main()
