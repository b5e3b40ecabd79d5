#!/usr/bin/env python3
"""The program and a second reader of captures (crates/exb_cases/captured.py) say the same of files that nobody made with care.

Each file is the capture of a port. Of one that is read the status is 0, and all that is written and printed is what the plain bridge in Python
makes of the second reader's records; of one with a fault the status is 4, the line names the fault and its byte, and no file is made.
"""
import os
import pathlib
import random
import struct
import sys
import unittest

HERE = pathlib.Path(__file__).resolve().parent
TOP = HERE.parent.parent
sys.dont_write_bytecode = True
sys.path[:0] = [str(TOP / "tools"), str(TOP / "crates/exb_cases")]
import captured
import pcapng
from checks import readings


def program():
    """Where the program is, or None."""
    given = os.environ.get("EXBR_PROGRAM") or str(TOP / "dist/exbr")
    return given if os.access(given, os.X_OK) else None


def some_block(draw, order, sizes):
    """A block with content that is drawn: mostly a good one."""
    kind = draw.choice([1, 3, 6, 6, 6, 5, 4, 0x0A0D0D0A, 2, draw.getrandbits(32)])
    content = draw.randbytes(4 * draw.randrange(12))
    if kind == 6:
        frame = draw.randbytes(draw.randrange(40))
        content = struct.pack(order + "IIIII", draw.choice([0, 0, 0, 1]), draw.choice([0, 0, 0x000F0000, 0xFFFFFFFF]), draw.getrandbits(32), len(frame), 60)
        content += frame + bytes(-len(frame) % 4)
    elif kind == 3:
        content = struct.pack(order + "I", draw.randrange(40)) + draw.randbytes(40)
    elif kind == 1:
        value = draw.choice([6, 9, 0, 3, 10, 137])
        options = draw.choice([b"", struct.pack(order + "HHI", 9, 1, 0)[:4] + bytes([value, 0, 0, 0]), struct.pack(order + "HH", 2, 4) + b"name", bytes(4)])
        content = struct.pack(order + "HHI", draw.choice([1, 1, 1, 113]), 0, draw.choice([0, 0, 20])) + options
    elif kind == 0x0A0D0D0A:
        content = struct.pack(order + "IHHq", 0x1A2B3C4D, draw.choice([1, 1, 1, 2]), 0, -1)
    size = len(content) + 12
    if draw.random() < sizes:
        size = draw.choice([size + 4, size - 4, 0, draw.getrandbits(32), 327_684])
    return struct.pack(order + "II", kind, size & 0xFFFFFFFF) + content + struct.pack(order + "I", size & 0xFFFFFFFF)


def some_file(draw):
    """A section with an interface and blocks that are drawn."""
    order = draw.choice("<>")
    file = struct.pack(order + "IIIHHqI", 0x0A0D0D0A, 28, 0x1A2B3C4D, 1, 0, -1, 28) + struct.pack(order + "IIHHII", 1, 20, 1, 0, 0, 20)
    file += b"".join(some_block(draw, order, 0.01) for _ in range(draw.randrange(1, 30)))
    return file[:draw.randrange(len(file))] if draw.random() < 0.1 else file


@unittest.skipUnless(program(), "no program: set EXBR_PROGRAM")
class Captures(unittest.TestCase):
    def setUp(self):
        self.read, self.refused = 0, 0

    def judge(self, file, name):
        """The program says of a file what the second reader does."""
        fault = captured.read(file)[1]
        self.read, self.refused = self.read + (not fault), self.refused + bool(fault)
        with self.subTest(name):
            readings.judge(program(), file)

    def test_each_bit_of_a_small_file(self):
        small = pcapng.HEAD + pcapng.block(1, struct.pack("<HHIHHI", 1, 0, 0, 9, 1, 9)) + pcapng.block(6, struct.pack("<IIIII", 0, 0, 5, 2, 2) + b"ab\0\0")
        small += pcapng.block(3, struct.pack("<I", 3) + b"abc\0")
        for bit in range(8 * len(small)):
            file = bytearray(small)
            file[bit // 8] ^= 1 << bit % 8
            self.judge(bytes(file), f"bit {bit}")
        self.assertGreater(self.read, 300)
        self.assertGreater(self.refused, 300)

    def test_each_front_of_each_written_file(self):
        for path in sorted((TOP / "crates/exb_cases/written").glob("*.pcap*")):
            file = path.read_bytes()
            for size in [*range(0, len(file), 61), len(file)]:
                self.judge(file[:size], f"{path.name} cut to {size}")

    def test_blocks_that_are_drawn(self):
        draw = random.Random(19)
        for at in range(int(os.environ.get("EXBR_DRAWS", "500"))):
            self.judge(some_file(draw), f"draw {at}")
        self.assertGreater(self.read, 30)
        self.assertGreater(self.refused, 100)

    def test_long_files_of_blocks(self):
        """16 MB of blocks as they are, and each file again with one bit of it turned."""
        draw = random.Random(20)
        for at in range(8):
            blocks, size = [], 0
            while size < 2_000_000:
                frame = draw.randbytes(draw.randrange(14, 2000))
                more = [pcapng.block(6, struct.pack("<IIIII", 0, 0, draw.getrandbits(32), len(frame), 1) + frame + bytes(-len(frame) % 4))] * 8
                more.append(pcapng.block(draw.choice([2, 4, 5, 0xBAD]), bytes(4 * draw.randrange(50_000))))
                blocks += more
                size += sum(map(len, more))
            file = bytearray(pcapng.HEAD + pcapng.ETHERNET + b"".join(blocks))
            self.judge(bytes(file), f"long file {at}")
            file[draw.randrange(len(file))] ^= 1 << draw.randrange(8)
            self.judge(bytes(file), f"long file {at} with a bit turned")


if __name__ == "__main__":
    unittest.main()
