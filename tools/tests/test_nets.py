"""The plain net in Python, and the second reader of its file, over the worked examples of a net and over random ones."""
import os
import sys
import unittest

TOP = os.path.dirname(os.path.dirname(os.path.dirname(os.path.abspath(__file__))))
sys.path.insert(0, os.path.join(TOP, "crates", "exb_cases"))

import bridge  # noqa: E402
import campuses  # noqa: E402
import nets  # noqa: E402

TOPOLOGY = '[bridge]\nports = 2\n[[extender]]\nnumber = 1\non = "b1"\nports = 1\n[captures]\n"x1.1" = "%s"\n'
NET = '[[bridge]]\nname = "a"\ntopology = "a.toml"\n[[bridge]]\nname = "b"\ntopology = "b.toml"\n[[wire]]\na = "a:b2"\nb = "b:b2"\n'
TO_ALL = bytes.fromhex("ffffffffffff020000000001") + b"\x08\x00" + bytes(46)
BACK = bytes.fromhex("020000000001020000000002") + b"\x08\x00" + bytes(46)


def capture(*records):
    return bridge.capture_of([(second * bridge.SECOND, frame) for second, frame in records])


class Nets(unittest.TestCase):
    def played(self, *later):
        files = {"a.toml": (TOPOLOGY % "a.pcap").encode(), "b.toml": (TOPOLOGY % "b.pcap").encode()}
        return nets.run(NET, files | {"a.pcap": capture((100, TO_ALL)), "b.pcap": capture(*later)})

    def test_a_frame_crosses_a_wire(self):
        files, summary = self.played()
        self.assertEqual(files["a-journal.txt"], b"up x1.1\nsettled\nrelay x1.1 1\nsettled\n")
        self.assertEqual(files["b-journal.txt"], b"up x1.1\nsettled\nrelay b2 1\nsettled\n")
        for name in ("a-b2.pcap", "b-x1.1.pcap"):
            self.assertEqual(files[name], capture((100, TO_ALL)))
        for name in ("a-x1.1.pcap", "b-b2.pcap"):
            self.assertEqual(files[name], capture())
        self.assertEqual(summary, "arrivals 2 relayed 2 ignored 0 left 2 commits 0 refusals 0")

    def test_an_answer_goes_back_alone(self):
        files, _ = self.played((101, BACK))
        self.assertEqual(files["b-b2.pcap"], capture((101, BACK)))
        self.assertEqual(files["a-x1.1.pcap"], capture((101, BACK)))
        self.assertEqual(files["a-journal.txt"], b"up x1.1\nsettled\nrelay x1.1 1\nsettled\ntick 1\nrelay b2 1\nsettled\n")
        self.assertEqual(files["b-journal.txt"], b"up x1.1\nsettled\nrelay b2 1\nsettled\ntick 1\nrelay x1.1 1\nsettled\n")

    def test_two_campuses_and_a_core(self):
        """What the plain net comes to is what is told, and what stands in the folder."""
        files, summary = campuses.played()
        given, wanted = campuses.wanted()
        self.assertEqual(files, wanted)
        self.assertEqual(summary, campuses.SUMMARY)
        for folder, those in ((campuses.FOLDER, given), (os.path.join(campuses.FOLDER, "expected"), wanted)):
            for name, data in those.items():
                with open(os.path.join(folder, name), "rb") as file:
                    self.assertEqual(file.read(), data, name)

    def test_random_nets(self):
        """Each bridge alone does the same (which `run` asserts), and a net of one bridge is that bridge."""
        ones = 0
        for number in range(60):
            draw = nets.Draw(number)
            files, summary = nets.run(draw.text(), draw.files)
            if draw.count == 1:
                ones += 1
                name = draw.names[0]
                wanted, said = bridge.run(draw.topologies[0], draw.files)
                self.assertEqual(summary, said)
                self.assertEqual(files, {name + file[len("out") :]: data for file, data in wanted.items()})
        self.assertGreater(ones, 2)


if __name__ == "__main__":
    unittest.main()
