"""The library of the desk: topologies, captures, frames, journals, sequences side by side."""
from __future__ import annotations

import random
import struct
import unittest

from desk_help import FolderTest
from exbr_desk import captures, errors, frames, journal, plain, play, topology
from exbr_desk.align import WINDOW, Aligner

FRAME = bytes.fromhex("ffffffffffff020000000001 0806") + bytes(46)
TWO = "[bridge]\nports = 2\n"


def classic(order: str, magic: int, records: list[tuple[int, int, bytes]]) -> bytes:
    head = struct.pack(order + "IHHIIII", magic, 2, 4, 0, 0, 65535, 1)
    return head + b"".join(struct.pack(order + "IIII", at, part, len(it), len(it) + 4) + it for at, part, it in records)


def block(order: str, kind: int, content: bytes) -> bytes:
    length = struct.pack(order + "I", len(content) + 12)
    return struct.pack(order + "I", kind) + length + content + length


def pcapng(order: str, resolution: int | None, records: list[tuple[int, bytes]]) -> bytes:
    option = b"" if resolution is None else struct.pack(order + "HHB3xHH", 9, 1, resolution, 0, 0)
    text = block(order, 0x0A0D0D0A, struct.pack(order + "IHHq", 0x1A2B3C4D, 1, 0, -1))
    text += block(order, 1, struct.pack(order + "HHI", 1, 0, 0) + option) + block(order, 5, bytes(12))
    for time, it in records:
        text += block(order, 6, struct.pack(order + "IIIII", 0, time >> 32, time & 0xFFFFFFFF, len(it), len(it)) + it + bytes(-len(it) % 4))
    return text


class Captures(FolderTest):
    def test_classic_in_both_orders_and_units(self):
        for order in "<>":
            for magic, unit in ((0xA1B2C3D4, 1000), (0xA1B23C4D, 1)):
                path = self.write("a.pcap", classic(order, magic, [(1, 2, FRAME), (3, 4, b"")]))
                self.assertEqual(list(captures.records(path)), [(1, 10**9 + 2 * unit, FRAME), (2, 3 * 10**9 + 4 * unit, b"")])

    def test_pcapng_in_both_orders_and_resolutions(self):
        for order in "<>":
            for resolution, unit in ((None, 1000), (9, 1), (3, 10**6), (0, 10**9)):
                path = self.write("a.pcapng", pcapng(order, resolution, [(7, FRAME), (9, FRAME[:15])]))
                self.assertEqual(list(captures.records(path)), [(1, 7 * unit, FRAME), (2, 9 * unit, FRAME[:15])])

    def test_records_by_number_are_those_in_order(self):
        chance = random.Random(1)
        times = [chance.randrange(1000) for _ in range(1500)]
        for data in (classic("<", 0xA1B2C3D4, [(at, 0, struct.pack(">I", n)) for n, at in enumerate(times)]),
                     pcapng(">", 0, [(at, struct.pack(">I", n)) for n, at in enumerate(times)])):
            capture = captures.Capture(self.write("a", data), 512)
            self.assertEqual((capture.count, capture.first_second), (1500, times[0]))
            for index in [1, 2, 1500, 255, 256, 257, *(chance.randrange(1, 1501) for _ in range(50))]:
                wanted = index, max(times[:index]) * 10**9, struct.pack(">I", index - 1)
                self.assertEqual(capture.record(index), wanted)

    def test_faults_are_named_with_their_place(self):
        good = classic("<", 0xA1B2C3D4, [(1, 2, FRAME)])
        ng = pcapng("<", None, [(7, FRAME)])
        packet = ng.index(struct.pack("<I", 6) + struct.pack("<I", 32 + 60))
        for data, line in ((b"", "NotPcap at 0"), (good[:20], "Cut at 0"), (good[:4] + b"\x03" + good[5:], "Version at 4"),
                           (good[:20] + b"\x65" + good[21:], "LinkType at 20"), (good[:30], "Cut at 24"), (good[:-1], "Cut at 24"),
                           (classic("<", 0xA1B2C3D4, [(1, 10**6, FRAME)]), "Time at 28"),
                           (good[:32] + b"\xff\xff\xff\x7f" + good[36:], "Length at 32"),
                           (ng[:-1], f"Cut at {packet}"), (ng[:8] + b"1234" + ng[12:], "Magic at 8"), (ng[:-4] + b"1234", f"Length at {len(ng) - 4}"),
                           (pcapng("<", 10, []), "Resolution at 44"), (ng[:28], None)):
            path = self.write("broken", data)
            if line is None:
                self.assertEqual(list(captures.records(path)), [])
                continue
            with self.assertRaises(errors.DeskError) as caught:
                captures.Capture(path)
            self.assertEqual(str(caught.exception), f"{path}: {line}")

    def test_what_is_written_is_read_back(self):
        given = [(5_000_001_000, FRAME), (6_000_000_000, b"")]
        its = [(time, frame) for _, time, frame in captures.records(self.write("a.pcap", captures.capture_text(given)))]
        self.assertEqual(its, given)


class Topologies(unittest.TestCase):
    def fault(self, text: str) -> str:
        with self.assertRaises(errors.DeskError) as caught:
            topology.of_text(text)
        return str(caught.exception).removeprefix("topology.toml: topology: ")

    def test_faults_have_their_keys(self):
        x1 = TWO + "[[extender]]\nnumber = 1\non = 'b1'\nports = 2\n"
        for text, line in (("", "Missing at bridge"), ("bridge = 3", "Kind at bridge"), (TWO + "speed = 1", "Unknown at bridge.speed"),
                           ("[bridge]\nports = 65", "Range at bridge.ports"), ("[bridge]\nports = '2'", "Kind at bridge.ports"),
                           (TWO + "ageing = 9", "Range at bridge.ageing"), (x1.replace("b1", "b01"), "Name at extender[0].on"),
                           (x1.replace("b1", "b3"), "UnknownPort at extender[0].on"), (x1.replace("b1", "x1.1"), "Loop at extender[0].on"),
                           (x1 + x1[len(TWO):], "TwoUpstreams at extender[1].number"),
                           (x1 + "[[vlan]]\nvid = 1\ntagged = ['b1']", "UnknownPort at vlan[0].tagged"),
                           (x1 + "[[vlan]]\nvid = 1\ntagged = ['x1.1-3']", "UnknownPort at vlan[0].tagged"),
                           (x1 + "[[vlan]]\nvid = 1\ntagged = ['x2.*']", "UnknownPort at vlan[0].tagged"),
                           (x1 + "[[vlan]]\nvid = 3\nlast = 2", "Range at vlan[0].last"),
                           (x1 + "[[vlan]]\nvid = 1\nlast = 3\n[[vlan]]\nvid = 2", "Repeat at vlan[1].vid"),
                           (x1 + "[[static]]\nvid = 1\nmac = '02-00:00-00-00-01'\nports = []", "Name at static[0].mac"),
                           (x1 + "[[command]]\nat = 0\nop = 'jump'", "Name at command[0].op (command 1)"), (x1 + "[[command]]\nat = 0", "Missing at command[0].op (command 1)"),
                           (x1 + "[[command]]\nat = 0\nop = 'up'\nport = 'b2'\nvid = 3", "Unknown at command[0].vid (command 1)"),
                           (x1 + "[[command]]\nat = 2\nop = 'up'\nport = 'b2'\n[[command]]\nat = 1\nop = 'up'\nport = 'b2'", "Range at command[1].at (command 2)"),
                           (x1 + "[captures]\nx1.1 = 'a'", "Name at captures.x1 (a port of an extender needs quotes there)"),
                           (x1 + "[captures]\nb1 = 'a'", "UnknownPort at captures.b1"),
                           (x1 + "[captures]\nb2 = 'out-b2.pcap'", "Repeat at captures.b2 (a run would write over this file)")):
            self.assertEqual(self.fault(text), line)
        self.assertTrue(self.fault("[bridge").startswith("NotToml"))

    def test_a_topology_is_written_as_it_was_read(self):
        text = TWO + ("out = 'a\"b\\\\é'\n[links]\nfate = 'LP'\n[[extender]]\nnumber = 1\non = 'b1'\nports = 2\n[[port]]\nname = 'x1.1'\nfilter = true\n"
                      "[[static]]\nvid = 1\nmac = '02-00-00-00-00-01'\nports = ['*', 'x1.1-2']\n[captures]\n'x1.1' = 'a b.pcap'\n")
        for given in (text, text.replace("[links]", "vlan = []\n[links]").replace("out = 'a\"b\\\\é'\nvlan = []\n", "", 1), "vlan = []\n" + text):
            its = topology.of_text(given).tables
            self.assertEqual(topology.of_text(play.written(its)).tables, its)

    def test_ports_and_commands(self):
        it = topology.of_text(TWO + "[[extender]]\nnumber = 1\non = 'b1'\nports = 2\n[[command]]\nat = 5\nop = 'vlan'\nvid = 7\ntagged = ['x1.*']")
        self.assertEqual([plain.name_of(port) for port in it.external], ["b2", "x1.1", "x1.2"])
        self.assertEqual((it.commands[0].words(), it.commands[0].at, it.extenders), ("vlan vid 7 tagged [x1.*]", 5, {1: (0, 2)}))


class Frames(unittest.TestCase):
    def test_a_line_for_a_frame(self):
        ip = bytes.fromhex("4500002800000000400600000a000001 0a000002")
        head = bytes.fromhex("020000000002 020000000001")
        for rest, line in (("0806 0001080006040001 020000000001 0a000001 000000000000 0a000002", "ARP who has 10.0.0.2? 10.0.0.1 asks, 42 bytes"),
                           ("8100 a00a 0800" + ip.hex() + "01bb0050" + 8 * "00" + "5012", "[vlan 10 prio 5] TCP 443 -> 80 [SA] 10.0.0.1 -> 10.0.0.2, 52 bytes"),
                           ("0800" + ip.hex().replace("4006", "4011") + "00440043", "UDP 68 -> 67 (DHCP) 10.0.0.1 -> 10.0.0.2, 38 bytes"),
                           ("0800" + ip.hex().replace("4006", "4001") + "08", "ICMP echo request 10.0.0.1 -> 10.0.0.2, 35 bytes"),
                           ("893f 0001 1001 0000 0800", "[E-TAG group 1 (E-CID 0x1001), not back to channel 1] IPv4, 22 bytes"),
                           ("86dd 60000000 0000 3a ff" + "fe80" + 12 * "00" + "0001" + "ff02" + 12 * "00" + "0001 87",
                            "ICMPv6 neighbour solicitation fe80::1 -> ff02::1, 55 bytes"), ("1234", "type 1234, 14 bytes")):
            self.assertEqual(frames.describe(head + bytes.fromhex(rest)), f"02:00:00:00:00:01 -> 02:00:00:00:00:02 {line}")
        lldp = bytes.fromhex("0180C200000E 024542010001 88CC 02070402454201000104030775700602 0078FE0502454201020000")
        self.assertIn("LLDP 02:45:42:01:00:01 up, 41 bytes", frames.describe(lldp))

    def test_no_frame_is_too_broken_to_be_described(self):
        chance, kinds = random.Random(2), [b"\x08\x00", b"\x08\x06", b"\x86\xdd", b"\x88\xcc", b"\x89\x40", b"\x89\x3f", b"\x81\x00", b"\x00\x10"]
        for turn in range(4000):
            rest = chance.randbytes(chance.randrange(60))
            frame = bytes(12) + kinds[turn % 8] + (bytes([0x45, 0x60][turn // 8 % 2:][:1]) + rest if turn % 3 else rest)
            self.assertTrue(frames.describe(frame[:chance.randrange(len(frame) + 1)]))


class Journals(FolderTest):
    def test_lines(self):
        text = "up x1.1\nnoup x1.2 groups 2 1\nsettled\ntick 3\ncommit 1\nrefuse 2 channels 9 8\nrelay b2 1\nignore x1.1 7\n"
        its = list(journal.lines(self.write("j", text)))
        self.assertEqual(journal.texts_of(its), text)
        self.assertEqual([(it.kind, it.port, it.value, it.cause) for it in its[5:7]], [("refuse", None, 2, "channels 9 8"), ("relay", 1, 1, None)])
        self.assertIn("9 channels would be needed", journal.line_in_words(its[5]))

    def test_what_is_no_line(self):
        for line in ("", "relay", "relay b2", "relay b65 1", "relay b2 01", "relay b2 1 ", "tick -1", "tick ²", "refuse 1 luck 1 2", "settled 1", "up b2 1"):
            self.assertIsNone(journal.line_of(line), line)
        with self.assertRaisesRegex(errors.DeskError, "line 2 has no end"):
            list(journal.lines(self.write("j", "settled\nsettled")))


class Sequences(unittest.TestCase):
    def aligned(self, wanted: list, there: list) -> tuple[list, dict]:
        told, places = [], {}
        it = Aligner(iter(there), lambda what, place, key, item, found: told.append((what, place, key, found)), places.__setitem__)
        for at, key in enumerate(wanted):
            place = it.expect(key, at)
            if place:
                places[at] = place
        it.finish()
        return told, places

    def test_equal(self):
        told, places = self.aligned(list("abcabc"), list("abcabc"))
        self.assertEqual((told, places), ([], {at: at + 1 for at in range(6)}))

    def test_one_difference(self):
        many = [str(at % 7) + "ab"[at % 2] for at in range(3 * WINDOW)]
        for at in (0, 1, WINDOW, 3 * WINDOW - 1):
            self.assertEqual(len(self.aligned(many, many[:at] + many[at + 1:])[0]), 1)
            self.assertEqual(self.aligned(many, many[:at] + ["x"] + many[at:])[0], [("extra", at + 1, None, "x")])
            self.assertEqual(self.aligned(many, many[:at] + ["x"] + many[at + 1:])[0], [("changed", at + 1, many[at], "x")])

    def test_places_behind_a_difference(self):
        _, places = self.aligned(list("abcdef"), list("abXcdf"))
        self.assertEqual(places, {0: 1, 1: 2, 2: 4, 3: 5, 5: 6})

    def test_different_sequences_end(self):
        told, _ = self.aligned(list(range(5000)), list(range(9000, 14000)))
        self.assertEqual(len(told), 1000)


if __name__ == "__main__":
    unittest.main()
