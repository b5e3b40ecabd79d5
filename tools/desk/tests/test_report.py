"""exbr-report: the facts of pages, the pages themselves, and broken input. What a browser makes of them is in test_page."""
import json
import os
import random
import re
import struct
import unittest

import ground
import many
from exbr_desk import runs
from exbr_report import gather, lists, markup, page, picture_time, picture_tree
from exbr_report.facts import Change, Device, Span
from exbr_report.rows import IGNORED, LEFT, NOWHERE, Choice


def report(folder: str, most: int = 100_000):
    return gather.report_of(runs.read(folder), most, quiet=True)


def data_of(text: str) -> dict:
    """What a page holds for its script."""
    return json.loads(re.search(r'<script id="data" type="application/json">(.*?)</script>', text, re.S)[1])


def records(path: str) -> int:
    """How many records a capture has."""
    with open(path, "rb") as file:
        data = file.read()
    at, count = 24, 0
    while at < len(data):
        at, count = at + 16 + struct.unpack_from("<I", data, at + 8)[0], count + 1
    return count


class OfExamples(ground.InFolder):
    """Pages of the examples, whose files are known."""

    def test_counters_are_those_of_the_files(self):
        for example in ground.PLAYED:
            with self.subTest(example):
                folder = self.played(example)
                found = report(folder)
                with open(os.path.join(folder, "out-journal.txt"), encoding="ascii") as file:
                    lines = file.read().splitlines()
                for port in found.ports:
                    it = port.counters
                    self.assertEqual(it.left, records(os.path.join(folder, f"out-{port.name}.pcap")))
                    self.assertEqual(it.octets + 24 + 16 * it.left, os.path.getsize(os.path.join(folder, f"out-{port.name}.pcap")))
                    self.assertEqual(it.relayed, sum(line.startswith(f"relay {port.name} ") for line in lines))
                    self.assertEqual(it.ignored, sum(line.startswith(f"ignore {port.name} ") for line in lines))
                self.assertFalse([it for it in found.notices if it.is_fault])

    def test_pages_stand_alone(self):
        for example in ground.PLAYED:
            with self.subTest(example):
                text = page.build(report(self.played(example)))
                self.assertNotRegex(text, r"(src|href)=\"(?!#)")
                self.assertNotIn("://", text.replace("http://www.w3.org", ""))
                names = re.findall(r' id="([^"]+)"', text)
                self.assertEqual(len(names), len(set(names)))

    def test_campus(self):
        found = report(self.played("campus"))
        self.assertEqual([it.text for it in found.notices], ["1 frame of b4 was for a station heard in VLAN 20 at x3.1, which isn't in it any more."])
        self.assertEqual([(it.number, it.second, it.done) for it in found.changes], [(1, 5, True), (2, 5, True), (3, 5, True)])
        vlan = next(it for it in found.vlans if it.vid == 10)
        self.assertEqual(set(vlan.untagged) - set(vlan.untagged_before), {"x3.1", "x3.2", "x3.3"})
        self.assertEqual([it.second for it in found.spans if it.nowhere], [10])
        self.assertEqual(sum(it.left for it in found.spans), 9)
        data = found.frames
        last = data["columns"]["reason"][-1]
        said = [data["words"][it] for it in data["reasons"][last][1:]]
        self.assertEqual(data["reasons"][last][0], "no member")
        self.assertIn("not at x3.1: it was chosen, and isn't a member of VLAN {vid} (as command 1 left it)", said)
        self.assertEqual(data["columns"]["line"][-1], 47)

    def test_targets_are_those_of_the_files(self):
        folder = self.played("campus")
        found = report(folder)
        data, left = found.frames, {it.name: 0 for it in found.ports}
        for port, chosen in zip(data["columns"]["port"], data["columns"]["set"]):
            for it in data["sets"][chosen] if chosen >= 0 else []:
                left[data["ports"][it >> 1]] += it >> 1 != port
        self.assertEqual(left, {it.name: it.counters.left for it in found.ports})

    def test_refusals_in_plain_words(self):
        found = report(self.played("too-few-groups"))
        refused = [it for it in found.notices if it.level == "bad"]
        self.assertEqual(len(refused), 1)
        self.assertIn("Command 2 (second 2: VLAN 40: tagged x1.2 x1.4, untagged none) was refused and changed nothing", refused[0].text)
        self.assertIn("needs 4 groups", refused[0].text)
        self.assertFalse(refused[0].is_fault)


class Faults(ground.InFolder):
    """Files that aren't what they ought to be."""

    def page(self, folder: str, *words: str):
        return ground.tool("exbr-report", folder, "-o", self.path("page.html"), *words)

    def change(self, folder: str, name: str, change) -> None:
        path = os.path.join(folder, name)
        with open(path, "rb") as file:
            data = file.read()
        with open(path, "wb") as file:
            file.write(change(data))

    def said(self) -> str:
        with open(self.path("page.html"), encoding="utf-8") as file:
            return file.read()

    def test_frame_taken_out(self):
        folder = self.played("campus")
        self.change(folder, "out-x1.2.pcap", lambda data: data[:24] + data[24 + 16 + 60:])
        self.assert_line(self.page(folder), 1)
        self.assertIn("out-x1.2.pcap: frame 1 of x2.1 is missing", self.said())
        self.assertEqual(list(data_of(self.said())["disagree"]), ["2"])

    def test_tag_changed(self):
        folder = self.played("office")
        at = 24 + 16 + 14
        self.change(folder, "out-b1.pcap", lambda data: data[:at] + bytes((data[at], data[at + 1] ^ 1)) + data[at + 2:])
        self.assert_line(self.page(folder), 1)
        self.assertRegex(self.said(), "out-b1.pcap: record 1 ought to be frame .*it has tag")

    def test_files_cut_short(self):
        folder = self.played("campus")
        self.change(folder, "out-x1.2.pcap", lambda data: data[:-7])
        self.assert_line(self.page(folder), 1)
        self.assertIn("can't be read to their end", self.said())
        self.change(folder, "out-x1.2.pcap", lambda data: data[:-53])
        self.change(folder, "out-journal.txt", lambda data: data[:200])
        self.assert_line(self.page(folder), 1)
        os.remove(os.path.join(folder, "out-x1.1.pcap"))
        self.assert_line(self.page(folder), 1)
        self.assertIn("No such file", self.said())

    def test_written_counters(self):
        folder = self.played("first-path")
        lines = [f"{it.name} relayed {it.counters.relayed} dropped {it.counters.refused} ignored {it.counters.ignored} left {it.counters.left} "
                 f"octets {it.counters.octets}\n" for it in report(folder).ports]
        self.write("first-path/out-counters.txt", "".join(lines))
        self.assert_line(self.page(folder), 0)
        self.write("first-path/out-counters.txt", "".join(lines).replace("left 1", "left 2", 1))
        self.assert_line(self.page(folder), 1)
        self.write("first-path/out-counters.txt", "no counters\n")
        self.assert_line(self.page(folder), 1)

    def test_nothing_is_made(self):
        folder = self.played("campus")
        for name, content, said in (("out-journal.txt", None, "wasn't run in"), ("topology.toml", b"[bridge]\nports = 0\n", "Range at bridge.ports"),
                                    ("topology.toml", b"\xff", "NotToml"), ("topology.toml", None, "there is no topology.toml")):
            with self.subTest(said):
                path = os.path.join(folder, name)
                self.write(f"campus/{name}", content) if content is not None else os.remove(path)
                self.assert_line(self.page(folder), 2, "exbr-report: ", said)
                self.assertFalse(os.path.exists(self.path("page.html")))
                self.setUp()
                folder = self.played("campus")
        self.change(folder, "in-b4.pcap", lambda data: data[:30])
        self.assert_line(self.page(folder), 2, "in-b4.pcap: Cut at 24")
        os.remove(os.path.join(folder, "in-b4.pcap"))
        self.assert_line(self.page(folder), 2, "in-b4.pcap")
        self.assert_line(self.page(self.played("office"), "--frames", "0"), 2, "--frames")
        self.assert_line(ground.tool("exbr-report", self.played("lossy-links"), "-o", self.path("no", "where")), 2, "there is no folder")
        self.assert_line(ground.tool("exbr-report"), 2, "usage")
        self.assert_line(ground.tool("exbr-report", "--help"), 0)

    def test_called_as_a_program(self):
        self.assert_line(ground.process("exbr-report", "--help"), 0)
        self.assert_line(ground.process("exbr-report", self.path("nope")), 2, "exbr-report: ")

    def test_names_are_no_markup(self):
        folder = self.played("first-path")
        name = self.path("<script>alert('1')&\"</script>".replace("/", "-"))
        os.rename(folder, name)
        self.assert_line(self.page(name), 0)
        self.assertNotIn("<script>alert", self.said())
        self.assertIn("&lt;script&gt;alert", self.said())


class Large(ground.InFolder):
    """More frames than a page holds, and more ports than a screen."""

    def test_choice(self):
        choice = Choice(100, 1000)
        taken = [choice.takes(LEFT if at % 10 else NOWHERE if at % 20 else IGNORED) for at in range(1000)]
        self.assertEqual(sum(taken[0::10]), 50)
        self.assertEqual(sum(taken) - 50, 45)
        self.assertIn("the first 50 of the 100 frames that went nowhere, and of the 900 others every 20th", choice.words())
        few = Choice(100, 100)
        self.assertTrue(all(few.takes(LEFT) for _ in range(100)))
        self.assertEqual(few.words(), "")

    def test_page_says_what_it_holds(self):
        found = report(self.played("campus"), 4)
        self.assertEqual(found.total("arrived"), 10)
        self.assertIn("This page doesn't hold all 10 frames", found.held)
        self.assertLessEqual(len(found.frames["columns"]["port"]), 4)
        self.assertIn("doesn't hold all 10", page.build(found))

    def test_made_topology(self):
        many.main(self.folder, 480)
        run = runs.read(self.folder)
        self.assertEqual((len(run.topology.external), run.arrivals), (49, 480))

    def test_many_ports(self):
        # Ports of the bridge carry extenders of 64 ports each. Nothing arrives there; the journal has the ups alone.
        tables = "".join(f'[[extender]]\nnumber = {it}\non = "b{it}"\nports = 64\n' for it in range(1, 7))
        self.write("topology.toml", f"[bridge]\nports = 6\n{tables}")
        ports = [f"x{it}.{number}" for it in range(1, 7) for number in range(1, 65)]
        self.write("out-journal.txt", "".join(f"up {it}\n" for it in ports) + "settled\n")
        for it in ports:
            self.write(f"out-{it}.pcap", many.HEADER)
        found = report(self.folder)
        self.assertEqual((len(found.ports), [it for it in found.notices if it.is_fault]), (384, []))
        text = page.build(found)
        self.assertEqual(text.count('class="port"'), 384)
        self.assertLess(len(text), 800_000)


class Pictures(unittest.TestCase):
    """Places in the two pictures."""

    def test_no_plate_stands_on_another(self):
        draw = random.Random(3)
        for _ in range(60):
            plates = picture_tree.plates_of(self.tree(draw))
            wide, high = picture_tree.place(plates)
            boxes = [(it.x, it.y, it.x + it.wide, it.y + it.high) for it in plates]
            for at, (left, top, right, foot) in enumerate(boxes):
                self.assertTrue(0 <= left < right <= wide and 0 <= top < foot <= high)
                for other in boxes[:at]:
                    self.assertTrue(right <= other[0] or other[2] <= left or foot <= other[1] or other[3] <= top)
            for it in plates:
                self.assertEqual(len({it.lane(picture_tree.port_number(one.device.on))[2] for one in it.below}), len(it.below))

    def tree(self, draw: random.Random) -> list[Device]:
        """Extenders at places drawn from those that are free."""
        devices = [Device(0, draw.randint(1, 64))]
        free = [devices[0].port(it) for it in range(1, devices[0].ports + 1)]
        for number in range(1, draw.randint(1, 20)):
            if not free:
                break
            on = free.pop(draw.randrange(len(free)))
            devices.append(Device(number, draw.randint(1, 64), on))
            free += [devices[-1].port(it) for it in range(1, devices[-1].ports + 1)]
        return devices

    def test_lines_of_the_time_line(self):
        for most in (1, 2, 5, 6, 49, 51, 999, 123_456_789):
            self.assertTrue(1 <= most // picture_time.steps(most) <= 5, most)

    def test_clock(self):
        self.assertEqual([picture_time.clock(it) for it in (0, 99, 100, 3600, 90061)], ["0 s", "99 s", "1:40", "1:00:00", "25:01:01"])

    def test_marks_share_a_place(self):
        scale = picture_time.Scale([Span(0, 1000, left=1)])
        changes = [Change(number, second, "x", number != 2) for number, second in ((1, 5), (2, 6), (3, 500))]
        self.assertEqual([[it.number for it in them] for them in picture_time.grouped(changes, scale)], [[1, 2], [3]])
        self.assertIn("▼ ✕", picture_time.mark(changes[:2], scale))

    def test_empty_run(self):
        self.assertEqual(picture_time.Scale([]).most, 1)
        scale = picture_time.Scale([Span(0, 1), Span(9, 1, left=4)])
        self.assertEqual((scale.x(0), scale.most), (picture_time.SIDE, 4))


class Words(unittest.TestCase):
    """Small parts."""

    def test_ports_in_few_words(self):
        self.assertEqual(lists.ports(["b1", "b2", "x1.1", "x1.2", "x1.3", "x2.9"]), "b1-2, x1.1-3, x2.9")
        self.assertEqual(lists.ports([]), "none")
        self.assertEqual(lists.ports(["b1", "b3", "b5"], 2), "b1, b3 and 1 more")

    def test_markup_is_escaped(self):
        self.assertEqual(markup.tag("p", "<b>&\"", title='"<'), '<p title="&quot;&lt;">&lt;b&gt;&amp;"</p>')
        self.assertEqual(markup.tag("input", disabled=True, value=None), "<input disabled>")

    def test_json_ends_no_script(self):
        self.assertEqual(page.script_json({"a": "</script><!--"}), '{"a":"\\u003c/script>\\u003c!--"}')


if __name__ == "__main__":
    unittest.main()
