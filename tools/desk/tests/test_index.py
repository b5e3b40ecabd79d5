"""The index beside a run: what it says is what a replay says, it counts as long as no file changed, and what is odd in it makes it count for nothing."""
from __future__ import annotations

import json
import os
import random
import shutil
import struct
import unittest
from unittest import mock

from desk_help import FolderTest, program
from exbr_desk import captures, choose, index, progress, runs, swift, why
from exbr_report import gather
from planted import PLANTED
from random_runs import given_of, write_run
from test_why import EXAMPLES


def all_of(table) -> dict:
    """All that a table says."""
    its = {name: list(it) for name, it in table.columns.items() if name != "outcome"}
    return its | {"outcome": [table.outcomes[it] for it in table.columns["outcome"]], "place": list(table.place), "addresses": table.addresses,
                  "done": table.done, "absent": table.standing.absent, "refused": table.standing.refused, "faults": table.faults}


def by_judge(run: runs.Run):
    return index.judged(run, progress.Progress("", quiet=True))


def said(run: runs.Run) -> list[str]:
    found = why.Why(run, choose.Choice(words={}), 0)
    found.go(quiet=True)
    return why.in_words(found)


class Quickly(FolderTest):
    """What the quick way finds is what the judge finds."""

    def same(self, folder: str) -> None:
        run = runs.whole(folder)
        careful, quick = by_judge(run), swift.table_of(run, progress.Progress("", quiet=True))
        if quick is None:
            self.assertTrue(careful.faults or careful.is_seeded, folder)
            return
        one, other = all_of(careful), all_of(quick)
        for name in one:
            self.assertEqual(one[name], other[name], f"{folder}: {name}")

    def test_examples(self):
        for example in EXAMPLES:
            self.same(self.example(example))

    def test_random_runs(self):
        exbr = program()
        for number in range(7001, 7013 if exbr is None else 7041):
            folder = self.path(str(number))
            os.mkdir(folder)
            write_run(given_of(number), folder, exbr)
            self.same(folder)

    def test_frames_of_every_kind(self):
        """Short and long ones, with tags within tags, to all kinds of addresses, from ports whose rules change."""
        from world.schedule import run as run_world
        draw, frames = random.Random(5), []
        beginnings = (b"", b"\x81\x00\x00\x05", b"\x81\x00\x00\x00", b"\x81\x00\xaf\xff", b"\x81\x00\x40\x07\x81\x00\x00\x05", b"\x88\xa8\x00\x05", b"\x89\x3f\x00\x00\x00\x05\x00\x00")
        for at in range(400):
            to = draw.choice((b"\xff" * 6, bytes.fromhex("0180c2000001"), bytes.fromhex("01005e000001"), bytes([2, 0, 0, 0, 0, draw.randrange(4)])))
            data = to + bytes([draw.choice((2, 2, 2, 3)), 0, 0, 0, 0, draw.randrange(4)]) + draw.choice(beginnings) + b"\x08\x06" + bytes(50)
            frames.append((at * 10**8, data[:draw.choice((9, 13, 14, 15, 16, 17, 18, 60, 60, 60))] + bytes(9300 * (draw.randrange(40) == 0))))
        text = ("[bridge]\nports = 1\nageing = 10\n[[extender]]\nnumber = 1\non = 'b1'\nports = 4\n[captures]\n'x1.1' = 'a.pcap'\n'x1.2' = 'b.pcap'\n"
                "[[vlan]]\nvid = 1\nuntagged = ['*']\n[[vlan]]\nvid = 5\ntagged = ['x1.1', 'x1.3']\nuntagged = ['x1.2']\n[[static]]\nvid = 1\nmac = '02:00:00:00:00:03'\nports = ['x1.4']\n"
                + "".join(f"[[command]]\nat = {at}\nop = {rest}\n" for at, rest in enumerate((
                    "'pvid'\nport = 'x1.2'\nvid = 5", "'filter'\nport = 'x1.1'\nfilter = true", "'isolate'\nport = 'x1.1'\nisolated = true", "'isolate'\nport = 'x1.2'\nisolated = true",
                    "'unmember'\nvid = 5\nport = 'x1.1'", "'down'\nport = 'x1.3'", "'accept'\nport = 'x1.2'\naccept = 'untagged'", "'up'\nport = 'x1.3'",
                    "'unstatic'\nvid = 1\nmac = '02:00:00:00:00:03'", "'vlan'\nvid = 5\ntagged = ['x1.4']\nuntagged = ['x1.1']", "'down'\nport = 'x1.1'"), 3)))
        given = {"a.pcap": captures.capture_text(frames), "b.pcap": captures.capture_text((at + 5 * 10**7, it) for at, it in reversed(frames[:1] * 3 + frames))}
        written, _, _ = run_world(text, given)
        for name, data in {"topology.toml": text.encode(), **given, **written}.items():
            if not name.endswith("trace.txt"):
                self.write(name, data)
        self.assertIsNotNone(swift.table_of(runs.whole(self.folder), progress.Progress("", quiet=True)))
        self.same(self.folder)


class Kept(FolderTest):
    """The file, and when it counts."""

    def test_the_second_question_is_answered_by_it(self):
        for example in ("campus", "lossy-links", "too-few-groups"):
            folder = self.example(example)
            first = said(runs.whole(folder))
            path = index.path_of(runs.whole(folder))
            self.assertTrue(os.path.exists(path))
            self.assertIsNotNone(index.read(runs.whole(folder), path))
            self.assertEqual(said(runs.whole(folder)), first)
            its = all_of(index.read(runs.whole(folder), path))
            self.assertEqual(its, all_of(by_judge(runs.whole(folder))))

    def test_captures_are_not_looked_through_once_more(self):
        folder = self.example("campus")
        first = self.tool("exbr-why", "b4:3", at=folder)
        with mock.patch.object(captures.Capture, "_scan", side_effect=AssertionError("a capture is looked through")):
            again = self.tool("exbr-why", "b4:3", at=folder)
        self.assertEqual((again.returncode, again.stdout), (0, first.stdout))

    def test_seeded_runs_and_runs_with_faults(self):
        exbr = program()
        if exbr is None:
            self.skipTest("no program: set EXBR_PROGRAM")
        for number in (9003, 9006, 9007, 9010):
            folder = self.path(str(number))
            os.mkdir(folder)
            write_run(given_of(number), folder, exbr)
            os.remove(os.path.join(folder, "out-trace.txt"))
            for what in ("a frame taken out", "a journal line changed"):
                PLANTED[what](runs.whole(folder), random.Random(number))
            first = said(runs.whole(folder))
            self.assertIsNotNone(index.read(runs.whole(folder), index.path_of(runs.whole(folder))))
            self.assertEqual(said(runs.whole(folder)), first)

    def test_a_file_that_changed(self):
        folder = self.example("campus")
        path = index.path_of(runs.whole(folder))
        for name in ("out-x1.2.pcap", "out-journal.txt", "in-b4.pcap", "topology.toml", "out-counters.txt"):
            said(runs.whole(folder))
            self.assertIsNotNone(index.read(runs.whole(folder), path), name)
            with open(os.path.join(folder, name), "ab") as file:
                file.write(b"" if os.path.exists(os.path.join(folder, name)) else b"x")
            os.utime(os.path.join(folder, name))
            self.assertIsNone(index.read(runs.read(folder), path), name)
            if name == "out-counters.txt":
                os.remove(os.path.join(folder, name))

    def test_a_copy_makes_its_own(self):
        said(runs.whole(self.example("campus")))
        shutil.copytree(self.path("campus"), self.path("copy"))
        self.assertIsNone(index.read(runs.whole(self.path("copy")), self.path("copy/out-index")))

    def test_what_is_odd_counts_for_nothing(self):
        folder = self.example("campus")
        said(runs.whole(folder))
        path = index.path_of(runs.whole(folder))
        with open(path, "rb") as file:
            good = file.read()
        size = struct.unpack_from("<Q", good, len(index.MAGIC))[0]
        at = len(index.MAGIC) + 8
        head = json.loads(good[at:at + size])
        first = said(runs.whole(folder))

        def with_head(**changes) -> bytes:
            text = json.dumps(head | changes).encode()
            return index.MAGIC + struct.pack("<Q", len(text)) + text + good[at + size:]

        many = dict(head["columns"], port=["H", 1 << 40])
        for data in (b"", good[:10], good[:at + 5], good[:at + size], b"X" + good[1:], index.MAGIC + b"\xff" * 8, with_head(columns={}), with_head(columns=many),
                     with_head(columns=dict(head["columns"], port=["z", 3])), with_head(captures={}), with_head(done=[[1]]), with_head(faults=[3])):
            self.write("campus/out-index", data)
            self.assertIsNone(index.read(runs.whole(folder), path), data[:40])
            self.assertEqual(said(runs.whole(folder)), first)

    def test_the_report_makes_it(self):
        for example in ("campus", "lossy-links", "too-few-groups"):
            folder = self.example(example)
            gather.report_of(runs.read(folder), 100, quiet=True)
            kept = index.read(runs.whole(folder), index.path_of(runs.whole(folder)))
            self.assertEqual(all_of(kept), all_of(by_judge(runs.whole(folder))))
            self.assertEqual(bool(kept.hops), example == "lossy-links")

    def test_a_folder_that_can_not_be_written(self):
        folder = self.example("campus")
        done = self.tool("exbr-why", "--no-index", "--all", at=folder)
        self.assertEqual((done.returncode, os.path.exists(os.path.join(folder, "out-index"))), (0, False))
        os.mkdir(os.path.join(folder, "out-index"))
        self.assertEqual(self.tool("exbr-why", "--all", at=folder).returncode, 0)
        self.assertEqual([it for it in os.listdir(folder) if it.startswith(".exbr")], [])


if __name__ == "__main__":
    unittest.main()
