#!/usr/bin/env python3
"""The counters of a run beside what the tools of Wireshark count in its output files: frames and bytes that left each port, by `capinfos`
and by `tshark -q -z io,stat` (which has no line for a file whose frames all have one time)."""
import os
import pathlib
import re
import shutil
import subprocess
import sys
import tempfile
import unittest

TOP = pathlib.Path(__file__).resolve().parent.parent.parent
PROGRAM = os.environ.get("EXBR_PROGRAM") or str(TOP / "dist/exbr")
EXAMPLES = sorted(it.parent.name for it in (TOP / "examples").glob("*/topology.toml"))
NETS = sorted(it.parent.name for it in (TOP / "examples").glob("*/net.toml"))
LINE = re.compile(r"(\S+) relayed \d+ dropped \d+ ignored \d+ left (\d+) octets (\d+)")
STATISTICS = re.compile(r"\| *[\d.]+ <> +(?:[\d.]+|Dur) *\| *(\d+) *\| *(\d+) *\|")


def said(folder, *words):
    ran = subprocess.run(words, cwd=folder, capture_output=True, text=True, check=False)
    if ran.returncode:
        raise AssertionError(f"{' '.join(words)}: status {ran.returncode}, {ran.stdout}{ran.stderr}")
    return ran.stdout


@unittest.skipUnless(os.access(PROGRAM, os.X_OK), "there is no program")
@unittest.skipUnless(shutil.which("capinfos") and shutil.which("tshark"), "no tshark and capinfos")
class Counters(unittest.TestCase):
    def played(self, name, room):
        """The counters of an example: frames and octets that left, by output file."""
        folder = os.path.join(room, name)
        shutil.copytree(TOP / "examples" / name, folder, ignore=shutil.ignore_patterns("expected", "out-*"))
        said(folder, PROGRAM, *(["net", "net.toml"] if name in NETS else ["run", "topology.toml"]), "--counters")
        found = {}
        for file in sorted(pathlib.Path(folder).glob("*-counters.txt")):
            for port, left, octets in (LINE.fullmatch(line).groups() for line in file.read_text().splitlines()):
                found[file.name.replace("counters.txt", f"{port}.pcap")] = (int(left), int(octets))
        return folder, found

    def knows_nets(self):
        return "exbr net " in subprocess.run([PROGRAM], capture_output=True, text=True, check=False).stdout

    def test_each_example(self):
        seen = 0
        with tempfile.TemporaryDirectory(prefix="exbr-counters-") as room:
            for name in EXAMPLES + (NETS if self.knows_nets() else []):
                folder, counters = self.played(name, room)
                self.assertTrue(counters)
                for file, counted in counters.items():
                    with self.subTest(example=name, file=file):
                        _, frames, octets = said(folder, "capinfos", "-T", "-r", "-m", "-M", "-c", "-d", file).strip().split(",")
                        self.assertEqual((int(frames), int(octets)), counted)
                        rows = STATISTICS.findall(said(folder, "tshark", "-r", file, "-q", "-z", "io,stat,0"))
                        seen += len(rows)
                        self.assertIn([(int(frames), int(octets)) for frames, octets in rows], ([], [counted]))
        self.assertGreater(seen, 10)


if __name__ == "__main__":
    sys.exit(unittest.main())
