"""examples/fex: twelve extenders, 200 VLANs and 40 changes, from two configurations to a report with names, in under a minute."""
import os
import shutil
import subprocess
import sys
import tempfile
import time
import unittest

import ground
from exbr_desk import names, play, topology
from exbr_desk.errors import DeskError
from exbr_import import ends

EXAMPLE = os.path.join(ground.EXAMPLES, "fex")
WORDS = ("--nxos", "before.cfg", "--fex", "101-112=48", "--after", "after.cfg", "--at", "60", "--captures", "captures", "-o", "topology.toml")


def data_of(path: str) -> bytes:
    """The bytes of a file."""
    with open(path, "rb") as file:
        return file.read()


class Row(ground.InFolder):
    """The whole way, in a copy of the example."""

    def setUp(self) -> None:
        super().setUp()
        if os.access(ends.MEMORY, os.W_OK):
            # A run brings 600 files to the disk, which takes long on some.
            self.folder = tempfile.mkdtemp(prefix="exbr-test-", dir=ends.MEMORY)
            self.addCleanup(shutil.rmtree, self.folder, True)
        for it in ("before.cfg", "after.cfg"):
            shutil.copy(os.path.join(EXAMPLE, it), self.folder)
        shutil.copytree(os.path.join(EXAMPLE, "captures"), self.path("captures"))
        self.before = os.getcwd()
        self.addCleanup(os.chdir, self.before)
        os.chdir(self.folder)

    def test_files_are_those_of_make(self):
        """make.py makes the files that stand beside it."""
        shutil.copy(os.path.join(EXAMPLE, "make.py"), self.folder)
        held = {it: data_of(self.path(it)) for it in ("before.cfg", "after.cfg", "captures/Ethernet1_1.pcap", "captures/eth106-1-1.pcap")}
        subprocess.run([sys.executable, self.path("make.py")], check=True)
        self.assertEqual([it for it, data in held.items() if data_of(self.path(it)) != data], [])

    def test_import(self):
        if not shutil.which("mergecap"):
            self.skipTest("mergecap isn't here (Debian: wireshark-common)")
        done = ground.tool("exbr-import", *WORDS, "--no-play")
        self.assertEqual(done.returncode, 0, done.stderr)
        given, called = topology.read("topology.toml"), names.of(".")
        self.assertEqual((len(given.extenders), len(given.external), len(given.start().vlans)), (12, 592, 202))
        self.assertEqual(called.shown("x2.1"), "Ethernet102/1/1 (web-102-01)")
        self.assertEqual(sorted(os.path.basename(it) for it in given.captures.values()),
                         ["Ethernet101_1_1.pcap", "Ethernet102_1_1.pcap", "Ethernet102_1_2.pcap", "Ethernet102_1_9.pcap", "Ethernet107_1_29.pcap",
                          "Ethernet112_1_4.pcap", "eth104-1-33.pcap", "eth106-1-1.pcap", "eth106-1-2.pcap", "eth106-1-7.pcap", "in-b1.pcapng"])
        self.assertIn("15 steps, 65 commands", done.stderr)

    def test_whole_way(self):
        if not shutil.which("mergecap"):
            self.skipTest("mergecap isn't here (Debian: wireshark-common)")
        try:
            exbr = play.program()
        except DeskError as fault:
            self.skipTest(str(fault))
        begun = time.monotonic()
        done = ground.tool("exbr-import", *WORDS, "--program", exbr)
        self.assertIn("Played by exbr to the end with probes at each port, the configuration is that of after.cfg, and no command is refused", done.stderr)
        ran = subprocess.run([exbr, "run", "topology.toml"], capture_output=True, text=True, check=False)
        self.assertEqual(ran.stdout, "arrivals 1056 relayed 1032 ignored 24 left 3258 commits 113 refusals 0\n")
        made = ground.tool("exbr-report", ".", "-o", "report.html", "--quiet")
        self.assertEqual(made.returncode, 0, made.stderr)
        self.assertLess(time.monotonic() - begun, 60)
        with open("report.html", encoding="utf-8") as file:
            page = file.read()
        self.assertIn("24 frames of Ethernet107/1/29 (dns-107-04) were ignored, since Ethernet107/1/29 (dns-107-04) was down", page)
        self.assertIn("take Ethernet102/1/1 (web-102-01) out of VLAN 116", page)


if __name__ == "__main__":
    unittest.main()
