"""exbr-import: answers of a Linux bridge that filters VLANs (a kernel 6.1 in user mode) and of one that doesn't, and folders of captures."""
import json
import os
import shutil
import struct
import tomllib
import unittest

import ground
from exbr_desk import captures, topology
from exbr_import import linux, switch, text

LINUX = os.path.join(ground.TESTS, "linux")
HEADER = struct.pack("<IHHIIII", 0xA1B23C4D, 2, 4, 0, 0, 65535, 1)


def answer(name: str) -> str:
    return os.path.join(LINUX, f"{name}.json")


def capture(*frames: bytes) -> bytes:
    return HEADER + b"".join(struct.pack("<IIII", 1, 0, len(it), len(it)) + it for it in frames)


def frame(source: int, vid: int | None = None) -> bytes:
    tag = b"" if vid is None else struct.pack(">HH", 0x8100, vid)
    return b"\xff" * 6 + bytes((2, 0, 0, 0, 0, source)) + tag + b"\x08\x06" + bytes(46)


def port(name: str, **more) -> dict:
    """A port of a bridge br0, as `ip -j -d link` has it."""
    return {"ifname": name, "master": "br0", "operstate": "UP", "linkinfo": {"info_slave_data": {"state": "forwarding", **more}}}


def bridge(**data) -> dict:
    return {"ifname": "br0", "linkinfo": {"info_kind": "bridge", "info_data": {"ageing_time": 30000, "vlan_filtering": 1, **data}}}


class OfLinux(ground.InFolder):
    """Topologies of a bridge."""

    def made(self, *words: str, status: int = 0) -> tuple[dict, str]:
        """The topology that is printed, and what is said of it."""
        done = ground.tool("exbr-import", *words)
        self.assertEqual(done.returncode, status, done.stderr)
        topology.of_text(done.stdout)
        return tomllib.loads(done.stdout), done.stderr

    def of(self, links: list, vlans: list, *words: str) -> tuple[dict, str]:
        return self.made("--link", self.write("link.json", json.dumps(links)), "--vlan", self.write("vlan.json", json.dumps(vlans)), *words)

    def test_real_answers(self):
        made, said = self.made("--link", answer("link"), "--vlan", answer("vlan"), "--fdb", answer("fdb"), "--mdb", answer("mdb"))
        self.assertEqual(made["bridge"], {"ports": 6, "ageing": 600})
        ports = {it["name"]: it for it in made["port"]}
        self.assertEqual(ports["b1"], {"name": "b1", "pvid": 10, "filter": True})
        self.assertEqual(ports["b3"], {"name": "b3", "pvid": 20, "filter": True, "isolated": True})
        self.assertEqual(ports["b6"], {"name": "b6", "accept": "tagged", "filter": True})
        vlans = {it["vid"]: it for it in made["vlan"]}
        self.assertEqual(vlans[20], {"vid": 20, "tagged": ["b6"], "untagged": ["b3-4"]})
        self.assertEqual(vlans[100], {"vid": 100, "last": 119, "tagged": ["b6"]})
        self.assertEqual(made["static"], [{"vid": 10, "mac": "02:00:00:00:00:09", "ports": ["b2"]},
                                          {"vid": 10, "mac": "01:00:5e:00:00:05", "ports": ["b1-2"]}])
        self.assertEqual(made["command"], [{"at": 0, "op": "down", "port": "b5"}])
        for it in ("snoops IGMP", "the host itself", "own addresses"):
            self.assertIn(f"{it}", said)

    def test_bridge_without_vlans(self):
        made, said = self.made("--link", answer("plain-link"))
        self.assertEqual([it["vid"] for it in made["vlan"]], [1, 2])
        self.assertIn("doesn't know VLANs", said)

    def test_host_is_a_port(self):
        made, said = self.made("--link", answer("link"), "--vlan", answer("vlan"), "--host")
        self.assertEqual(made["bridge"]["ports"], 7)
        self.assertIn("b7", [it["name"] for it in made["port"]])
        self.assertNotIn("the host itself", said)

    def test_ranges_and_flags(self):
        vlans = [{"ifname": "eth1", "vlans": [{"vlan": 5, "vlanEnd": 9, "flags": ["Egress Untagged"]}, {"vlan": 20}]}]
        made, said = self.of([bridge(ageing_time=500), port("eth1", learning=False, hairpin=True)], vlans)
        self.assertEqual(made["vlan"], [{"vid": 5, "last": 9, "untagged": ["b1"]}, {"vid": 20, "tagged": ["b1"]}])
        self.assertEqual(made["bridge"]["ageing"], 10)
        for it in ("eth1: it doesn't learn", "eth1: frames may leave where they came from", "ageing time of 5 s"):
            self.assertIn(it, said)

    def test_no_vlan_at_all(self):
        made, _ = self.of([bridge(), port("eth1")], [])
        self.assertEqual(made["vlan"], [])

    def test_spanning_tree(self):
        made, said = self.of([bridge(stp_state=1), port("eth1", state="blocking")], [])
        self.assertEqual(made["command"][0]["op"], "down")
        self.assertIn("eth1 is blocking", said)
        self.assertIn("runs the spanning tree", said)

    def test_many_ports(self):
        made, _ = self.of([bridge(), *(port(f"swp{it}") for it in range(1, 101))], [{"ifname": "swp100", "vlans": [{"vlan": 7}]}])
        self.assertEqual([it["ports"] for it in made["extender"]], [64, 64])
        self.assertEqual(made["vlan"], [{"vid": 7, "tagged": ["x2.36"]}])
        made, said = self.of([bridge(), *(port(f"swp{it}") for it in range(1, 11))], [], "--extenders", "4")
        self.assertEqual([(it["on"], it["ports"]) for it in made["extender"]], [("b1", 4), ("b2", 4), ("b3", 4)])
        self.assertIn("last 2 ports of extender 3 are spare", said)

    def test_called_as_a_program(self):
        self.assert_line(ground.process("exbr-import", "--help"), 0)
        self.assert_line(ground.process("exbr-import", "--link", self.path("nope")), 2, "exbr-import: ")

    def test_broken(self):
        good, nothing = answer("link"), self.write("empty.json", "[]")
        two = json.dumps([bridge(), {**bridge(), "ifname": "br1"}])
        bad_vlan = json.dumps([{"ifname": "swp1", "vlans": [{"vlan": 4095}]}])
        for words, said in ((["--link", self.path("nope")], "No such file"), (["--link", self.write("a", "no json")], "it isn't JSON"),
                            (["--link", self.write("b", "{}")], "ip -j -d link"), (["--link", nothing], "there is no bridge in it"),
                            (["--link", good], "--vlan FILE"), (["--link", good, "--bridge", "br9"], "there is no bridge br9; bridges: br0"),
                            (["--link", self.write("c", two)], "name one by --bridge: br0, br1"), (["--link", self.write("d", json.dumps([bridge()]))], "no ports"),
                            (["--link", good, "--vlan", self.write("e", bad_vlan)], "a VLAN isn't in 1 to 4094"), ([], "name --nxos FILE"),
                            (["--captures", self.folder, "--host"], "need --link"), (["--link", good, "--vlan", nothing, "--extenders", "65"], "1 to 64"),
                            (["--link", answer("plain-link"), "-o", self.path("no", "where")], "No such file"),
                            (["--link", self.write("f", b"\xff\xfe")], "it isn't JSON")):
            with self.subTest(said):
                self.assert_line(ground.tool("exbr-import", *words), 2, "exbr-import: ", said)

    def test_group_addresses(self):
        for group, mac in (("239.0.0.5", "01:00:5e:00:00:05"), ("239.129.1.2", "01:00:5e:01:01:02"), ("ff02::1:ff00:42", "33:33:ff:00:00:42"),
                           ("01:00:00:00:00:05", "01:00:00:00:00:05")):
            self.assertEqual(linux.group_address(group, "mdb"), mac)


class OfFolders(ground.InFolder):
    """Topologies of captures that are named by port."""

    def made(self, *words: str) -> tuple[dict, str]:
        done = ground.tool("exbr-import", "--captures", self.folder, "-o", self.path("topology.toml"), *words)
        self.assertEqual(done.returncode, 0, done.stderr)
        with open(self.path("topology.toml"), "rb") as file:
            return tomllib.load(file), done.stderr

    def test_names_of_places(self):
        for name, source in (("in-b2.pcap", 1), ("x1.3.pcap", 2), ("x4.1.pcapng.pcap", 3), ("x4.1.pcap", 4)):
            self.write(name, capture(frame(source)))
        os.remove(self.path("x4.1.pcapng.pcap"))
        made, said = self.made()
        self.assertEqual(made["bridge"]["ports"], 4)
        self.assertEqual([(it["number"], it["on"], it["ports"]) for it in made["extender"]], [(1, "b3", 3), (4, "b4", 1)])
        self.assertEqual(made["captures"], {"b2": "in-b2.pcap", "x1.3": "x1.3.pcap", "x4.1": "x4.1.pcap"})
        self.assertIn("where extenders hang isn't told", said)

    def test_names_of_interfaces(self):
        self.write("swp10.pcap", capture(frame(1, 30)))
        self.write("swp2.pcap", capture(frame(2), frame(1)))
        made, said = self.made()
        self.assertEqual(made["captures"], {"b1": "swp2.pcap", "b2": "swp10.pcap"})
        self.assertIn("02:00:00:00:00:01 sends in the captures of swp2, swp10", said)
        self.assertIn("VLAN 30 arrive at swp10", said)

    def test_with_a_bridge(self):
        self.write("swp1.pcap", capture(frame(1)))
        self.write("eth9.pcap", capture(frame(2)))
        made, said = self.made("--link", answer("link"), "--vlan", answer("vlan"))
        self.assertEqual(made["captures"], {"b1": "swp1.pcap"})
        self.assertIn("eth9.pcap: there is no port eth9", said)
        self.assertIn("nothing arrives at swp2", said)

    def test_broken(self):
        said = lambda: ground.tool("exbr-import", "--captures", self.folder)
        self.assert_line(said(), 2, "no capture in it")
        self.write("swp1.pcap", b"no capture")
        self.assert_line(said(), 2, "NotPcap at 0")
        self.write("in-swp1.pcap", capture())
        self.assert_line(said(), 2, "are both captures of swp1")
        self.assert_line(ground.tool("exbr-import", "--captures", self.path("nope")), 2, "No such file")


DETAIL = """FEX: 101 Description: rack-7-left   state: Online
  FEX version: 7.1(4)N1(1) [Switch version: 7.1(4)N1(1)]
  Extender Model: N2K-C2232PP-10GE,  Part No: 73-12533-05
  Pinning-mode: static    Max-links: 1
  Fabric port for control traffic: Eth1/1
  Fabric interface state:
    Po101 - Interface Up. State: Active
    Eth1/1 - Interface Up. State: Active
  Fex Port        State  Fabric Port
       Eth101/1/1    Up       Po101
       Eth101/1/2  Down        None
       Eth101/1/3  Down        None
Logs:
12/01/2026 20:11:02.112233: Module register received
"""
NEXUS = """hostname a
vlan 10
fex 101
interface port-channel5
  switchport access vlan 10
interface Ethernet1/1
  switchport mode fex-fabric
  fex associate 101
interface Ethernet101/1/1
  channel-group 5
interface Ethernet101/1/2
  channel-group 5
interface Ethernet101/1/3
  description web-03
  switchport access vlan 10
"""


class OfNexus(ground.InFolder):
    """Captures that are named after interfaces, and the answer of `show fex detail`."""

    def made(self, *words: str, status: int = 0) -> tuple[dict, str]:
        """The topology that is written, and what is said of it."""
        done = ground.tool("exbr-import", "--nxos", self.write("a.cfg", NEXUS), "-o", self.path("topology.toml"), "--force", *words)
        self.assertEqual(done.returncode, status, done.stderr)
        with open(self.path("topology.toml"), "rb") as file:
            return tomllib.load(file), done.stderr

    def test_detail(self):
        made, said = self.made("--fex-detail", self.write("detail", DETAIL))
        self.assertEqual(made["extender"][0]["ports"], 3)
        self.assertNotIn("by the interfaces of the file", said)
        made, _ = self.made("--fex", "101=32")
        self.assertEqual((made["extender"][0]["ports"], made["vlan"][0]), (32, {"vid": 1, "untagged": ["x1.4-32"]}))

    def test_captures(self):
        for name, source in (("Ethernet101_1_1.pcap", 1), ("eth101-1-2.pcap", 2), ("in-Eth101.1.3.pcap", 3)):
            self.write(f"c/{name}", capture(frame(source)))
        words = ["--captures", self.path("c"), "--fex", "101=3"]
        if not shutil.which("mergecap"):
            self.skipTest("mergecap isn't here (Debian: wireshark-common)")
        made, said = self.made(*words)
        self.assertEqual(made["captures"], {"x1.1": "in-x1.1.pcapng", "x1.3": "c/in-Eth101.1.3.pcap"})
        self.assertEqual(sorted(it.frame[11] for it in captures.records(self.path("in-x1.1.pcapng"))), [1, 2])
        self.assertNotIn("nothing arrives", said)
        done = ground.tool("exbr-import", "--nxos", self.path("a.cfg"), *words)
        self.assert_line(done, 2, "become one file; name the topology by -o FILE")
        self.write("c/e101-1-3.pcap", capture(frame(4)))
        self.assert_line(ground.tool("exbr-import", "--nxos", self.path("a.cfg"), *words, "-o", self.path("topology.toml"), "--force"), 2,
                         "are both captures of Ethernet101/1/3")

    def test_version(self):
        self.assertIn("exbr-import ", ground.tool("exbr-import", "--version").stdout)


class Texts(unittest.TestCase):
    """The text of a topology."""

    def test_words(self):
        self.assertEqual(text.words(["b1", "b2", "b4", "x3.7", "x3.8", "x12.1"]), '["b1-2", "b4", "x3.7-8", "x12.1"]')

    def test_no_name_ends_a_comment(self):
        found = switch.Switch("a\nb", [switch.Port('swp"1\n[bridge]', pvid=2, untagged={2})], lost=["c\rd"])
        switch.place(found, None)
        self.assertEqual(tomllib.loads(text.topology(found))["bridge"]["ports"], 1)

    def test_natural_order(self):
        self.assertEqual(sorted(["swp10", "swp2", "b1", "swp1"], key=switch.natural), ["b1", "swp1", "swp2", "swp10"])


if __name__ == "__main__":
    unittest.main()
