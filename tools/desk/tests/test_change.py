"""A change as a difference: its commands, their order, where they lead, and the page that says what each is for."""
import json
import os
import random
import tomllib
import unittest

import ground
from exbr_desk import names, play, topology
from exbr_desk.errors import DeskError
from exbr_import import change, ends, order, text
from exbr_import.switch import Port, Switch

HEAD = "hostname agg\nfeature fex\nvlan 10,20,30-33\nvlan 30\n  name new\nfex 101\ninterface Ethernet1/1\n  switchport mode fex-fabric\n  fex associate 101\n"
BEFORE = HEAD + """interface Ethernet1/2
  description core
  switchport mode trunk
  switchport trunk allowed vlan 10,20
interface Ethernet101/1/1
  description web-01
  switchport access vlan 10
interface Ethernet101/1/2
  description web-02
  switchport access vlan 10
interface Ethernet101/1/3
  switchport mode trunk
  switchport trunk allowed vlan 10,20
interface Ethernet101/1/4
  switchport access vlan 20
  shutdown
mac address-table static 0200.0000.0001 vlan 10 interface Ethernet101/1/1
mac address-table aging-time 300
"""
AFTER = (BEFORE.replace("web-01\n  switchport access vlan 10", "web-01\n  switchport access vlan 20").replace("web-02\n  switchport access vlan 10", "web-02\n  switchport access vlan 20")
         .replace("allowed vlan 10,20", "allowed vlan 10,20,30").replace("vlan 20\n  shutdown", "vlan 20").replace("static 0200.0000.0001 vlan 10", "static 0200.0000.0001 vlan 20"))


class Changes(ground.InFolder):
    """By the tool."""

    def changed(self, after: str, *words: str, before: str = BEFORE, status: int = 0):
        """What comes of two configurations: the topology, the page, and what is said."""
        one, other = self.write("before.cfg", before), self.write("after.cfg", after)
        done = ground.tool("exbr-import", "--nxos", one, "--after", other, "--at", "60", "-o", self.path("topology.toml"), "--force", *words)
        self.assertEqual(done.returncode, status, done.stderr)
        with open(self.path("topology.toml"), "rb") as file:
            made = tomllib.load(file)
        with open(self.path("change.md"), encoding="utf-8") as file:
            return made, file.read(), done

    def test_a_move_is_one_step_of_three_commands(self):
        made, page, done = self.changed(AFTER, "--no-play")
        commands = [it for it in made["command"] if it["at"] == 60]
        self.assertEqual(commands[:4], [
            {"at": 60, "op": "unstatic", "vid": 10, "mac": "02:00:00:00:00:01"},
            {"at": 60, "op": "unmember", "vid": 10, "port": "x1.1"}, {"at": 60, "op": "member", "vid": 20, "port": "x1.1", "kind": "untagged"},
            {"at": 60, "op": "pvid", "vid": 20, "port": "x1.1"}])
        self.assertIn("Ethernet101/1/1 (web-01), Ethernet101/1/2 (web-02): access VLAN 10 → 20", page)
        self.assertIn("| 2 | 3-8 | 60 |", page)
        self.assertIn("VLAN 30 (new) comes to Ethernet1/2, Ethernet101/1/3", page)
        self.assertIn({"at": 60, "op": "vlan", "vid": 30, "tagged": ["b2", "x1.3"]}, commands)
        self.assertIn({"at": 60, "op": "up", "port": "x1.4"}, commands)
        self.assertIn("5 steps, 10 commands", done.stderr)
        self.assertEqual(commands[-1], {"at": 60, "op": "static", "vid": 20, "mac": "02:00:00:00:00:01", "ports": ["x1.1"]})

    def test_the_same_twice_is_no_change(self):
        made, page, _ = self.changed(BEFORE, "--no-play")
        self.assertEqual([it["at"] for it in made["command"]], [0])
        self.assertIn("0 steps, 0 commands", page)

    def test_seconds_between_steps(self):
        made, _, _ = self.changed(AFTER, "--no-play", "--every", "5")
        self.assertEqual(sorted({it["at"] for it in made["command"]}), [0, 60, 65, 70, 75, 80])

    def test_played_by_the_program(self):
        try:
            play.program()
        except DeskError as fault:
            self.skipTest(str(fault))
        _, page, _ = self.changed(AFTER)
        self.assertIn("Played by exbr to the end with probes at each port, the configuration is that of after.cfg", page)
        # With 2 groups ports stay absent at the opening, and the tool says so.
        _, page, done = self.changed(AFTER, "--groups", "1", status=1)
        self.assertIn("**not** as after.cfg has it", page)
        self.assertIn("groups", page)
        self.assertIn("change: ", done.stderr)

    def test_what_is_no_command(self):
        after = AFTER.replace("aging-time 300", "aging-time 600") + "fex 102\ninterface Ethernet1/3\n  switchport mode fex-fabric\n  fex associate 102\ninterface Ethernet102/1/1\n  switchport access vlan 10\n"
        made, page, done = self.changed(after, "--no-play")
        self.assertEqual(made["bridge"]["ageing"], 300)
        self.assertEqual([it["number"] for it in made["extender"]], [1, 2])
        self.assertIn("FEX 102 comes with the change", page)
        self.assertIn("the ageing time of 300 s becomes 600 s", done.stderr)
        self.assertIn({"at": 60, "op": "member", "vid": 10, "port": "x2.1", "kind": "untagged"}, made["command"])

    def test_json(self):
        _, _, done = self.changed(AFTER, "--no-play", "--json")
        told = json.loads(done.stdout)
        self.assertEqual([it["step"] for it in told["steps"]], [1, 2, 3, 4, 5])
        self.assertEqual(told["steps"][1]["ports"], ["x1.1", "x1.2"])
        self.assertEqual(told["ports"]["x1.1"]["description"], "web-01")
        self.assertEqual(told["differs"], [])


def small(groups: int, sets: dict[int, tuple[str, ...]], local: int = 1, ports: int = 4) -> Switch:
    """A bridge with one extender, and VLANs with untagged members there."""
    members = {f"x1.{at}": {vid for vid, them in sets.items() if f"x1.{at}" in them} for at in range(1, ports + 1)}
    found = Switch("a test", [Port(name, pvid=1, tagged=vids, place=name) for name, vids in members.items()], limits={"groups": groups})
    found.local, found.extenders = local, {1: ("b1", ports)}
    return found


def best(before: Switch, after: Switch) -> order.Ordered:
    """The order that is found."""
    start = topology.of_text(text.topology(before))
    return order.ordered(start.tree, start.tables["bridge"], ends.at_end(start), change.units(before, after))


class Orders(unittest.TestCase):
    """The order of commands where groups are few."""

    def test_what_frees_a_group_comes_first(self):
        before, after = small(2, {10: ("x1.1", "x1.2"), 50: ("x1.3", "x1.4")}), small(2, {10: ("x1.1", "x1.2"), 40: ("x1.1", "x1.4")})
        found = best(before, after)
        self.assertEqual(found.refusal, "")
        self.assertEqual([[it["vid"] for it in unit.commands] for unit in found.units], [[50], [40]])

    def test_where_there_is_no_order_that_is_said(self):
        found = best(small(1, {10: ("x1.1", "x1.2")}), small(1, {10: ("x1.3", "x1.4")}))
        self.assertIn("groups 2 1", found.refusal)
        self.assertTrue(found.is_whole)

    def test_an_order_is_found_wherever_there_is_one(self):
        """Against all orders of all commands, of changes at random that are small enough for that."""
        for number in range(60):
            draw = random.Random(number)
            sets = [{vid: tuple(sorted(draw.sample([f"x1.{at}" for at in range(1, 5)], draw.randint(1, 3)))) for vid in draw.sample((10, 20, 30), draw.randint(1, 3))}
                    for _ in range(2)]
            groups = draw.randint(1, 4)
            before, after = small(groups, sets[0]), small(groups, sets[1])
            start = topology.of_text(text.topology(before))
            found = best(before, after)
            with self.subTest(number):
                self.assertEqual(bool(found.refusal), not possible(start, change.units(before, after)))


def possible(start: topology.Topology, units: list[change.Unit]) -> bool:
    """Whether some order of units, or of all commands one port at a time, has no refusal: by trying all of them."""
    parts = [order.singles(units), [change.Unit("", [], [it]) for unit in units for it in unit.commands]]
    return any(reaches(order.Search(start.tree, start.tables["bridge"], ends.at_end(start)), ends.at_end(start), them) for them in parts)


def reaches(search: order.Search, now, units: list[change.Unit], known: dict | None = None) -> bool:
    """Whether all units can be done from here in some order."""
    known = {} if known is None else known
    key = frozenset(map(id, units))
    if key not in known:
        known[key] = not units or any(not cause and reaches(search, later, [it for it in units if it is not unit], known)
                                      for unit in units for later, _, cause in [search.after(now, unit)])
    return known[key]


class Linux(ground.InFolder):
    """A change of a Linux bridge: a folder with its later answers."""

    def test_after_is_a_folder(self):
        link = json.dumps([{"ifname": "br0", "linkinfo": {"info_kind": "bridge", "info_data": {"vlan_filtering": 1}}},
                           *({"ifname": f"swp{at}", "master": "br0", "linkinfo": {"info_slave_data": {"state": "forwarding"}}} for at in (1, 2))])
        rows = lambda vid: json.dumps([{"ifname": f"swp{at}", "vlans": [{"vlan": vid, "flags": ["PVID", "Egress Untagged"]}]} for at in (1, 2)])
        words = ["--link", self.write("link.json", link), "--vlan", self.write("vlan.json", rows(10)), "--after", os.path.dirname(self.write("later/vlan.json", rows(20)))]
        done = ground.tool("exbr-import", *words, "--at", "5", "--no-play", "-o", self.path("topology.toml"))
        self.assertEqual(done.returncode, 0, done.stderr)
        self.assertIn("1 step, 6 commands", done.stderr)
        self.assertEqual(names.of(self.folder).shown("b2"), "swp2")

    def test_real_answers(self):
        """Those of a bridge that filters VLANs in a Linux 6.1.0-57, before a change and after it."""
        at = lambda *path: os.path.join(ground.TESTS, "linux", "change", *path)
        words = [word for it in ("link", "vlan", "fdb", "mdb") for word in (f"--{it}", at("before", f"{it}.json"))]
        done = ground.tool("exbr-import", *words, "--after", at("after"), "--at", "30", "--no-play", "-o", self.path("topology.toml"))
        self.assertEqual(done.returncode, 0, done.stderr)
        with open(self.path("change.md"), encoding="utf-8") as file:
            steps = [line.split(" | ")[3] for line in file if line.startswith("| ") and "|---" not in line][1:]
        self.assertEqual(steps, ["the static entry 02:00:00:00:00:09 of VLAN 100 goes", "the static entry 01:00:5e:01:01:32 of VLAN 100 goes",
                                 "swp1, swp2: access VLAN 100 → 200", "swp6: isolation ends", "swp7: shutdown",
                                 "swp8: in no VLAN → access VLAN 200, no shutdown", "VLAN 300 comes to swp9-10"])
        self.assertIn("not carried: swp3-4: it doesn't learn addresses", done.stderr)


class Plans(ground.InFolder):
    """A change within a plan."""

    def test_a_change_of_a_plan(self):
        plan = self.write("plan.toml", '[bridge]\nports = 3\n[vlans]\nstaff = 10\nguests = 20\n[[ports]]\nports = "b1-2"\naccess = "staff"\nname = "desk-{n}"\n'
                          '[[ports]]\nports = "b3"\ntrunk = "staff, guests"\n[[change]]\nat = 9\nports = "b2"\naccess = "guests"\n')
        done = ground.tool("exbr-import", "--plan", plan, "-o", self.path("topology.toml"))
        self.assertEqual(done.returncode, 0, done.stderr)
        with open(self.path("topology.toml"), encoding="utf-8") as file:
            made = file.read()
        self.assertEqual([it["op"] for it in tomllib.loads(made)["command"]], ["unmember", "member", "pvid"])
        self.assertIn("[[command]]   # step 1: b2 (desk-2): access VLAN 10 → 20 (plan.toml:6 → plan.toml:13)", made)
        self.assertIn("[[port]]   # b1 (desk-1), line 6", made)
        self.assertEqual(names.of(self.folder).shown("b1"), "b1 (desk-1)")


if __name__ == "__main__":
    unittest.main()
