"""The plan that docs/plan.md shows, and topologies that become plans and topologies again."""
import os
import re
import tomllib
import unittest

import ground
from exbr_desk import names, topology
from exbr_import import ends

PAGE = os.path.join(ground.TOP, "docs", "plan.md")


class Plans(ground.InFolder):
    """Plans by hand."""

    def made(self, text: str) -> topology.Topology:
        """The topology of a plan."""
        done = ground.tool("exbr-import", "--plan", self.write("plan.toml", text), "-o", self.path("topology.toml"), "--force")
        self.assertEqual(done.returncode, 0, done.stderr)
        return topology.read(self.path("topology.toml"))

    def test_the_page(self):
        with open(PAGE, encoding="utf-8") as file:
            text = re.search(r"```toml\n(.*?)```", file.read(), re.S)[1]
        given = self.made(text)
        now, called = given.start(), names.of(self.folder)
        self.assertEqual(given.extenders, {number: (number + 3, 48) for number in range(1, 5)})
        rules = now.rules[topology.plain.number_of("x3.7")]
        self.assertEqual((rules.pvid, rules.isolated, rules.filter), (20, True, True))
        self.assertEqual(called.shown("x2.9"), "x2.9 (desk-2-9)")
        self.assertEqual(called.shown("x1.33"), "x1.33 (hypervisor-1)")
        self.assertEqual(called.extenders[4], "FEX 4")
        self.assertEqual([it.at for it in given.commands], [60] * 24)
        end = ends.meaning(ends.at_end(given))
        self.assertEqual([end[0][f"x2.{at}"][0] for at in (1, 8, 9)], [20, 20, 10])
        self.assertEqual(list(end[2]), [(10, bytes.fromhex("020000000009"))])
        self.assertNotIn("x4.1", end[0])

    def test_and_back(self):
        """All examples: a topology, its plan, and its topology again mean the same, at their start and at their end."""
        for example in (*ground.PLAYED, "night"):
            path = os.path.join(ground.EXAMPLES, example, "topology.toml")
            plan, again = self.path(f"{example}.plan"), self.path(f"{example}.toml")
            one = ground.tool("exbr-import", "--to-plan", path, "-o", plan)
            other = ground.tool("exbr-import", "--plan", plan, "-o", again, "--names", self.path(f"{example}-names.toml"))
            with self.subTest(example):
                self.assertEqual((one.returncode, other.returncode), (0, 0), one.stderr + other.stderr)
                mine, its = topology.read(path), topology.read(again)
                self.assertEqual(ends.differences(mine, its), [])
                self.assertEqual(ends.meaning(mine.start()), ends.meaning(its.start()))
                for key in ("captures", "links", "command"):
                    self.assertEqual(mine.tables.get(key), its.tables.get(key))
                self.assertEqual((mine.ageing, mine.limits, mine.out), (its.ageing, its.limits, its.out))

    def test_explicit(self):
        given = self.made('[bridge]\nports = 2\nout = "o-"\n[[ports]]\nports = "b1"\npvid = 7\nuntagged = "7, 9"\ntagged = "9-11"\naccept = "untagged"\n')
        self.assertEqual(given.tables["port"], [{"name": "b1", "pvid": 7, "accept": "untagged"}, {"name": "b2", "accept": "tagged", "filter": True}])
        self.assertEqual(given.tables["vlan"], [{"vid": 7, "untagged": ["b1"]}, {"vid": 9, "untagged": ["b1"]}, {"vid": 10, "last": 11, "tagged": ["b1"]}])
        self.assertEqual(given.out, "o-")

    def test_comments_name_lines(self):
        self.made('[bridge]\nports = 2\n\n[[ports]]\nports = "b1-2"\naccess = 3\n')
        with open(self.path("topology.toml"), encoding="utf-8") as file:
            text = file.read()
        self.assertIn("[[port]]   # b1, line 4", text)
        self.assertEqual(tomllib.loads(text)["vlan"], [{"vid": 3, "untagged": ["b1-2"]}])


if __name__ == "__main__":
    unittest.main()
