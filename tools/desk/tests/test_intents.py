"""Intents at random in four spellings: a few of those of `random_intents.py`, which has two hundred."""
import unittest

import ground
import random_intents
from exbr_desk import play
from exbr_desk.errors import DeskError


class FourSpellings(ground.InFolder):
    """NX-OS, Junos, a Linux bridge and a plan mean the same."""

    def test_by_rules(self):
        for number in range(1001, 1013):
            with self.subTest(number):
                self.assertEqual(random_intents.trial(self.path(str(number)), number, None), "")

    def test_by_the_program(self):
        try:
            exbr = play.program()
        except DeskError as fault:
            self.skipTest(str(fault))
        for number in range(2001, 2005):
            with self.subTest(number):
                self.assertEqual(random_intents.trial(self.path(str(number)), number, exbr), "")

    def test_a_difference_is_found(self):
        """What differs in one spelling is named, so that none passes by chance."""
        real = random_intents.intents.junos_port
        self.addCleanup(setattr, random_intents.intents, "junos_port", real)
        random_intents.intents.junos_port = lambda draw, it, its: [one for one in real(draw, it, its) if not one.startswith("native-vlan-id")]
        found = [random_intents.trial(self.path(str(number)), number, None) for number in range(1, 7)]
        self.assertTrue(any("nxos and junos: port" in it for it in found), found)


if __name__ == "__main__":
    unittest.main()
