"""The faults that stand in the folder before a run, on the program that EXBR_PROGRAM names. `faults.py` has the others too."""
import os
import sys
import tempfile
import unittest

HERE = os.path.dirname(os.path.abspath(__file__))
sys.path.insert(0, HERE)
import faults
import faults_of_names

PROGRAM = os.environ.get("EXBR_PROGRAM")


@unittest.skipUnless(PROGRAM, "no program is named")
class Names(unittest.TestCase):
    def test_each_fault_of_names(self):
        with tempfile.TemporaryDirectory(prefix="exbr-faults-") as room:
            place = faults.Place(PROGRAM, room)
            for fault in faults_of_names.FAULTS:
                with self.subTest(fault.name):
                    fine, told = faults.tried(place, fault)
                    if fine is not None:
                        self.assertTrue(fine, told)


class Words(unittest.TestCase):
    def test_a_fault_that_is_not_there(self):
        self.assertEqual(faults.chosen_by("no such fault"), [])

    def test_the_two_runs_that_lost_a_capture(self):
        names = [it.name for it in faults.chosen_by("a capture is")]
        self.assertIn("a capture is an output, by a dot", names)
        self.assertIn("a capture is a link to an output", names)


if __name__ == "__main__":
    unittest.main()
