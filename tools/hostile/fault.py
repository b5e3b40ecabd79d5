"""A fault by its name, and how a table of them is made."""
import os

from folders import Skipped


class Fault:
    def __init__(self, name, run):
        self.name, self.run = name, run


class Faults(list):
    """Faults in the order in which they are written."""

    def named(self, name):
        def put(run):
            self.append(Fault(name, run))
            return run

        return put


def needs_root():
    if os.geteuid():
        raise Skipped("it needs root")
