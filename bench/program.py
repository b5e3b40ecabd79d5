"""The program that is measured: the one that EXBR=FILE names, or else the one that ./exbr runs."""
import functools
import os
import subprocess
import sys

TOP = os.path.dirname(os.path.dirname(os.path.abspath(__file__)))


@functools.cache
def program():
    """Its path. If there is no program of these sources, tools/program says so and what helps, and nothing is measured."""
    if "EXBR" in os.environ:
        return os.path.abspath(os.environ["EXBR"])
    found = subprocess.run([f"{TOP}/tools/program"], stdout=subprocess.PIPE, text=True, check=False)
    if found.returncode:
        sys.exit(found.returncode)
    return found.stdout.strip()
