#!/usr/bin/env python3
"""Tries the wrong bodies that the gate leaves out, which stand in tools/wrong-bodies/CRATE:

    tools/wrong_bodies.py [CRATE..]

Each is an edit of the code that the prover must refuse, written as those of must-fail/ are. They are tried on a copy of the
repository in the system's folder for such, beside the crate's own, by `rt must-fail`; its status is that of this script.
Run it for a crate whose contracts changed. Crates below it that aren't proved on this machine are proved first.
"""
import argparse
import os
import shutil
import subprocess
import sys
import tempfile

TOP = os.path.dirname(os.path.dirname(os.path.abspath(__file__)))
BODIES = os.path.join(TOP, "tools", "wrong-bodies")


def copy_with(crates, folder):
    """Copies what is proved, and puts the edits of these crates beside their own."""
    for name in ("crates", "crates.txt", "HANDLES"):
        source, target = os.path.join(TOP, name), os.path.join(folder, name)
        if os.path.isdir(source):
            shutil.copytree(source, target, ignore=shutil.ignore_patterns("out"))
        else:
            shutil.copy2(source, target)
    for crate in crates:
        shutil.copytree(os.path.join(BODIES, crate), os.path.join(folder, "crates", crate, "must-fail"), dirs_exist_ok=True)


def main():
    known = sorted(os.listdir(BODIES))
    parser = argparse.ArgumentParser(description=__doc__, formatter_class=argparse.RawDescriptionHelpFormatter)
    parser.add_argument("crates", nargs="*", metavar="CRATE", help="all that have wrong bodies, if none is named")
    crates = parser.parse_args().crates or known
    lacking = [crate for crate in crates if crate not in known]
    if lacking:
        sys.exit(f"{lacking[0]} has no wrong bodies in tools/wrong-bodies: there are those of {' '.join(known)}")
    with tempfile.TemporaryDirectory(prefix="exbr-wrong-bodies-") as folder:
        copy_with(crates, folder)
        # What rt ci kept of the crates below; where this can't be had, they are proved.
        subprocess.run([os.path.join(TOP, "tools", "check"), "--lay", folder], stderr=subprocess.DEVNULL, check=False)
        sys.exit(subprocess.run(["rt", "must-fail", *crates], cwd=folder).returncode)


if __name__ == "__main__":
    main()
