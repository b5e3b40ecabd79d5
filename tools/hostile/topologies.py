#!/usr/bin/env python3
"""Makes topology files of 16 MiB that ask much of a reader of TOML, has the program check each, and prints for each the status,
what it says, the seconds of processor time, and the most memory that it had at once.

    tools/hostile/topologies.py [--program FILE] [--bytes N] [--only WORD] [--room MIB] [--keep FOLDER]

The program is the one that ./exbr runs, if none is named. With --room it gets no more addresses than so many MiB, and with --keep the
files stay in that folder. A file is to take at most 1 GiB, or to end with status 1; the last line says whether each did.
"""
import argparse
import os
import resource
import subprocess
import sys
import tempfile

sys.dont_write_bytecode = True
from folders import program_of

LARGEST = 16_777_216
SITE = "bridge.ports = 64\n"


def filled(front, piece, back, size):
    """A piece as often as it fits between a front and a back."""
    return front + piece * ((size - len(front) - len(back)) // len(piece)) + back


def numbered(front, piece, back, size):
    """The same where each piece has its number in the place of N."""
    parts, left, at = [front], size - len(front) - len(back), 0
    while True:
        part = piece.replace("N", f"{at:x}")
        if len(part) > left:
            return "".join(parts) + back
        parts.append(part)
        left -= len(part)
        at += 1


def balanced(front, opening, middle, closing, back, size):
    """An opening as often as its closing."""
    times = (size - len(front) - len(middle) - len(back)) // (len(opening) + len(closing))
    return front + opening * times + middle + closing * times + back


def deep(times, opening, middle, closing):
    return opening * times + middle + closing * times


DOTS = ".a" * 78
# Each file by its name: a function of its size. 80 levels are the most that are read.
FILES = {
    "arrays without an end": lambda size: filled(SITE + "a = ", "[", "", size),
    "arrays in one another": lambda size: balanced(SITE + "a = ", "[", "", "]", "\n", size),
    "inline tables in one another": lambda size: balanced(SITE + "a = ", "{a=", "1", "}", "\n", size),
    "arrays and tables in one another": lambda size: balanced(SITE + "a = ", "[{a=", "1", "}]", "\n", size),
    "a key of many parts": lambda size: filled(SITE + "a", ".a", " = 1\n", size),
    "a header of many parts": lambda size: filled(SITE + "[a", ".a", "]\n", size),
    "keys of 80 parts, each in tables of its own": lambda size: numbered(SITE, f"N{DOTS}.a=1\n", "", size),
    "headers of 80 parts, each in tables of its own": lambda size: numbered(SITE, f"[N{DOTS}.a]\n", "", size),
    "arrays 79 deep, one after another": lambda size: filled(SITE + "a = [", deep(79, "[", "", "]") + ",", "]\n", size),
    "inline tables 79 deep, one after another": lambda size: filled(SITE + "a = [", deep(79, "{a=", "1", "}") + ",", "]\n", size),
    "inline tables with keys of 78 parts": lambda size: filled(SITE + "a = [", f"{{a{DOTS[2:]}=1}},", "]\n", size),
    "an array of numbers": lambda size: filled(SITE + "a = [", "1,", "1]\n", size),
    "an array of empty arrays": lambda size: filled(SITE + "a = [", "[],", "[]]\n", size),
    "an array of empty tables": lambda size: filled(SITE + "a = [", "{},", "{}]\n", size),
    "an array of empty strings": lambda size: filled(SITE + "a = [", "'',", "'']\n", size),
    "an array of tables with a key": lambda size: filled(SITE + "a = [", "{a=1},", "{}]\n", size),
    "a list of empty commands": lambda size: filled(SITE, "[[command]]\n", "", size),
    "a list of ports": lambda size: filled(SITE + "[[vlan]]\nvid = 2\ntagged = [", "'b1',", "'b2']\n", size),
    "a list of all ports, again and again": lambda size: filled(SITE + "[[vlan]]\nvid = 2\ntagged = [", "'*',", "'*']\n", size),
    "tables": lambda size: numbered(SITE, "[N]\n", "", size),
    "tables with a key": lambda size: numbered(SITE, "[N]\na=1\n", "", size),
    "lists of tables with a key": lambda size: filled(SITE, "[[a]]\nb=1\n", "", size),
    "keys": lambda size: numbered(SITE, "N=1\n", "", size),
    "captures": lambda size: numbered(SITE + "[captures]\n", "N=''\n", "", size),
    "keys of an inline table": lambda size: numbered(SITE + "a = {", "N=1,", "z=1}\n", size),
    "the same key again and again": lambda size: filled(SITE, "a=1\n", "", size),
    "a long key": lambda size: filled(SITE, "a", " = 1\n", size),
    "a long string": lambda size: filled(SITE + "a = '", "a", "'\n", size),
    "a long string of escapes": lambda size: filled(SITE + 'a = "', "\\n", '"\n', size),
    "a long text without an end": lambda size: filled(SITE + "a = '''", "\n", "", size),
    "a name of a file": lambda size: filled("bridge = {ports = 64, out = '", "a", "'}\n", size),
    "a long number": lambda size: filled(SITE + "a = ", "1", "\n", size),
    "a fate": lambda size: filled(SITE + "links.fate = '", "P", "'\n", size),
    "a comment": lambda size: filled(SITE + "#", "[", "\n", size),
    "comments": lambda size: filled(SITE, "#\n", "", size),
    "line ends": lambda size: filled(SITE, "\r\n", "", size),
    "blanks": lambda size: filled(SITE, " ", "\n", size),
    "equals signs": lambda size: filled(SITE, "=", "\n", size),
    "quotation marks": lambda size: filled(SITE, '"', "\n", size),
    "faults on each line": lambda size: filled(SITE, "[\n", "", size),
}


def write(path, make, size):
    """Writes a file, in a process of its own: a child's memory counts from that of this process on, so this one stays small."""
    writer = os.fork()
    if writer == 0:
        with open(path, "w", encoding="utf-8", newline="") as out:
            out.write(make(size))
        os._exit(0)
    os.waitpid(writer, 0)
    assert size - 200 < os.path.getsize(path) <= size, path


def checked(program, folder, room):
    """Status, print, seconds of processor time and KiB of memory of a check of the topology in a folder."""
    limit = (lambda: resource.setrlimit(resource.RLIMIT_AS, (room * 2**20,) * 2)) if room else None
    with open(os.path.join(folder, "out"), "wb") as out:
        child = subprocess.Popen([program, "check", "t.toml"], cwd=folder, stdout=out, preexec_fn=limit)
        _, status, used = os.wait4(child.pid, 0)
        child.returncode = os.waitstatus_to_exitcode(status)
    with open(os.path.join(folder, "out"), "rb") as out:
        printed = out.read(200).decode(errors="replace").strip().replace("\n", ", ").removeprefix("exbr: ")
    return child.returncode, printed, used.ru_utime + used.ru_stime, used.ru_maxrss


def main():
    words = argparse.ArgumentParser(description=__doc__, formatter_class=argparse.RawDescriptionHelpFormatter)
    words.add_argument("--program", metavar="FILE")
    words.add_argument("--bytes", type=int, default=LARGEST)
    words.add_argument("--only", default="")
    words.add_argument("--room", type=int)
    words.add_argument("--keep")
    words = words.parse_args()
    program = program_of(words.program)
    print("| File | Status | What is said | Seconds | MiB |\n|---|---|---|---|---|")
    worst = []
    with tempfile.TemporaryDirectory() as folder:
        for name, make in FILES.items():
            if words.only not in name:
                continue
            write(os.path.join(folder, "t.toml"), make, words.bytes)
            status, printed, seconds, memory = checked(program, folder, words.room)
            said = printed if len(printed) <= 50 else f"{printed[:50]} .."
            print(f"| {name} | {status} | {said} | {seconds:.1f} | {memory / 1024:.0f} |", flush=True)
            if memory > 2**20 and status != 1:
                worst.append(name)
            if words.keep:
                os.makedirs(words.keep, exist_ok=True)
                os.replace(os.path.join(folder, "t.toml"), os.path.join(words.keep, f"{name.replace(' ', '-')}.toml"))
    print(f"\nmore than 1 GiB: {', '.join(worst) if worst else 'none'}")
    return 1 if worst else 0


if __name__ == "__main__":
    sys.exit(main())
