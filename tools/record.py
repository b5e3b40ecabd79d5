"""What tools/build, tools/dist and tools/gate share: the record of a program that was built, and what it needs of a system.

A record is a text of four lines, a word and its value each: `program`, the sha256 sum of the program; `sources`, that of what it
is built of, by tools/sources; `kit`, what `rt version` said; `needs`, the system that it runs on.
"""
import hashlib
import os
import struct
import subprocess

TOP = os.path.dirname(os.path.dirname(os.path.abspath(__file__)))
WORDS = ("program", "sources", "kit", "needs")
DYNAMIC, STRTAB, VERNEED, VERNEEDNUM, NEEDED = 2, 5, 0x6FFFFFFE, 0x6FFFFFFF, 1


def sum_of(file):
    with open(file, "rb") as it:
        return hashlib.sha256(it.read()).hexdigest()


def sources_of(top=TOP):
    """The sum of the sources, by tools/sources, so that it is defined once."""
    ran = subprocess.run([os.path.join(TOP, "tools/sources"), top], capture_output=True, text=True, check=True)
    return ran.stdout.strip()


def crates_of(top=TOP):
    """The crates on which exbr stands, lowest first, and itself."""
    ran = subprocess.run([os.path.join(TOP, "tools/sources"), "--crates", top], capture_output=True, text=True, check=True)
    return ran.stdout.split()


def kit():
    """What the toolchain in the path says that it is, or None where there is none."""
    try:
        ran = subprocess.run(["rt", "version"], capture_output=True, text=True, stdin=subprocess.DEVNULL)
    except OSError:
        return None
    return ran.stdout.strip() if ran.returncode == 0 and ran.stdout.strip() else None


def read(file):
    """A record's lines by their words; nothing where there is no such file."""
    try:
        with open(file, encoding="utf-8", errors="replace") as it:
            pairs = [line.rstrip("\n").partition(" ") for line in it]
    except OSError:
        return {}
    return {word: value for word, _, value in pairs if word in WORDS}


def make(program, sources, by):
    """The record of a program, as its text."""
    values = {"program": sum_of(program), "sources": sources, "kit": by, "needs": needs_of(program)}
    return "".join(f"{word} {values[word]}\n" for word in WORDS)


def put(file, text, mode=0o644):
    """Writes a file whole or not at all."""
    data = text if isinstance(text, bytes) else text.encode()
    os.makedirs(os.path.dirname(file), exist_ok=True)
    with open(f"{file}.new", "wb") as it:
        it.write(data)
    os.chmod(f"{file}.new", mode)
    os.replace(f"{file}.new", file)


class Elf:
    """What an executable for x86-64 says of the libraries that it is loaded with."""

    def __init__(self, data):
        if data[:6] != b"\x7fELF\x02\x01" or data[18:20] != b"\x3e\x00":
            raise ValueError("it is no program for x86-64")
        self.data, (at, count) = data, (self.number(data, 32, 8), self.number(data, 56, 2))
        size = self.number(data, 54, 2)
        # Type, place in the file, address and size of each part that is loaded or read.
        self.parts = [struct.unpack_from("<I4xQQ8xQ", data, at + size * it) for it in range(count)]
        _, start, _, length = next(it for it in self.parts if it[0] == DYNAMIC)
        self.said = [struct.unpack_from("<QQ", data, it) for it in range(start, start + length, 16)]

    @staticmethod
    def number(data, at, size):
        return int.from_bytes(data[at:at + size], "little")

    def place(self, address):
        """Where what is loaded at an address stands in the file."""
        return next(place + address - start for kind, place, start, length in self.parts if kind == 1 and start <= address < start + length)

    def one(self, tag):
        return next((value for it, value in self.said if it == tag), 0)

    def text(self, offset):
        at = self.place(self.one(STRTAB)) + offset
        return self.data[at:self.data.index(b"\0", at)].decode()

    def libraries(self):
        return [self.text(value) for tag, value in self.said if tag == NEEDED]

    def entry(self, at):
        """The versions that are asked of one library, and how far the next library's entry is."""
        count, step, next_one = self.number(self.data, at + 2, 2), self.number(self.data, at + 8, 4), self.number(self.data, at + 12, 4)
        versions, at = [], at + step
        for _ in range(count):
            versions.append(self.text(self.number(self.data, at + 8, 4)))
            at += self.number(self.data, at + 12, 4)
        return versions, next_one

    def versions(self):
        """The versions that it asks of its libraries."""
        found, at = [], self.place(self.one(VERNEED)) if self.one(VERNEED) else 0
        for _ in range(self.one(VERNEEDNUM)):
            versions, step = self.entry(at)
            found, at = found + versions, at + step
        return found


def needs_of(program):
    """The system that a program runs on, as `x86-64 Linux, glibc 2.34 or later (libc.so.6)`."""
    with open(program, "rb") as it:
        elf = Elf(it.read())
    asked = [tuple(map(int, it[6:].split("."))) for it in elf.versions() if it.startswith("GLIBC_") and it[6:7].isdigit()]
    glibc = f", glibc {'.'.join(map(str, max(asked)))} or later" if asked else ""
    return f"x86-64 Linux{glibc} ({', '.join(elf.libraries())})"


def differs(program, sources, by, dist=None):
    """Why dist/ isn't what a program says that was built of these sources by this kit; nothing where it is, byte for byte."""
    dist = dist or os.path.join(TOP, "dist")
    said = read(f"{dist}/record")
    if not said or not os.path.isfile(f"{dist}/exbr"):
        return "dist/ has no program with its record: tools/dist refresh makes it"
    if said.get("kit") != by:
        return f"dist/ is of another kit, {said.get('kit')}, and this is {by}: tools/dist refresh makes it anew"
    if said.get("sources") != sources:
        return "dist/ was built of other sources than these: tools/dist refresh makes it anew"
    at = first_difference(f"{dist}/exbr", program)
    if at is not None:
        return f"dist/exbr is not the program that these sources give: they differ first at byte {at}"
    wanted = make(program, sources, by).splitlines()
    other = [line for line in wanted if line not in [f"{word} {value}" for word, value in said.items()]]
    return f"dist/record must have the line: {other[0]}" if other else None


def fault(dist=None):
    """Why dist/ isn't what its own record says, or not of the sources as they are; nothing where it is."""
    dist = dist or os.path.join(TOP, "dist")
    said = read(f"{dist}/record")
    if said and os.path.isfile(f"{dist}/exbr") and said.get("program") != sum_of(f"{dist}/exbr"):
        return "dist/exbr isn't what dist/record says: its sum is another one"
    return differs(f"{dist}/exbr", sources_of(), said.get("kit"), dist)


def first_difference(one, other):
    """The place of the first byte at which two files differ, counted from 0, or None."""
    with open(one, "rb") as first, open(other, "rb") as second:
        mine, its = first.read(), second.read()
    if mine == its:
        return None
    return next((at for at, (a, b) in enumerate(zip(mine, its)) if a != b), min(len(mine), len(its)))
