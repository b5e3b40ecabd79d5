"""Runs of the program in folders of their own: the cases of exb_cases, the examples, numbers of `make`, and printed lines."""
import os
import re
import shutil
import subprocess
import sys
import tempfile

from .tests import Skip, Test

TOP = os.path.dirname(os.path.dirname(os.path.dirname(os.path.abspath(__file__))))
DATA = os.path.join(TOP, "crates/exb_cases/data")
# The plain bridge in Python, which tests import where they need it.
sys.path.insert(0, os.path.join(TOP, "crates/exb_cases"))
SECONDS = 60
# How a case ended, behind its name.
ENDED = re.compile(r": \d+, (\d+ files as expected|none of \d+ files is there)")


def play(program, words, folder, seconds=SECONDS):
    """Runs the program there. Its status, what it printed, and what it said on standard error."""
    try:
        ran = subprocess.run([program, *words], cwd=folder, stdin=subprocess.DEVNULL, capture_output=True, timeout=seconds)
    except subprocess.TimeoutExpired:
        raise AssertionError(f"exbr {' '.join(words)} had not ended after {seconds} seconds") from None
    return ran.returncode, ran.stdout.decode(errors="replace"), ran.stderr.decode(errors="replace")


def read(path):
    with open(path, "rb") as it:
        return it.read()


def files_below(folder):
    """Each file by its name within the folder, with its bytes."""
    found = {}
    for at, _, names in os.walk(folder):
        for name in names:
            path = os.path.join(at, name)
            found[os.path.relpath(path, folder)] = read(path)
    return found


def same(name, is_there, wanted):
    """Fails with the first byte at which a file is another one."""
    assert is_there is not None, f"{name} isn't there"
    if is_there == wanted:
        return
    at = next((at for at, (a, b) in enumerate(zip(is_there, wanted)) if a != b), min(len(is_there), len(wanted)))
    raise AssertionError(f"{name}: {len(is_there)} bytes, where {len(wanted)} are wanted; they differ first at byte {at}")


class Case:
    """A line of cases.txt: its folder, the status, the words, and the files; and what must be printed."""

    def __init__(self, line, printed):
        told, _, files = line.partition(":")
        self.name, status, words = told.split(" ", 2)
        self.status, self.printed = int(status), printed
        self.words = ["" if it == '""' else it for it in words.split()]
        self.absent = [it.lstrip("!") for it in files.split() if self.status or it.startswith("!")]
        self.written = [it for it in files.split() if not self.status and not it.startswith("!")]

    def judge(self, before, after):
        """What was written is as it must be, and nothing else is there or has changed."""
        for name in self.written:
            same(name, after.get(f"{self.name}/{name}"), read(f"{DATA}/{self.name}/expected/{name}"))
        for name in self.absent:
            assert f"{self.name}/{name}" not in after, f"{name} is there, and must not be"
        wanted = {f"{self.name}/{it}" for it in self.written}
        other = [it for it in before.keys() | after.keys() if it not in wanted and before.get(it) != after.get(it)]
        assert not other, f"{sorted(other)[0]} was made or changed"

    def run(self, program):
        with tempfile.TemporaryDirectory(prefix="exbr-case-") as room:
            shutil.copytree(f"{DATA}/{self.name}", f"{room}/{self.name}", ignore=shutil.ignore_patterns("expected"))
            before = files_below(room)
            status, printed, said = play(program, self.words, room)
            assert status == self.status, f"status {status}, where {self.status} is wanted; it printed {printed!r}"
            assert printed == self.printed, f"it printed {printed!r}, where {self.printed!r} is wanted"
            assert not said, f"on standard error: {said!r}"
            self.judge(before, files_below(room))


def cases(program):
    """Each line of cases.txt. The lines that it must print stand in the crate's file stdout, up to the one that tells how it ended."""
    with open(f"{TOP}/crates/exb_cases/stdout", encoding="utf-8") as it:
        lines = iter(it.read().splitlines())
    with open(f"{DATA}/cases.txt", encoding="utf-8") as it:
        told = it.read().splitlines()
    found = []
    for line in told:
        name, printed = line.split(" ")[0], ""
        for it in lines:
            if it.startswith(f"{name}: ") and ENDED.fullmatch(it[len(name):]):
                break
            printed += f"{it}\n"
        found.append(Case(line, printed))
    return [Test("cases", it.name, lambda it=it: it.run(program)) for it in found]


def words_of(page):
    """The words of the run that an example's page shows."""
    found = re.search(r"\.\./exbr ((?:run|net) [^\n`|&]*)", page)
    return found[1].split() if found else ["run", "topology.toml"]


def knows(program, word):
    """Whether the usage line of the program has a word."""
    return f"exbr {word} " in play(program, [], TOP)[1]


def example(program, folder):
    """A run as the example's page shows it: the files of expected/ and no others, and a line that the page has."""
    with open(f"{folder}/README.md", encoding="utf-8") as it:
        page = it.read()
    if not knows(program, words_of(page)[0]):
        raise Skip(f"this program's usage line has no word {words_of(page)[0]!r}")
    wanted = files_below(f"{folder}/expected")
    with tempfile.TemporaryDirectory(prefix="exbr-example-") as room:
        shutil.copytree(folder, f"{room}/it", ignore=shutil.ignore_patterns("expected", "out-*"))
        before = files_below(f"{room}/it")
        status, printed, said = play(program, words_of(page), f"{room}/it")
        assert status == 0, f"status {status}: {printed}"
        assert not said, f"on standard error: {said!r}"
        after = files_below(f"{room}/it")
    for name, data in wanted.items():
        same(name, after.get(name), data)
    other = [it for it in before.keys() | after.keys() if it not in wanted and before.get(it) != after.get(it)]
    assert not other, f"{sorted(other)[0]} was made or changed, and expected/ doesn't have it"
    assert printed.strip() in page, f"the page doesn't have the line {printed.strip()!r}"


def examples(program):
    found = []
    for at, folders, names in sorted(os.walk(f"{TOP}/examples")):
        if "expected" in folders and {"topology.toml", "net.toml"}.intersection(names) and "README.md" in names:
            found.append(Test("examples", os.path.relpath(at, TOP), lambda at=at: example(program, at)))
    return found


def made_by_model(program, number):
    """`make` prints what the plain bridge in Python comes to for the same number."""
    if sys.version_info < (3, 11):
        raise Skip("the plain bridge in Python needs Python 3.11 or later")
    import bridge
    from world.made import made
    topology, records = made(number)
    plain = bridge.Bridge(topology)
    plain.play(records)
    status, printed, _ = play(program, ["make", str(number)], TOP)
    assert (status, printed) == (0, f"{plain.summary()}\n"), f"status {status}, {printed!r}, where the plain bridge comes to {plain.summary()!r}"


NUMBERS = [1, 2, 3, 17, 100, 46, 65_535, 4_294_967_296, 9_999_999_999_999_999_999, 18_446_744_073_709_551_614]


def makes(program):
    return [Test("make", str(number), lambda number=number: made_by_model(program, number)) for number in NUMBERS]
