"""Runs of nets, each in a copy of its folder: the cases of crates/exb_cases/nets, and the sizes at which a file of a net ends."""
import os
import shutil
import tempfile

from .program import TOP, files_below, knows, play, same
from .tests import Skip, Test

FOLDER = os.path.join(TOP, "crates/exb_cases/nets")


class Case:
    """A line of the list: its folder, the status, the words, why it is there, and what must be printed."""

    def __init__(self, line):
        self.name, status, words, self.why, self.printed = line.rstrip("\n").split(" | ", 4)
        self.status, self.words = int(status), ["" if it == '""' else it for it in words.split()]

    def run(self, program):
        folder = f"{FOLDER}/{self.name}"
        wanted = files_below(f"{folder}/expected")
        assert bool(wanted) == (self.status == 0), "files of expected/ are there exactly where the status is 0"
        with tempfile.TemporaryDirectory(prefix="exbr-net-") as room:
            shutil.copytree(folder, f"{room}/it", ignore=shutil.ignore_patterns("expected"))
            judge(program, self.words, f"{room}/it", self.status, self.printed, wanted)


def judge(program, words, folder, wanted_status, line, wanted):
    """Plays a net there: its status and line, the files that it must write, and none beside them."""
    before = files_below(folder)
    status, printed, said = play(program, words, folder)
    assert status == wanted_status, f"status {status}, where {wanted_status} is wanted; it printed {printed!r}"
    assert printed == f"{line}\n", f"it printed {printed!r}, where {line!r} is wanted"
    assert not said, f"on standard error: {said!r}"
    after = files_below(folder)
    for name, data in wanted.items():
        same(name, after.get(name), data)
    other = [it for it in before.keys() | after.keys() if it not in wanted and before.get(it) != after.get(it)]
    assert not other, f"{sorted(other)[0]} was made or changed"


# ---- sizes, whose files are too long to be kept

NOTHING = "arrivals 0 relayed 0 ignored 0 left 0 commits 0 refusals 0"
FILE = b'[[bridge]]\nname = "a"\ntopology = "a.toml"\n#'
BIG = "".join(f"[[extender]]\nnumber = {at}\non = 'b{at}'\nports = 64\n" for at in range(1, 65))


def sized(program, files, status, line):
    with tempfile.TemporaryDirectory(prefix="exbr-net-") as room:
        for name, data in files.items():
            with open(f"{room}/{name}", "wb") as it:
                it.write(data)
        if status:
            judge(program, ["net", "net.toml"], room, status, line, {})
            return
        # 4,096 ports of extenders go up, each by requests and answers over links.
        got, printed, said = play(program, ["net", "net.toml"], room, 300)
        assert (got, printed, said) == (0, f"{line}\n", ""), f"status {got}: {printed!r} {said!r}"


def sizes(program):
    """Files of a net and topologies of the most bytes that there may be, and of one more; and as many ports as there may be."""
    topology = b"[bridge]\nports = 1\n"
    most = {f"net.toml of {count} bytes": ({"net.toml": FILE.ljust(count, b"#"), "a.toml": topology}, *wanted)
            for count, wanted in ((1_048_576, (0, NOTHING)), (1_048_577, (3, "exbr: net: Large")))}
    most["net.toml of no text, one byte too long"] = ({"net.toml": b"\xff" * 1_048_577}, 3, "exbr: net: Large")
    most["a topology of 16,777,217 bytes"] = ({"net.toml": FILE, "a.toml": b"#".ljust(16_777_217, b"#")}, 3, "exbr: topology a: Large")
    two = FILE + b'\n[[bridge]]\nname = "b"\ntopology = "b.toml"\n'
    most["4,160 ports"] = ({"net.toml": two, "a.toml": b"[bridge]\nports = 64\n" + BIG.encode(), "b.toml": b"[bridge]\nports = 64\n"}, 0, NOTHING)
    return [Test("nets", name, lambda it=it: sized(program, *it)) for name, it in most.items()]


def skipped():
    raise Skip("this program's usage line has no word `net`")


def nets(program):
    """Each line of the list, and the sizes."""
    if not knows(program, "net"):
        return [Test("nets", "all cases", skipped)]
    with open(f"{FOLDER}/cases.txt", encoding="utf-8") as it:
        found = [Case(line) for line in it]
    assert found, "there is no case"
    return [Test("nets", it.name, lambda it=it: it.run(program)) for it in found] + sizes(program)
