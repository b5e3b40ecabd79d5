"""Words of the command line (crates/exb_cases/spellings.py): what each asks for, by what a run of it prints and writes."""
import tempfile

from .program import files_below, play, same
from .tests import Skip, Test

CAPTURE = "a.pcap"
FOLDERS = (".", "..", "/")


def is_name(name):
    """Whether a file of that name can stand in a folder."""
    return name not in ("", *FOLDERS, CAPTURE) and "/" not in name and len(name.encode()) < 256


class Wanted:
    """What comes of words: the files that are there, those that are written, the status and the line."""

    def __init__(self, usage):
        import seeded
        self.usage, self.kept = usage, {}
        files = seeded.files_of(0, 0)
        self.text, self.capture = files["topology.toml"].decode(), files[CAPTURE]

    def played(self, seed):
        """What a run of the topology writes and prints, with a trace and counters."""
        import bridge
        from world.schedule import run
        if seed not in self.kept:
            files = {CAPTURE: self.capture}
            written, summary, world = run(self.text, files, seed)
            plainly, summed = bridge.run(self.text, files, None if seed is None else world.journal)
            assert summary == summed and all(data == written[name] for name, data in plainly.items() if name != "out-counters.txt")
            self.kept[seed] = written | plainly, summary
        return self.kept[seed]

    def of_run(self, name, options):
        words = options.split()
        written, summary = self.played(int(words[words.index("seed") + 1]) if "seed" in words else None)
        silent = {f"out-{kind}.txt" for kind in ("trace", "counters") if kind not in words}
        there = {name: self.text.encode(), CAPTURE: self.capture}
        return there, {it: data for it, data in written.items() if it not in silent}, 0, f"{summary}\n"

    def of_check(self, name, _options):
        from words import needs
        return {name: self.text.encode()}, {}, 0, "".join(f"{line}\n" for line in needs(self.text))

    def of_audit(self, name, _options):
        written, _ = self.played(None)
        lines = written["out-trace.txt"].count(b"\n")
        return {name: self.text.encode(), CAPTURE: self.capture, **written}, {}, 0, f"legal {lines}\n"

    def of_net(self, name, options):
        import nets
        file, there = '[[bridge]]\nname = "a"\ntopology = "topology.toml"\n', {"topology.toml": self.text.encode(), CAPTURE: self.capture}
        written, summary = nets.run(file, there)
        return {name: file.encode(), **there}, {it: data for it, data in written.items() if "counters" in options or it != "a-counters.txt"}, 0, f"{summary}\n"

    def of_make(self, number):
        import bridge
        from world.made import made
        if ("make", number) not in self.kept:
            topology, records = made(number)
            plain = bridge.Bridge(topology)
            plain.play(records)
            self.kept["make", number] = f"{plain.summary()}\n"
        return {}, {}, 0, self.kept["make", number]

    def of(self, verdict):
        if verdict == "none":
            return {}, {}, 2, f"{self.usage}\n"
        verb, _, rest = verdict.partition(" ")
        if verb == "make":
            return self.of_make(int(rest))
        name, _, options = rest[1:].rpartition(">")
        if is_name(name):
            return getattr(self, f"of_{verb}")(name, options)
        return ({}, {}, 6, "exbr: read fault\n") if name in FOLDERS or len(name) > 255 else ({}, {}, 5, f"exbr: missing {name}\n")


def judge(program, wanted, text, verdict):
    """Plays words: status, line and files are what they ask for, and no other file was made."""
    there, written, status, line = wanted.of(verdict)
    with tempfile.TemporaryDirectory(prefix="exbr-words-") as room:
        for name, data in there.items():
            with open(f"{room}/{name}", "wb") as it:
                it.write(data)
        ran = play(program, text.split(" "), room)
        after = files_below(room)
    assert ran == (status, line, ""), f"{text[:200]!r}: {ran}, where {(status, line)} is wanted"
    for name, data in {**there, **written}.items():
        same(name, after.pop(name, None), data)
    assert not after, f"{text[:200]!r}: {sorted(after)[0]} was made"


def table(program, rows):
    """Plays all rows: how many are as they must be, how many aren't, and why."""
    from words import USAGE
    wanted, faults = Wanted(USAGE), []
    for text, verdict in rows:
        try:
            judge(program, wanted, text, verdict)
        except AssertionError as fault:
            faults.append(str(fault))
    return len(rows) - len(faults), len(faults), [], "\n".join(faults)


def skipped():
    raise Skip("the plain bridge in Python needs Python 3.11 or later")


def spellings(program):
    """Each case with its fronts and turned bits, and the limits."""
    try:
        import spellings as tables
        import words  # noqa: F401
    except ImportError:
        return [Test("words", "all tables", skipped)]
    found = [(case[0], list(tables.rows(*case))) for case in tables.CASES]
    found.append(("limits", tables.LIMITS))
    return [Test("words", name, lambda rows=rows: table(program, rows), len(rows) / 50) for name, rows in found]
