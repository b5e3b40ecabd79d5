"""Files with a verdict each (crates/exb_cases/verdicts), row by row: what is printed of it, the status, and that no file is made."""
import tempfile

from .program import files_below, knows, play
from .tests import Skip, Test

# One extender with one port, which has a capture.
ONE = b"bridge = { ports = 1 }\nextender = [{ number = 1, on = 'b1', ports = 1 }]\ncaptures = { 'x1.1' = 'in.pcap' }\n"


class Row:
    """The word that the program is given with the name of a file, the files that are there, and the status and text that are wanted: a text, or what
    comes to it when it is called, since that takes long of some."""

    def __init__(self, word, name, files, status, printed):
        self.words, self.files, self.status, self.printed = [word, name], files, status, printed

    def run(self, program, room):
        for name, data in self.files.items():
            with open(f"{room}/{name}", "wb") as it:
                it.write(data)
        wanted = self.status, self.printed() if callable(self.printed) else self.printed, ""
        ran = play(program, self.words, room)
        assert ran == wanted, f"{ran}, where {wanted[:2]} is wanted"
        after = files_below(room)
        assert after == self.files, f"files are {sorted(after)}, where {sorted(self.files)} are wanted as they were"

    def text(self):
        return self.files.get(self.words[1], b"").decode(errors="replace")[:2000]


def table(program, rows):
    """Plays each row in an empty folder: how many are as they must be, how many aren't, and what these print."""
    faults = []
    for row in rows:
        with tempfile.TemporaryDirectory(prefix="exbr-verdict-") as room:
            try:
                row.run(program, room)
            except AssertionError as fault:
                faults.append(f"{fault}\n{row.text()}")
    return len(rows) - len(faults), len(faults), [], "\n".join(faults)


def of_topology(file, verdict, needs):
    if verdict == "out of memory":
        return Row("check", "topology.toml", {"topology.toml": file}, 1, "exbr: out of memory\n")
    if verdict == "ok":
        return Row("check", "topology.toml", {"topology.toml": file}, 0, lambda: "".join(f"{it}\n" for it in needs(file.decode("utf-8-sig"))))
    return Row("check", "topology.toml", {"topology.toml": file}, 3, f"exbr: topology: {verdict}\n")


def of_file(file, verdict, first):
    """A file of a net without its topologies: where it has no fault, that of its first bridge is missing."""
    if verdict == "ok":
        return Row("net", "net.toml", {"net.toml": file}, 5, lambda: f"exbr: missing {first(file)}\n")
    return Row("net", "net.toml", {"net.toml": file}, 3, f"exbr: net: {verdict}\n")


def of_net(file, texts, verdict):
    files = {"net.toml": file, **{str(at): text for at, text in enumerate(texts, 1)}}
    return Row("net", "net.toml", files, 3, f"exbr: net: {verdict}\n")


# Inputs that no run takes: a large capture of no grammar, a topology past its limit, and a folder in the place of a file.
RUNS = [
    ("run", "topology.toml", {"topology.toml": ONE, "in.pcap": bytes(67_108_865)}, 4, "exbr: capture x1.1: NotPcap at 0\n"),
    ("run", "topology.toml", {"topology.toml": bytes(16_777_217), "in.pcap": b""}, 3, "exbr: topology: Large\n"),
    ("run", ".", {}, 6, "exbr: read fault\n"),
]


# Tables that take long, and how many seconds: that of long lists, which are read in Python too.
LONG = {"limits, light": 4}


def skipped():
    raise Skip("the plain bridge in Python needs Python 3.11 or later")


def verdicts(program):
    """Each table."""
    try:
        import tomllib
        import verdicts as tables
        from words import needs
    except ImportError:
        return [Test("verdicts", "all tables", skipped)]
    found = [(name, [of_topology(*it, needs) for it in rows]) for name, rows in tables.topologies()]
    if knows(program, "net"):
        found += [(name, [of_file(*it, lambda file: tomllib.loads(file.decode())["bridge"][0]["topology"]) for it in rows])
                  for name, rows in tables.files_of_nets()]
        found += [(name, [of_net(*it) for it in rows]) for name, rows in tables.nets_with_topologies()]
    found.append(("runs", [Row(*it) for it in RUNS]))
    return [Test("verdicts", name, lambda rows=rows: table(program, rows), LONG.get(name, 0)) for name, rows in found]
