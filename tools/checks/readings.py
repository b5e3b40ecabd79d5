"""Captures (crates/exb_cases/readings.py), row by row: what a second reader and the program say of each."""
from .outcomes import as_plain, played
from .tests import Skip, Test

TOPOLOGY = "bridge = { ports = 2 }\ncaptures = { b1 = 'in.pcap' }\n"


def judge(program, file):
    """The program says of a capture what the second reader says: of a fault its line alone, and no file is made; else it plays its records as the plain bridge does."""
    import captured
    files, (_, fault) = {"topology.toml": TOPOLOGY.encode(), "in.pcap": file}, captured.read(file)
    if fault is None:
        as_plain(program, "topology.toml", files)
        return
    wanted = (4, "exbr: capture b1: %s at %d\n" % fault, "")
    ran, after = played(program, ["run", "topology.toml"], files)
    assert ran == wanted, f"{ran}, where {wanted} is wanted"
    assert after == files, f"{sorted(after.keys() - files.keys()) or 'the capture'} was made or changed"


def table(program, rows):
    """Plays each row: how many are as they must be, how many aren't, and why."""
    import readings
    faults = []
    for file, verdict in rows:
        try:
            told = readings.told(file)
            assert told == verdict, f"the second reader says {told!r}, where {verdict!r} is wanted"
            judge(program, file)
        except AssertionError as fault:
            faults.append(f"{fault}\n{file[:200].hex(' ', 4)}")
    return len(rows) - len(faults), len(faults), [], "\n".join(faults)


def skipped():
    raise Skip("the plain bridge in Python needs Python 3.11 or later")


def readings(program):
    """Each table."""
    try:
        import bridge  # noqa: F401
        import readings as tables
    except ImportError:
        return [Test("captures", "all tables", skipped)]
    return [Test("captures", name, lambda rows=rows: table(program, rows), len(rows) / 100) for name, rows in tables.tables()]
