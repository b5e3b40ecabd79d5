"""Runs beside the plain bridge in Python: small inputs of which is said what comes of them (crates/exb_cases/outcomes.py) or what is asked of extenders
(crates/exb_cases/exchanges.py), and generated ones (crates/exb_cases/trials.py); and beside the tree over links, which a seed plays (crates/exb_cases/seeded.py). What is printed, and each file byte
for byte."""
import tempfile

from .program import files_below, play, same
from .tests import Skip, Test


def played(program, words, files):
    """Plays these files: the status with what is printed, and the files that are there then."""
    with tempfile.TemporaryDirectory(prefix="exbr-outcome-") as room:
        for file, data in files.items():
            with open(f"{room}/{file}", "wb") as it:
                it.write(data)
        ran = play(program, words, room)
        return ran, files_below(room)


def judge(program, words, files, written, summary):
    """Plays these files: the run writes and prints this, and makes no other file."""
    ran, after = played(program, words, files)
    assert ran == (0, f"{summary}\n", ""), f"{ran}, where {summary} is wanted"
    for file, data in {**files, **written}.items():
        same(file, after.pop(file, None), data)
    assert not after, f"{sorted(after)[0]} was made"


def as_plain(program, name, files):
    """Plays a topology with its captures as the plain bridge does. What was written, and the summary."""
    import bridge
    written, summary = bridge.run(files[name].decode(), files)
    judge(program, ["run", name, "--counters"], files, written, summary)
    return written, summary


def row(program, topology, frames, wanted):
    """Plays a row, of which comes what it says, in words or as a summary."""
    import bridge
    import captured
    import outcomes
    written, told = as_plain(program, "topology.toml", outcomes.files_of(topology, frames))
    if not wanted.startswith("arrivals "):
        left = {bridge.number_of(name[4:-5]): captured.read(data)[0] for name, data in written.items() if name.endswith(".pcap")}
        told = outcomes.told(written["out-journal.txt"].decode().splitlines(), left)
    assert told == wanted, f"{told}, where {wanted} is wanted"


def exchange(program, row):
    """Plays a row by what a bridge asks, tells and sends, with its trace."""
    import exchanges
    import outcomes
    ran, after = played(program, ["run", "topology.toml", "--trace", "--counters"], outcomes.files_of(*row[:2]))
    assert ran[0] == 0, f"{ran}, where status 0 is wanted"
    exchanges.agrees(row, after)


def trial(program, number, extenders):
    import trials
    as_plain(program, "trial.toml", trials.trial(number, extenders))


def seed(program, number, budget):
    """Plays a seed, with a trace and without one, as the tree over links does."""
    import seeded
    files = seeded.files_of(number, budget)
    written, summary = seeded.written(number, files)
    judge(program, ["run", "topology.toml", "--seed", str(number), "--trace"], files, written, summary)
    written.pop("out-trace.txt")
    judge(program, ["run", "topology.toml", f"--seed={number}"], files, written, summary)


def trace_over(program, text, fate, options):
    """The trace of a run with this fate."""
    import disturbed
    ran, after = played(program, ["run", "t.toml", "--trace", *options], disturbed.counted(text, fate))
    assert ran[0] == 0, f"{ran}, where status 0 is wanted"
    return after["out-trace.txt"]


def asked(program, text, options):
    """A run asks its fate once for each control frame that a device takes in."""
    import disturbed
    whole = trace_over(program, text, "", options)
    count = disturbed.control_in(whole)
    assert count > 10, f"{count} control frames"
    assert trace_over(program, text, "P" * count + "L", options) == whole, f"the fate is asked more than {count} times"
    assert trace_over(program, text, "P" * (count - 1) + "L", options) != whole, f"the fate is asked less than {count} times"


def skipped():
    raise Skip("the plain bridge in Python needs Python 3.11 or later")


def disturbed_run(program, files):
    as_plain(program, "t.toml", files())


def over_links(program):
    """Runs that links disturb as much as they may, and runs whose control frames are counted."""
    import disturbed
    found = [Test("outcomes", name, lambda it=files: disturbed_run(program, it)) for name, files in [*disturbed.chains(), *disturbed.lost_answers()]]
    for at, text in enumerate(disturbed.COUNTED, 1):
        for options in ([], ["--seed=3"]):
            found.append(Test("outcomes", f"control frames of {at} {' '.join(options)}".strip(), lambda it=(text, options): asked(program, *it)))
    return found


def outcomes(program):
    """Each row, each trial and each seed, by its number."""
    try:
        import disturbed
        import exchanges
        import outcomes as tables
        import seeded
        import trials
    except ImportError:
        return [Test("outcomes", "all rows and trials", skipped)]
    found = [Test("outcomes", f"row {at}", lambda it=it: row(program, *it)) for at, it in enumerate([*tables.OUTCOMES, *tables.SUMMARY], 1)]
    found += [Test("outcomes", f"exchange {at}", lambda it=it: exchange(program, it)) for at, it in enumerate(exchanges.table(), 1)]
    for first, sizes in trials.TRIALS:
        found += [Test("outcomes", f"trial {first + size} of {size} extenders", lambda it=(first + size, size): trial(program, *it)) for size in sizes]
    found += over_links(program)
    return found + [Test("outcomes", f"seed {number}{' over drawn verdicts' if budget else ''}", lambda it=(number, budget): seed(program, *it))
                    for number, budget in seeded.SEEDS]
