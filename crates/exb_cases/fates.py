"""Cases in which control frames are lost, come late or twice, and traces of runs."""
from frames import *
from generated import Chance

A = {"x1.1": "a.pcap"}
TEN = "vlan = [{ vid = 10, tagged = ['x1.1-2'] }]\n"
VERDICTS = {"late": "D", "doubled": "T", "lost": "L"}


def letters(kind, count):
    """So many letters of a fate."""
    chance = Chance(count)
    return "".join(VERDICTS[kind] if kind in VERDICTS else chance.one("PLTD") for _ in range(count))


def with_fate(fate, topology):
    return topology.replace("\n", f"\nlinks = {{ fate = '{fate}' }}\n", 1)


def trees():
    """Trees of one, three and eight levels with changes between their frames: how deep, topology without fates, and frames."""
    member = "1 member vid = 10, port = 'x1.2', kind = 'untagged', fate = 'FATE'"
    yield "one-level", one_extender(2, A, more=TEN + commands(member)), [(100, tagged(10)), (102, tagged(10))]
    three = [(1, "b1", 3), (2, "x1.3", 3), (3, "x2.3", 2)]
    them = commands("1 down port = 'x2.1', fate = 'FATE'",
                    "2 vlan vid = 1, untagged = ['b2', 'x1.*', 'x3.2'], tagged = ['x2.*'], fate = 'FATE'",
                    "3 up port = 'x2.1', fate = 'FATE'")
    yield "three-levels", tree(three, {"x1.1": "a.pcap"}, "ports = 2", them), [(100 + at, frame(size=20)) for at in range(5)]
    eight = [(1, "b1", 2)] + [(number, f"x{number - 1}.2", 2) for number in range(2, 9)]
    them = commands("1 down port = 'x8.2', fate = 'FATE'", "2 member vid = 1, port = 'x8.1', kind = 'tagged', fate = 'FATE'")
    yield "eight-levels", tree(eight, {"x1.1": "a.pcap"}, "ports = 2", them), [(100 + at, frame(size=20)) for at in range(4)]


def disturbed(cases):
    """The same runs whatever becomes of control frames: the plain bridge knows of no fate."""
    for depth, topology, given in trees():
        for kind in (*VERDICTS, "mixed"):
            fated = with_fate(letters(kind, 60), topology.replace("FATE", letters(kind, 20)))
            cases.plays(f"{kind}-control-frames-{depth}", fated, {"a.pcap": given})


def lost_answer(cases):
    """The answer to the request of a change is lost three times, and the change waits for it."""
    member = commands("1 member vid = 10, port = 'x1.2', kind = 'untagged', fate = 'PPLLL'")
    sent = tagged(10)
    topology, given = one_extender(2, A, more=TEN + member), {"a.pcap": [(100, sent), (102, sent)]}
    written, _ = cases.plays("lost-answer", topology, given, options="--trace")
    told = journal(*UP, *relays("x1.1 1"), "tick 1", *commits(1), "tick 1", *relays("x1.1 2"))
    assert written["out-journal.txt"] == told and written["out-x1.2.pcap"] == capture((100, sent), (102, F))
    lines = written["out-trace.txt"].decode().splitlines()
    change = lines[lines.index("= tick 1"):lines.index("= commit 1")]
    answers = [line for line in change if line.startswith("out x1 up") and " 86" not in line and "894010" in line]
    assert len(answers) == 4 and len(set(answers)) == 1 and change.count(answers[0].replace("out x1 up", "in b 1")) == 1
    cases.plays("fate-of-a-command", topology, given)


def long_fates(cases):
    """Five hundred control frames that are late or come twice, one after another."""
    one = {**out(x1_2=[(100, F)]), "out-journal.txt": journal(*UP, *relays("x1.1 1"))}
    for kind in ("late", "doubled"):
        fated = with_fate(letters(kind, 500), one_extender(2, A))
        cases.runs(f"five-hundred-{kind}", fated, {"a.pcap": [(100, F)]}, one, summary(1, 1, 0, 1))
    cases.runs("a-fate", with_fate("P", one_extender(2, A)), {"a.pcap": [(100, F)]}, one, summary(1, 1, 0, 1))
    # More is planned than there are control frames, and what is planned for a command that needs none waits for the next one.
    waiting = commands("0 up port = 'x1.1', fate = 'DDDD'", "1 down port = 'x1.2', fate = 'L'")
    cases.runs("fate-that-waits", with_fate("P" * 300, one_extender(2, A, more=waiting)), {"a.pcap": [(100, F), (101, F)]},
               {**out(x1_2=[(100, F)]),
                "out-journal.txt": journal(*UP, *commits(1), *relays("x1.1 1"), "tick 1", *commits(2), *relays("x1.1 2"))},
               summary(2, 2, 0, 1, 2))


def is_among(files, written):
    """Whether these files, captures given as records, are among those that a run writes."""
    return all(written[file] == (capture(*it) if isinstance(it, list) else it) for file, it in files.items())


def traces(cases):
    """Traces of short runs: the opening, and frames with their E-TAGs."""
    one = {**out(x1_2=[(100, F)]), "out-journal.txt": journal(*UP, *relays("x1.1 1"))}
    trace = {}
    for name, options in [("trace", "--trace"), ("trace-and-seed", "--trace --seed=3"), ("seed-and-trace", "--seed 3 --trace")]:
        seed = 3 if "seed" in name else None
        written, _ = cases.plays(name, one_extender(2, A), {"a.pcap": [(100, F)]}, options=options, seed=seed)
        assert is_among(one, written)
        trace[name] = written["out-trace.txt"]
    assert trace["trace-and-seed"] == trace["seed-and-trace"]
    begins(trace["trace"].decode().splitlines())
    sent = tagged(10, high=0xB)
    kinds = one_extender(3, A, more="vlan = [{ vid = 10, tagged = ['x1.1-2'], untagged = ['x1.3'] }]\n")
    written, _ = cases.plays("trace-of-two-kinds", kinds, {"a.pcap": [(100, sent)]}, options="--trace")
    last = written["out-trace.txt"].decode().split("= relay x1.1 1\n")[1].splitlines()
    down = [line.split()[3][24:40] for line in last if line.startswith("out b 1")]
    assert down == ["893fb00110010000", "893fb00110000000"]
    apart = "port = [{ name = 'x1.1', isolated = true }, { name = 'x1.2', isolated = true }]\n"
    cases.plays("trace-of-isolated-ports", one_extender(3, {"x1.1": "a.pcap", "x1.3": "c.pcap"}, more=apart),
                {"a.pcap": [(100, F)], "c.pcap": [(100, frame(source=THREE))]}, options="--trace")
    two = "vlan = [{ vid = 2, tagged = ['x1.1-2'] }, { vid = 3, tagged = ['x1.1', 'x1.3'] }]\n"
    down = one_extender(3, A, more=two + commands("0 down port = 'x1.1'"))
    cases.plays("trace-of-a-down", down, {"a.pcap": [(100, F), (100, frame(size=13))]}, options="--trace")
    # A port of the bridge takes and sends frames as they are. The line of a frame without a byte ends with a space.
    cases.plays("trace-without-extender", tree([], {"b1": "a.pcap"}, "ports = 3"), {"a.pcap": [(100, F), (101, b"")]}, options="--trace")
    cases.plays("trace-of-an-empty-frame", one_extender(1, A), {"a.pcap": [(100, b"")]}, options="--trace")
    deep = tree([(1, "b1", 2), (2, "x1.2", 2)], {"x2.1": "a.pcap", "b2": "b.pcap"}, "ports = 2")
    cases.plays("trace-of-two-levels", deep, {"a.pcap": [(100, F)], "b.pcap": [(101, frame(ONE, TWO))]}, options="--trace")


def begins(lines):
    """A trace begins with what was written down of it by hand: the announcement, the first request, its acknowledgement and its answer."""
    hello = "0180c200000e02454201000188cc020704024542010001040307757006020078fe0502454201020000"
    request = "0180c200000e0245420000008940100200010100000000000000010000"
    acknowledged = "0180c200000e024542010001894014020001"
    answer = "0180c200000e02454201000189401002000181000000000000000100020002"
    assert lines[:8] == ["beat", f"out x1 up {hello}", f"in b 1 {hello}", f"out b 1 {request}", f"in x1 up {request}",
                         f"out x1 up {acknowledged}", f"out x1 up {answer}", "beat"]
    up, down = (F[:12].hex() + tag + F[12:].hex() for tag in ("893f000000010000", "893f000110010000"))
    at = lines.index(f"in x1 1 {F.hex()}")
    assert lines[at:] == [f"in x1 1 {F.hex()}", f"out x1 up {up}", f"in b 1 {up}", "= relay x1.1 1", f"out b 1 {down}", f"in x1 up {down}",
                          f"out x1 2 {F.hex()}", "beat", "= settled"]


PARTS = [disturbed, lost_answer, long_fates, traces]
