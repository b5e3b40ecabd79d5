"""Cases of commands: ports that go down and up, VLANs and rules that change between frames, and changes that are refused."""
from frames import *

A = {"x1.1": "a.pcap"}
B = {"x1.2": "b.pcap"}


def presence(cases):
    """Ports that go down and up, and channels that are given again."""
    cases.runs("a-command", one_extender(2, A, more=commands("0 down port = 'x1.1'")), {"a.pcap": [(100, F)]},
               {"out-journal.txt": journal(*UP, *commits(1), "ignore x1.1 1", "settled")}, summary(1, 0, 1, 0, 1))
    both = commands("0 down port = 'x1.2'", "1 up port = 'x1.2'")
    cases.runs("down-and-up", one_extender(2, A, more=both), {"a.pcap": [(100, F), (101, F)]},
               {**out(x1_2=[(101, F)]),
                "out-journal.txt": journal(*UP, *commits(1), *relays("x1.1 1"), "tick 1", *commits(2), *relays("x1.1 2"))},
               summary(2, 2, 0, 1, 2))
    cases.runs("port-that-is-down", one_extender(2, B, more=commands("0 down port = 'x1.2'")), {"b.pcap": [(100, F)]},
               {"out-journal.txt": journal(*UP, *commits(1), "ignore x1.2 1", "settled")}, summary(1, 0, 1, 0, 1))
    cases.runs("up-of-a-port-that-is-up", one_extender(2, A, more=commands("0 up port = 'x1.1'")), {"a.pcap": []},
               {"out-journal.txt": journal(*UP, *commits(1))}, summary(0, 0, 0, 0, 1))
    again = commands("0 down port = 'x1.1'", "0 up port = 'x1.2'")
    cases.runs("channel-given-again", one_extender(2, B, "ports = 2, channels = 1", again), {"b.pcap": [(100, F)]},
               {**out(b2=[(100, F)]),
                "out-journal.txt": journal("up x1.1", "noup x1.2 channels 2 1", "settled", *commits(1, 2), *relays("x1.2 1"))},
               summary(1, 1, 0, 1, 2))
    # What was learned at a port that goes down is forgotten, also at one of the bridge.
    back = frame(ONE, TWO)
    local = commands("1 down port = 'b2'", "2 up port = 'b2'")
    cases.runs("port-of-the-bridge-down", one_extender(2, {"b2": "b.pcap", **A}, "ports = 2", local),
               {"b.pcap": [(100, F), (101, F)], "a.pcap": [(100, back), (101, back), (102, back)]},
               {**out(b2=[(100, back), (102, back)], x1_1=[(100, F)], x1_2=[(100, F), (101, back), (102, back)]),
                "out-journal.txt": journal(*UP, *relays("b2 1", "x1.1 1"), "tick 1", *commits(1), "ignore b2 2", "settled", *relays("x1.1 2"),
                                           "tick 1", *commits(2), *relays("x1.1 3"))}, summary(5, 4, 1, 6, 2))
    # The port that goes down is in two sets that two others take the place of.
    two = "vlan = [{ vid = 2, tagged = ['x1.1', 'x1.2'] }, { vid = 3, tagged = ['x1.1', 'x1.3'] }]\n"
    away = commands("0 down port = 'x1.1'", "1 up port = 'x1.1'")
    second, third = tagged(2), tagged(3)
    cases.runs("down-in-two-vlans", one_extender(3, {"x1.2": "b.pcap", "x1.3": "c.pcap"}, more=two + away),
               {"b.pcap": [(100, second), (101, second)], "c.pcap": [(100, third), (101, third)]},
               {**out(x1_1=[(101, second), (101, third)]),
                "out-journal.txt": journal(*UP3, *commits(1), *relays("x1.2 1", "x1.3 1"), "tick 1", *commits(2), *relays("x1.2 2", "x1.3 2"))},
               summary(4, 4, 0, 2, 2))
    # No record tells the start, so it is second 0. The last command comes as late as one can.
    late = commands("0 unmember vid = 1, port = 'x1.2'", "5 member vid = 1, port = 'x1.2', kind = 'tagged'", "4294967295 down port = 'x1.2'")
    cases.runs("commands-alone", one_extender(2, A, more=late), {"a.pcap": []},
               {"out-journal.txt": journal(*UP, *commits(1), "tick 5", *commits(2), "tick 4294967290", *commits(3))}, summary(0, 0, 0, 0, 3))


def members(cases):
    """VLANs that change, and changes for which groups don't suffice."""
    sent, ten = tagged(10), "vlan = [{ vid = 10, tagged = ['x1.1-2'] }]\n"
    member = commands("1 member vid = 10, port = 'x1.2', kind = 'untagged'")
    changed = {**out(x1_2=[(100, sent), (102, F)]),
               "out-journal.txt": journal(*UP, *relays("x1.1 1"), "tick 1", *commits(1), "tick 1", *relays("x1.1 2"))}
    cases.runs("retagged-member", one_extender(2, A, more=ten + member), {"a.pcap": [(100, sent), (102, sent)]}, changed, summary(2, 2, 0, 2, 1))
    # The untagged set of x1.2 is there already, for another VLAN.
    twenty = ten.replace("}]", "}, { vid = 20, untagged = ['x1.2'] }]")
    cases.runs("set-of-another-vlan", one_extender(2, A, more=twenty + member), {"a.pcap": [(100, sent), (102, sent)]}, changed,
               summary(2, 2, 0, 2, 1))
    short = commands("0 vlan vid = 2, tagged = ['x1.1', 'x1.2']", "0 vlan vid = 3, tagged = ['x1.1']", "0 vlan vid = 2")
    cases.runs("a-group-too-few", one_extender(3, B, "ports = 1, groups = 2", short), {"b.pcap": [(100, tagged(3))]},
               {"out-journal.txt": journal(*UP3, *commits(1), "refuse 2 groups 3 2", "settled", *commits(3), *relays("x1.2 1"))},
               summary(1, 1, 0, 0, 2, 1))
    # The second would want three groups below b1 and four below b2, the third four below b2 alone; the fourth has its sets there.
    wanted = commands("0 vlan vid = 5, tagged = ['x1.1', 'x2.2']", "0 vlan vid = 6, tagged = ['x1.2', 'x2.1'], untagged = ['x2.3']",
                      "0 vlan vid = 6, tagged = ['x2.1'], untagged = ['x2.3']", "0 vlan vid = 6, untagged = ['x1.1']")
    cases.runs("the-first-trunk-that-is-short", tree([(1, "b1", 2), (2, "b2", 3)], B, "ports = 2, groups = 2", wanted),
               {"b.pcap": [(100, tagged(6))]},
               {**out(x1_1=[(100, F)]),
                "out-journal.txt": journal("up x1.1", "up x1.2", "up x2.1", "up x2.2", "up x2.3", "settled", *commits(1), "refuse 2 groups 3 2",
                                           "settled", "refuse 3 groups 4 2", "settled", *commits(4), *relays("x1.2 1"))},
               summary(1, 1, 0, 1, 2, 2))
    # Where its last member is taken out a VLAN isn't there, and nothing passes in it.
    last = commands("1 unmember vid = 10, port = 'x1.1'", "1 unmember vid = 10, port = 'x1.2'", "2 member vid = 10, port = 'x1.2', kind = 'tagged'")
    cases.runs("vlan-comes-and-goes", one_extender(2, A, more=ten + last), {"a.pcap": [(100, sent), (101, sent), (102, sent)]},
               {**out(x1_2=[(100, sent), (102, sent)]),
                "out-journal.txt": journal(*UP, *relays("x1.1 1"), "tick 1", *commits(1, 2), *relays("x1.1 2"), "tick 1", *commits(3),
                                           *relays("x1.1 3"))}, summary(3, 3, 0, 2, 3))
    # Three VLANs change hands. The set of one is then that of the next, so three groups suffice.
    turns = commands(*[f"{at} vlan vid = {vid}, tagged = ['x1.{1 + (vid + at) % 3}']" for at in (1, 2) for vid in (2, 3, 4)])
    given = "vlan = [" + ", ".join(f"{{ vid = {vid}, tagged = ['x1.{1 + vid % 3}'] }}" for vid in (2, 3, 4)) + "]\n"
    frames = [(100 + at, tagged(vid)) for at in range(3) for vid in (2, 3, 4)]
    cases.runs("vlans-take-turns", one_extender(3, {"b2": "a.pcap"}, "ports = 2, groups = 3", given + turns), {"a.pcap": frames},
               {**{f"out-x1.{port}.pcap": [(at, it) for at, it in frames if 1 + (it[15] + at - 100) % 3 == port] for port in (1, 2, 3)},
                "out-journal.txt": journal(*UP3, *relays("b2 1", "b2 2", "b2 3"), "tick 1", *commits(1, 2, 3), *relays("b2 4", "b2 5", "b2 6"),
                                           "tick 1", *commits(4, 5, 6), *relays("b2 7", "b2 8", "b2 9"))}, summary(9, 9, 0, 9, 6))


def rules(cases):
    """Rules of a port that change."""
    given = "vlan = [{ vid = 1, untagged = ['*'] }, { vid = 10, tagged = ['x1.2'] }]\n"
    them = commands("1 accept port = 'x1.1', accept = 'tagged'", "2 accept port = 'x1.1', accept = 'all'", "2 filter port = 'x1.1', filter = true",
                    "2 pvid port = 'x1.1', vid = 10", "3 member vid = 10, port = 'x1.1', kind = 'untagged'")
    cases.runs("rules-change", one_extender(2, A, more=given + them), {"a.pcap": [(100 + at, F) for at in range(4)]},
               {**out(x1_2=[(100, F), (103, tagged(10))]),
                "out-journal.txt": journal(*UP, *relays("x1.1 1"), "tick 1", *commits(1), *relays("x1.1 2"), "tick 1", *commits(2, 3, 4),
                                           *relays("x1.1 3"), "tick 1", *commits(5), *relays("x1.1 4"))}, summary(4, 4, 0, 2, 5))


PARTS = [presence, members, rules]
