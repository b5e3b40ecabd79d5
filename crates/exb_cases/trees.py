"""Cases over trees of extenders: openings, frames through levels, isolated ports, static entries."""
from frames import *

A = {"x1.1": "a.pcap"}
BACK = frame(ONE, TWO)
OTHER = frame(source=THREE)


def openings(cases):
    """Trees that open."""
    cases.runs("two-extenders", tree([(1, "b1", 2), (2, "b2", 2)], {"x1.1": "a.pcap", "x2.2": "b.pcap"}, "ports = 2"),
               {"a.pcap": [(100, F)], "b.pcap": [(101, BACK)]},
               {**out(x1_1=[(101, BACK)], x1_2=[(100, F)], x2_1=[(100, F)], x2_2=[(100, F)]),
                "out-journal.txt": journal("up x1.1", "up x1.2", "up x2.1", "up x2.2", "settled", *relays("x1.1 1"), "tick 1",
                                           *relays("x2.2 1"))}, summary(2, 2, 0, 4))
    cases.runs("no-extender", tree([], {"b1": "a.pcap"}, "ports = 3"), {"a.pcap": [(100, F)]},
               {**out(b2=[(100, F)], b3=[(100, F)]), "out-journal.txt": journal("settled", *relays("b1 1"))}, summary(1, 1, 0, 2))
    cases.runs("one-external-port", tree([(1, "b1", 1), (2, "x1.1", 1), (3, "x2.1", 1)], {"x3.1": "a.pcap"}), {"a.pcap": [(100, F)]},
               {"out-journal.txt": journal("up x3.1", "settled", *relays("x3.1 1"))}, summary(1, 1, 0, 0))
    # By depth and then number, in whatever order the file has them.
    cases.runs("order-of-opening", tree([(3, "x9.1", 2), (9, "b1", 2), (5, "b2", 1), (1, "x3.2", 1)], {}, "ports = 2"), {},
               {"out-journal.txt": journal("up x5.1", "up x9.2", "up x3.1", "up x1.1", "settled")}, summary(0, 0, 0, 0))
    chain = [(1, "b1", 1)] + [(number, f"x{number - 1}.1", 1) for number in range(2, 65)]
    cases.runs("chain-of-64", tree(chain, {"b2": "a.pcap", "x64.1": "b.pcap"}, "ports = 2"), {"a.pcap": [(100, F)], "b.pcap": [(100, BACK)]},
               {**out(b2=[(100, BACK)], x64_1=[(100, F)]), "out-journal.txt": journal("up x64.1", "settled", *relays("b2 1", "x64.1 1"))},
               summary(2, 2, 0, 2))
    broom = [(1, "b1", 64)] + [(number, f"x1.{number - 1}", 1) for number in range(2, 65)]
    ends = [f"x{number}.1" for number in range(2, 65)]
    flooded = {f"out-{port}.pcap": [(100, F)] for port in ["x1.64", *ends]}
    cases.runs("broom-of-64", tree(broom, {"x40.1": "a.pcap", "x1.64": "b.pcap"}), {"a.pcap": [(100, F)], "b.pcap": [(101, BACK)]},
               {**flooded, "out-x40.1.pcap": [(101, BACK)],
                "out-journal.txt": journal("up x1.64", *[f"up {port}" for port in ends], "settled", *relays("x40.1 1"), "tick 1",
                                           *relays("x1.64 1"))}, summary(2, 2, 0, 64))


def shortages(cases):
    """Trees for which channels or groups don't suffice, or just suffice."""
    one = {**out(x1_2=[(100, F)]), "out-journal.txt": journal(*UP, *relays("x1.1 1"))}
    cases.runs("three-groups", one_extender(2, A, "ports = 1, groups = 3"), {"a.pcap": [(100, F)]}, one, summary(1, 1, 0, 1))
    cases.runs("nine-channels", one_extender(2, A, "ports = 1, channels = 9"), {"a.pcap": [(100, F)]}, one, summary(1, 1, 0, 1))
    cases.runs("one-group", one_extender(2, A, "ports = 1, groups = 1"), {"a.pcap": [(100, F)]},
               {"out-journal.txt": journal("up x1.1", "noup x1.2 groups 2 1", "settled", *relays("x1.1 1"))}, summary(1, 1, 0, 0))
    # Each port of the bridge has channels of its own.
    cases.runs("channels-of-each-trunk", tree([(1, "b1", 1), (2, "b2", 1)], A, "ports = 2, channels = 1"), {"a.pcap": [(100, F)]},
               {**out(x2_1=[(100, F)]), "out-journal.txt": journal("up x1.1", "up x2.1", "settled", *relays("x1.1 1"))},
               summary(1, 1, 0, 1))
    cases.runs("channels-run-out", tree([(1, "b1", 1), (2, "b2", 2)], A, "ports = 2, channels = 1"), {"a.pcap": [(100, F)]},
               {**out(x2_1=[(100, F)]),
                "out-journal.txt": journal("up x1.1", "up x2.1", "noup x2.2 channels 2 1", "settled", *relays("x1.1 1"))},
               summary(1, 1, 0, 1))
    # The port on which x2 hangs has one of the two channels, and x1.1 gives the other back when it goes down.
    taken = commands("0 up port = 'x2.1'", "1 down port = 'x1.1'", "1 up port = 'x2.2'")
    cases.runs("channel-of-a-cascade-port", tree([(1, "b1", 2), (2, "x1.2", 2)], {"x2.2": "a.pcap"}, "ports = 2, channels = 2", taken),
               {"a.pcap": [(100, F), (101, F)]},
               {**out(b2=[(101, F)]),
                "out-journal.txt": journal("up x1.1", "noup x2.1 channels 3 2", "noup x2.2 channels 3 2", "settled",
                                           "refuse 1 channels 3 2", "settled", "ignore x2.2 1", "settled", "tick 1", *commits(2, 3),
                                           *relays("x2.2 2"))}, summary(2, 1, 1, 1, 2, 1))
    # Two sets before the up of the third port, and two others after it: with it, and with it but without x1.1.
    apart = "port = [{ name = 'x1.1', isolated = true }]\n"
    cases.runs("groups-for-isolated-ports", one_extender(3, A, "ports = 1, groups = 3", apart), {"a.pcap": [(100, F)]},
               {**out(x1_2=[(100, F)]),
                "out-journal.txt": journal("up x1.1", "up x1.2", "noup x1.3 groups 4 3", "settled", *relays("x1.1 1"))},
               summary(1, 1, 0, 1))


LEVELS = [(1, "b2", 4), (2, "x1.4", 3), (3, "x2.3", 2), (4, "b3", 2)]
LEVELS_UP = [f"up x{port}" for port in ("1.1", "1.2", "1.3", "4.1", "4.2", "2.1", "2.2", "3.1", "3.2")] + ["settled"]


def levels(cases):
    """Frames through a tree of three levels."""
    to_one, to_two = frame(ONE, THREE), frame(TWO, THREE)
    heard = dict.fromkeys(("b1", "b4", "x1_1", "x1_2", "x1_3", "x2_1", "x2_2", "x3_2", "x4_1"), [(100, F)])
    cases.runs("three-levels", tree(LEVELS, {"x3.1": "a.pcap", "x4.2": "b.pcap", "b1": "c.pcap"}, "ports = 4"),
               {"a.pcap": [(100, F)], "b.pcap": [(101, BACK)], "c.pcap": [(102, to_two), (102, to_one)]},
               {**out(**heard, x3_1=[(101, BACK), (102, to_one)], x4_2=[(100, F), (102, to_two)]),
                "out-journal.txt": journal(*LEVELS_UP, *relays("x3.1 1"), "tick 1", *relays("x4.2 1"), "tick 1", *relays("b1 1", "b1 2"))},
               summary(4, 4, 0, 13))
    vlans = "vlan = [{ vid = 5, tagged = ['b1', 'x2.1'], untagged = ['x1.1', 'x3.*', 'x4.2'] }]\nport = [{ name = 'x3.1', pvid = 5 }]\n"
    both = [frame(size=9216), frame(size=14)]
    with_tag = [(100, it[:12] + b"\x81\x00\x00\x05" + it[12:]) for it in both]
    without = [(100, it) for it in both]
    cases.runs("longest-and-shortest-through-levels", tree(LEVELS, {"x3.1": "a.pcap"}, "ports = 4", vlans), {"a.pcap": without},
               {**out(b1=with_tag, x1_1=without, x2_1=with_tag, x3_2=without, x4_2=without),
                "out-journal.txt": journal(*LEVELS_UP, *relays("x3.1 1", "x3.1 2"))}, summary(2, 2, 0, 10))
    # A priority tag keeps PCP and DEI, gets the VLAN of its port, and loses all where members are untagged.
    priority = tagged(0, high=0xB)
    cases.runs("priority-tag-through-levels", tree(LEVELS, {"x3.1": "a.pcap"}, "ports = 4", vlans), {"a.pcap": [(100, priority)]},
               {**out(b1=[(100, tagged(5, high=0xB))], x1_1=[(100, F)], x2_1=[(100, tagged(5, high=0xB))], x3_2=[(100, F)], x4_2=[(100, F)]),
                "out-journal.txt": journal(*LEVELS_UP, *relays("x3.1 1"))}, summary(1, 1, 0, 5))
    # What a station sends with the type of an E-TAG, or to the address of control frames, is its own matter or ignored.
    etags = [frame(rest=bytes.fromhex("893F000010000000")), frame(rest=bytes.fromhex("893F000000010000"))]
    control = frame(bytes.fromhex("0180C200000E"))
    given = [(100, etags[0]), (100, control), (100, etags[1])]
    left = [(100, it) for it in etags]
    cases.runs("e-tags-through-levels", tree(LEVELS, {"x3.1": "a.pcap"}, "ports = 4"), {"a.pcap": given},
               {**out(**dict.fromkeys(heard, left), x4_2=left),
                "out-journal.txt": journal(*LEVELS_UP, *relays("x3.1 1"), "ignore x3.1 2", "settled", *relays("x3.1 3"))},
               summary(3, 2, 1, 20))


def isolation(cases):
    """Isolated ports."""
    one = "port = [{ name = 'x1.1', isolated = true }]\n"
    two = "port = [{ name = 'x1.1', isolated = true }, { name = 'x1.2', isolated = true }]\n"
    cases.runs("isolated-port", one_extender(2, A, more=one), {"a.pcap": [(100, F)]},
               {**out(x1_2=[(100, F)]), "out-journal.txt": journal(*UP, *relays("x1.1 1"))}, summary(1, 1, 0, 1))
    cases.runs("isolated-ports", one_extender(3, {"x1.1": "a.pcap", "x1.3": "c.pcap"}, more=two), {"a.pcap": [(100, F)], "c.pcap": [(100, OTHER)]},
               {**out(x1_1=[(100, OTHER)], x1_2=[(100, OTHER)], x1_3=[(100, F)]),
                "out-journal.txt": journal(*UP3, *relays("x1.1 1", "x1.3 1"))}, summary(2, 2, 0, 3))
    ends = commands("1 isolate port = 'x1.2', isolated = false")
    cases.runs("isolation-ends", one_extender(3, A, more=two + ends), {"a.pcap": [(100, F), (102, OTHER)]},
               {**out(x1_2=[(102, OTHER)], x1_3=[(100, F), (102, OTHER)]),
                "out-journal.txt": journal(*UP3, *relays("x1.1 1"), "tick 1", *commits(1), "tick 1", *relays("x1.1 2"))},
               summary(2, 2, 0, 3, 1))
    local = two.replace("[{", "[{ name = 'b2', isolated = true }, {")
    cases.runs("isolated-port-of-the-bridge", one_extender(3, {"b2": "a.pcap"}, "ports = 2", local), {"a.pcap": [(100, F)]},
               {**out(x1_3=[(100, F)]), "out-journal.txt": journal(*UP3, *relays("b2 1"))}, summary(1, 1, 0, 1))
    # For an isolated port what is learned at another one isn't flooded. x1.3 isn't isolated, and reaches it.
    to_one = frame(ONE, THREE)
    cases.runs("learned-and-isolated", one_extender(3, {"x1.1": "a.pcap", "x1.2": "b.pcap", "x1.3": "c.pcap"}, more=two),
               {"a.pcap": [(100, F)], "b.pcap": [(101, BACK)], "c.pcap": [(102, to_one)]},
               {**out(x1_1=[(102, to_one)], x1_3=[(100, F)]),
                "out-journal.txt": journal(*UP3, *relays("x1.1 1"), "tick 1", *relays("x1.2 1"), "tick 1", *relays("x1.3 1"))},
               summary(3, 3, 0, 2))
    far = "port = [{ name = 'x2.1', isolated = true }, { name = 'x3.1', isolated = true }]\n"
    both = [(100, F), (101, OTHER)]
    cases.runs("isolated-in-two-trees", tree([(1, "b1", 2), (2, "x1.2", 2), (3, "b2", 2)], {"x2.1": "a.pcap", "x3.2": "b.pcap"}, "ports = 2", far),
               {"a.pcap": both[:1], "b.pcap": both[1:]},
               {**out(x1_1=both, x2_1=both[1:], x2_2=both, x3_1=both[1:], x3_2=both[:1]),
                "out-journal.txt": journal("up x1.1", "up x3.1", "up x3.2", "up x2.1", "up x2.2", "settled", *relays("x2.1 1"), "tick 1",
                                           *relays("x3.2 1"))}, summary(2, 2, 0, 7))


def statics(cases):
    """Static entries."""
    entry = "static = [{ vid = 1, mac = '02-00-00-00-00-01', ports = ['x1.3'] }]\n"
    cases.runs("static-entry", one_extender(3, A, more=entry), {"a.pcap": [(100, BACK)]},
               {**out(x1_3=[(100, BACK)]), "out-journal.txt": journal(*UP3, *relays("x1.1 1"))}, summary(1, 1, 0, 1))
    # That the address speaks at x1.2 is learned all the same, and counts once the entry is gone.
    away, gone = frame(TWO, ONE), entry + commands("2 unstatic vid = 1, mac = '02-00-00-00-00-01'")
    cases.runs("static-over-learned", one_extender(3, {"x1.1": "a.pcap", "x1.2": "b.pcap"}, more=gone),
               {"a.pcap": [(100, BACK), (101, BACK), (102, BACK)], "b.pcap": [(100, away)]},
               {**out(x1_1=[(100, away)], x1_2=[(102, BACK)], x1_3=[(100, BACK), (101, BACK)]),
                "out-journal.txt": journal(*UP3, *relays("x1.1 1", "x1.2 1"), "tick 1", *relays("x1.1 2"), "tick 1", *commits(1),
                                           *relays("x1.1 3"))}, summary(4, 4, 0, 4, 1))
    # A group's entry: x3.2 is no member of the VLAN, and the source's own port gets nothing.
    group = bytes.fromhex("01005E000005")
    many = ("vlan = [{ vid = 7, tagged = ['x1.1', 'b3'], untagged = ['x2.*', 'x3.1'] }]\n"
            "static = [{ vid = 7, mac = '01:00:5E:00:00:05', ports = ['x1.1', 'x2.1', 'x3.*', 'b3'] }]\n")
    sent = tagged(7, high=0xB, destination=group)
    cases.runs("static-group-in-a-tree", tree([(1, "b1", 2), (2, "x1.2", 2), (3, "b2", 2)], A, "ports = 3", many), {"a.pcap": [(100, sent)]},
               {**out(b3=[(100, sent)], x2_1=[(100, frame(group))], x3_1=[(100, frame(group))]),
                "out-journal.txt": journal("up x1.1", "up x3.1", "up x3.2", "up x2.1", "up x2.2", "settled", *relays("x1.1 1"))},
               summary(1, 1, 0, 3))
    # An entry without ports leads nowhere, and needs no group.
    nobody = "static = [{ vid = 1, mac = '02-00-00-00-00-01', ports = [] }]\n"
    cases.runs("static-to-nobody", one_extender(2, A, "ports = 1, groups = 2", nobody), {"a.pcap": [(100, BACK), (100, F)]},
               {**out(x1_2=[(100, F)]), "out-journal.txt": journal(*UP, *relays("x1.1 1", "x1.1 2"))}, summary(2, 2, 0, 1))
    # VLANs have three sets. A fourth is for the first entry and none for the second, and for the last there is one already.
    vlan = "vlan = [{ vid = 1, untagged = ['*'] }, { vid = 2, tagged = ['x1.1'] }, { vid = 3, tagged = ['x1.2'] }]\n"
    entries = commands("0 static vid = 1, mac = '02-00-00-00-00-01', ports = ['x1.3']",
                       "0 static vid = 1, mac = '02-00-00-00-00-02', ports = ['x1.2-3']",
                       "0 static vid = 1, mac = '02-00-00-00-00-01', ports = ['x1.1']")
    cases.runs("static-entry-is-refused", one_extender(3, {"x1.2": "b.pcap"}, "ports = 1, groups = 4", vlan + entries), {"b.pcap": [(100, BACK)]},
               {**out(x1_1=[(100, BACK)]),
                "out-journal.txt": journal(*UP3, *commits(1), "refuse 2 groups 5 4", "settled", *commits(3), *relays("x1.2 1"))},
               summary(1, 1, 0, 1, 2, 1))



PARTS = [openings, shortages, levels, isolation, statics]
