"""Small inputs and what comes of each, in words: a topology, the frames that arrive, and the lines of the journal with the frames that leave.

A frame that arrives is told by its port, second and length, and its first bytes in hexadecimal; zeros follow, and a semicolon stands
between two. Of one that leaves stand second, length and the four bytes from its type on. The plain bridge (bridge.py) comes to each row,
as `cases.py` asks it, and so does the program, as `./test` does.
"""
import bridge
from frames import capture

# An extender with two ports, or with three.
TWO = "bridge = {ports = 1}\nextender = [{number = 1, on = 'b1', ports = 2}]\n"
THREE = "bridge = {ports = 1}\nextender = [{number = 1, on = 'b1', ports = 3}]\n"

# How frames leave.
FRAMES = [
    # Nothing arrives.
    (TWO,
     "",
     "up x1.1; up x1.2; settled;"),
    # A broadcast leaves the other port unchanged.
    (TWO,
     "x1.1 100 60 FFFFFFFFFFFF0200000000010800",
     "up x1.1; up x1.2; settled; relay x1.1 1; settled; x1.2 100/60/08000000;"),
    # Frames of 14 and of 9,216 bytes are the shortest and the longest.
    (TWO,
     "x1.1 100 13 FF;x1.1 101 14 FF;x1.1 102 9216 FF;x1.1 103 9217 FF",
     "up x1.1; up x1.2; settled; ignore x1.1 1; settled; tick 1; relay x1.1 2; settled; tick 1; relay x1.1 3; settled; tick 1; ignore x1.1 4; "
     "settled; x1.2 101/14/0000 102/9216/00000000;"),
    # A port for tagged frames drops bad tags, cut ones and priority tags.
    (TWO + "port = [{name = 'x1.1', accept = 'tagged'}]\n",
     "x1.1 100 64 FFFFFFFFFFFF02000000000181000FFF;x1.1 100 64 FFFFFFFFFFFF020000000001810000000800;"
     "x1.1 100 17 FFFFFFFFFFFF02000000000181000001;x1.1 100 64 FFFFFFFFFFFF020000000001810000010800",
     "up x1.1; up x1.2; settled; relay x1.1 1; settled; relay x1.1 2; settled; relay x1.1 3; settled; relay x1.1 4; settled; "
     "x1.2 100/60/08000000;"),
    # A tagged frame keeps PCP and DEI, and loses its tag at an untagged member.
    (THREE + "vlan = [{vid = 10, tagged = ['x1.1-2'], untagged = ['x1.3']}]\n",
     "x1.1 100 64 FFFFFFFFFFFF0200000000018100B00A0800",
     "up x1.1; up x1.2; up x1.3; settled; relay x1.1 1; settled; x1.2 100/64/8100B00A; x1.3 100/60/08000000;"),
]

# The last port of a bridge and of the last extender, and the first there. Files and lines are named after them.
FRAMES.append(
    ("bridge = {ports = 64}\nextender = [{number = 64, on = 'b1', ports = 64}]\nvlan = [{vid = 1, untagged = ['b64', 'x64.1', 'x64.64']}]\n",
     "b64 100 60 FFFFFFFFFFFF0200000000010800;x64.64 101 60 FFFFFFFFFFFF0200000000020800",
     "".join(f"up x64.{port}; " for port in range(1, 65)) + "settled; relay b64 1; settled; tick 1; relay x64.64 1; settled; "
     "b64 101/60/08000000; x64.1 100/60/08000000 101/60/08000000; x64.64 100/60/08000000;"))

# Where frames go once stations were heard.
LEARNING = [
    # A frame to a station at its own port leaves nowhere.
    (TWO,
     "x1.1 100 60 FFFFFFFFFFFF0200000000010800;x1.1 100 60 0200000000010200000000020800",
     "up x1.1; up x1.2; settled; relay x1.1 1; settled; relay x1.1 2; settled; x1.2 100/60/08000000;"),
    # A station is looked up before its own frame is learned.
    (TWO,
     "x1.1 100 60 0200000000010200000000010800;x1.1 100 60 0200000000010200000000010800",
     "up x1.1; up x1.2; settled; relay x1.1 1; settled; relay x1.1 2; settled; x1.2 100/60/08000000;"),
    # A station is forgotten at the ageing time and not a second before.
    ("bridge = {ports = 1, ageing = 10}\nextender = [{number = 1, on = 'b1', ports = 3}]\n",
     "x1.1 100 60 FFFFFFFFFFFF0200000000010800;x1.2 109 60 0200000000010200000000020800;x1.2 110 60 0200000000010200000000020800",
     "up x1.1; up x1.2; up x1.3; settled; relay x1.1 1; settled; tick 9; relay x1.2 1; settled; tick 1; relay x1.2 2; settled; "
     "x1.1 109/60/08000000 110/60/08000000; x1.2 100/60/08000000; x1.3 100/60/08000000 110/60/08000000;"),
    # The ageing time is 300 s where none is given.
    ("bridge = {ports = 3}\n",
     "b1 100 60 FFFFFFFFFFFF0200000000010800;b2 399 60 0200000000010200000000020800;b2 400 60 0200000000010200000000020800",
     "settled; relay b1 1; settled; tick 299; relay b2 1; settled; tick 1; relay b2 2; settled; "
     "b1 399/60/08000000 400/60/08000000; b2 100/60/08000000; b3 100/60/08000000 400/60/08000000;"),
    # Another one, at a bridge of which all is given, beside an extender with another number than that of its port, over a link that loses.
    ("links = {fate = 'LP'}\nextender = [{ports = 3, on = 'b2', number = 4}]\n"
     "bridge = {ports = 10, channels = 9, groups = 8, ageing = 70, out = 'out-'}\n",
     "b10 100 60 FFFFFFFFFFFF0200000000010800;x4.3 169 60 0200000000010200000000020800;x4.3 170 60 0200000000010200000000020800",
     "up x4.1; up x4.2; up x4.3; settled; relay b10 1; settled; tick 69; relay x4.3 1; settled; tick 1; relay x4.3 2; settled; "
     "b1 100/60/08000000 170/60/08000000; b3 100/60/08000000 170/60/08000000; b4 100/60/08000000 170/60/08000000; "
     "b5 100/60/08000000 170/60/08000000; b6 100/60/08000000 170/60/08000000; b7 100/60/08000000 170/60/08000000; "
     "b8 100/60/08000000 170/60/08000000; b9 100/60/08000000 170/60/08000000; b10 169/60/08000000 170/60/08000000; "
     "x4.1 100/60/08000000 170/60/08000000; x4.2 100/60/08000000 170/60/08000000; x4.3 100/60/08000000;"),
    # The type of an E-TAG is a station's own matter; a control frame passes nowhere.
    (TWO,
     "x1.1 100 60 FFFFFFFFFFFF020000000001893F00001000;x1.1 100 60 0180C200000E0200000000010800",
     "up x1.1; up x1.2; settled; relay x1.1 1; settled; ignore x1.1 2; settled; x1.2 100/60/893F0000;"),
]

# Isolated ports and static entries.
ISOLATION = [
    # Isolated ports hear the others and not one another.
    (THREE + "port = [{name = 'x1.1', isolated = true}, {name = 'x1.2', isolated = true}]\n",
     "x1.1 100 60 FFFFFFFFFFFF0200000000010800;x1.3 101 60 FFFFFFFFFFFF0200000000010800",
     "up x1.1; up x1.2; up x1.3; settled; relay x1.1 1; settled; tick 1; relay x1.3 1; settled; x1.1 101/60/08000000; x1.2 101/60/08000000; "
     "x1.3 100/60/08000000;"),
    # A port that is no longer isolated gets frames.
    (THREE + "port = [{name = 'x1.1', isolated = true}, {name = 'x1.2', isolated = true}]\n"
     "command = [{at = 1, op = 'isolate', port = 'x1.2', isolated = false}]\n",
     "x1.1 100 60 FFFFFFFFFFFF0200000000010800;x1.1 102 60 FFFFFFFFFFFF0200000000010800",
     "up x1.1; up x1.2; up x1.3; settled; relay x1.1 1; settled; tick 1; commit 1; settled; tick 1; relay x1.1 2; settled; "
     "x1.2 102/60/08000000; x1.3 100/60/08000000 102/60/08000000;"),
    # An isolated local port reaches the one port that is not isolated.
    ("bridge = {ports = 2}\n"
     "extender = [{number = 1, on = 'b1', ports = 3}]\n"
     "port = [{name = 'x1.1', isolated = true}, {name = 'x1.2', isolated = true}, {name = 'b2', isolated = true}]\n",
     "b2 100 60 FFFFFFFFFFFF0200000000010800",
     "up x1.1; up x1.2; up x1.3; settled; relay b2 1; settled; x1.3 100/60/08000000;"),
    # A static entry decides over members and learned ports.
    (THREE + "static = [{vid = 1, mac = '02-00-00-00-00-01', ports = ['x1.3']}]\n",
     "x1.2 100 60 FFFFFFFFFFFF0200000000010800;x1.1 101 60 0200000000010200000000020800",
     "up x1.1; up x1.2; up x1.3; settled; relay x1.2 1; settled; tick 1; relay x1.1 1; settled; x1.1 100/60/08000000; "
     "x1.3 100/60/08000000 101/60/08000000;"),
]

# Commands count from their commit on.
COMMANDS = [
    # A port that goes down hears nothing, and what was learned there is forgotten.
    (THREE + "command = [{at = 1, op = 'down', port = 'x1.2'}, {at = 2, op = 'up', port = 'x1.2'}]\n",
     "x1.2 100 60 FFFFFFFFFFFF0200000000010800;x1.1 100 60 0200000000010200000000020800;x1.1 101 60 FFFFFFFFFFFF0200000000020800;"
     "x1.1 102 60 0200000000010200000000020800",
     "up x1.1; up x1.2; up x1.3; settled; relay x1.1 1; settled; relay x1.2 1; settled; tick 1; commit 1; settled; relay x1.1 2; settled; "
     "tick 1; commit 2; settled; relay x1.1 3; settled; x1.1 100/60/08000000; x1.2 100/60/08000000 102/60/08000000; "
     "x1.3 100/60/08000000 100/60/08000000 101/60/08000000 102/60/08000000;"),
    # Commands come before the frames of their moment.
    (TWO + "command = [{at = 0, op = 'down', port = 'x1.2'}, {at = 1, op = 'up', port = 'x1.2'}]\n",
     "x1.1 100 60 FFFFFFFFFFFF0200000000010800;x1.1 101 60 FFFFFFFFFFFF0200000000010800",
     "up x1.1; up x1.2; settled; commit 1; settled; relay x1.1 1; settled; tick 1; commit 2; settled; relay x1.1 2; settled; "
     "x1.2 101/60/08000000;"),
    # A frame at a port that is down is ignored.
    (TWO + "command = [{at = 0, op = 'down', port = 'x1.2'}]\n",
     "x1.2 100 60 FFFFFFFFFFFF0200000000010800",
     "up x1.1; up x1.2; settled; commit 1; settled; ignore x1.2 1; settled;"),
    # An up of a port that is up takes effect.
    (TWO + "command = [{at = 0, op = 'up', port = 'x1.1'}]\n",
     "",
     "up x1.1; up x1.2; settled; commit 1; settled;"),
    # A member is tagged up to a commit, and untagged from it on.
    (TWO + "vlan = [{vid = 10, tagged = ['x1.1-2']}]\ncommand = [{at = 1, op = 'member', vid = 10, port = 'x1.2', kind = 'untagged'}]\n",
     "x1.1 100 64 FFFFFFFFFFFF0200000000018100000A0800;x1.1 102 64 FFFFFFFFFFFF0200000000018100000A0800",
     "up x1.1; up x1.2; settled; relay x1.1 1; settled; tick 1; commit 1; settled; tick 1; relay x1.1 2; settled; "
     "x1.2 100/64/8100000A 102/60/08000000;"),
]

# What is set of ports: the VLAN of their frames, what they let in, whether they are isolated, and whether they are there.
RULES = [
    # The VLAN of frames without a tag.
    (THREE + "port = [{name = 'x1.1', pvid = 4094}]\nvlan = [{vid = 1, untagged = ['x1.3']}, {vid = 4094, tagged = ['x1.2']}]\n",
     "x1.1 100 60 FFFFFFFFFFFF0200000000010800;x1.3 101 60 FFFFFFFFFFFF0200000000030800",
     "up x1.1; up x1.2; up x1.3; settled; relay x1.1 1; settled; tick 1; relay x1.3 1; settled; x1.2 100/64/81000FFE;"),
    # Tagged frames alone, and of the port's own VLANs alone.
    (THREE + "port = [{name = 'x1.1', pvid = 4094, accept = 'tagged', filter = true}]\n"
     "vlan = [{vid = 7, tagged = ['x1.2']}, {vid = 4094, tagged = ['x1.1-2']}]\n",
     "x1.1 100 60 FFFFFFFFFFFF0200000000010800;x1.1 101 64 FFFFFFFFFFFF02000000000181000007;x1.1 102 64 FFFFFFFFFFFF02000000000181000FFE;"
     "x1.3 103 64 FFFFFFFFFFFF02000000000381000007",
     "up x1.1; up x1.2; up x1.3; settled; relay x1.1 1; settled; tick 1; relay x1.1 2; settled; tick 1; relay x1.1 3; settled; tick 1; relay x1.3 1; settled; "
     "x1.2 102/64/81000FFE 103/64/81000007;"),
    # A port that is no longer isolated, and two others that stay so.
    ("bridge = {ports = 2}\nextender = [{number = 1, on = 'b1', ports = 3}]\n"
     "port = [{name = 'b2', isolated = true}, {name = 'x1.1', isolated = true}, {name = 'x1.3', isolated = true}]\n"
     "command = [{at = 0, op = 'isolate', port = 'x1.1', isolated = false}]\n",
     "x1.1 100 60 FFFFFFFFFFFF0200000000010800;x1.3 101 60 FFFFFFFFFFFF0200000000030800",
     "up x1.1; up x1.2; up x1.3; settled; commit 1; settled; relay x1.1 1; settled; tick 1; relay x1.3 1; settled; "
     "b2 100/60/08000000; x1.1 101/60/08000000; x1.2 100/60/08000000 101/60/08000000; x1.3 100/60/08000000;"),
    # An up and a down count once, however often they came before.
    ("bridge = {ports = 2}\nextender = [{number = 1, on = 'b1', ports = 3}]\n"
     "command = [{at = 0, op = 'down', port = 'x1.1'}, {at = 0, op = 'down', port = 'x1.1'}, {at = 0, op = 'down', port = 'x1.2'}, "
     "{at = 0, op = 'up', port = 'x1.1'}, {at = 0, op = 'up', port = 'x1.1'}, {at = 0, op = 'up', port = 'x1.2'}, {at = 0, op = 'down', port = 'x1.1'}]\n",
     "b2 100 60 FFFFFFFFFFFF0200000000010800",
     "up x1.1; up x1.2; up x1.3; settled; " + "".join(f"commit {number}; settled; " for number in range(1, 8)) + "relay b2 1; settled; "
     "x1.2 100/60/08000000; x1.3 100/60/08000000;"),
]

# Numbers run out, and a time that falls is raised.
NUMBERS = [
    # A third set finds no group of two; a refused command never counts.
    ("bridge = {ports = 1, groups = 2}\n"
     "extender = [{number = 1, on = 'b1', ports = 3}]\n"
     "command = [{at = 0, op = 'vlan', vid = 2, tagged = ['x1.1-2']}, {at = 0, op = 'vlan', vid = 3, tagged = ['x1.1']}, {at = 0, op = 'vlan', vid = 2}]\n",
     "x1.2 100 64 FFFFFFFFFFFF020000000001810000030800",
     "up x1.1; up x1.2; up x1.3; settled; commit 1; settled; refuse 2 groups 3 2; settled; commit 3; settled; relay x1.2 1; settled;"),
    # A channel is free again after a down.
    ("bridge = {ports = 1, channels = 1}\n"
     "extender = [{number = 1, on = 'b1', ports = 2}]\n"
     "command = [{at = 0, op = 'down', port = 'x1.1'}, {at = 0, op = 'up', port = 'x1.2'}]\n",
     "",
     "up x1.1; noup x1.2 channels 2 1; settled; commit 1; settled; commit 2; settled;"),
    # Where there is one group for two sets, the second port doesn't go up.
    ("bridge = {ports = 1, groups = 1}\nextender = [{number = 1, on = 'b1', ports = 2}]\n",
     "x1.1 100 60 FFFFFFFFFFFF0200000000010800",
     "up x1.1; noup x1.2 groups 2 1; settled; relay x1.1 1; settled;"),
    # Each port of the bridge has channels of its own, and they run out below one alone.
    ("bridge = {ports = 2, channels = 1}\nextender = [{number = 1, on = 'b1', ports = 1}, {number = 2, on = 'b2', ports = 2}]\n",
     "x1.1 100 60 FFFFFFFFFFFF0200000000010800",
     "up x1.1; up x2.1; noup x2.2 channels 2 1; settled; relay x1.1 1; settled; x2.1 100/60/08000000;"),
    # A time that falls is raised.
    (TWO,
     "x1.1 100 60 FFFFFFFFFFFF0200000000010800;x1.1 99 60 FFFFFFFFFFFF0200000000010800",
     "up x1.1; up x1.2; settled; relay x1.1 1; settled; relay x1.1 2; settled; x1.2 100/60/08000000 100/60/08000000;"),
]

# What the summary counts.
SUMMARY = [
    # A port that is down, and frames at another and there.
    (THREE + "command = [{at = 0, op = 'down', port = 'x1.3'}]\n",
     "x1.1 100 60 FFFFFFFFFFFF0200000000010800;x1.3 100 60 FFFFFFFFFFFF0200000000010800",
     "arrivals 2 relayed 1 ignored 1 left 1 commits 1 refusals 0"),
]

# A bridge with the external ports b1, b3, b4, b5, and x2.1, x2.2 of an extender on b2.
SITE = "bridge = {ports = 5}\nextender = [{number = 2, on = 'b2', ports = 2}]\n"
PORTS = ["b1", "b3", "b4", "b5", "x2.1", "x2.2"]

# Words for ports, and those that they mean.
WORDS = [
    ("['b1']", "b1"),
    ("['x2.2']", "x2.2"),
    ("['b3-5']", "b3 b4 b5"),
    ("['b4-4']", "b4"),
    ("['x2.1-2']", "x2.1 x2.2"),
    ("['x2.2-2']", "x2.2"),
    ("['x2.*']", "x2.1 x2.2"),
    ("['*']", "b1 b3 b4 b5 x2.1 x2.2"),
    ("[]", ""),
    ("['x2.2', 'b5', 'b3-4', 'x2.2']", "b3 b4 b5 x2.2"),
    ("['x2.*', 'b3-5', '*']", "b1 b3 b4 b5 x2.1 x2.2"),
]

# What a topology says of VLANs: a VLAN, and its members with a tag and without.
VLANS = [
    *((f"vlan = [{{vid = 7, tagged = {words}}}]\n", 7, ports, "") for words, ports in WORDS),
    ("", 1, "", "b1 b3 b4 b5 x2.1 x2.2"),
    ("vlan = []\n", 1, "", ""),
    ("vlan = [{vid = 7}]\n", 7, "", ""),
    *(("vlan = [{vid = 7, last = 9, untagged = ['b1']}]\n", vid, "", port) for vid, port in ((6, ""), (7, "b1"), (8, "b1"), (9, "b1"), (10, ""))),
    ("vlan = [{vid = 7, tagged = ['b1'], untagged = ['b1', 'b3']}]\n", 7, "", "b1 b3"),
    *(("vlan = [{vid = 9, tagged = ['b3']}, {vid = 2, untagged = ['b4']}]\n", vid, *ports) for vid, *ports in ((9, "b3", ""), (2, "", "b4"))),
    ("command = [{at = 0, op = 'vlan', vid = 7}]\n", 7, "", ""),
    ("command = [{at = 0, op = 'vlan', vid = 7, tagged = ['b1'], untagged = ['x2.*']}]\n", 7, "b1", "x2.1 x2.2"),
    ("command = [{at = 0, op = 'member', vid = 7, port = 'b1', kind = 'tagged'}]\n", 7, "b1", ""),
    ("command = [{at = 0, op = 'member', vid = 7, port = 'b1', kind = 'untagged'}]\n", 7, "", "b1"),
    ("vlan = [{vid = 7, tagged = ['b1', 'b3']}]\ncommand = [{at = 0, op = 'unmember', vid = 7, port = 'b1'}]\n", 7, "b3", ""),
    # A VLAN without its last member has none, and another one keeps its own.
    *(("vlan = [{vid = 2, tagged = ['b3']}, {vid = 3, untagged = ['b3']}]\ncommand = [{at = 0, op = 'unmember', vid = 2, port = 'b3'}]\n", vid, "", untagged)
      for vid, untagged in ((2, ""), (3, "b3"))),
    # A member that joins again has the other kind.
    ("vlan = [{vid = 7, tagged = ['b1', 'b3']}]\ncommand = [{at = 0, op = 'member', vid = 7, port = 'b1', kind = 'untagged'}]\n", 7, "b3", "b1"),
    ("vlan = [{vid = 7, untagged = ['b1', 'b3']}]\ncommand = [{at = 0, op = 'member', vid = 7, port = 'b1', kind = 'tagged'}]\n", 7, "b1", "b3"),
]


# What a topology says of ports and of static entries, and what its commands change.
UP = "up x2.1; up x2.2; settled; "
F1, F2 = "FFFFFFFFFFFF0200000000010800", "FFFFFFFFFFFF0200000000020800"
TO_1 = "0200000000010200000000020800"
SAID = [
    # A port of which nothing is said beside its name lets all in, in VLAN 1 and in those of others, and isn't isolated.
    (SITE + "vlan = [{vid = 1, untagged = ['*']}, {vid = 7, tagged = ['b1']}]\nport = [{name = 'b3'}, {name = 'b4', isolated = true}]\n",
     f"b3 100 60 {F1};b3 101 64 FFFFFFFFFFFF020000000001810000010800;b3 102 64 FFFFFFFFFFFF020000000001810000070800",
     UP + "relay b3 1; settled; tick 1; relay b3 2; settled; tick 1; relay b3 3; settled; b1 100/60/08000000 101/60/08000000 102/64/81000007; "
     + " ".join(f"{port} 100/60/08000000 101/60/08000000;" for port in ("b4", "b5", "x2.1", "x2.2"))),
    # All that can be said of one: what has a tag is let in where the port is a member, and isn't heard by another isolated port. A command that
    # lets in all shows the VLAN of what has none.
    (SITE + "vlan = [{vid = 8, tagged = ['b1']}, {vid = 9, tagged = ['x2.1', 'b1', 'b4']}]\n"
     "port = [{name = 'x2.1', pvid = 9, accept = 'tagged', filter = true, isolated = true}, {name = 'b4', isolated = true}]\n"
     "command = [{at = 3, op = 'accept', port = 'x2.1', accept = 'all'}]\n",
     f"x2.1 100 60 {F1};x2.1 101 64 FFFFFFFFFFFF020000000001810000080800;x2.1 102 64 FFFFFFFFFFFF020000000001810000090800;x2.1 103 60 {F1}",
     UP + "relay x2.1 1; settled; tick 1; relay x2.1 2; settled; tick 1; relay x2.1 3; settled; tick 1; commit 1; settled; relay x2.1 4; settled; "
     "b1 102/64/81000009 103/64/81000009;"),
    # One for what has no tag, or a priority tag.
    (SITE + "vlan = [{vid = 1, untagged = ['b1', 'b3']}]\nport = [{name = 'b1', accept = 'untagged'}]\n",
     f"b1 100 64 FFFFFFFFFFFF020000000001810000010800;b1 101 60 {F1};b1 102 64 FFFFFFFFFFFF0200000000018100A0000800",
     UP + "relay b1 1; settled; tick 1; relay b1 2; settled; tick 1; relay b1 3; settled; b3 101/60/08000000 102/60/08000000;"),
    # Two ports, each as it is said.
    (SITE + "vlan = [{vid = 1, untagged = ['b5']}, {vid = 2, tagged = ['b3']}]\nport = [{name = 'b4', accept = 'all'}, {name = 'b1', pvid = 2}]\n",
     f"b1 100 60 {F1};b4 101 60 {F2}",
     UP + "relay b1 1; settled; tick 1; relay b4 1; settled; b3 100/64/81000002; b5 101/60/08000000;"),
    # An address in letters of either size and with either mark between, for two ports and for none.
    (SITE + "vlan = [{vid = 3, untagged = ['*']}]\nstatic = [{vid = 3, mac = '02-0a-B0-00-ff-01', ports = ['b3-4']}]\n",
     "b1 100 64 020AB000FF01020000000001810000030800",
     UP + "relay b1 1; settled; b3 100/60/08000000; b4 100/60/08000000;"),
    (SITE + "vlan = [{vid = 3, untagged = ['*']}]\nstatic = [{vid = 3, mac = '02:0A:b0:00:FF:01', ports = []}]\n",
     "b1 100 64 020AB000FF01020000000001810000030800",
     UP + "relay b1 1; settled;"),
    # The same address in two VLANs, the later one first.
    (SITE + "static = [{vid = 3, mac = '02-00-00-00-00-02', ports = ['b3']}, {vid = 2, mac = '02-00-00-00-00-02', ports = ['b4']}]\n"
     "vlan = [{vid = 2, last = 3, untagged = ['*']}]\n",
     "b1 100 64 020000000002020000000001810000030800;b1 101 64 020000000002020000000001810000020800",
     UP + "relay b1 1; settled; tick 1; relay b1 2; settled; b3 100/60/08000000; b4 101/60/08000000;"),
    # Commands: the VLAN of what has no tag.
    (SITE + "vlan = [{vid = 7, tagged = ['b1']}]\ncommand = [{at = 2, op = 'pvid', vid = 7, port = 'x2.2'}]\n",
     f"x2.2 100 60 {F1};x2.2 103 60 {F1}",
     UP + "relay x2.2 1; settled; tick 2; commit 1; settled; tick 1; relay x2.2 2; settled; b1 103/64/81000007;"),
    # What is let in.
    (SITE + "vlan = [{vid = 1, untagged = ['b1']}]\ncommand = [{at = 2, op = 'accept', port = 'x2.2', accept = 'untagged'}]\n",
     f"x2.2 100 64 FFFFFFFFFFFF020000000001810000010800;x2.2 103 64 FFFFFFFFFFFF020000000001810000010800;x2.2 104 60 {F1}",
     UP + "relay x2.2 1; settled; tick 2; commit 1; settled; tick 1; relay x2.2 2; settled; tick 1; relay x2.2 3; settled; "
     "b1 100/60/08000000 104/60/08000000;"),
    # Whether VLANs of others are.
    (SITE + "vlan = [{vid = 7, tagged = ['b1']}]\n"
     "command = [{at = 2, op = 'filter', port = 'x2.2', filter = true}, {at = 3, op = 'filter', port = 'x2.2', filter = false}]\n",
     "x2.2 100 64 FFFFFFFFFFFF020000000001810000070800;x2.2 102 64 FFFFFFFFFFFF020000000001810000070800;"
     "x2.2 103 64 FFFFFFFFFFFF020000000001810000070800",
     UP + "relay x2.2 1; settled; tick 2; commit 1; settled; relay x2.2 2; settled; tick 1; commit 2; settled; relay x2.2 3; settled; "
     "b1 100/64/81000007 103/64/81000007;"),
    # Whether a port is isolated.
    (SITE + "vlan = [{vid = 1, untagged = ['b3', 'b4']}]\nport = [{name = 'b3', isolated = true}]\n"
     "command = [{at = 2, op = 'isolate', port = 'x2.2', isolated = true}]\n",
     f"x2.2 100 60 {F1};x2.2 103 60 {F1}",
     UP + "relay x2.2 1; settled; tick 2; commit 1; settled; tick 1; relay x2.2 2; settled; b3 100/60/08000000; b4 100/60/08000000 103/60/08000000;"),
    # A static entry for all ports, where a station was heard, and its end.
    (SITE + "vlan = [{vid = 7, untagged = ['*']}]\ncommand = [{at = 2, op = 'static', vid = 7, mac = '02-00-00-00-00-01', ports = ['*']}, "
     "{at = 4, op = 'unstatic', vid = 7, mac = '02-00-00-00-00-01'}]\n",
     "b1 100 64 020000000002020000000001810000070800;b3 101 64 020000000001020000000002810000070800;b3 103 64 020000000001020000000002810000070800;"
     "b3 105 64 020000000001020000000002810000070800",
     UP + "relay b1 1; settled; tick 1; relay b3 1; settled; tick 1; commit 1; settled; tick 1; relay b3 2; settled; tick 1; commit 2; settled; "
     "tick 1; relay b3 3; settled; b1 101/60/08000000 103/60/08000000 105/60/08000000; b3 100/60/08000000; "
     + " ".join(f"{port} 100/60/08000000 103/60/08000000;" for port in ("b4", "b5", "x2.1", "x2.2"))),
    # A port that goes down, over a link that delivers, loses, doubles and delays, and up at the last second of a command.
    (SITE + "vlan = [{vid = 1, untagged = ['x2.1', 'b3']}]\ncommand = [{at = 2, op = 'down', port = 'x2.1', fate = 'PLTD'}, "
     "{at = 4294967295, op = 'up', port = 'x2.1'}]\n",
     f"b1 0 60 {F1};b1 3 60 {F1}",
     UP + "relay b1 1; settled; tick 2; commit 1; settled; tick 1; relay b1 2; settled; tick 4294967292; commit 2; settled; "
     "b3 0/60/08000000 3/60/08000000; x2.1 0/60/08000000;"),
]

def heard(tables, vid, tagged, untagged):
    """The row of two broadcasts with a tag, at b1 and at x2.2: each leaves at all members but where it came, with a tag or without."""
    head = f"FFFFFFFFFFFF02000000000181000{vid:03X}0800"
    left = ""
    for port in PORTS:
        form = f"64/81000{vid:03X}" if port in tagged.split() else "60/08000000" if port in untagged.split() else ""
        sent = [f"{second}/{form}" for at, second in (("b1", 100), ("x2.2", 101)) if at != port and form]
        left += f" {port} {' '.join(sent)};" if sent else ""
    commit = "commit 1; settled; " if "command" in tables else ""
    return SITE + tables, f"b1 100 64 {head};x2.2 101 64 {head}", f"up x2.1; up x2.2; settled; {commit}relay b1 1; settled; tick 1; relay x2.2 1; settled;{left}"


OUTCOMES = [*FRAMES, *LEARNING, *ISOLATION, *COMMANDS, *RULES, *NUMBERS, *SAID, *(heard(*it) for it in VLANS)]


def records_of(frames):
    """The frames that arrive at each port, with their seconds."""
    records = {}
    for port, second, length, head in (it.split() for it in frames.split(";") if it):
        data = bytes.fromhex(head).ljust(int(length), b"\0")
        records.setdefault(port, []).append((int(second), data))
    return records


def files_of(topology, frames):
    """The files of a run: the topology, which names a capture for each port at which frames arrive."""
    records = records_of(frames)
    named = ", ".join(f"'{port}' = '{port}.pcap'" for port in records)
    return {"topology.toml": f"{topology}captures = {{{named}}}\n".encode(), **{f"{port}.pcap": capture(*them) for port, them in records.items()}}


def told(journal, left):
    """A journal's lines, and what left each port that was left by a frame, as the rows have it."""
    words = list(journal)
    for port, frames in left.items():
        sent = [f"{moment // bridge.SECOND}/{len(data)}/{data[12:16].hex().upper()}" for moment, data in frames]
        words += [" ".join([bridge.name_of(port), *sent])] if sent else []
    return " ".join(f"{it};" for it in words)


def played(topology, frames):
    """The plain bridge after a row."""
    plain = bridge.Bridge(topology)
    plain.play({bridge.number_of(port): [(second * bridge.SECOND, data) for second, data in them] for port, them in records_of(frames).items()})
    return plain


def agree():
    """How many rows there are. The plain bridge comes to what each of them says."""
    for topology, frames, wanted in OUTCOMES:
        plain = played(topology, frames)
        assert told(plain.journal, plain.left) == wanted, f"the plain bridge comes to {told(plain.journal, plain.left)}, and not to {wanted}"
    for topology, frames, wanted in SUMMARY:
        assert played(topology, frames).summary() == wanted, wanted
    return len(OUTCOMES) + len(SUMMARY)
