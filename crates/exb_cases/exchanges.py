"""Small inputs and what a bridge asks of its extenders for each, tells and sends, in words; a trace says it (`--trace`).

- `heard x1`: an announcement of extender 1 comes to the bridge
- `x1 open`, `x1 create 2 5` or `x1 create 2 5 cascade` (port and channel), `x1 delete 2`, `x1 lay 4096=3 5=8` (each E-CID with a mask, in which bit
  k - 1 is port k), `x1 clear 4096 4097`: a request goes out to it. Before one that goes out with a beat stands which beat that is
- `b1 2/4096 tagged`: a frame leaves port 1 of the bridge in a word with this ingress number and this E-CID; `b2 untagged`: one leaves as it is
- `|` is the line `settled`; all other lines of the journal stand as they are

The first group of a space is 4096. Arrivals are told as in `outcomes.py`. The tree over links (world/) comes to each row, as `cases.py` asks it, and
so does the program, as `./test` does.
"""
import struct

import bridge
import outcomes
from outcomes import THREE, TWO
from world import schedule
from world.wire import (CONTROL, OPEN, PORT_CREATE, PORT_DELETE, REGISTER, REGISTER_MANY, UNREGISTER, UNREGISTER_MANY, read_announcement, read_etag,
                        read_message, read_pdu, take_tag)

LAYS, CLEARS = (REGISTER, REGISTER_MANY), (UNREGISTER, UNREGISTER_MANY)


def rows_of(body):
    """E-CIDs and masks of a registration."""
    return list(struct.iter_unpack(">HQ", body))


def numbers_of(body):
    return [number for number, in struct.iter_unpack(">H", body)]


def request_text(kind, body):
    """A request in words."""
    if kind == OPEN:
        return "open"
    if kind == PORT_CREATE:
        port, cascade, channel = struct.unpack(">BBH", body)
        return f"create {port} {channel}{' cascade' if cascade else ''}"
    if kind == PORT_DELETE:
        return f"delete {body[0]}"
    if kind in LAYS:
        return " ".join(["lay", *(f"{number}={mask}" for number, mask in rows_of(body))])
    assert kind in CLEARS, f"a request of kind {kind}"
    return " ".join(["clear", *map(str, numbers_of(body))])


class Reader:
    """Reads the lines of a trace, and keeps what extenders were asked to keep."""

    def __init__(self, topology):
        self.tree = bridge.Bridge(topology).tree
        self.below = {port: number for number, port in self.tree.on.items()}
        self.channels, self.rows, self.words = {}, {number: {} for number in self.tree.on}, []
        self.beats, self.is_beat = 0, False

    def extender(self, trunk, frame):
        """Of which extender below a port of the bridge this control frame is, or for which; and the frame without its E-TAG."""
        tag = read_etag(frame)
        return (self.below[self.channels[trunk, tag[0]]], take_tag(frame)) if tag else (self.below[trunk], frame)

    def note(self, trunk, extender, kind, body):
        """Keeps what is asked of an extender."""
        if kind == PORT_CREATE:
            port, _, channel = struct.unpack(">BBH", body)
            self.channels[trunk, channel] = 64 * extender + port - 1
        elif kind in LAYS:
            self.rows[extender].update(rows_of(body))
        elif kind in CLEARS:
            for number in numbers_of(body):
                self.rows[extender].pop(number, None)

    def asked(self, trunk, frame):
        extender, frame = self.extender(trunk, frame)
        read = read_pdu(frame)
        if read is None or read[1] is None:
            return
        kind, _, body = read_message(read[1])
        self.note(trunk, extender, kind, body)
        self.words.append(f"{f'beat {self.beats} ' if self.is_beat else ''}x{extender} {request_text(kind, body)}")

    def sent(self, port, frame):
        """A frame that leaves a port of the bridge."""
        if frame[:6] == CONTROL:
            return self.asked(port, frame)
        tag = read_etag(frame) if port in self.below else None
        inner = take_tag(frame) if tag else frame
        kind = "tagged" if inner[12:14] == b"\x81\x00" else "untagged"
        self.words.append(f"b{port + 1} {f'{tag[1]}/{tag[0]} ' if tag else ''}{kind}")

    def heard(self, port, frame):
        extender, frame = self.extender(port, frame)
        if read_announcement(frame):
            self.words.append(f"heard x{extender}")

    def line(self, line):
        words = line.split(" ")
        if words[0] == "=":
            self.is_beat = False
            self.words.append("|" if line == "= settled" else line[2:])
        elif words[:2] == ["out", "b"]:
            self.sent(int(words[2]) - 1, bytes.fromhex(words[3]))
        elif words[:2] == ["in", "b"]:
            self.is_beat = False
            if words[3].startswith(CONTROL.hex()):
                self.heard(int(words[2]) - 1, bytes.fromhex(words[3]))
        elif words[0] in ("in", "beat"):
            self.is_beat = words[0] == "beat"
            self.beats += self.is_beat

    def read(self, trace):
        for line in trace.splitlines():
            self.line(line)
        return self

    # What is told.

    def text(self):
        return " ".join(it if it == "|" else f"{it};" for it in self.words)

    def set_text(self, trunk, number):
        """The ports of a group of a space, and its rows."""
        rows = [(extender, self.rows[extender][number]) for extender in self.tree.opened
                if self.tree.trunk(self.tree.on[extender]) == trunk and number in self.rows[extender]]
        ports = [64 * extender + bit for extender, mask in rows for bit in range(64) if mask >> bit & 1 and 64 * extender + bit not in self.below]
        names = f" {len(ports)} ports" if len(ports) > 8 else "".join(f" {bridge.name_of(port)}" for port in sorted(ports))
        told = f" {len(rows)} rows" if len(rows) > 8 else "".join(f" x{extender}={mask}" for extender, mask in rows)
        return f"b{trunk + 1}{names}:{told};"

    def sets(self):
        """The sets that have a group, by their ports of the bridge, in an order of their texts."""
        found = {(self.tree.trunk(self.tree.on[extender]), number) for extender, rows in self.rows.items() for number in rows if number >= 0x1000}
        return " ".join(sorted(self.set_text(*it) for it in found))


# How extenders are opened.
OPENINGS = [
    # Channels run out below one port of the bridge alone, and the extender that is heard first waits for its turn.
    ("bridge = {ports = 2, channels = 1, groups = 10}\nextender = [{number = 1, on = 'b1', ports = 1}, {number = 2, on = 'b2', ports = 2}]\n"
     "vlan = []\nlinks = {fate = 'L'}\n",
     "heard x2; heard x1; x1 open; heard x2; x1 create 1 1; up x1.1; x2 open; x2 create 1 1; up x2.1; noup x2.2 channels 2 1; |"),
    # Each port gets a channel, and then its sets their groups, before those that are no more are taken back.
    (THREE,
     "heard x1; x1 open; x1 create 1 1; x1 lay 4096=1; up x1.1; x1 create 2 2; x1 lay 4097=3; up x1.2; x1 clear 4096; x1 create 3 3; x1 lay 4096=7; "
     "up x1.3; x1 clear 4097; |"),
    # A request that isn't answered goes out again: at the third beat, the sixth and the ninth behind it as it was, and at the sixteenth anew. The
    # seventeenth beat is also that of the second announcement, which is lost, and the next one that of the third.
    ("bridge = {ports = 1}\nextender = [{number = 1, on = 'b1', ports = 2}]\nvlan = []\nlinks = {fate = 'PLLLLLLLLL'}\n",
     "heard x1; x1 open; beat 4 x1 open; beat 7 x1 open; beat 10 x1 open; beat 17 x1 open; beat 20 x1 open; beat 23 x1 open; beat 26 x1 open; "
     "beat 33 x1 open; heard x1; x1 create 1 1; up x1.1; x1 create 2 2; up x1.2; |"),
    # The opening creates cascade ports; an extender on the way learns a channel before the port below it is created.
    ("bridge = {ports = 1}\nextender = [{number = 1, on = 'b1', ports = 4}, {number = 2, on = 'x1.4', ports = 2}]\nvlan = []\n",
     "heard x1; x1 open; x1 create 4 1 cascade; x1 create 1 2; up x1.1; x1 create 2 3; up x1.2; x1 create 3 4; up x1.3; "
     "heard x2; x2 open; x1 lay 5=8; x2 create 1 5; up x2.1; x1 lay 6=8; x2 create 2 6; up x2.2; |"),
    # A second set is refused where there is one group.
    ("bridge = {ports = 1, groups = 1}\nextender = [{number = 1, on = 'b1', ports = 2}]\nvlan = [{vid = 1, untagged = ['x1.1']}, "
     "{vid = 2, untagged = ['x1.2']}]\n",
     "heard x1; x1 open; x1 create 1 1; x1 lay 4096=1; up x1.1; noup x1.2 groups 2 1; |"),
]

ENTRY = "mac = '02-00-00-00-00-01'"

# What commands ask for, behind the opening.
CHANGES = [
    # A port leaves its sets before its channel is taken back. Sets come by their VLANs.
    (THREE + "vlan = [{vid = 2, tagged = ['x1.1-2']}, {vid = 3, tagged = ['x1.1', 'x1.3']}]\ncommand = [{at = 0, op = 'down', port = 'x1.1'}]\n",
     "x1 lay 4096=2 4099=4; commit 1; x1 clear 4097 4098; x1 delete 1; |"),
    # A command that would need a third group of two is refused, and the next is not.
    ("bridge = {ports = 1, groups = 2}\nextender = [{number = 1, on = 'b1', ports = 3}]\n"
     "command = [{at = 0, op = 'vlan', vid = 2, tagged = ['x1.1-2']}, {at = 0, op = 'vlan', vid = 3, tagged = ['x1.1']}, {at = 0, op = 'vlan', vid = 2}]\n",
     "x1 lay 4097=3; commit 1; | refuse 2 groups 3 2; | commit 3; x1 clear 4097; |"),
    # The lowest group that is free is given again, and a third set waits for it.
    ("bridge = {ports = 1, groups = 2}\nextender = [{number = 1, on = 'b1', ports = 2}]\nvlan = []\n"
     "command = [{at = 0, op = 'vlan', vid = 2, tagged = ['x1.1']}, {at = 0, op = 'vlan', vid = 3, tagged = ['x1.1-2']}, "
     "{at = 0, op = 'vlan', vid = 4, tagged = ['x1.2']}, {at = 0, op = 'vlan', vid = 2}, {at = 0, op = 'vlan', vid = 4, tagged = ['x1.2']}]\n",
     "x1 lay 4096=1; commit 1; | x1 lay 4097=3; commit 2; | refuse 3 groups 3 2; | commit 4; x1 clear 4096; | x1 lay 4096=2; commit 5; |"),
    # An up of a port that is up, and each change of a rule, take effect without an exchange.
    (TWO + "command = [{at = 0, op = 'up', port = 'x1.1'}, {at = 0, op = 'pvid', vid = 7, port = 'x1.1'}, "
     "{at = 0, op = 'filter', port = 'x1.1', filter = true}, {at = 0, op = 'accept', port = 'x1.1', accept = 'tagged'}]\n",
     "commit 1; | commit 2; | commit 3; | commit 4; |"),
    # A set that another VLAN has too keeps its group.
    (THREE + "vlan = [{vid = 1, untagged = ['x1.1-2']}, {vid = 2, tagged = ['x1.1-2']}]\n"
     "command = [{at = 0, op = 'member', vid = 2, port = 'x1.3', kind = 'tagged'}, {at = 0, op = 'unmember', vid = 2, port = 'x1.3'}]\n",
     "x1 lay 4096=7; commit 1; | commit 2; x1 clear 4096; |"),
    # A static entry has a group of its own, and gives it back.
    (THREE + f"command = [{{at = 0, op = 'static', vid = 1, {ENTRY}, ports = ['x1.2-3']}}, {{at = 0, op = 'unstatic', vid = 1, {ENTRY}}}]\n",
     "x1 lay 4097=6; commit 1; | commit 2; x1 clear 4097; |"),
    # An isolated member makes a second set.
    (THREE + "command = [{at = 0, op = 'isolate', port = 'x1.1', isolated = true}, {at = 0, op = 'isolate', port = 'x1.1', isolated = false}]\n",
     "x1 lay 4097=6; commit 1; | commit 2; x1 clear 4097; |"),
    # A new member changes nothing below another port of the bridge. A set that a VLAN has already needs no group.
    ("bridge = {ports = 2}\nextender = [{number = 1, on = 'b1', ports = 1}, {number = 2, on = 'b2', ports = 1}]\n"
     "vlan = [{vid = 1, untagged = ['*']}, {vid = 2, tagged = ['x1.1']}]\ncommand = [{at = 0, op = 'member', vid = 2, port = 'x2.1', kind = 'tagged'}]\n",
     "commit 1; |"),
    # One command after another that each change a VLAN.
    (TWO + "command = [{at = 0, op = 'vlan', vid = 1, untagged = ['x1.1']}, {at = 0, op = 'vlan', vid = 1, untagged = ['x1.2']}]\n",
     "x1 lay 4096=1; commit 1; x1 clear 4097; | x1 lay 4097=2; commit 2; x1 clear 4096; |"),
    # Of one VLAN the tagged members have a set before the untagged ones.
    (TWO + "vlan = []\ncommand = [{at = 0, op = 'vlan', vid = 2, tagged = ['x1.2'], untagged = ['x1.1']}]\n",
     "x1 lay 4096=2 4097=1; commit 1; |"),
]

# A member is retagged, and of the request's acknowledgement and its answer, twice, nothing comes: both ends send again at the third beat.
CHANGES.append(
    (TWO + "vlan = [{vid = 10, tagged = ['x1.1-2']}, {vid = 20, untagged = ['x1.2']}]\n"
     "command = [{at = 0, op = 'member', vid = 10, port = 'x1.2', kind = 'untagged', fate = 'PLLL'}]\n",
     "x1 lay 4096=1; beat 11 x1 lay 4096=1; commit 1; x1 clear 4097; |"))

# The same, with the opening before it.
WHOLE = [
    # A channel is given again once the port that had it is down.
    ("bridge = {ports = 1, channels = 1}\nextender = [{number = 1, on = 'b1', ports = 2}]\n"
     "command = [{at = 0, op = 'down', port = 'x1.1'}, {at = 0, op = 'up', port = 'x1.2'}]\n",
     "heard x1; x1 open; x1 create 1 1; x1 lay 4096=1; up x1.1; noup x1.2 channels 2 1; | commit 1; x1 clear 4096; x1 delete 1; | "
     "x1 create 2 1; x1 lay 4096=2; commit 2; |"),
    # A port that goes down or up is in the sets of its VLANs and entries no more, or again.
    (THREE + f"static = [{{vid = 1, {ENTRY}, ports = ['x1.1', 'x1.3']}}]\n"
     "command = [{at = 0, op = 'down', port = 'x1.3'}, {at = 0, op = 'up', port = 'x1.3'}]\n",
     "heard x1; x1 open; x1 create 1 1; x1 lay 4096=1; up x1.1; x1 create 2 2; x1 lay 4097=3; up x1.2; x1 create 3 3; x1 lay 4098=7 4099=5; up x1.3; "
     "x1 clear 4096 4097; | x1 lay 4096=3 4097=1; commit 1; x1 clear 4098 4099; x1 delete 3; | x1 create 3 3; x1 lay 4098=7 4099=5; commit 2; "
     "x1 clear 4096 4097; |"),
]

# The order of static entries, by the groups that their sets get as x1.1 goes down.
OTHER, THIRD = ENTRY.replace("01'", "02'"), ENTRY.replace("01'", "03'")
CHANGES += [
    # One that is put again keeps its place.
    (THREE + f"static = [{{vid = 1, {ENTRY}, ports = ['x1.1']}}, {{vid = 1, {OTHER}, ports = ['x1.1', 'x1.3']}}]\n"
     f"command = [{{at = 0, op = 'static', vid = 1, {ENTRY}, ports = ['x1.1-2']}}, {{at = 0, op = 'down', port = 'x1.1'}}]\n",
     "x1 lay 4097=3; commit 1; x1 clear 4096; | x1 lay 4096=6 4100=2 4101=4; commit 2; x1 clear 4097 4098 4099; x1 delete 1; |"),
    # Those of a file come as they stand there, and not by their VLANs.
    (THREE + f"vlan = [{{vid = 2, last = 3, untagged = ['*']}}]\nstatic = [{{vid = 3, {ENTRY}, ports = ['x1.1-2']}}, {{vid = 2, {ENTRY}, ports = ['x1.1', 'x1.3']}}]\n"
     "command = [{at = 0, op = 'down', port = 'x1.1'}]\n",
     "x1 lay 4096=6 4100=2 4101=4; commit 1; x1 clear 4097 4098 4099; x1 delete 1; |"),
    # Those that stay keep their order.
    (THREE + f"static = [{{vid = 1, {ENTRY}, ports = ['x1.1']}}, {{vid = 1, {OTHER}, ports = ['x1.1-2']}}, {{vid = 1, {THIRD}, ports = ['x1.1', 'x1.3']}}]\n"
     f"command = [{{at = 0, op = 'unstatic', vid = 1, {ENTRY}}}, {{at = 0, op = 'down', port = 'x1.1'}}]\n",
     "commit 1; x1 clear 4096; | x1 lay 4096=6 4100=2 4101=4; commit 2; x1 clear 4097 4098 4099; x1 delete 1; |"),
]

# Extender 1 with three ports on b1, and b2.
FOUR = "bridge = {ports = 2}\nextender = [{number = 1, on = 'b1', ports = 3}]\n"

# What is sent for frames, behind the opening. A frame that no rule lets in is told at the end.
SENDS = [
    # At a port that isn't up a frame is ignored.
    ("bridge = {ports = 1, channels = 1}\nextender = [{number = 1, on = 'b1', ports = 2}]\n",
     "x1.2 100 60 FFFFFFFFFFFF0200000000010800",
     "ignore x1.2 1; |"),
    # Flooded: one word for the group below b1, and the frame at b2. Learned: one word for the channel of the port.
    (FOUR,
     "x1.1 100 60 0200000000020200000000010800;b2 101 60 0200000000010200000000020800",
     "relay x1.1 1; b1 1/4096 untagged; b2 untagged; | tick 1; relay b2 1; b1 0/1 untagged; |"),
    # An address is looked up before that of the sender is learned, and a frame goes nowhere that is for its own port.
    (FOUR,
     "x1.1 100 60 0200000000010200000000010800;x1.1 100 60 0200000000010200000000010800",
     "relay x1.1 1; b1 1/4096 untagged; b2 untagged; | relay x1.1 2; |"),
    # At most two words for a port of the bridge: for the tagged members, and then for the untagged ones.
    (THREE + "vlan = [{vid = 10, tagged = ['x1.1-2'], untagged = ['x1.3']}]\n",
     "x1.1 100 64 FFFFFFFFFFFF0200000000018100B00A0800",
     "relay x1.1 1; b1 1/4097 tagged; b1 1/4096 untagged; |"),
    # A word names the source's channel below its own port of the bridge alone.
    ("bridge = {ports = 2, channels = 1}\nextender = [{number = 1, on = 'b1', ports = 1}, {number = 2, on = 'b2', ports = 1}]\n",
     "x1.1 100 60 FFFFFFFFFFFF0200000000010800",
     "relay x1.1 1; b1 1/4096 untagged; b2 0/4096 untagged; |"),
    # No tag, a priority tag, the VLAN that is none, and a tag, at a port for tagged frames.
    (TWO + "port = [{name = 'x1.1', accept = 'tagged'}]\n",
     "x1.1 100 60 FFFFFFFFFFFF0200000000010800;x1.1 100 60 FFFFFFFFFFFF0200000000018100A0000800;"
     "x1.1 100 60 FFFFFFFFFFFF02000000000181000FFF0800;x1.1 100 60 FFFFFFFFFFFF02000000000181000001",
     "relay x1.1 1; | relay x1.1 2; | relay x1.1 3; | relay x1.1 4; b1 1/4097 untagged; | dropped x1.1 3;"),
    # At a port for frames without a tag or with a priority tag.
    (TWO + "port = [{name = 'x1.1', accept = 'untagged'}]\n",
     "x1.1 100 60 FFFFFFFFFFFF02000000000181000001;x1.1 100 60 FFFFFFFFFFFF0200000000018100A0000800",
     "relay x1.1 1; | relay x1.1 2; b1 1/4097 untagged; | dropped x1.1 1;"),
    # A static entry comes before a learned port, in its VLAN.
    (THREE + f"static = [{{vid = 1, {OTHER}, ports = ['x1.3']}}]\n",
     "x1.2 100 60 FFFFFFFFFFFF0200000000020800;x1.1 101 60 0200000000020200000000010800",
     "relay x1.2 1; b1 2/4096 untagged; | tick 1; relay x1.1 1; b1 1/4098 untagged; |"),
    # An isolated source is heard by the others alone.
    (THREE + "port = [{name = 'x1.1', isolated = true}, {name = 'x1.2', isolated = true}]\n",
     "x1.1 100 60 FFFFFFFFFFFF0200000000010800;x1.3 101 60 FFFFFFFFFFFF0200000000030800",
     "relay x1.1 1; b1 1/4098 untagged; | tick 1; relay x1.3 1; b1 3/4096 untagged; |"),
    # What was learned at a port that goes down is forgotten.
    ("bridge = {ports = 2}\nextender = [{number = 1, on = 'b1', ports = 2}]\ncommand = [{at = 2, op = 'down', port = 'x1.1'}]\n",
     "x1.1 100 60 FFFFFFFFFFFF0200000000010800;b2 101 60 0200000000010200000000020800;b2 103 60 0200000000010200000000020800;"
     "x1.1 104 60 FFFFFFFFFFFF0200000000010800",
     "relay x1.1 1; b1 1/4097 untagged; b2 untagged; | tick 1; relay b2 1; b1 0/1 untagged; | tick 1; x1 lay 4096=2; commit 1; x1 clear 4097; "
     "x1 delete 1; | tick 1; relay b2 2; b1 0/4096 untagged; | tick 1; ignore x1.1 2; |"),
]

# Extender 3 on b1, extender 1 on its second port, and extender 2 on b2.
CROOKED = ("bridge = {ports = 4}\nextender = [{number = 1, on = 'x3.2', ports = 2}, {number = 3, on = 'b1', ports = 2}, "
           "{number = 2, on = 'b2', ports = 2}]\n")

# The sets that have groups at the end, and their rows by depth and then number.
SETS = [
    # A part below each port of the bridge; ports of the bridge itself are in none.
    ("vlan = [{vid = 1, untagged = ['x3.1', 'x1.2', 'x2.1', 'b3']}]\n",
     "b1 x1.2 x3.1: x3=3 x1=2; b2 x2.1: x2=1;"),
    ("",
     "b1 x1.1 x1.2 x3.1: x3=3 x1=3; b2 x2.1 x2.2: x2=3;"),
    # The ports that aren't isolated are a set of their own.
    ("port = [{name = 'x1.1', isolated = true}]\nvlan = [{vid = 1, untagged = ['x1.*', 'x3.1']}]\n",
     "b1 x1.1 x1.2 x3.1: x3=3 x1=3; b1 x1.2 x3.1: x3=3 x1=2;"),
    # Each set once.
    ("vlan = [{vid = 1, untagged = ['x1.*', 'x3.1']}, {vid = 2, last = 3, tagged = ['x3.1'], untagged = ['x1.1']}]\n",
     "b1 x1.1 x1.2 x3.1: x3=3 x1=3; b1 x1.1: x3=2 x1=1; b1 x3.1: x3=1;"),
    # A static entry has a set, and ports that are down are in none.
    (f"vlan = [{{vid = 1, untagged = ['x1.1', 'x3.1', 'x2.1']}}]\nstatic = [{{vid = 1, {ENTRY}, ports = ['x3.1', 'x2.1']}}]\n"
     "command = [{at = 0, op = 'down', port = 'x2.1'}]\n",
     "b1 x1.1 x3.1: x3=3 x1=1; b1 x3.1: x3=1;"),
    # VLANs 100 to 4094 with one set each have one set together.
    ("vlan = [{vid = 100, last = 4094, tagged = ['x2.2']}]\n",
     "b2 x2.2: x2=2;"),
    ("vlan = []\n",
     ""),
]

BROADCAST = "60 FFFFFFFFFFFF0200000000010800"


def at_start(members):
    """All is in no VLAN up to a command, so each port of the bridge has one set, of group 4096."""
    return f"vlan = []\ncommand = [{{at = 0, op = 'vlan', vid = 1, untagged = {members}}}]\n"


def below(*places):
    """A bridge with two ports, and extenders: where each hangs, and its ports."""
    them = ", ".join(f"{{number = {number}, on = '{on}', ports = {ports}}}" for number, (on, ports) in enumerate(places, 1))
    return f"bridge = {{ports = 2}}\nextender = [{them}]\n"


# 64 extenders, each on the last port of the one before it; and 63 below one, each with 64 ports.
CHAIN = below(("b1", 2), ("x1.2", 1), *((f"x{number}.1", 1) for number in range(2, 64)))
BROOM = below(("b1", 64), *((f"x1.{port}", 64) for port in range(1, 64)))
ALL = (1 << 64) - 1

# Words down whole trees, behind the opening: what is asked, told and sent, and what leaves.
WAYS = [
    # Down a chain to both ends, and not back to the source. Cascade ports have the channels 1 to 63, x1.1 has 64 and x64.1 has 65.
    (CHAIN + at_start("['x1.1', 'x64.1']"),
     f"b2 100 {BROADCAST};x1.1 101 {BROADCAST};x64.1 102 {BROADCAST}",
     "x1 lay 4096=3; " + "".join(f"x{number} lay 4096=1; " for number in range(2, 65)) + "commit 1; | relay b2 1; b1 0/4096 untagged; | "
     "tick 1; relay x1.1 1; b1 64/4096 untagged; | tick 1; relay x64.1 1; b1 65/4096 untagged; |",
     "x1.1 100/60/08000000 102/60/08000000; x64.1 100/60/08000000 101/60/08000000;"),
    # At all external ports below one port of the bridge that have a channel: of 4,094 the 63 cascade ports have some, so x64.63 and x64.64 have none.
    (BROOM + at_start("['*']"),
     f"b2 100 {BROADCAST}",
     "".join(f"x{number} lay 4096={ALL}; " for number in range(1, 64)) + f"x64 lay 4096={ALL >> 2}; commit 1; | relay b2 1; b1 0/4096 untagged; |",
     " ".join(f"{port} 100/60/08000000;" for port in ["x1.64", *(f"x{number}.{port}" for number in range(2, 65) for port in range(1, 65))][:-2])),
    # One number means another set below each port of the bridge. The channel of x1.1 is 1 as that of x2.1, to which its frame comes all the same.
    (below(("b1", 2), ("b2", 3)) + at_start("['x1.1', 'x2.1-2']"),
     f"x1.1 100 {BROADCAST};x2.1 101 {BROADCAST}",
     "x1 lay 4096=1; x2 lay 4096=3; commit 1; | relay x1.1 1; b1 1/4096 untagged; b2 0/4096 untagged; | "
     "tick 1; relay x2.1 1; b1 0/4096 untagged; b2 1/4096 untagged; |",
     "x1.1 101/60/08000000; x2.1 100/60/08000000; x2.2 100/60/08000000 101/60/08000000;"),
]

OPENED = "... "


def table():
    """Each row: topology, arrivals, what is told (behind the opening, where it begins so), the sets at the end, and what leaves; None where a row
    doesn't say that."""
    rows = [(topology, "", wanted, None, None) for topology, wanted in (*OPENINGS, *WHOLE)]
    rows += [(topology, "", OPENED + wanted, None, None) for topology, wanted in CHANGES]
    rows += [(topology, frames, OPENED + wanted, None, None) for topology, frames, wanted in SENDS]
    rows += [(CROOKED + tail, "", None, sets, None) for tail, sets in SETS]
    return rows + [(topology, frames, OPENED + wanted, None, left) for topology, frames, wanted, left in WAYS]


def dropped(counters):
    """The ports at which frames were let in by no rule, in words."""
    lines = [line.split() for line in counters.decode().splitlines()]
    return "".join(f" dropped {words[0]} {words[4]};" for words in lines if words[4] != "0")


def agrees(row, written):
    """Holds what a run wrote, with a trace and counters, against its row."""
    import captured
    topology, _, wanted, sets, left = row
    reader = Reader(topology).read(written["out-trace.txt"].decode())
    if wanted is not None:
        told = reader.text() + dropped(written["out-counters.txt"])
        told = OPENED + told.partition("| ")[2] if wanted.startswith(OPENED) else told
        assert told == wanted, f"{told}\nwhere this is wanted:\n{wanted}"
    if sets is not None:
        assert reader.sets() == sets, f"{reader.sets()}, where {sets} is wanted"
    if left is not None:
        files = {bridge.number_of(name[4:-5]): captured.read(data)[0] for name, data in written.items() if name.endswith(".pcap") and name.startswith("out-")}
        told = outcomes.told([], dict(sorted(files.items())))
        assert told == left, f"{told}, where {left} is wanted"


def agree():
    """How many rows there are. The tree over links comes to what each of them says."""
    rows = table()
    for row in rows:
        files = outcomes.files_of(*row[:2])
        text = files["topology.toml"].decode()
        written, _, _ = schedule.run(text, files)
        agrees(row, {**written, "out-counters.txt": bridge.run(text, files)[0]["out-counters.txt"]})
    return len(rows)
