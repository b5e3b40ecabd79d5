"""One VLAN bridge that owns all external ports of a tree, in plain Python: what leaves each port, and what happened in which order.

It is written from the rules of an 802.1Q bridge and of this project's commands and refusals, and stands on nothing of exbr.
There is no E-TAG, no channel and no message here; of the tree it knows only which ports are external, which port of the bridge
stands above one, and in which order extenders are opened. A topology is the text of its file, which has to be without a fault.
"""
import functools
import struct
import tomllib

import captured

SECOND = 1_000_000_000
RESERVED = bytes.fromhex("0180C20000")
NOBODY = {"tagged": frozenset(), "untagged": frozenset()}


def number_of(name):
    """Ports are numbers: b1 is 0, and port k of extender n is 64 n + k - 1."""
    if name[0] == "b":
        return int(name[1:]) - 1
    extender, port = name[1:].split(".")
    return 64 * int(extender) + int(port) - 1


def name_of(port):
    return f"b{port + 1}" if port < 64 else f"x{port // 64}.{port % 64 + 1}"


@functools.lru_cache(maxsize=100)
def tables_of(text):
    """What a topology says, which many runs have to read again. Nobody changes it."""
    return tomllib.loads(text)


class Tree:
    """Where extenders hang."""

    def __init__(self, bridge, extenders):
        self.on = {it["number"]: number_of(it["on"]) for it in extenders}
        ports = [range(bridge["ports"])] + [range(64 * it["number"], 64 * it["number"] + it["ports"]) for it in extenders]
        self.external = sorted({port for some in ports for port in some} - set(self.on.values()))
        self.opened = sorted(self.on, key=lambda it: (self.depth(it), it))
        self.extended = {}
        for port in self.external:
            if port >= 64:
                self.extended.setdefault(self.trunk(port), set()).add(port)

    def depth(self, extender):
        return 1 if self.on[extender] < 64 else 1 + self.depth(self.on[extender] // 64)

    def trunk(self, port):
        """The port of the bridge above a port."""
        while port >= 64:
            port = self.on[port // 64]
        return port

    def cascades(self, trunk):
        """How many ports of extenders below a port of the bridge have an extender."""
        return sum(port >= 64 and self.trunk(port) == trunk for port in self.on.values())

    def ports(self, word):
        """The ports that a word of a list names."""
        if word == "*":
            return set(self.external)
        if word.endswith(".*"):
            return {port for port in self.external if port // 64 == int(word[1:-2])}
        first, _, last = word.partition("-")
        begin = number_of(first)
        return set(range(begin, begin // 64 * 64 + int(last) if last else begin + 1))

    def all_of(self, words):
        return {port for word in words for port in self.ports(word)}


def address_of(text):
    return bytes.fromhex(text.replace("-", "").replace(":", ""))


class Rules:
    """What is set for a port."""

    def __init__(self, table):
        self.pvid, self.accept = table.get("pvid", 1), table.get("accept", "all")
        self.filter, self.isolated = table.get("filter", False), table.get("isolated", False)


class Configuration:
    """Present ports, members of VLANs, rules of ports, and static entries."""

    def __init__(self, tree, topology):
        self.tree = tree
        self.present = {port for port in tree.external if port < 64}
        named = {number_of(it["name"]): Rules(it) for it in topology.get("port", [])}
        self.rules = {port: named.get(port) or Rules({}) for port in tree.external}
        self.vlans, self.statics = {}, {}
        for table in topology.get("vlan", [{"vid": 1, "untagged": ["*"]}]):
            for vid in range(table["vid"], table.get("last", table["vid"]) + 1):
                self.command(dict(table, op="vlan", vid=vid))
        for table in topology.get("static", []):
            self.command(dict(table, op="static"))

    def copy(self):
        """One with the same content, of which parts may be replaced."""
        other = Configuration.__new__(Configuration)
        other.tree, other.present, other.rules = self.tree, set(self.present), dict(self.rules)
        other.vlans, other.statics = dict(self.vlans), dict(self.statics)
        return other

    def put(self, vid, tagged, untagged):
        """Sets the members of a VLAN. One without members isn't there."""
        self.vlans.pop(vid, None)
        if tagged or untagged:
            self.vlans[vid] = {"tagged": frozenset(tagged - untagged), "untagged": frozenset(untagged)}

    def without(self, vid, port):
        """The members of a VLAN by kind, but for one port."""
        return {kind: ports - {port} for kind, ports in self.vlans.get(vid, NOBODY).items()}

    def rule(self, port, key, value):
        rules = Rules(vars(self.rules[port]))
        setattr(rules, key, value)
        self.rules[port] = rules

    def command(self, it):
        """Does what a command says."""
        op = it["op"]
        port = number_of(it["port"]) if "port" in it else None
        if op == "vlan":
            self.put(it["vid"], self.tree.all_of(it.get("tagged", [])), self.tree.all_of(it.get("untagged", [])))
        elif op == "member":
            others = self.without(it["vid"], port)
            self.put(it["vid"], **(others | {it["kind"]: others[it["kind"]] | {port}}))
        elif op == "unmember":
            self.put(it["vid"], **self.without(it["vid"], port))
        elif op in ("pvid", "accept", "filter", "isolate"):
            key, value = {"pvid": ("pvid", "vid"), "isolate": ("isolated", "isolated")}.get(op, (op, op))
            self.rule(port, key, it[value])
        elif op == "static":
            self.statics[it["vid"], address_of(it["mac"])] = self.tree.all_of(it["ports"])
        elif op == "unstatic":
            self.statics.pop((it["vid"], address_of(it["mac"])), None)
        elif op == "up":
            self.present.add(port)
        elif op == "down":
            self.present.discard(port)
        else:
            raise ValueError(op)

    def after(self, it):
        other = self.copy()
        other.command(it)
        return other

    def parts(self):
        """The members of each kind of each VLAN, and those among them that a static entry names."""
        found = {ports for kinds in self.vlans.values() for ports in kinds.values()}
        return found | {part & ports for (vid, _), ports in self.statics.items() for part in self.vlans.get(vid, NOBODY).values()}

    def sets(self, trunk, parts):
        """The sets that need a group number below a port of the bridge."""
        isolated = {port for port, rules in self.rules.items() if rules.isolated}
        below = self.tree.extended[trunk] & self.present
        found = {part & below for part in parts}
        return (found | {part - isolated for part in found}) - {frozenset()}


def refusal(tree, bridge, now, command):
    """Why a command is refused in a configuration, or None."""
    channels, groups = bridge.get("channels", 4094), bridge.get("groups", 12288)
    port = number_of(command["port"]) if command["op"] == "up" else 0
    if port >= 64 and port not in now.present:
        trunk = tree.trunk(port)
        needed = tree.cascades(trunk) + len(tree.extended[trunk] & now.present) + 1
        if needed > channels:
            return f"channels {needed} {channels}"
    after = now.after(command)
    now_parts, after_parts = now.parts(), after.parts()
    for trunk in sorted(tree.extended):
        needed = len(now.sets(trunk, now_parts) | after.sets(trunk, after_parts))
        if needed > groups:
            return f"groups {needed} {groups}"
    return None


def kind_of(frame):
    """The kind of a frame, and the control information of its tag."""
    if len(frame) < 14:
        return "short", 0
    if len(frame) > 9216:
        return "long", 0
    if frame[:5] == RESERVED and frame[5] < 16:
        return "reserved", 0
    if frame[12:14] != b"\x81\x00":
        return "plain", 0
    if len(frame) < 18 or (frame[14] & 15, frame[15]) == (15, 255):
        return "bad", 0
    tag = frame[14] << 8 | frame[15]
    return ("tagged" if tag & 0xFFF else "priority"), tag


def egress(frame, kind, vid):
    """The bytes with which a frame leaves."""
    seen, tag = kind_of(frame)
    body = frame[12:] if seen == "plain" else frame[16:]
    return frame[:12] + (b"\x81\x00" + struct.pack(">H", tag & 0xF000 | vid) if kind == "tagged" else b"") + body


def passes(now, port, frame):
    """The VLAN of a frame that comes at a port, and the rule that refuses it, or None where it passes: 'bad tag', 'accept', 'vlan' or
    'filter'. It has to be of a kind that is relayed."""
    seen, tag = kind_of(frame)
    if seen == "bad":
        return None, "bad tag"
    rules = now.rules[port]
    vid = tag & 0xFFF if seen == "tagged" else rules.pvid
    if rules.accept != "all" and (rules.accept == "tagged") != (seen == "tagged"):
        return vid, "accept"
    if vid not in now.vlans:
        return vid, "vlan"
    if rules.filter and not any(port in ports for ports in now.vlans[vid].values()):
        return vid, "filter"
    return vid, None


def targets(now, port, vid, chosen):
    """Where a frame of a VLAN that came at a port leaves, and in which kind. `chosen` is the ports that are chosen, or None for all."""
    isolated = now.rules[port].isolated
    for kind, members in now.vlans[vid].items():
        for target in members & now.present - {port} if chosen is None else members & now.present & chosen - {port}:
            if not (isolated and now.rules[target].isolated):
                yield target, kind


class Bridge:
    """The bridge in motion. `journal` has the lines of what happened, `left` the moments and frames that left each port."""

    def __init__(self, text):
        self.topology = topology = tables_of(text)
        self.bridge, self.commands = topology["bridge"], topology.get("command", [])
        self.tree = Tree(self.bridge, topology.get("extender", []))
        self.now = Configuration(self.tree, topology)
        self.ageing, self.clock, self.learned = self.bridge.get("ageing", 300), 0, {}
        self.captures = {number_of(port): name for port, name in topology.get("captures", {}).items()}
        self.journal, self.left = [], {port: [] for port in self.tree.external}
        self.counts = dict.fromkeys(("relayed", "ignored", "commits", "refusals"), 0)
        self.counters = {port: dict.fromkeys(("relayed", "dropped", "ignored"), 0) for port in self.tree.external}

    def vlan(self, port, frame):
        """The VLAN in which a frame passes at a port, or None."""
        if kind_of(frame)[0] in ("short", "long", "reserved"):
            return None
        vid, refused = passes(self.now, port, frame)
        return None if refused else vid

    def chosen(self, vid, destination):
        """The ports that are chosen for a destination: None for all."""
        if (vid, destination) in self.now.statics:
            return self.now.statics[vid, destination]
        port, seen = self.learned.get((vid, destination), (None, 0))
        if destination[0] & 1 or port is None or self.clock - seen >= self.ageing:
            return None
        return {port}

    def relay(self, port, moment, frame):
        vid = self.vlan(port, frame)
        if vid is None:
            self.counters[port]["dropped"] += 1
            return
        for target, kind in targets(self.now, port, vid, self.chosen(vid, frame[:6])):
            self.left[target].append((moment, egress(frame, kind, vid)))
        if not frame[6] & 1:
            self.learned[vid, frame[6:12]] = (port, self.clock)

    def arrive(self, port, index, moment, frame):
        if port not in self.now.present or kind_of(frame)[0] in ("short", "long", "reserved"):
            self.counts["ignored"] += 1
            self.counters[port]["ignored"] += 1
            self.journal.append(f"ignore {name_of(port)} {index}")
            return
        self.counts["relayed"] += 1
        self.counters[port]["relayed"] += 1
        self.journal.append(f"relay {name_of(port)} {index}")
        self.relay(port, moment, frame)

    def obey(self, number, command):
        cause = refusal(self.tree, self.bridge, self.now, command)
        if cause:
            self.counts["refusals"] += 1
            self.journal.append(f"refuse {number} {cause}")
            return
        self.counts["commits"] += 1
        self.journal.append(f"commit {number}")
        self.now.command(command)
        if command["op"] == "down":
            gone = number_of(command["port"])
            self.learned = {key: place for key, place in self.learned.items() if place[0] != gone}

    def open(self):
        """Each extended port goes up, if numbers suffice: extenders by depth and number, and the ports of each in order."""
        for extender in self.tree.opened:
            for port in self.tree.external:
                if port // 64 == extender:
                    up = {"op": "up", "port": name_of(port)}
                    cause = refusal(self.tree, self.bridge, self.now, up)
                    self.journal.append(f"noup {name_of(port)} {cause}" if cause else f"up {name_of(port)}")
                    if not cause:
                        self.now.command(up)
        self.journal.append("settled")

    def play(self, records):
        """Opens the tree and plays commands and records: for each port moments and frames, in the order of its capture."""
        self.open()
        coming = []
        for port, its in records.items():
            highest = 0
            for index, (moment, frame) in enumerate(its, 1):
                highest = max(highest, moment)
                coming.append((highest, 1, port, index, frame))
        start = min((moment // SECOND for moment, *_ in coming), default=0)
        coming += [((start + it["at"]) * SECOND, 0, 0, number, it) for number, it in enumerate(self.commands, 1)]
        before = None
        for moment, is_record, port, index, what in sorted(coming, key=lambda it: it[:4]):
            second = moment // SECOND
            if before is not None and second > before:
                self.clock += second - before
                self.journal.append(f"tick {second - before}")
            before = second
            if is_record:
                self.arrive(port, index, moment, what)
            else:
                self.obey(index, what)
            self.journal.append("settled")

    def follow(self, lines, records):
        """Plays what the lines of a journal name, in their order. What is told of it has to be these lines."""
        self.open()
        for line in lines[len(self.journal):]:
            kind, *words = line.split()
            if kind in ("relay", "ignore"):
                port, index = number_of(words[0]), int(words[1])
                moment = max(moment for moment, _ in records[port][:index])
                self.arrive(port, index, moment, records[port][index - 1][1])
            elif kind in ("commit", "refuse"):
                self.obey(int(words[0]), self.commands[int(words[0]) - 1])
            else:
                self.clock += int(words[0]) if kind == "tick" else 0
                self.journal.append(line)

    def counted(self):
        """A line for each external port: what came in there, what of it a rule refused, what was ignored, and what left."""
        lines = []
        for port in self.tree.external:
            came, left = self.counters[port], self.left[port]
            octets = sum(len(frame) for _, frame in left)
            lines.append(f"{name_of(port)} relayed {came['relayed']} dropped {came['dropped']} ignored {came['ignored']} "
                         f"left {len(left)} octets {octets}\n")
        return "".join(lines)

    def summary(self):
        arrivals, left = self.counts["relayed"] + self.counts["ignored"], sum(map(len, self.left.values()))
        return (f"arrivals {arrivals} relayed {self.counts['relayed']} ignored {self.counts['ignored']} left {left} "
                f"commits {self.counts['commits']} refusals {self.counts['refusals']}")


def records_of(file):
    """The moments and frames of a capture of either format, which has to be without a fault."""
    records, fault = captured.read(file)
    if fault:
        raise ValueError(fault)
    return records


def capture_of(records):
    """The text of a capture, little-endian and in microseconds."""
    return struct.pack("<IHHIIII", 0xA1B2C3D4, 2, 4, 0, 0, 65535, 1) + b"".join(
        struct.pack("<IIII", moment // SECOND, moment % SECOND // 1000, len(frame), len(frame)) + frame for moment, frame in records
    )


def run(text, files, journal=None):
    """Plays a topology with files: the files that are written by their names, and the summary. Where a journal is given its order is followed."""
    bridge = Bridge(text)
    records = {port: records_of(files[name]) for port, name in bridge.captures.items()}
    if journal is None:
        bridge.play(records)
    else:
        bridge.follow(journal, records)
    prefix = bridge.bridge.get("out", "out-")
    written = {f"{prefix}{name_of(port)}.pcap": capture_of(left) for port, left in bridge.left.items()}
    written[f"{prefix}journal.txt"] = "".join(f"{line}\n" for line in bridge.journal).encode()
    written[f"{prefix}counters.txt"] = bridge.counted().encode()
    return written, bridge.summary()
