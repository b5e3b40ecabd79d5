"""Several VLAN bridges, wired to one another at external ports, in plain Python: what leaves each port, and what happened where.

It is written from the definition of a net's histories, over the one bridge of `bridge.py`: there is no extender's table, no
link and no lost frame here. A net is the text of its file, which has to be without a fault, and so are its topologies.

python3 crates/exb_cases/nets.py NUMBER FOLDER   makes a random net of that number in a folder, and what its run must write
"""
import pathlib
import random
import struct
import sys
from collections import deque

import bridge
from bridge import SECOND, Bridge, name_of, number_of


class Net:
    """Bridges in the order of the file, and for each wired port of each the bridge and the port at the far end."""

    def __init__(self, text, files):
        net = bridge.tables_of(text)
        self.names = [it["name"] for it in net["bridge"]]
        self.texts = [files[it["topology"]].decode() for it in net["bridge"]]
        self.bridges = [Bridge(text) for text in self.texts]
        self.far = {}
        for wire in net.get("wire", []):
            a, b = self.end(wire["a"]), self.end(wire["b"])
            self.far[a], self.far[b] = b, a
        # what came to each port of each bridge so far, and the records that came over wires
        self.came = [dict.fromkeys(it.tree.external, 0) for it in self.bridges]
        self.crossed = {end: [] for end in self.far}

    def end(self, text):
        name, port = text.split(":")
        return self.names.index(name), number_of(port)

    def coming(self, records):
        """All commands and records, in their order: by moment, then commands before records, then bridges, then as in one bridge."""
        found = []
        for at, its in enumerate(records):
            for port, those in its.items():
                highest = 0
                for index, (moment, frame) in enumerate(those, 1):
                    highest = max(highest, moment)
                    found.append((highest, 1, at, port, index, frame))
        start = min((moment // SECOND for moment, *_ in found), default=0)
        for at, it in enumerate(self.bridges):
            found += [((start + command["at"]) * SECOND, 0, at, 0, number, command) for number, command in enumerate(it.commands, 1)]
        return sorted(found, key=lambda it: it[:5])

    def happen(self, at, does):
        """Lets a bridge do something, and then settle. The frames that leave its wired ports by that, in port order."""
        this = self.bridges[at]
        before = {port: len(left) for port, left in this.left.items()}
        does(this)
        this.journal.append("settled")
        return [(self.far[at, port], sent) for port in this.tree.external if (at, port) in self.far for sent in this.left[port][before[port] :]]

    def arrive(self, at, port, moment, frame):
        self.came[at][port] += 1
        index = self.came[at][port]
        return self.happen(at, lambda this: this.arrive(port, index, moment, frame))

    def play(self, records):
        """Opens all trees, and plays what comes, each with all that follows of it over wires."""
        for this in self.bridges:
            this.open()
        last = None
        for moment, is_record, at, port, number, what in self.coming(records):
            second = moment // SECOND
            for this in self.bridges if last is not None and second > last else []:
                this.clock += second - last
                this.journal.append(f"tick {second - last}")
            last = second
            between = deque(self.arrive(at, port, moment, what) if is_record else self.happen(at, lambda this: this.obey(number, what)))
            while between:
                (to, far_port), (when, sent) = between.popleft()
                self.crossed[to, far_port].append((when, sent))
                between += self.arrive(to, far_port, when, sent)

    def summary(self):
        """The sums over all bridges."""
        sums = {key: sum(this.counts[key] for this in self.bridges) for key in ("relayed", "ignored", "commits", "refusals")}
        left = sum(len(left) for this in self.bridges for left in this.left.values())
        return (f"arrivals {sums['relayed'] + sums['ignored']} relayed {sums['relayed']} ignored {sums['ignored']} left {left} "
                f"commits {sums['commits']} refusals {sums['refusals']}")


def written(name, this):
    """The files of a bridge, by their names."""
    files = {f"{name}-{name_of(port)}.pcap": bridge.capture_of(left) for port, left in this.left.items()}
    files[f"{name}-journal.txt"] = "".join(f"{line}\n" for line in this.journal).encode()
    files[f"{name}-counters.txt"] = this.counted().encode()
    return files


def played(text, files, player=Net):
    """Plays a net with files: the net, the files that are written by their names, and the summary."""
    net = player(text, files)
    records = [{port: bridge.records_of(files[name]) for port, name in this.captures.items()} for this in net.bridges]
    net.play(records)
    out = {}
    for name, this in zip(net.names, net.bridges):
        out |= written(name, this)
    return net, out, net.summary()


def run(text, files):
    """The files that are written and the summary of a net, in which each bridge alone does the same."""
    net, out, summary = played(text, files)
    alone(net, [{port: bridge.records_of(files[name]) for port, name in this.captures.items()} for this in net.bridges])
    return out, summary


def alone(net, records):
    """Asserts that each bridge, alone and given what came over its wires as captures, does the same in the order of its journal."""
    for at, (name, this) in enumerate(zip(net.names, net.bridges)):
        given = dict(records[at])
        given |= {port: crossed for (of, port), crossed in net.crossed.items() if of == at}
        other = Bridge(net.texts[at])
        other.follow(this.journal, given)
        assert other.journal == this.journal and other.left == this.left, name


# ---- random nets

WORDS = ("a", "b", "c", "core", "east", "west", "lab", "x1", "0", "roof", "cellar", "yard", "dock", "north", "south", "hall")


def in_nanoseconds(records):
    """A classic capture, big-endian and in nanoseconds."""
    return struct.pack(">IHHIIII", 0xA1B23C4D, 2, 4, 0, 0, 65535, 1) + b"".join(
        struct.pack(">IIII", *divmod(moment, SECOND), len(frame), len(frame)) + frame for moment, frame in records)


def in_blocks(records):
    """A pcapng in nanoseconds."""
    def block(kind, content):
        return struct.pack("<II", kind, len(content) + 12) + content + struct.pack("<I", len(content) + 12)

    head = block(0x0A0D0D0A, struct.pack("<IHHq", 0x1A2B3C4D, 1, 0, -1)) + block(1, struct.pack("<HHIHHBxxxHH", 1, 0, 262_144, 9, 1, 9, 0, 0))
    return head + b"".join(block(6, struct.pack("<IIIII", 0, moment >> 32, moment & 0xFFFF_FFFF, len(frame), len(frame)) + frame.ljust(-(-len(frame) // 4) * 4, b"\0"))
                           for moment, frame in records)


class Draw:
    """A net that is drawn from a number: its file, its topologies and its captures."""

    def __init__(self, number):
        self.random = random.Random(number)
        self.files = {}
        self.count = self.random.choice((1, 2, 2, 3, 3, 4, 5, 8, 16))
        self.names = self.random.sample(WORDS, self.count)
        self.trees = [self.tree() for _ in self.names]
        self.free = [self.externals(it) for it in self.trees]
        self.wires = self.wired()
        self.topologies = [self.topology(at) for at in range(self.count)]

    def tree(self):
        """Ports of the bridge, and extenders with the port on which each hangs."""
        r = self.random
        ports = r.randint(2, 6)
        extenders, places = [], [f"b{port}" for port in range(1, ports + 1)]
        for number in r.sample(range(1, 65), r.choice((0, 0, 1, 2, 3, 4))):
            if len(places) < 2:
                break
            on = places.pop(r.randrange(len(places)))
            width = r.randint(1, 6)
            extenders.append((number, on, width))
            places += [f"x{number}.{port}" for port in range(1, width + 1)]
        return ports, extenders, places

    def externals(self, tree):
        return sorted(tree[2], key=number_of)

    def wired(self):
        """A forest: each bridge but the first hangs on an earlier one, where both have a port left, or on none."""
        r, wires = self.random, []
        for at in range(1, self.count):
            to = r.randrange(at)
            if r.random() < 0.9 and len(self.free[at]) > 1 and len(self.free[to]) > 1:
                a = (at, self.free[at].pop(r.randrange(len(self.free[at]))))
                b = (to, self.free[to].pop(r.randrange(len(self.free[to]))))
                wires.append((a, b) if r.random() < 0.5 else (b, a))
        r.shuffle(wires)
        return wires

    def list_of(self, ports, share):
        return [port for port in ports if self.random.random() < share]

    def topology(self, at):
        r = self.random
        ports, extenders, places = self.trees[at]
        external = self.externals(self.trees[at])
        lines = ["[bridge]", f"ports = {ports}", f"ageing = {r.choice((0, 10, 10, 30, 300))}"]
        if r.random() < 0.15:
            lines.append(f"groups = {r.randint(1, 6)}")
        if extenders and r.random() < 0.15:
            lines.append(f"channels = {len(extenders) + r.randint(0, 4)}")
        if r.random() < 0.3:
            lines += ["[links]", f'fate = "{self.fate()}"']
        for number, on, width in extenders:
            lines += ["[[extender]]", f"number = {number}", f'on = "{on}"', f"ports = {width}"]
        for port in self.list_of(external, 0.5):
            lines += ["[[port]]", f'name = "{port}"', f"pvid = {r.randint(1, 3)}", f'accept = "{r.choice(("all", "all", "tagged", "untagged"))}"']
            lines += [f"filter = {r.choice(('true', 'false'))}", f"isolated = {r.choice(('true', 'false', 'false'))}"]
        for vid in r.sample((1, 2, 3), r.randint(1, 3)):
            lines += ["[[vlan]]", f"vid = {vid}", f"tagged = {self.list_of(external, 0.4)}", f"untagged = {self.list_of(external, 0.6)}"]
        if r.random() < 0.3:
            lines += ["[[static]]", f"vid = {r.randint(1, 3)}", f'mac = "{self.address()}"', f"ports = {self.list_of(external, 0.5)}"]
        lines += self.commands(external)
        captures = [(port, self.capture(f"{self.names[at]}.{port}")) for port in self.list_of(self.free[at], 0.6)]
        lines += ["[captures]"] + [f'"{port}" = "{name}"' for port, name in captures]
        return "\n".join(lines) + "\n"

    def fate(self):
        return "".join(self.random.choice("PPLTD") for _ in range(self.random.randint(1, 30)))

    def address(self, joint="-"):
        return joint.join(("02", "00", "00", "00", "00", f"{self.random.randint(1, 12):02x}"))

    def commands(self, external):
        r, lines, second = self.random, [], 0
        for _ in range(r.choice((0, 0, 2, 5, 9))):
            second += r.choice((0, 1, 3, 9))
            port, vid = r.choice(external), r.randint(1, 3)
            said = r.choice((
                f'op = "up"\nport = "{port}"', f'op = "down"\nport = "{port}"', f'op = "pvid"\nport = "{port}"\nvid = {vid}',
                f'op = "member"\nvid = {vid}\nport = "{port}"\nkind = "{r.choice(("tagged", "untagged"))}"',
                f'op = "unmember"\nvid = {vid}\nport = "{port}"', f'op = "isolate"\nport = "{port}"\nisolated = true',
                f'op = "vlan"\nvid = {vid}\nuntagged = {self.list_of(external, 0.7)}', f'op = "filter"\nport = "{port}"\nfilter = true',
                f'op = "static"\nvid = {vid}\nmac = "{self.address(":")}"\nports = {self.list_of(external, 0.5)}',
                f'op = "unstatic"\nvid = {vid}\nmac = "{self.address()}"', f'op = "accept"\nport = "{port}"\naccept = "{r.choice(("all", "tagged", "untagged"))}"',
            ))
            lines += ["[[command]]", f"at = {second}", said] + ([f'fate = "{self.fate()}"'] if r.random() < 0.3 else [])
        return lines

    def frame(self):
        r = self.random
        to = bytes.fromhex("ff" * 6) if r.random() < 0.3 else bytes.fromhex(self.address("")) if r.random() < 0.95 else bytes.fromhex("0180c200000e")
        tag = b"" if r.random() < 0.6 else struct.pack(">HH", 0x8100, r.randint(0, 7) << 13 | r.choice((0, 1, 2, 3, 3, 4095)))
        return (to + bytes.fromhex(self.address("")) + tag + b"\x08\x00" + bytes(r.choice((0, 10, 46, 46, 46, 46, 1500, 9202, 9198, 9203))))[: r.choice((13, *[9999] * 30))]

    def capture(self, name):
        r, records, moment = self.random, [], 100 * SECOND + self.random.randint(0, 20) * SECOND // 4
        for _ in range(r.choice((0, 1, 3, 8, 20))):
            records.append((moment, self.frame()))
            moment = max(0, moment + r.choice((0, 0, 1, 1000, 250_000_000, SECOND, 12 * SECOND, -1000)))
        self.files[f"{name}.pcap"] = r.choice((bridge.capture_of, bridge.capture_of, in_nanoseconds, in_blocks))(records)
        return f"{name}.pcap"

    def text(self):
        lines = []
        for at, name in enumerate(self.names):
            self.files[f"{name}.toml"] = self.topologies[at].encode()
            lines += ["[[bridge]]", f'name = "{name}"', f'topology = "{name}.toml"']
        for (a, p), (b, q) in self.wires:
            lines += ["[[wire]]", f'a = "{self.names[a]}:{p}"', f'b = "{self.names[b]}:{q}"']
        return "\n".join(lines) + "\n"


def drawn(number):
    """The text of a random net, and all files that it reads."""
    draw = Draw(number)
    return draw.text(), draw.files


def main(number, folder):
    folder = pathlib.Path(folder)
    text, files = drawn(int(number))
    out, summary = run(text, files)
    wanted = folder / "wanted"
    wanted.mkdir(parents=True)
    for name, data in (files | {"net.toml": text.encode()}).items():
        (folder / name).write_bytes(data)
    for name, data in (out | {"stdout": f"{summary}\n".encode()}).items():
        (wanted / name).write_bytes(data)


if __name__ == "__main__":
    main(*sys.argv[1:])
