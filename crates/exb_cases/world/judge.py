"""What a trace has to keep to, as five rules over the files of a run, whoever wrote them."""
import copy
import re

from bridge import Bridge, number_of, records_of
from world.extender import Extender
from world.wire import is_control, read_etag, take_tag

LINE = re.compile(r"(in|out) (b|x(?:[1-9]|[1-5]\d|6[0-4])) (up|[1-9]|[1-5]\d|6[0-4]) ((?:[0-9a-f]{2})*)")


class Line:
    """A line of a trace: of a journal, a beat, or a frame that goes in or out at a side of a device."""

    def __init__(self, text):
        self.text, self.journal, self.way = text, text[2:] if text.startswith("= ") else None, None
        if self.journal is None and text != "beat":
            found = LINE.fullmatch(text)
            if found is None:
                raise ValueError(f"no line of a trace: {text[:60]}")
            way, who, side, data = found.groups()
            self.way, self.device = way, 0 if who == "b" else int(who[1:])
            self.side, self.frame = 0 if side == "up" else int(side), bytes.fromhex(data)

    def begins(self):
        return self.way == "in" or self.text == "beat"


class Files:
    """What lines are held to: topology, frames of captures by port, lines of the journal, frames that left by port."""

    def __init__(self, text, captures, journal, outputs):
        self.bridge = Bridge(text)
        self.tree = self.bridge.tree
        self.ports = {0: self.bridge.bridge["ports"]} | {it["number"]: it["ports"] for it in self.bridge.topology.get("extender", [])}
        self.below = {port: number for number, port in self.tree.on.items()}
        self.external = set(self.tree.external)
        self.captures, self.outputs, self.journal = captures, outputs, journal

    def place(self, line):
        """The port of a line: that of its device, 64 n - 1 for upstream of extender n."""
        return 64 * line.device + line.side - 1

    def is_external(self, line):
        return line.side > 0 and self.place(line) in self.external

    def is_data(self, line):
        return self.is_external(line) or not is_control(line.frame)

    def is_there(self, line):
        return line.device in self.ports and (0 if line.device else 1) <= line.side <= self.ports[line.device]


class Rule:
    """A rule is asked of one line after the other whether it may stand there (`takes`), and then whether the lines may end (`ends`).
    It isn't asked of more once it said no, nor of places that aren't there."""

    def __init__(self, files):
        self.files = files

    def broken_at(self, at):
        """Where it broke: `at` is the place, counted from 0, of the line that it didn't take, or the number of lines."""
        return at

    def copied(self, files=None):
        """A rule that goes on from here by itself, over these files or the same ones."""
        return copy.deepcopy(self, {id(self.files): files or self.files})


class Places(Rule):
    """Rule 1: the journal's lines in order, and places that are there."""

    def __init__(self, files):
        super().__init__(files)
        self.told = 0

    def takes(self, line):
        if line.journal is None:
            return line.way is None or self.files.is_there(line)
        self.told += 1
        return self.files.journal[self.told - 1:self.told] == [line.journal]

    def ends(self):
        return self.told == len(self.files.journal)


class Watching(Rule):
    """Rule 2: each extender, from power-on, sends what such a machine sends."""

    def __init__(self, files):
        super().__init__(files)
        self.machines = {number: Extender(number, ports) for number, ports in files.ports.items() if number}
        self.wanted = {number: [] for number in self.machines}

    def takes(self, line):
        if line.text == "beat":
            if not self.ends():
                return False
            self.wanted = {number: machine.beat() for number, machine in self.machines.items()}
        elif line.way == "out" and line.device:
            wanted = self.wanted[line.device]
            self.wanted[line.device] = wanted[1:]
            return wanted[:1] == [(line.side, line.frame)]
        elif line.way == "in" and line.device:
            if self.wanted[line.device]:
                return False
            machine = self.machines[line.device]
            self.wanted[line.device] = machine.at_port(line.side, line.frame) if line.side else machine.from_above(line.frame)
        return True

    def ends(self):
        return not any(self.wanted.values())


class Direction:
    """What went out in one direction of a link: data words that didn't come in yet, how many went out and came in, and of each control
    word how many data words went out before it first did."""

    def __init__(self):
        self.on_the_way, self.sent, self.taken, self.control = [], 0, 0, {}

    def put(self, frame):
        if is_control(frame):
            self.control.setdefault(frame, self.sent)
        else:
            self.on_the_way, self.sent = [*self.on_the_way, frame], self.sent + 1

    def takes(self, frame):
        if is_control(frame):
            return frame in self.control and self.control[frame] <= self.taken
        came, self.on_the_way, self.taken = self.on_the_way[:1], self.on_the_way[1:], self.taken + 1
        return came == [frame]


class Linking(Rule):
    """Rule 3: data words come in as they went out, and control words behind the data words that went out before them."""

    def __init__(self, files):
        super().__init__(files)
        self.links = {}

    def takes(self, line):
        if not line.way or self.files.is_external(line):
            return True
        place = self.files.place(line)
        upward = place in self.files.below
        link = (self.files.below[place], upward == (line.way == "in")) if line.side else (line.device, line.way == "out")
        direction = self.links.setdefault(link, Direction())
        if line.way == "out":
            direction.put(line.frame)
            return True
        return direction.takes(line.frame)

    def ends(self):
        return not any(it.on_the_way for it in self.links.values())


class Capturing(Rule):
    """Rule 4: what comes in and goes out at external ports is what the captures and the output files hold."""

    def __init__(self, files):
        super().__init__(files)
        self.passed = {}

    def held(self, way, port):
        return (self.files.captures if way == "in" else self.files.outputs).get(port, [])

    def takes(self, line):
        if not line.way or not self.files.is_external(line):
            return True
        port = self.files.place(line)
        passed = self.passed.get((line.way, port), 0)
        self.passed[line.way, port] = passed + 1
        return self.held(line.way, port)[passed:passed + 1] == [line.frame]

    def ends(self):
        return all(self.passed.get((way, port), 0) == len(self.held(way, port)) for way in ("in", "out") for port in self.files.external)


class Entering(Rule):
    """Rule 5: what the bridge says of each frame, and what it sends for it. A step is judged at its end; it breaks at its first line."""

    def __init__(self, files):
        super().__init__(files)
        self.step = []

    def takes(self, line):
        if not line.begins():
            self.step = [*self.step, line]
            return True
        is_decided = self.ends()
        if is_decided:
            self.step = [line]
        return is_decided

    def ends(self):
        first = self.step[0] if self.step else None
        comes = bool(first) and first.way == "in" and not first.device and self.files.is_data(first)
        told = [line.journal.split() for line in self.step if line.journal and line.journal.split()[0] in ("relay", "ignore")]
        sent = [line.side for line in self.step if line.way == "out" and not line.device and self.files.is_data(line)]
        relayed = any(words[0] == "relay" for words in told)
        if comes and not (len(told) == 1 and self.holds(first, *told[0][1:])):
            return False
        if relayed and not comes or sent and not relayed:
            return False
        return all(sent.count(side) <= 2 for side in sent)

    def holds(self, line, port, index):
        """Whether a line at the bridge holds the frame of this record: at a local port one of that port."""
        frames = self.files.captures.get(number_of(port), [])
        if not 1 <= int(index) <= len(frames):
            return False
        frame = frames[int(index) - 1]
        if self.files.is_external(line):
            return line.frame == frame and number_of(port) == self.files.place(line)
        return read_etag(line.frame) is not None and take_tag(line.frame) == frame

    def broken_at(self, at):
        return at - len(self.step)


RULES = (Places, Watching, Linking, Capturing, Entering)


def breaks(rules, lines, at=0):
    """The lowest of rules that lines break, and where; or None. The first of the lines stands at that place."""
    for number, rule in enumerate(rules, 1):
        broken = next((place for place, line in enumerate(lines, at) if not rule.takes(line)), None)
        if broken is None and not rule.ends():
            broken = at + len(lines)
        if broken is not None:
            return number, rule.broken_at(broken)
    return None


class Trace:
    """The files of a run, with the lines of its trace."""

    def __init__(self, files, lines):
        self.files, self.journal, self.lines = files, files.journal, [Line(line) for line in lines]

    def breaks(self):
        """The lowest rule that doesn't hold, and where; or None."""
        return breaks([rule(self.files) for rule in RULES], self.lines)


def trace_of(text, given, written):
    """The trace of a run over the captures that it read and the files that it wrote, by their names."""
    bridge = Bridge(text)
    prefix = bridge.bridge.get("out", "out-")
    frames = lambda file: [frame for _, frame in records_of(file)]
    captures = {port: frames(given[name]) for port, name in bridge.captures.items()}
    outputs = {number_of(name[len(prefix):-5]): frames(file) for name, file in written.items() if name.endswith(".pcap")}
    journal, lines = (written[f"{prefix}{name}.txt"].decode().splitlines() for name in ("journal", "trace"))
    return Trace(Files(text, captures, journal, outputs), lines)


def judge_files(text, given, written):
    """The lowest rule that it breaks, or None."""
    broken = trace_of(text, given, written).breaks()
    return broken and broken[0]
