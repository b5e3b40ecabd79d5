"""The world over links, moved by steps: bridge, extenders and what is on the links between them, with the lines of the trace."""
from bridge import Bridge, egress, kind_of, name_of
from world.control import Control
from world.extender import UP, Extender
from world.wire import *

DOWN = 1


class World:
    """A world of a topology. A word on a link is its bytes and the port, index and moment of the record that it comes from; a
    control word has None in their place. `fate` are the letters that are still to be given."""

    def __init__(self, text):
        self.bridge = Bridge(text)
        self.tree = self.bridge.tree
        self.control = Control(self.bridge)
        self.below = self.control.below
        ports = {it["number"]: it["ports"] for it in self.bridge.topology.get("extender", [])}
        self.extenders = {number: Extender(number, ports[number]) for number in sorted(ports)}
        self.ends = {number: End() for number in self.extenders}
        self.links = {(number, way): [] for number in self.extenders for way in (UP, DOWN)}
        self.left = {port: [] for port in self.tree.external}
        self.fate, self.asks = [], 0
        self.trace, self.journal, self.said = [], self.control.journal, 0
        self.outs = []

    # Steps.

    def begin(self, line=None):
        if line:
            self.trace.append(line)

    def end(self):
        """Ends a step: what the journal got, and then what was sent."""
        self.send_asks()
        self.trace += [f"= {line}" for line in self.journal[self.said:]] + self.outs
        self.said, self.outs = len(self.journal), []

    def arrive(self, port, index, moment, frame):
        stamp = (port, index, moment)
        if port < 64:
            self.begin(f"in b {port + 1} {frame.hex()}")
            self.come(stamp, frame)
        else:
            number, place = port // 64, port % 64 + 1
            self.begin(f"in x{number} {place} {frame.hex()}")
            sends = self.extenders[number].at_port(place, frame)
            if sends:
                self.sent_by(number, sends, stamp)
            else:
                self.ignore(port, index)
        self.end()

    def take(self, number, way, at):
        """Takes the word at a place of a link, whatever it is."""
        word = self.links[number, way].pop(at)
        self.deliver(number, way, *word)

    def keep(self, number, way, at):
        """Delivers a control word and lets it lie."""
        self.deliver(number, way, *self.links[number, way][at])

    def deliver(self, number, way, frame, stamp):
        on = self.tree.on[number]
        if way == DOWN:
            self.begin(f"in x{number} up {frame.hex()}")
            self.sent_by(number, self.extenders[number].from_above(frame), stamp)
        elif on >= 64:
            self.begin(f"in x{on // 64} {on % 64 + 1} {frame.hex()}")
            self.sent_by(on // 64, self.extenders[on // 64].at_port(on % 64 + 1, frame), stamp)
        else:
            self.begin(f"in b {on + 1} {frame.hex()}")
            if is_control(frame):
                self.hear(on, number, frame)
            else:
                self.come_up(on, frame, stamp)
        self.end()

    def beat(self):
        self.begin("beat")
        for number, end in self.ends.items():
            if end.beat():
                self.send_control(number, end.frame(0))
        self.control.beat()
        self.send_asks()
        for number, extender in self.extenders.items():
            self.sent_by(number, extender.beat(), None)
        self.end()

    def tick(self, seconds):
        self.bridge.clock += seconds
        self.journal.append(f"tick {seconds}")
        self.end()

    def command(self, command):
        self.control.command(command)
        self.end()

    def mark(self):
        self.journal.append("settled")
        self.end()

    # What an extender sends.

    def sent_by(self, number, sends, stamp):
        for side, frame in sends:
            port = 64 * number + side - 1
            self.outs.append(f"out x{number} {side or 'up'} {frame.hex()}")
            if side == UP:
                self.links[number, UP].append((frame, stamp))
            elif port in self.below:
                self.links[self.below[port], DOWN].append((frame, stamp))
            else:
                self.left[port].append((stamp[2], frame))

    # What the bridge does with frames.

    def ignore(self, port, index):
        self.bridge.counts["ignored"] += 1
        self.journal.append(f"ignore {name_of(port)} {index}")

    def come(self, stamp, frame):
        """A frame at one of the bridge's own ports or, without its tag, from below."""
        port, index, _ = stamp
        if port not in self.bridge.now.present or kind_of(frame)[0] in ("short", "long", "reserved"):
            self.ignore(port, index)
            return
        self.bridge.counts["relayed"] += 1
        self.journal.append(f"relay {name_of(port)} {index}")
        vid = self.bridge.vlan(port, frame)
        if vid is not None:
            self.relay(stamp, frame, vid)
            if not frame[6] & 1:
                self.bridge.learned[vid, frame[6:12]] = (port, self.bridge.clock)

    def come_up(self, trunk, frame, stamp):
        port = self.control.spaces[trunk].channels[read_etag(frame)[0]]
        assert port == stamp[0], "a channel is not the port's from which the frame comes"
        self.come(stamp, take_tag(frame))

    def chosen(self, vid, frame):
        """The ports that are chosen for a frame, and whether that is one port that was learned."""
        chosen = self.bridge.chosen(vid, frame[:6])
        if chosen is None:
            return set(self.tree.external), False
        return chosen, (vid, frame[:6]) not in self.bridge.now.statics

    def relay(self, stamp, frame, vid):
        """Sends copies by ports of the bridge; below one of them first the tagged and then the untagged."""
        port, now = stamp[0], self.bridge.now
        chosen, is_learned = self.chosen(vid, frame)
        isolated = {it for it, rules in now.rules.items() if rules.isolated}
        apart = isolated if port in isolated else set()
        for trunk in range(self.bridge.bridge["ports"]):
            for kind in ("tagged", "untagged"):
                members = now.vlans[vid][kind] & now.present & chosen - apart
                copy = egress(frame, kind, vid)
                if trunk not in self.below:
                    if trunk in members - {port}:
                        self.outs.append(f"out b {trunk + 1} {copy.hex()}")
                        self.left[trunk].append((stamp[2], copy))
                    continue
                members = frozenset(members & self.tree.extended.get(trunk, set()))
                if is_learned:
                    members -= {port}
                if members:
                    self.send_down(trunk, stamp, frame, copy, members, is_learned)

    def send_down(self, trunk, stamp, frame, copy, members, is_learned):
        space = self.control.spaces[trunk]
        ecid = space.channel(*members) if is_learned else space.group(members)
        below = stamp[0] >= 64 and self.tree.trunk(stamp[0]) == trunk
        tag = etag(ecid, space.channel(stamp[0]) if below else 0, kind_of(frame)[1] >> 12)
        self.send(trunk, put_tag(copy, tag), stamp)

    def send(self, trunk, frame, stamp):
        self.outs.append(f"out b {trunk + 1} {frame.hex()}")
        self.links[self.below[trunk], DOWN].append((frame, stamp))

    # What the bridge says to extenders and hears from them.

    def send_control(self, extender, frame):
        on = self.tree.on[extender]
        if on >= 64:
            frame = put_tag(frame, etag(self.control.space(on).channel(on)))
        self.send(self.tree.trunk(on), frame, None)

    def send_asks(self):
        for extender, payload in self.control.asks:
            self.ends[extender].submit(payload)
            self.send_control(extender, self.ends[extender].frame(0))
        self.control.asks.clear()

    def hear(self, trunk, extender, frame):
        tag = read_etag(frame)
        if tag:
            extender, frame = self.below[self.control.spaces[trunk].channels[tag[0]]], take_tag(frame)
        told = read_announcement(frame)
        if told == (address(extender), len(self.extenders[extender].ports)):
            self.control.hear(extender, told[1])
        read = read_pdu(frame)
        if read:
            self.take_pdu(extender, *read)

    def take_pdu(self, extender, sequence, payload):
        end = self.ends[extender]
        if payload is None:
            end.acknowledged(sequence)
            return
        self.send_control(extender, pdu(0, sequence))
        said = read_message(payload) if end.is_new(sequence) else None
        if said and self.control.is_answer(extender, *said[:2]):
            end.stop()
            self.control.answered()

    # What a schedule looks at.

    def next_fate(self):
        self.asks += 1
        return self.fate.pop(0) if self.fate else "P"

    def settled(self):
        return not (self.control.queue or any(self.links.values())
                    or any(end.sent is not None for end in self.ends.values())
                    or any(it.end.sent is not None for it in self.extenders.values()))
