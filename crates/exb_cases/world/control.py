"""The bridge's control: the queue of changes, what it asks of extenders, and the numbers that it gives."""
import struct

from bridge import address_of, name_of, number_of, refusal
from world.extender import CASCADE, EXTERNAL
from world.wire import *

MANY = 64


class Space:
    """Channels and groups below one port of the bridge; the lowest free number is given."""

    def __init__(self):
        self.channels, self.groups = {}, {}

    @staticmethod
    def claim(table, first, what):
        number = next(it for it in range(first, first + len(table) + 1) if it not in table)
        table[number] = what
        return number

    def channel(self, port):
        """The channel of a port, or 0."""
        return next((number for number, it in self.channels.items() if it == port), 0)

    def group(self, ports):
        return next(number for number, it in self.groups.items() if it == ports)


class Control:
    """Each change is a generator: it gives what is to be asked next, None while it waits for an announcement, and goes on when
    that was answered or heard."""

    def __init__(self, bridge):
        self.bridge, self.tree = bridge, bridge.tree
        self.below = {port: number for number, port in self.tree.on.items()}
        self.spaces = {port: Space() for port in self.tree.on.values() if port < 64}
        for port in sorted(it for it in self.below if it >= 64):
            space = self.space(port)
            Space.claim(space.channels, 1, port)
        self.heard, self.queue, self.work = set(), [], None
        self.serials, self.asked, self.beats, self.commands = dict.fromkeys(self.tree.on, 0), None, 0, 0
        self.journal, self.asks = [], []
        for extender in self.tree.opened:
            self.queue.append(self.opening(extender))
            self.queue += [self.automatic(port) for port in self.tree.external if port // 64 == extender]

    def space(self, port):
        return self.spaces[self.tree.trunk(port)]

    def ancestors(self, extender):
        """The extenders above one, from the bridge down, each with the port towards it."""
        on = self.tree.on[extender]
        return self.ancestors(on // 64) + [(on // 64, on % 64 + 1)] if on >= 64 else []

    def row(self, extender, ports):
        """The ports of an extender at or below which there is one of these ports, as a mask."""
        mask = 0
        for port in ports:
            for number, towards in self.ancestors(port // 64) + [(port // 64, port % 64 + 1)]:
                mask |= (number == extender) << (towards - 1)
        return mask

    def sets(self, now):
        """The sets that need a group, each with its port of the bridge, in the order in which they are taken."""
        isolated = {port for port, rules in now.rules.items() if rules.isolated}
        kinds = ("tagged", "untagged")
        parts = [now.vlans[vid][kind] for vid in sorted(now.vlans) for kind in kinds]
        parts += [now.vlans[vid][kind] & ports for (vid, _), ports in now.statics.items() if vid in now.vlans for kind in kinds]
        found = {}
        for part in parts:
            for trunk in sorted(self.spaces):
                there = frozenset(part & now.present & self.tree.extended.get(trunk, set()))
                for one in (there, there - isolated):
                    if one:
                        found[trunk, one] = None
        return list(found)

    # What a change asks.

    def opening(self, extender):
        while extender not in self.heard:
            yield None
        yield extender, OPEN, b""
        for port in sorted(it for it in self.below if it // 64 == extender):
            yield from self.create(port, CASCADE)

    def create(self, port, kind):
        """Lays the way of a port's channel and makes the port."""
        channel = self.space(port).channel(port)
        for number, towards in self.ancestors(port // 64):
            yield number, REGISTER, struct.pack(">HQ", channel, 1 << (towards - 1))
        yield port // 64, PORT_CREATE, struct.pack(">BBH", port % 64 + 1, kind, channel)

    def delete(self, port):
        channel = self.space(port).channel(port)
        for number, _ in self.ancestors(port // 64):
            yield number, UNREGISTER, struct.pack(">H", channel)
        yield port // 64, PORT_DELETE, bytes([port % 64 + 1])

    @staticmethod
    def in_messages(extender, rows, one, many):
        for at in range(0, len(rows), MANY):
            some = rows[at:at + MANY]
            yield extender, one if len(some) == 1 else many, b"".join(some)

    def lay(self, groups):
        """Registers fresh groups: each a port of the bridge, a number and its ports."""
        for extender in self.tree.opened:
            masks = [(number, self.row(extender, ports)) for _, number, ports in groups]
            rows = [struct.pack(">HQ", number, mask) for number, mask in masks if mask]
            yield from self.in_messages(extender, rows, REGISTER, REGISTER_MANY)

    def clear(self, groups):
        for extender in self.tree.opened:
            numbers = sorted(number for _, number, ports in groups if self.row(extender, ports))
            rows = [struct.pack(">H", number) for number in numbers]
            yield from self.in_messages(extender, rows, UNREGISTER, UNREGISTER_MANY)

    def automatic(self, port):
        return self.change({"op": "up", "port": name_of(port)}, f"up {name_of(port)}", f"noup {name_of(port)}")

    def change(self, command, committed, refused):
        before = self.bridge.now
        cause = refusal(self.tree, self.bridge.bridge, before, command)
        if cause:
            self.journal.append(f"{refused} {cause}")
            return
        after = before.after(command)
        port = number_of(command["port"]) if command["op"] in ("up", "down") else 0
        goes_up, goes_down = (port >= 64 and port in there and port not in other for there, other in
                              ((after.present, before.present), (before.present, after.present)))
        if goes_up:
            Space.claim(self.space(port).channels, 1, port)
            yield from self.create(port, EXTERNAL)
        old, new = self.sets(before), self.sets(after)
        fresh = [(trunk, ports) for trunk, ports in new if (trunk, ports) not in old]
        yield from self.lay([(trunk, Space.claim(self.spaces[trunk].groups, 0x1000, ports), ports) for trunk, ports in fresh])
        self.commit(command, after, committed)
        gone = [(trunk, self.spaces[trunk].group(ports), ports) for trunk, ports in old if (trunk, ports) not in new]
        yield from self.clear(gone)
        if goes_down:
            yield from self.delete(port)
            del self.space(port).channels[self.space(port).channel(port)]
        for trunk, number, _ in gone:
            del self.spaces[trunk].groups[number]

    def commit(self, command, after, line):
        self.journal.append(line)
        self.bridge.now = after
        if command["op"] == "down":
            gone = number_of(command["port"])
            self.bridge.learned = {key: place for key, place in self.bridge.learned.items() if place[0] != gone}

    # What comes to it.

    def go_on(self):
        """Works on the queue until something is asked or waited for."""
        while self.queue:
            self.work = self.queue[0]
            try:
                wanted = next(self.work)
            except StopIteration:
                self.work = None
                self.queue.pop(0)
                continue
            if wanted is not None:
                self.serials[wanted[0]] += 1
                self.asked, self.beats = (*wanted, self.serials[wanted[0]]), 0
                self.ask()
            return

    def ask(self):
        extender, kind, body, serial = self.asked
        self.asks.append((extender, message(kind, serial, body)))

    def command(self, command):
        self.commands += 1
        self.queue.append(self.change(command, f"commit {self.commands}", f"refuse {self.commands}"))
        if self.work is None:
            self.go_on()

    def hear(self, extender, ports):
        """An announcement of this extender."""
        if extender in self.heard:
            return
        self.heard.add(extender)
        if self.asked is None and self.queue:
            self.go_on()

    def is_answer(self, extender, kind, serial):
        """Whether this is the answer of this extender to what was asked."""
        return self.asked is not None and (extender, kind, serial) == (self.asked[0], self.asked[1] | ANSWER, self.asked[3])

    def answered(self):
        self.asked = None
        self.go_on()

    def beat(self):
        if self.asked:
            self.beats += 1
            if self.beats % 16 == 0:
                self.ask()
