"""One port extender: its tables, what it does with each frame, and what it answers to the bridge."""
import struct

from bridge import kind_of
from world.wire import *

EXTERNAL, CASCADE = 0, 1
UP = 0


class Extender:
    """An extender from power-on. A send is a side (0 is up, else a port) and the bytes."""

    def __init__(self, number, ports):
        self.number, self.ports = number, range(1, ports + 1)
        self.channel, self.kind = dict.fromkeys(self.ports, 0), dict.fromkeys(self.ports, EXTERNAL)
        self.pairs = set()
        self.serial, self.stored = 0, b""
        self.end, self.beats, self.opened = End(), 0, False

    def has(self, ecid):
        return any(ecid == it for it, _ in self.pairs)

    def at_port(self, port, frame):
        """What comes at one of its ports, from a station or from the extender below."""
        own = self.channel[port]
        if self.kind[port] == EXTERNAL:
            if not own or kind_of(frame)[0] in ("short", "long", "reserved"):
                return []
            return [(UP, put_tag(frame, etag(own)))]
        if len(frame) < 14:
            return []
        if has_tag_type(frame):
            tag = read_etag(frame)
            return [(UP, frame)] if tag and is_channel(tag[0]) else []
        return [(UP, put_tag(frame, etag(own)))] if is_control(frame) and own else []

    def from_above(self, frame):
        """What comes from upstream."""
        if len(frame) < 14:
            return []
        if has_tag_type(frame):
            return self.carried(frame)
        return self.taken(frame) if is_control(frame) else []

    def carried(self, frame):
        """The copies of a tagged frame on its way down."""
        tag, sends = read_etag(frame), []
        if tag is None:
            return []
        ecid, ingress = tag
        for port in self.ports:
            own, external = self.channel[port], self.kind[port] == EXTERNAL
            if not own or (ecid, port) not in self.pairs:
                continue
            if external and ecid >= 0x1000 and ingress and own == ingress:
                continue
            sends.append((port, take_tag(frame) if external or own == ecid else frame))
        return sends

    def taken(self, frame):
        """What it sends for a frame to itself."""
        read = read_pdu(frame)
        if read is None:
            return []
        sequence, payload = read
        if payload is None:
            self.end.acknowledged(sequence)
            return []
        sends = [(UP, pdu(self.number, sequence))]
        if self.end.is_new(sequence):
            sends += self.asked(payload)
        return sends

    def asked(self, payload):
        """What it sends for a request: a new one is executed, the last one is answered again."""
        read = read_message(payload)
        if read is None or read[0] & ANSWER:
            return []
        kind, serial, body = read
        if serial == self.serial + 1:
            self.serial = serial
            self.stored = message(kind | ANSWER, serial, self.execute(kind, body))
        elif serial != self.serial:
            return []
        self.end.submit(self.stored)
        return [(UP, self.end.frame(self.number))]

    def execute(self, kind, body):
        """The body of the answer to a request that is executed."""
        if kind == OPEN:
            self.opened = True
            return bytes([0, len(self.ports)])
        if kind == PORT_CREATE:
            return bytes([self.create(*struct.unpack(">BBH", body))])
        if kind == PORT_DELETE:
            return bytes([self.delete(body[0])])
        if kind in (REGISTER, REGISTER_MANY):
            return bytes([self.register(list(struct.iter_unpack(">HQ", body)))])
        return bytes([self.unregister([ecid for ecid, in struct.iter_unpack(">H", body)])])

    def create(self, port, kind, channel):
        if port not in self.ports:
            return 1
        if not is_channel(channel):
            return 2
        if self.channel[port] or self.has(channel):
            return 3
        self.channel[port], self.kind[port] = channel, kind
        self.pairs.add((channel, port))
        return 0

    def delete(self, port):
        if port not in self.ports:
            return 1
        self.pairs.discard((self.channel[port], port))
        self.channel[port] = 0
        return 0

    def register(self, rows):
        found = set()
        for ecid, mask in rows:
            wanted = [bit + 1 for bit in range(64) if mask >> bit & 1]
            if not is_number(ecid):
                return 2
            if any(port not in self.ports or not self.channel[port] for port in wanted):
                return 1
            if self.has(ecid) or any(ecid == it for it, _ in found):
                return 3
            found |= {(ecid, port) for port in wanted}
        self.pairs |= found
        return 0

    def unregister(self, ecids):
        if not all(map(is_number, ecids)):
            return 2
        self.pairs = {pair for pair in self.pairs if pair[0] not in ecids}
        return 0

    def beat(self):
        sends = []
        self.beats = (self.beats + 1) % 16
        if not self.opened and self.beats == 1:
            sends.append((UP, announcement(self.number, len(self.ports))))
        if self.end.beat():
            sends.append((UP, self.end.frame(self.number)))
        return sends
