"""Bytes between the bridge and its extenders: E-TAGs, announcements, stop and wait (ECP), and the messages of the control."""
import struct

CONTROL = bytes.fromhex("0180C200000E")
OPEN, PORT_CREATE, PORT_DELETE, REGISTER, UNREGISTER, REGISTER_MANY, UNREGISTER_MANY = range(1, 8)
ANSWER = 0x80


def is_control(frame):
    return frame[:6] == CONTROL


def address(extender):
    """The address of an extender; 0 is the bridge."""
    return bytes.fromhex("024542") + (bytes([1, 0, extender]) if extender else bytes(3))


def frame_of(extender, type_and_rest):
    """A control frame that this extender, or the bridge, sends."""
    return CONTROL + address(extender) + type_and_rest


def etag(ecid, ingress=0, high=0):
    """The eight bytes of an E-TAG; `high` is PCP and DEI in four bits."""
    return struct.pack(">HHHBB", 0x893F, high << 12 | ingress, ecid, 0, 0)


def put_tag(frame, tag):
    return frame[:12] + tag + frame[12:]


def take_tag(frame):
    return frame[:12] + frame[20:]


def has_tag_type(frame):
    return frame[12:14] == b"\x89\x3f"


def read_etag(frame):
    """E-CID and ingress number of the E-TAG of a frame, or None."""
    if len(frame) < 20 or not has_tag_type(frame) or frame[18] or frame[19]:
        return None
    first, second = struct.unpack_from(">HH", frame, 14)
    return second & 0x3FFF, first & 0xFFF


def is_channel(ecid):
    return 1 <= ecid <= 4094


def is_number(ecid):
    """It may be registered: a channel or a group."""
    return is_channel(ecid) or 0x1000 <= ecid <= 0x3FFF


def announcement(extender, ports):
    values = [(1, b"\x04" + address(extender)), (2, b"\x07up"), (3, b"\x00\x78"), (127, b"\x02\x45\x42\x01" + bytes([ports])), (0, b"")]
    told = [struct.pack(">H", kind << 9 | len(value)) + value for kind, value in values]
    return frame_of(extender, b"\x88\xcc" + b"".join(told))


def read_announcement(frame):
    """Address and count of ports that a frame announces, or None where it is no such announcement."""
    if len(frame) < 14 or not is_control(frame) or frame[12:14] != b"\x88\xcc":
        return None
    at, values = 14, []
    while not values or values[-1][0]:
        if at + 2 > len(frame):
            return None
        head = struct.unpack_from(">H", frame, at)[0]
        at += 2 + (head & 511)
        if at > len(frame):
            return None
        values.append((head >> 9, frame[at - (head & 511):at]))
    kinds = [kind for kind, _ in values]
    if kinds[:3] != [1, 2, 3] or {1, 2, 3} & set(kinds[3:]):
        return None
    (_, chassis), (_, port), (_, living) = values[:3]
    if len(chassis) != 7 or chassis[0] != 4 or len(port) < 2 or len(living) != 2:
        return None
    ours = [value[4] for kind, value in values if kind == 127 and len(value) == 5 and value[:4] == b"\x02\x45\x42\x01"]
    counts = [count for count in ours if 1 <= count <= 64]
    return (chassis[1:], counts[0]) if counts else None


def pdu(extender, sequence, payload=None):
    """A frame of stop and wait: a request with its payload, or an acknowledgement."""
    head = 0x1402 if payload is None else 0x1002
    return frame_of(extender, struct.pack(">HHH", 0x8940, head, sequence) + (payload or b""))


def read_pdu(frame):
    """Sequence and payload of a frame of stop and wait, or None where it is none. An acknowledgement has None for its payload."""
    if len(frame) < 18 or not is_control(frame) or frame[12:14] != b"\x89\x40":
        return None
    head, sequence = struct.unpack_from(">HH", frame, 14)
    if head not in (0x1002, 0x1402):
        return None
    return sequence, None if head == 0x1402 else frame[18:]


LENGTHS = {OPEN: 0, PORT_CREATE: 4, PORT_DELETE: 1, REGISTER: 10, UNREGISTER: 2}


def message(kind, serial, body=b""):
    return struct.pack(">BQH", kind, serial, len(body)) + body


def read_message(data):
    """Kind, serial and body of a message, or None where it isn't spelled as one."""
    if len(data) < 11:
        return None
    kind, serial, length = struct.unpack_from(">BQH", data)
    body = data[11:]
    if kind == REGISTER_MANY:
        fits = length in range(20, 641, 10)
    elif kind == UNREGISTER_MANY:
        fits = length in range(4, 129, 2)
    elif OPEN | ANSWER <= kind <= UNREGISTER_MANY | ANSWER:
        fits = length == (2 if kind == OPEN | ANSWER else 1)
    else:
        fits = LENGTHS.get(kind) == length
    if not fits or len(body) != length or serial == 0:
        return None
    if kind == PORT_CREATE and body[1] > 1 or kind & ANSWER and body[0] > 3 or kind == OPEN | ANSWER and not 1 <= body[1] <= 64:
        return None
    return kind, serial, body


class End:
    """One end of stop and wait."""

    def __init__(self):
        self.sent, self.sequence, self.following, self.beats, self.received = None, 0, 1, 0, None

    def submit(self, payload):
        """Sends this in the place of what was sent, and tells its sequence."""
        self.sent, self.sequence, self.beats = payload, self.following, 0
        self.following = (self.following + 1) % 65536
        return self.sequence

    def stop(self):
        self.sent = None

    def acknowledged(self, sequence):
        if sequence == self.sequence:
            self.stop()

    def is_new(self, sequence):
        """Whether what came with this sequence is to be handed up."""
        before, self.received = self.received, sequence
        return sequence != before

    def beat(self):
        """Whether it is sent again at this beat."""
        if self.sent is None:
            return False
        self.beats += 1
        if self.beats == 12:
            self.stop()
        return self.beats in (3, 6, 9)

    def frame(self, extender):
        """What is sent, as a frame of this sender."""
        return pdu(extender, self.sequence, self.sent)
