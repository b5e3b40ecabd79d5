"""Frames as stations send them, so that whoever opens a capture of an example sees what is going on. Station n has the address
02-00-00-00-00-n and is 192.0.2.n."""
import struct

ALL = b"\xff" * 6


def mac(station):
    return b"\x02\x00\x00\x00\x00" + bytes([station])


def ip(station):
    return bytes([192, 0, 2, station])


def framed(destination, source, kind, content):
    """A frame of at least 60 bytes."""
    return (destination + source + struct.pack(">H", kind) + content).ljust(60, b"\0")


def with_tag(vid, frame):
    """The same frame with a VLAN tag."""
    return frame[:12] + struct.pack(">HH", 0x8100, vid) + frame[12:]


def arp(operation, destination, source, target, asked):
    content = struct.pack(">HHBBH", 1, 0x0800, 6, 4, operation) + mac(source) + ip(source) + target + ip(asked)
    return framed(destination, mac(source), 0x0806, content)


def asks(source, asked):
    """A station asks all where another one is."""
    return arp(1, ALL, source, bytes(6), asked)


def tells(source, target):
    """A station tells another one where it is."""
    return arp(2, mac(target), source, mac(target), target)


def checksum(data):
    total = sum(struct.unpack(f">{len(data) // 2}H", data))
    while total >> 16:
        total = (total & 0xFFFF) + (total >> 16)
    return ~total & 0xFFFF


def packet(protocol, source, target, content):
    """An IPv4 packet with so many bytes behind its header, at most 64 hops away."""
    head = struct.pack(">BBHHHBBH", 0x45, 0, 20 + len(content), 0, 0, 64, protocol, 0) + source + target
    return head[:10] + struct.pack(">H", checksum(head)) + head[12:] + content


def echo(source, target, number):
    """A station's echo request to another one."""
    content = struct.pack(">BBHHH", 8, 0, 0, source, number) + bytes(18)
    content = content[:2] + struct.pack(">H", checksum(content)) + content[4:]
    return framed(mac(target), mac(source), 0x0800, packet(1, ip(source), ip(target), content))


def picture(source, number):
    """A datagram of a camera to the group 239.0.0.5, which has the address 01-00-5E-00-00-05, without a checksum of its own."""
    content = struct.pack(">HHHH", 50000, 50000, 8 + 18, 0) + struct.pack(">I", number) + bytes(14)
    return framed(bytes.fromhex("01005E000005"), mac(source), 0x0800, packet(17, ip(source), bytes([239, 0, 0, 5]), content))


def neighbour(source):
    """A station announces itself to its neighbour (LLDP): its address, its port, for 120 seconds."""
    values = [(1, b"\x04" + mac(source)), (2, b"\x03" + mac(source)), (3, struct.pack(">H", 120)), (0, b"")]
    content = b"".join(struct.pack(">H", kind << 9 | len(value)) + value for kind, value in values)
    return framed(bytes.fromhex("0180C200000E"), mac(source), 0x88CC, content)
