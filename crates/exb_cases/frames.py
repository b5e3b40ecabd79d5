"""Frames, captures, and the lines that a run writes, as cases name them."""
import struct

HEADER = struct.pack("<IHHIIII", 0xA1B2C3D4, 2, 4, 0, 0, 65535, 1)
ALL = b"\xff" * 6
ONE = b"\x02\x00\x00\x00\x00\x01"
TWO = b"\x02\x00\x00\x00\x00\x02"
THREE = b"\x02\x00\x00\x00\x00\x03"
PLAIN = b"\x08\x00"


def frame(destination=ALL, source=ONE, rest=PLAIN, size=60):
    """A frame: addresses, these bytes behind them, and zeros."""
    return (destination + source + rest).ljust(size, b"\0")[:size]


def tagged(vid, high=0, destination=ALL, source=ONE, size=64):
    """A frame with a VLAN tag; `high` is PCP and DEI in the tag's first four bits."""
    return frame(destination, source, b"\x81\x00" + struct.pack(">H", high << 12 | vid) + PLAIN, size)


def capture(*records):
    """A capture in microseconds. A record is a frame with its seconds."""
    return HEADER + b"".join(
        struct.pack("<IIII", int(at), round(at % 1 * 1_000_000), len(data), len(data)) + data for at, data in records
    )


def block_capture(*records):
    """The same as pcapng: a section, an interface whose times are in microseconds, and an enhanced packet for each record."""
    def block(kind, content):
        return struct.pack("<II", kind, len(content) + 12) + content + struct.pack("<I", len(content) + 12)

    def packet(at, data):
        time = int(at) * 1_000_000 + round(at % 1 * 1_000_000)
        return struct.pack("<IIIII", 0, time >> 32, time & 0xFFFF_FFFF, len(data), len(data)) + data.ljust(-(-len(data) // 4) * 4, b"\0")

    section = block(0x0A0D0D0A, struct.pack("<IHHq", 0x1A2B3C4D, 1, 0, -1))
    return section + block(1, struct.pack("<HHI", 1, 0, 262_144)) + b"".join(block(6, packet(*it)) for it in records)


def journal(*lines):
    return "".join(f"{line}\n" for line in lines).encode()


def relays(*ports_and_numbers):
    """The lines of frames that are relayed without a tick between them."""
    return [line for it in ports_and_numbers for line in (f"relay {it}", "settled")]


def commits(*numbers):
    """The lines of commands that take effect without a tick between them."""
    return [line for it in numbers for line in (f"commit {it}", "settled")]


def summary(arrivals, relayed, ignored, left, commits=0, refusals=0):
    return f"arrivals {arrivals} relayed {relayed} ignored {ignored} left {left} commits {commits} refusals {refusals}"


F = frame()
UP = ["up x1.1", "up x1.2", "settled"]
UP3 = ["up x1.1", "up x1.2", "up x1.3", "settled"]


def tree(extenders, captures, bridge="ports = 1", more=""):
    """A topology: extenders are told by number, place and count of ports."""
    tables = ", ".join(f"{{ number = {number}, on = '{on}', ports = {ports} }}" for number, on, ports in extenders)
    named = ", ".join(f"'{port}' = 'FOLDER/{name}'" for port, name in captures.items())
    return f"bridge = {{ {bridge}, out = 'FOLDER/out-' }}\nextender = [{tables}]\n{more}captures = {{ {named} }}\n"


def one_extender(ports, captures, bridge="ports = 1", more=""):
    """The topology of an extender 1 on b1."""
    return tree([(1, "b1", ports)], captures, bridge, more)


def commands(*them):
    """Commands by second, operation and the rest of the table."""
    tables = [f"{{ at = {at}, op = '{op}', {rest} }}" for at, op, rest in (it.split(" ", 2) for it in them)]
    return "command = [\n" + "".join(f"  {table},\n" for table in tables) + "]\n"


def out(**left):
    """Captures by their ports, where x1_1 is x1.1."""
    return {f"out-{port.replace('_', '.')}.pcap": frames for port, frames in left.items()}
