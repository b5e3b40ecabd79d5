#!/usr/bin/env -S python3 -I
"""Turns a trace into a capture for Wireshark.

    tools/trace_to_pcapng.py out-trace.txt trace.pcapng     (or exbr-trace-to-pcapng, as ./install puts it there)

Each `in` and `out` line becomes a packet. Its interface is the place of the line (`b 1`, `x1 up`, `x1 3`), its direction is that of
the line, and the journal's lines of a step stand as comments at the packet that the step begins with. A trace has no times: here each
line takes a microsecond, a beat goes on to the next millisecond, and a tick takes its seconds.
"""
import os
import struct
import sys
import tempfile

SECTION, INTERFACE, PACKET = 0x0A0D0D0A, 1, 6
COMMENT, NAME, FLAGS = 1, 2, 2
INBOUND, OUTBOUND = 1, 2
MILLISECOND, SECOND = 1_000, 1_000_000


def ended(main):
    """The status: 2, and one line that drives no terminal, where a file can't be read, or isn't a trace."""
    try:
        if len(sys.argv) == 3 and os.path.exists(sys.argv[1]) and not os.path.isfile(sys.argv[1]):
            sys.exit(f"{os.path.basename(sys.argv[0])}: {sys.argv[1]}: it isn't a file of the disk")
        if len(sys.argv) == 3 and os.path.islink(sys.argv[2]):
            sys.exit(f"{os.path.basename(sys.argv[0])}: {sys.argv[2]}: it is a link, and nothing is written through it; name a file")
        return main() or 0
    except (struct.error, OverflowError):
        said = f"{os.path.basename(sys.argv[0])}: {sys.argv[1]}: a line or a time in it is longer than a capture can have"
    except MemoryError:
        said = f"{os.path.basename(sys.argv[0])}: out of memory"
    except SystemExit as fault:
        if not isinstance(fault.code, str):
            raise
        said = fault.code
    print("".join(it if it.isprintable() else f"\\x{ord(it):02x}" for it in said), file=sys.stderr)
    return 2


def padded(data):
    return data + bytes(-len(data) % 4)


def block(kind, content):
    """A block of the file: its length stands before and behind its content."""
    length = struct.pack("<I", len(content) + 12)
    return struct.pack("<I", kind) + length + content + length


def options(*them):
    """Options by code and value, and the end of them."""
    return b"".join(struct.pack("<HH", code, len(value)) + padded(value) for code, value in them) + bytes(4)


class Packet:
    """A line of the trace with bytes."""

    def __init__(self, time, way, place, frame, comments):
        self.time, self.way, self.place, self.frame, self.comments = time, way, place, frame, comments

    def text(self, interface):
        direction = struct.pack("<I", INBOUND if self.way == "in" else OUTBOUND)
        told = [(COMMENT, comment.encode()) for comment in self.comments]
        head = struct.pack("<IIIII", interface, self.time >> 32, self.time & 0xFFFFFFFF, len(self.frame), len(self.frame))
        return block(PACKET, head + padded(self.frame) + options(*told, (FLAGS, direction)))


def packets_of(lines):
    """The packets of a trace, step by step. A journal line without a packet before it in its step stands at the next one."""
    time, waiting, step, held = 0, [], None, []
    for number, line in enumerate(lines, 1):
        time += 1
        if line == "beat":
            time, step = (time // MILLISECOND + 1) * MILLISECOND, None
        elif line.startswith("= "):
            word, _, rest = line[2:].partition(" ")
            if word == "tick" and not rest.isdecimal():
                raise ValueError(f"line {number} is none of a trace")
            time += int(rest) * SECOND if word == "tick" else 0
            step = None if word in ("tick", "settled") else step
            (step.comments if step else waiting).append(line[2:])
        else:
            packet = packet_of(line, number, time, waiting)
            if packet.way == "in":
                # Comments come to the packet that its step began with, so those before it are done.
                yield from held
                held, step = [], packet
            held.append(packet)
            waiting = []
    yield from held


def packet_of(line, number, time, comments):
    """A line with bytes."""
    try:
        way, device, side, data = line.split(" ")
        return Packet(time, way, f"{device} {side}", bytes.fromhex(data), comments)
    except ValueError:
        raise ValueError(f"line {number} is none of a trace") from None


def blocks_of(packets):
    """The file, piece by piece. An interface stands before the first packet of its place."""
    yield block(SECTION, struct.pack("<IHHq", 0x1A2B3C4D, 1, 0, -1))
    places = {}
    for packet in packets:
        if packet.place not in places:
            places[packet.place] = len(places)
            yield block(INTERFACE, struct.pack("<HHI", 1, 0, 0) + options((NAME, packet.place.encode())))
        yield packet.text(places[packet.place])


def lines_of(trace):
    """The lines of a trace, one after the other."""
    for line in trace:
        yield line.removesuffix("\n")


def write(trace, path):
    """Writes the capture beside its place first, so that no half of one stands there."""
    with tempfile.NamedTemporaryFile(dir=os.path.dirname(path) or ".", prefix=".exbr-", delete=False) as out:
        try:
            for piece in blocks_of(packets_of(lines_of(trace))):
                out.write(piece)
            out.close()
            os.chmod(out.name, 0o666 & ~umask())
            os.replace(out.name, path)
        except BaseException:
            os.unlink(out.name)
            raise


def umask():
    found = os.umask(0)
    os.umask(found)
    return found


def main():
    words, name = sys.argv[1:], os.path.basename(sys.argv[0])
    if words in (["--help"], ["-h"]):
        print(__doc__, end="")
        return
    if len(words) != 2:
        sys.exit(f"usage: {name} TRACE CAPTURE")
    if os.path.isdir(words[1]):
        sys.exit(f"{name}: {words[1]}: it is a folder")
    try:
        with open(words[0], encoding="ascii", newline="\n") as trace:
            write(trace, words[1])
    except OSError as error:
        sys.exit(f"{name}: {words[1] if '.exbr-' in str(error.filename) else error.filename}: {error.strerror}")
    except UnicodeDecodeError:
        sys.exit(f"{name}: {words[0]}: no trace, which is a text of ASCII")
    except ValueError as error:
        sys.exit(f"{name}: {words[0]}: {error}")
    except KeyboardInterrupt:
        sys.exit(f"{name}: interrupted")


if __name__ == "__main__":
    sys.exit(ended(main))
