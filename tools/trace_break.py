#!/usr/bin/env -S python3 -I
"""Shows where a trace breaks, in the folder in which the run was made:

    tools/trace_break.py TOPOLOGY [LINES]

It reads the topology, its captures, and the output files, journal and trace of a run, judges the five rules of a legal trace by the
judge of `crates/exb_cases/world`, which was written from the rules alone, and prints the lowest rule that doesn't hold and the first
line at which it doesn't, with so many lines around it (4 without a number), each of them decoded. Its status is 0 where all rules hold,
and 11 where one is broken.
"""
import argparse
import glob
import os
import struct
import sys

TOP = os.path.dirname(os.path.dirname(os.path.abspath(__file__)))
sys.path.insert(0, os.path.join(TOP, "crates", "exb_cases"))

from bridge import Bridge  # noqa: E402
from world.judge import trace_of  # noqa: E402
from world.wire import ANSWER, is_channel, is_control, read_announcement, read_etag, read_message, read_pdu, take_tag  # noqa: E402

RULES = {
    1: "the journal's lines in order, and places that are there",
    2: "each extender sends what the machine of an extender sends",
    3: "on each direction of each link words come in as they went out",
    4: "what passes the external ports is what the captures and output files hold",
    5: "each frame that comes to the bridge is told of, and it sends data for no others",
}
MESSAGES = {1: "Open", 2: "PortCreate", 3: "PortDelete", 4: "Register", 5: "Unregister", 6: "RegisterMany", 7: "UnregisterMany"}


def hexadecimal(data):
    return "-".join(f"{byte:02X}" for byte in data)


def message_text(payload):
    """A message of the control."""
    found = read_message(payload)
    if found is None:
        return f"no message, {len(payload)} bytes"
    kind, serial, body = found
    name = MESSAGES[kind & ~ANSWER]
    return f"answer to {name} {serial}: code {body[0]}" if kind & ANSWER else f"{name} {serial}"


def control_text(frame):
    """A frame with the destination of control frames."""
    announced, unit = read_announcement(frame), read_pdu(frame)
    if announced:
        return f"announcement of {announced[1]} ports"
    if unit is None:
        return "control frame of another kind"
    sequence, payload = unit
    return f"acknowledgement {sequence}" if payload is None else f"sequence {sequence}, {message_text(payload)}"


def data_text(frame):
    """A frame of a station."""
    if len(frame) < 14:
        return f"{len(frame)} bytes, too short for a frame"
    tag = f", VLAN {int.from_bytes(frame[14:16], 'big') & 0xFFF}" if frame[12:14] == b"\x81\x00" and len(frame) > 15 else ""
    return f"{hexadecimal(frame[6:12])} to {hexadecimal(frame[:6])}, type {frame[12:14].hex()}{tag}, {len(frame)} bytes"


def frame_text(frame):
    """What a frame is, with its E-TAG if it has one."""
    tag = read_etag(frame)
    if tag is None:
        return control_text(frame) if is_control(frame) else data_text(frame)
    kind = "channel" if is_channel(tag[0]) else "group"
    ingress = f", not to channel {tag[1]}" if tag[1] else ""
    return f"E-TAG {kind} {tag[0]}{ingress}: {frame_text(take_tag(frame))}"


def line_text(line):
    return f"{line.text[:60]}{'..' if len(line.text) > 60 else ''}" + (f"   {frame_text(line.frame)}" if line.way else "")


def wanted_text(trace, rule, at):
    """What the rule asks for there, where a few words say it."""
    if rule == 1 and at < len(trace.lines) and trace.lines[at].way:
        return f"there is no such place: {' '.join(trace.lines[at].text.split()[1:3])}"
    if rule == 1:
        told = sum(line.journal is not None for line in trace.lines[:at])
        return f"line {told + 1} of the journal is `{trace.journal[told]}`" if told < len(trace.journal) else "the journal has no more lines"
    if at == len(trace.lines):
        return "the lines end while something is still to come"
    return f"line {at + 1} may not stand there"


def show(trace, rule, at, around):
    print(f"trace: rule {rule}: {RULES[rule]}")
    print(wanted_text(trace, rule, at))
    for place in range(max(0, at - around), min(len(trace.lines), at + around + 1)):
        print(f"{'>' if place == at else ' '} {place + 1:6} {line_text(trace.lines[place])}")
    if at == len(trace.lines):
        print(f"> {at + 1:6} (end)")


def said(text):
    """Says why it ends, in a line, and gives the status."""
    print(f"trace_break: {text}", file=sys.stderr)
    return 2


def read(name):
    try:
        if os.path.exists(name) and not os.path.isfile(name):
            sys.exit(said(f"{name}: it isn't a file of the disk"))
        with open(name, "rb") as file:
            return file.read()
    except (OSError, ValueError) as error:
        sys.exit(said(f"{name}: {getattr(error, 'strerror', None) or error}"))


def main():
    parser = argparse.ArgumentParser(description=__doc__, formatter_class=argparse.RawDescriptionHelpFormatter)
    parser.add_argument("topology", metavar="TOPOLOGY", help="the file of which the run was made")
    parser.add_argument("lines", metavar="LINES", nargs="?", type=int, default=4, help="so many lines around the first that breaks the rule (4)")
    asked = parser.parse_args()
    try:
        text = read(asked.topology).decode()
        bridge = Bridge(text)
    except (ValueError, LookupError, TypeError, RecursionError):
        sys.exit(said(f"{asked.topology} is no topology: `exbr check {asked.topology}` says where it has a fault"))
    prefix = bridge.bridge.get("out", "out-")
    names = [*glob.glob(f"{glob.escape(prefix)}*.pcap"), f"{prefix}journal.txt", f"{prefix}trace.txt"]
    captures, outputs = ({name: read(name) for name in them} for them in (bridge.captures.values(), names))
    try:
        trace = trace_of(text, captures, outputs)
    except (ValueError, LookupError, struct.error):
        sys.exit(said(f"one of these files isn't what it is to be: `exbr audit {asked.topology}` names the first, and the place in it"))
    broken = trace.breaks()
    if broken is None:
        print(f"legal {len(trace.lines)}")
        return 0
    show(trace, *broken, asked.lines)
    return 11


if __name__ == "__main__":
    sys.path.insert(0, os.path.join(TOP, "tools", "desk"))
    from exbr_desk.errors import ended
    sys.exit(ended("trace_break", main))
