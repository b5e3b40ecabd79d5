"""The examples of the repository: the captures that they read, and what must come of them."""
import os

from frames import block_capture, capture, commits, journal, relays, summary
from stations import asks, echo, neighbour, picture, tells, with_tag
from world.schedule import run as run_world

EXAMPLES = os.path.join(os.path.dirname(os.path.abspath(__file__)), "..", "..", "examples")
UP4 = ["up x1.1", "up x1.2", "up x1.3", "up x1.4", "settled"]


def first_path():
    """One frame to all."""
    hello = asks(1, 2)
    left = {"x1.1": [], **dict.fromkeys(("x1.2", "x1.3", "x1.4"), [(100, hello)])}
    given = {"x1.1": [(100, hello)], "x1.2": [], "x1.3": [], "x1.4": []}
    return given, left, [*UP4, *relays("x1.1 1")], summary(1, 1, 0, 3)


def office():
    """Two VLANs, port rules, a learned address and a forgotten one."""
    desk, other, guest, phone, router = 1, 2, 3, 4, 9
    hello, guest_hello, to_desk, late = asks(desk, router), asks(guest, router), echo(other, desk, 1), echo(router, desk, 2)
    given = {"b1": [(1, with_tag(10, tells(router, desk))), (400, with_tag(10, late))], "x1.1": [(0, hello), (4, with_tag(20, hello))],
             "x1.2": [(3, to_desk)], "x1.3": [(2, guest_hello)], "x1.4": [(400.5, neighbour(phone))]}
    left = {"b1": [(0, with_tag(10, hello)), (2, with_tag(20, guest_hello))], "x1.1": [(1, tells(router, desk)), (3, to_desk), (400, late)],
            "x1.2": [(0, hello), (400, late)], "x1.4": [(2, guest_hello)]}
    lines = [*UP4, *relays("x1.1 1"), "tick 1", *relays("b1 1"), "tick 1", *relays("x1.3 1"), "tick 1", *relays("x1.2 1"), "tick 1",
             *relays("x1.1 2"), "tick 396", *relays("b1 2"), "ignore x1.4 1", "settled"]
    return given, left, lines, summary(7, 6, 1, 8)


def campus():
    """A floor that goes from the guests to the staff while its station talks to the router."""
    router, floor, clerk, guest, printer = 1, 2, 3, 4, 9
    hello, clerk_hello, guest_hello = asks(floor, router), asks(clerk, router), asks(guest, router)
    to_router, to_printer, to_floor, answer = echo(floor, router, 1), echo(clerk, printer, 1), echo(clerk, floor, 2), tells(router, floor)
    given = {"b4": [(1001, with_tag(20, answer)), (1007, with_tag(10, answer)), (1010, with_tag(20, answer))],
             "x2.1": [(1002, clerk_hello), (1003, to_printer), (1008, to_floor)],
             "x3.1": [(1000, hello), (1004, to_router), (1006, to_router)],
             "x4.1": [(1009, guest_hello)]}
    staff = [(1002, clerk_hello), (1006, to_router)]
    left = {"b3": staff, "x1.1": staff, "x1.2": [staff[0], (1003, to_printer), staff[1]], "x2.2": staff, "x2.3": staff,
            "x2.1": [(1006, to_router)], "x3.1": [(1001, answer), (1007, answer), (1008, to_floor)],
            "x3.2": [(1000, hello), (1006, to_router)], "x3.3": [(1000, hello), (1006, to_router)], "x4.1": [(1000, hello)],
            "x4.2": [(1000, hello), (1009, guest_hello)], "x4.3": [(1000, hello), (1009, guest_hello)],
            "b4": [(1000, with_tag(20, hello)), (1002, with_tag(10, clerk_hello)), (1004, with_tag(20, to_router)),
                   (1006, with_tag(10, to_router)), (1009, with_tag(20, guest_hello))]}
    ups = [f"up x{port}" for port in ("1.1", "1.2", "4.1", "4.2", "4.3", "2.1", "2.2", "2.3", "3.1", "3.2", "3.3")]
    lines = [*ups, "settled", *relays("x3.1 1"), "tick 1", *relays("b4 1"), "tick 1", *relays("x2.1 1"), "tick 1", *relays("x2.1 2"), "tick 1",
             *relays("x3.1 2"), "tick 1", *commits(1, 2, 3), "tick 1", *relays("x3.1 3"), "tick 1", *relays("b4 2"), "tick 1",
             *relays("x2.1 3"), "tick 1", *relays("x4.1 1"), "tick 1", *relays("b4 3")]
    return given, left, lines, summary(10, 10, 0, 29, 3)


def private_hosts():
    """Isolated ports, and one that isn't isolated any more."""
    gateway, first, second, printer = 1, 2, 3, 9
    hello, answer, to_first, everyone = asks(first, gateway), tells(gateway, first), echo(second, first, 1), asks(gateway, second)
    from_printer = echo(printer, first, 1)
    given = {"b1": [(1001, answer), (1003, everyone)], "x1.1": [(1000, hello), (1007, hello)], "x2.1": [(1002, to_first)],
             "x2.3": [(1004, from_printer), (1008, from_printer)]}
    left = {"b1": [(1000, hello), (1007, hello)], "x1.1": [(1001, answer), (1003, everyone), (1008, from_printer)],
            "x2.3": [(1003, everyone), (1007, hello)], **dict.fromkeys(("x1.2", "x1.3", "x2.1", "x2.2"), [(1003, everyone)])}
    ups = [f"up x{port}" for port in ("1.1", "1.2", "1.3", "2.1", "2.2", "2.3")]
    lines = [*ups, "settled", *relays("x1.1 1"), "tick 1", *relays("b1 1"), "tick 1", *relays("x2.1 1"), "tick 1", *relays("b1 2"), "tick 1",
             *relays("x2.3 1"), "tick 2", *commits(1), "tick 1", *relays("x1.1 2"), "tick 1", *relays("x2.3 2")]
    return given, left, lines, summary(7, 7, 0, 11, 1)


def static_group():
    """A group with a static entry, another one and none."""
    sent = [(1000 + at, picture(2, at)) for at in range(5)]
    left = {"b1": sent, "x1.2": sent, "x1.3": sent[4:], "x2.1": sent[:2] + sent[4:], "x2.2": sent[4:], "x2.3": sent[2:]}
    ups = [f"up x{port}" for port in ("1.1", "1.2", "1.3", "2.1", "2.2", "2.3")]
    lines = [*ups, "settled", *relays("x1.1 1"), "tick 1", *relays("x1.1 2"), "tick 1", *commits(1), *relays("x1.1 3"), "tick 1", *relays("x1.1 4"),
             "tick 1", *commits(2), *relays("x1.1 5")]
    return {"x1.1": sent}, left, lines, summary(5, 5, 0, 18, 2)


def too_few_groups():
    """A change that is refused, and the same one once a group is free."""
    third, fourth = with_tag(30, asks(3, 1)), with_tag(40, asks(2, 4))
    given = {"x1.2": [(1003, fourth), (1006, fourth)], "x1.3": [(1000, third), (1003, third), (1006, third)]}
    left = {"x1.1": [(1003, third)], "x1.4": [(1006, fourth)]}
    lines = [*UP4, *relays("x1.3 1"), "tick 1", *commits(1), "tick 1", "refuse 2 groups 4 3", "settled", "tick 1", *relays("x1.2 1", "x1.3 2"),
             "tick 1", *commits(3), "tick 1", *commits(4), "tick 1", *relays("x1.2 2", "x1.3 3")]
    return given, left, lines, summary(5, 5, 0, 2, 3, 1)


def lossy_links():
    """A desk that becomes staff over links that lose control frames: nothing of that is seen at the ports."""
    router, desk = 1, 2
    hello, answer = asks(desk, router), tells(router, desk)
    given = {"b2": [(1001, with_tag(10, answer))], "x1.1": [(1000, hello), (1002, hello), (1003, hello)]}
    both = [(1000, hello), (1002, hello), (1003, hello)]
    left = {"x1.1": [(1001, answer)], "x1.2": both, "x2.1": both, "x2.2": both[1:], "b2": [(at, with_tag(10, hello)) for at, _ in both]}
    ups = [f"up x{port}" for port in ("1.1", "1.2", "2.1", "2.2")]
    lines = [*ups, "settled", *relays("x1.1 1"), "tick 1", *relays("b2 1"), "tick 1", *commits(1), *relays("x1.1 2"), "tick 1", *relays("x1.1 3")]
    return given, left, lines, summary(4, 4, 0, 12, 1)


MADE = {"first-path": first_path, "office": office, "campus": campus, "private-hosts": private_hosts, "static-group": static_group,
        "too-few-groups": too_few_groups, "lossy-links": lossy_links}
OPTIONS = {"lossy-links": "--trace", "office": "--counters"}
# what came in at the external ports of an example and was relayed, refused by a rule and ignored, and the frames and bytes that left
COUNTS = {"office": {"b1": (2, 0, 0, 2, 128), "x1.1": (2, 1, 0, 3, 180), "x1.2": (1, 0, 0, 2, 120), "x1.3": (1, 0, 0, 0, 0), "x1.4": (0, 0, 1, 1, 60)}}


def write(folder, name, data):
    os.makedirs(folder, exist_ok=True)
    with open(os.path.join(folder, name), "wb") as file:
        file.write(data)


def file_of(name, port, records):
    """The file with the capture of a port, and its bytes: that of the office's phone is a pcapng."""
    if (name, port) == ("office", "x1.4"):
        return f"in-{port}.pcapng", block_capture(*records)
    return f"in-{port}.pcap", capture(*records)


def make():
    """Writes the captures and expected files of the examples, and gives the line that each prints."""
    printed = {}
    for name, what in MADE.items():
        given, left, lines, line = what()
        for port, records in given.items():
            write(os.path.join(EXAMPLES, name), *file_of(name, port, records))
        for port in {line.split()[1] for line in lines if line.startswith("up")} | {"b1", "b2", "b3", "b4"} & left.keys():
            write(os.path.join(EXAMPLES, name, "expected"), f"out-{port}.pcap", capture(*left.get(port, [])))
        write(os.path.join(EXAMPLES, name, "expected"), "out-journal.txt", journal(*lines))
        printed[name] = line
        if "--trace" in OPTIONS.get(name, ""):
            write(os.path.join(EXAMPLES, name, "expected"), "out-trace.txt", trace_of(name, given))
        if name in COUNTS:
            write(os.path.join(EXAMPLES, name, "expected"), "out-counters.txt", counters(COUNTS[name]))
    return printed


def counters(counts):
    """The text of counters."""
    words = ("relayed", "dropped", "ignored", "left", "octets")
    return "".join(f"{port} {' '.join(f'{word} {it}' for word, it in zip(words, its))}\n" for port, its in counts.items()).encode()


def trace_of(name, given):
    """The trace of an example, for which the tree over links alone can say it."""
    with open(os.path.join(EXAMPLES, name, "topology.toml"), encoding="utf-8") as it:
        written, _, _ = run_world(it.read(), dict(file_of(name, port, records) for port, records in given.items()))
    return written["out-trace.txt"]


def play(cases):
    """The examples, with the folder in the names of their files."""
    for name, line in make().items():
        folder = os.path.join(EXAMPLES, name)
        with open(os.path.join(folder, "topology.toml"), encoding="utf-8") as it:
            topology = it.read().replace('"in-', '"FOLDER/in-').replace("[bridge]\n", "[bridge]\nout = 'FOLDER/out-'\n")
        given, expected = {}, {}
        for where, begin, files in [(folder, "in-", given), (os.path.join(folder, "expected"), "out-", expected)]:
            for file in sorted(it for it in os.listdir(where) if it.startswith(begin)):
                with open(os.path.join(where, file), "rb") as it:
                    files[file] = it.read()
        cases.runs(name, topology, given, expected, line, options=OPTIONS.get(name, ""))
