"""Two campuses and a core, wired to one another: the captures that are read, and what must come of them, frame by frame."""
import os
import sys

import nets
from examples import EXAMPLES, counters, write
from frames import capture, commits, journal, relays
from stations import asks, echo, tells, with_tag

FOLDER = os.path.join(EXAMPLES, "campuses")
TOPOLOGIES = ("net.toml", "core.toml", "north.toml", "south.toml")
SUMMARY = "arrivals 21 relayed 21 ignored 0 left 30 commits 6 refusals 0"
NORTH, SOUTH, SERVER, GUEST, LATE = 1, 2, 3, 4, 5


def told():
    """What comes at the ports, what leaves them, and the journals of the three bridges."""
    hello, answer = asks(NORTH, SOUTH), tells(SOUTH, NORTH)
    news, again, reply = asks(SERVER, NORTH), asks(NORTH, SERVER), tells(SERVER, NORTH)
    across, guests, stale = echo(SOUTH, NORTH, 1), asks(GUEST, LATE), echo(LATE, SOUTH, 1)
    given = {"core-b3": [(102, news), (107, reply)], "north-x1.2": [(100, hello), (106, again)], "north-x2.1": [(109, guests)],
             "south-x1.2": [(101, answer), (108, across)], "south-x1.3": [(110, stale)]}
    ten, twenty = lambda at, frame: (at, with_tag(10, frame)), lambda at, frame: (at, with_tag(20, frame))
    left = {
        # the guests' question goes everywhere but to the staff, and its answer back
        "north-x2.1": [(100, hello)], "north-x2.2": [(100, hello), (109, guests)],
        "north-b2": [twenty(100, hello), ten(106, again), twenty(109, guests)],
        "core-b1": [twenty(101, answer), ten(102, news), ten(107, reply), ten(108, across)],
        "core-b2": [twenty(100, hello), ten(102, news), ten(106, again), twenty(109, guests)],
        "core-b3": [(106, again)], "core-x1.1": [(102, news), (106, again)],
        "south-x1.1": [(102, news), (106, again)], "south-x1.2": [(100, hello), (106, again)], "south-x1.3": [(100, hello), (109, guests)],
        "south-b2": [twenty(101, answer), ten(108, across)],
        "north-x1.1": [(102, news), (106, again)], "north-x1.2": [(101, answer), (107, reply), (108, across)],
    }
    return given, left


def journals():
    """Each bridge tells the seconds of all three."""
    north = ["up x1.1", "up x1.2", "up x2.1", "up x2.2", "settled", *relays("x1.2 1"), "tick 1", *relays("b2 1"), "tick 1", *relays("b2 2"), "tick 3",
             *commits(1, 2, 3), "tick 1", *relays("x1.2 2"), "tick 1", *relays("b2 3"), "tick 1", *relays("b2 4"), "tick 1", *relays("x2.1 1"), "tick 1"]
    core = ["up x1.1", "up x1.2", "settled", *relays("b1 1"), "tick 1", *relays("b2 1"), "tick 1", *relays("b3 1"), "tick 3", "tick 1", *relays("b1 2"),
            "tick 1", *relays("b3 2"), "tick 1", *relays("b2 2"), "tick 1", *relays("b1 3"), "tick 1"]
    south = ["up x1.1", "up x1.2", "up x1.3", "settled", *relays("b2 1"), "tick 1", *relays("x1.2 1"), "tick 1", *relays("b2 2"), "tick 3",
             *commits(1, 2, 3), "tick 1", *relays("b2 3"), "tick 1", "tick 1", *relays("x1.2 2"), "tick 1", *relays("b2 4"), "tick 1", *relays("x1.3 1")]
    return {"core": core, "north": north, "south": south}


# what came in at each port and was relayed, refused by a rule and ignored, and the frames and bytes that left
COUNTS = {
    "core": {"b1": (3, 0, 0, 4, 256), "b2": (2, 0, 0, 4, 256), "b3": (2, 0, 0, 1, 60), "x1.1": (0, 0, 0, 2, 120), "x1.2": (0, 0, 0, 0, 0)},
    "north": {"b2": (4, 0, 0, 3, 192), "x1.1": (0, 0, 0, 2, 120), "x1.2": (2, 0, 0, 3, 180), "x2.1": (1, 0, 0, 1, 60), "x2.2": (0, 0, 0, 2, 120)},
    "south": {"b2": (4, 0, 0, 2, 128), "x1.1": (0, 0, 0, 2, 120), "x1.2": (2, 0, 0, 2, 120), "x1.3": (1, 0, 0, 2, 120)},
}


def wanted():
    """The captures, and the files that must come of them, by their names."""
    given, left = told()
    files = {f"{name}-journal.txt": journal(*lines) for name, lines in journals().items()}
    files |= {f"{name}-counters.txt": counters(counts) for name, counts in COUNTS.items()}
    ports = {"core": ("b1", "b2", "b3", "x1.1", "x1.2"), "north": ("b2", "x1.1", "x1.2", "x2.1", "x2.2"), "south": ("b2", "x1.1", "x1.2", "x1.3")}
    for name, its in ports.items():
        files |= {f"{name}-{port}.pcap": capture(*left.get(f"{name}-{port}", [])) for port in its}
    return {f"in-{port}.pcap": capture(*records) for port, records in given.items()}, files


def played():
    """What the plain net comes to: its files, and the summary."""
    files = {}
    for name in TOPOLOGIES:
        with open(os.path.join(FOLDER, name), "rb") as it:
            files[name] = it.read()
    return nets.run(files["net.toml"].decode(), files | wanted()[0])


def make():
    """Writes the captures and the expected files, to which the plain net has to come too."""
    given, files = wanted()
    if played() != (files, SUMMARY):
        sys.exit("campuses: the plain net comes to other files")
    for name, data in given.items():
        write(FOLDER, name, data)
    for name, data in files.items():
        write(os.path.join(FOLDER, "expected"), name, data)
