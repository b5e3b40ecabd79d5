#!/usr/bin/env python3
"""The table of docs/mistakes.md: 64 topologies with a mistake each, and what exbr-preflight says of them.

    tools/desk/tests/mistakes.py [--write] [--program EXBR]

Without --write it says whether the page is as the tool speaks now.
"""
from __future__ import annotations

import contextlib
import io
import os
import sys
import tempfile

sys.dont_write_bytecode = True
sys.path.insert(0, os.path.dirname(os.path.abspath(__file__)))
import desk_help
from exbr_preflight import cli

PAGE = os.path.join(desk_help.TOP, "docs", "mistakes.md")
BASE = """[bridge]
ports = 4
groups = 8
ageing = 300

[[extender]]
number = 1
on = "b3"
ports = 8

[[extender]]
number = 2
on = "x1.8"
ports = 4

[[port]]
name = "b1"
accept = "tagged"
filter = true

[[port]]
name = "x1.1"
pvid = 10

[[port]]
name = "x1.2"
pvid = 10
isolated = true

[[port]]
name = "x2.1"
pvid = 10
isolated = true

[[vlan]]
vid = 10
tagged = ["b1"]
untagged = ["x1.1-2", "x2.1"]

[[static]]
vid = 10
mac = "01:00:5e:00:00:01"
ports = ["b1", "x1.1"]

[[command]]
at = 20
op = "down"
port = "x1.1"

[[command]]
at = 30
op = "up"
port = "x1.1"
"""
# What was done, and what stands there now in the place of what.
MISTAKES = [
    ("a quote is missing at the end", 'on = "b3"', 'on = "b3'),
    ("a quote is missing at the beginning", 'op = "down"', 'op = down"'),
    ("no quotes at all", 'accept = "tagged"', "accept = tagged"),
    ("quotes of a text processor", 'name = "x1.1"', "name = “x1.1”"),
    ("`True` as in Python", "filter = true", "filter = True"),
    ("= is forgotten", "ports = 4\ngroups", "ports 4\ngroups"),
    (": for =", "ports = 4\ngroups", "ports: 4\ngroups"),
    ("a key is given twice", "ports = 4\ngroups", "ports = 4\nports = 5\ngroups"),
    ("a table is given twice", "[[extender]]\nnumber = 2", "[bridge]\n[[extender]]\nnumber = 2"),
    ("one bracket for two", "[[extender]]\nnumber = 1", "[extender]\nnumber = 1"),
    ("two brackets for one", "[bridge]", "[[bridge]]"),
    ("a bracket is missing", "[[vlan]]", "[[vlan]"),
    ("a list isn't closed", 'ports = ["b1", "x1.1"]', 'ports = ["b1", "x1.1"'),
    ("a comma is missing in a list", '["b1", "x1.1"]', '["b1" "x1.1"]'),
    ("a number too long", "ageing = 300", "ageing = 99999999999999999999"),
    ("a leading zero in a number", "vid = 10\ntagged", "vid = 010\ntagged"),
    ("a backslash in a text", 'port = "x1.1"\n\n[[command]]\nat = 30', 'port = "x1\\.1"\n\n[[command]]\nat = 30'),
    ("a table's name has a typing mistake", "[[vlan]]", "[[vlna]]"),
    ("a table that isn't there", "[[static]]", "[[mac_table]]"),
    ("a key above its table", "[bridge]\nports = 4", "ports = 4\n[bridge]"),
    ("a key has a typing mistake", "[bridge]\nports = 4", "[bridge]\nprots = 4"),
    ("a key in capitals", "pvid = 10\n\n", "PVID = 10\n\n"),
    ("a key of another table", "number = 2", "number = 2\nchannels = 8"),
    ("a key of another operation", 'op = "up"', 'op = "up"\nvid = 10'),
    ("a key is missing", "[bridge]\nports = 4\n", "[bridge]\n"),
    ("a key of the operation is missing", 'at = 20\nop = "down"\nport = "x1.1"', 'at = 20\nop = "down"'),
    ("no operation", 'at = 30\nop = "up"\n', "at = 30\n"),
    ("an operation has a typing mistake", 'op = "down"', 'op = "dwon"'),
    ("an operation of another tool", 'op = "down"', 'op = "shutdown"'),
    ("a number in quotes", "ports = 8\n\n", 'ports = "8"\n\n'),
    ("a number with a point", "vid = 10\ntagged", "vid = 10.0\ntagged"),
    ("true in quotes", "filter = true", 'filter = "true"'),
    ("a list for one port", 'op = "down"\nport = "x1.1"', 'op = "down"\nport = ["x1.1"]'),
    ("one port for a list", 'tagged = ["b1"]', 'tagged = "b1"'),
    ("a number in a list of ports", 'tagged = ["b1"]', "tagged = [1]"),
    ("VLAN 0", "vid = 10\ntagged", "vid = 0\ntagged"),
    ("VLAN 4095", "vid = 10\ntagged", "vid = 4095\ntagged"),
    ("more ports than an extender may have", "ports = 8\n\n", "ports = 65\n\n"),
    ("ageing below ten seconds", "ageing = 300", "ageing = 5"),
    ("a range of VLANs that goes down", "vid = 10\ntagged", "vid = 10\nlast = 9\ntagged"),
    ("commands out of order", "at = 30", "at = 10"),
    ("a word of accepted types that isn't there", 'accept = "tagged"', 'accept = "taged"'),
    ("an address of another form", "01:00:5e:00:00:01", "0100.5e00.0001"),
    ("an address with a digit too few", "01:00:5e:00:00:01", "01:00:5e:00:00:1"),
    ("O for 0", '"x1.1-2", "x2.1"', '"x1.1-2", "x2.1O"'),
    ("l for 1", '"x1.1-2", "x2.1"', '"x1.1-2", "x2.l"'),
    ("a leading zero in a port", 'on = "b3"', 'on = "b03"'),
    ("a port in capitals", 'name = "x1.2"', 'name = "X1.2"'),
    ("a port without its x", 'name = "x1.2"', 'name = "1.2"'),
    ("a slash for a point", 'name = "x1.2"', 'name = "x1/2"'),
    ("a range where one port stands", 'name = "x1.2"', 'name = "x1.2-4"'),
    ("a range that goes down", '"x1.1-2", "x2.1"', '"x1.2-1", "x2.1"'),
    ("a range with its last port whole", '"x1.1-2", "x2.1"', '"x1.1-x1.2", "x2.1"'),
    ("a port that no extender can have", '"x1.1-2", "x2.1"', '"x1.1-2", "x2.65"'),
    ("a port that this extender doesn't have", '"x1.1-2", "x2.1"', '"x1.1-9", "x2.1"'),
    ("an extender that isn't there", '"x1.1-2", "x2.1"', '"x1.1-2", "x3.*"'),
    ("a port on which an extender hangs", 'tagged = ["b1"]', 'tagged = ["b1", "b3"]'),
    ("an extender on a port that isn't there", 'on = "x1.8"', 'on = "x1.9"'),
    ("two extenders with one number", "number = 2", "number = 1"),
    ("two extenders on one port", 'on = "x1.8"', 'on = "b3"'),
    ("extenders that hang on each other", 'on = "b3"', 'on = "x2.4"'),
    ("a port is given twice", 'name = "x1.2"', 'name = "x1.1"'),
    ("a VLAN is given twice", "[[static]]", "[[vlan]]\nvid = 5\nlast = 15\n\n[[static]]"),
    ("a capture's key without quotes", 'op = "up"\nport = "x1.1"\n', 'op = "up"\nport = "x1.1"\n\n[captures]\nx1.1 = "a.pcap"\n'),
]
HEAD = """# Typing mistakes, and what is said of them

Each row is [one topology](#the-topology) with one mistake, and what `exbr-preflight` says of it:
line and column, what is wrong, and what would be right. The last column is the answer of
`exbr check`, the proved program. `tools/desk/tests/mistakes.py --write` makes this table, and a
test compares the page with the tool's answers.

| | Mistake | What `exbr-preflight` says | `exbr check` |
|---|---|---|---|
"""
TAIL = """
## The topology

```toml
{}```
"""


def changed(before: str, after: str) -> str:
    """The topology with a mistake."""
    if BASE.count(before) < 1:
        raise ValueError(f"{before!r} isn't in the topology")
    return BASE.replace(before, after, 1)


def said_of(text: str, program: str) -> list[str]:
    """What the tool says of a topology."""
    with tempfile.TemporaryDirectory() as folder:
        path = os.path.join(folder, "t.toml")
        with open(path, "w", encoding="utf-8") as out:
            out.write(text)
        printed = io.StringIO()
        with contextlib.redirect_stdout(printed):
            cli.main([path, "--program", program])
        return printed.getvalue().replace(f"{path}:", "").splitlines()


def row(number: int, what: str, lines: list[str]) -> str:
    """A row of the table: the first fault, and the program's answer."""
    first, _, text = lines[0].partition(": error: ")
    advice = next((line.strip("= ").strip() for line in lines[1:4] if line.startswith("      = ")), "")
    exbr = next(line.removeprefix("exbr says: ") for line in lines if line.startswith("exbr says: "))
    cells = (what, f"{first}: {text}" + (f" - {advice}" if advice else ""), f"`{exbr}`")
    return f"| {number} | " + " | ".join(cell.replace("|", "\\|") for cell in cells) + " |\n"


def page(program: str) -> str:
    rows = [row(number, what, said_of(changed(before, after), program)) for number, (what, before, after) in enumerate(MISTAKES, 1)]
    return HEAD + "".join(rows) + TAIL.format(BASE)


def main() -> int:
    if "--help" in sys.argv:
        print(__doc__)
        return 0
    program = sys.argv[sys.argv.index("--program") + 1] if "--program" in sys.argv else desk_help.program()
    text = page(program)
    if "--write" in sys.argv:
        with open(PAGE, "w", encoding="utf-8") as out:
            out.write(text)
        return 0
    with open(PAGE, encoding="utf-8") as file:
        same = file.read() == text
    print("the page is as the tool speaks" if same else "the page isn't as the tool speaks: --write makes it anew")
    return 0 if same else 1


if __name__ == "__main__":
    sys.exit(main())
