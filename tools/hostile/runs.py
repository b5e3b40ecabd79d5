"""Four whole runs, by their files: a bridge alone, a tree with commands, and a lossy tree in a drawn order with a trace, which are
those of which the tests of `exb_run_tests` disturb each call; and a net of two bridges with commands and lossy links."""
import struct

BROADCAST, FIRST, SECOND = (bytes.fromhex(digits) for digits in ("ff" * 6, "020000000001", "020000000002"))
PLAIN, VLAN_2 = bytes.fromhex("0800"), bytes.fromhex("810000020800")

TREE = """bridge = {ports = 2, groups = 4}
extender = [{number = 1, on = 'b1', ports = 3}, {number = 2, on = 'x1.3', ports = 2}]
captures = {'x1.1' = 'a.pcap', 'b2' = 'b.pcap'}
"""
COMMANDS = """command = [
{at = 1, op = 'down', port = 'x2.2'},
{at = 1, op = 'vlan', vid = 2, tagged = ['x1.1', 'x2.1']},
{at = 1, op = 'vlan', vid = 3, tagged = ['x1.2', 'x2.1', 'b2'], untagged = ['x1.1']},
{at = 2, op = 'up', port = 'x2.2'},
]
"""
FATED = """links = {fate = 'PLTDPPLTDPPLTDPPLTDP'}
command = [
{at = 0, op = 'down', port = 'x2.2', fate = 'LDTLDT'},
{at = 1, op = 'vlan', vid = 2, tagged = ['x1.1', 'x2.1'], fate = 'PPLLL'},
{at = 1, op = 'up', port = 'x2.2', fate = 'TTTDDD'},
]
"""


def capture(*records):
    """A capture of frames, each with the second at which it came."""
    parts = [struct.pack("<IHHIIII", 0xA1B2C3D4, 2, 4, 0, 0, 65535, 1)]
    for second, frame in records:
        parts += [struct.pack("<IIII", second, 0, len(frame), len(frame)), frame]
    return b"".join(parts)


IN_A_TREE = {
    "a.pcap": capture((100, BROADCAST + FIRST + PLAIN), (101, BROADCAST + FIRST + VLAN_2)),
    "b.pcap": capture((100, FIRST + SECOND + PLAIN), (102, BROADCAST + SECOND + PLAIN)),
}
ALONE = {"a.pcap": capture((100, BROADCAST + FIRST + PLAIN)), "b.pcap": capture((101, FIRST + SECOND + PLAIN))}

NET = """bridge = [{name = 'a', topology = 'a.toml'}, {name = 'b', topology = 'b.toml'}]
wire = [{a = 'a:b2', b = 'b:x1.2'}]
"""
OF_THE_NET = {
    "net.toml": NET.encode(),
    "a.toml": (TREE.replace(", 'b2' = 'b.pcap'", "").replace(", b2 = 'b.pcap'", "") + FATED).encode(),
    "b.toml": b"bridge.ports = 2\nextender = [{number = 1, on = 'b1', ports = 2}]\ncommand = [{at = 1, op = 'isolate', port = 'b2', isolated = true}]\ncaptures.b2 = 'b.pcap'\n",
    **IN_A_TREE,
}

# The name of each run, its words, and its files.
RUNS = [
    ("bare", ["run", "t.toml"], {"t.toml": b"bridge.ports = 3\n[captures]\nb1 = 'a.pcap'\nb2 = 'b.pcap'\n", **ALONE}),
    ("tree", ["run", "t.toml"], {"t.toml": (TREE + COMMANDS).encode(), **IN_A_TREE}),
    ("lossy", ["run", "t.toml", "--trace", "--seed", "5"], {"t.toml": (TREE + FATED).encode(), **IN_A_TREE}),
    ("net", ["net", "net.toml", "--counters"], OF_THE_NET),
]
