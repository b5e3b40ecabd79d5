"""The file of a net: each fault of its shape and two faults in one file; and over the topologies of its bridges ports together, captures that
are outputs, and each fault of wires in its order."""

# ---- the file by itself

TOP = [
    ("bridge", "NotToml"),
    ("", "Missing at bridge"),
    ("wire = []\n", "Missing at bridge"),
    ("bridge = []\n", "Missing at bridge"),
    ("bridge = 1\n", "Kind at bridge"),
    ("bridge = {name = 'a', topology = 'a.toml'}\n", "Kind at bridge"),
    ("[bridge]\nname = 'a'\ntopology = 'a.toml'\n", "Kind at bridge"),
    ("bridge = [1]\n", "Kind at bridge"),
    ("bridge = [{name = 'a', topology = 't'}, 1]\n", "Kind at bridge"),
    ("[[bridge]]\nname = 'a'\ntopology = 'a.toml'\n", "ok"),
    ("bridges = 1\n", "Unknown at bridges"),
    ("wires = 1\nbridges = 1\nWire = 1\n", "Unknown at Wire"),
    ("bridge = 1\nlinks = 1\n", "Unknown at links"),
    ("\"\" = 1\n", "Unknown at "),
    ("wire = 1\nbridge = 1\n", "Kind at bridge"),
    ("wire = 1\n", "Missing at bridge"),
    ("wire = 1\nbridge = [{}]\n", "Missing at bridge[0].name"),
]

BRIDGE = [
    ("bridge = [{}]\n", "Missing at bridge[0].name"),
    ("bridge = [{topology = 1}]\n", "Missing at bridge[0].name"),
    ("bridge = [{name = 'a'}]\n", "Missing at bridge[0].topology"),
    ("bridge = [{name = 1}]\n", "Kind at bridge[0].name"),
    ("bridge = [{name = ['a']}]\n", "Kind at bridge[0].name"),
    ("bridge = [{name = ''}]\n", "Name at bridge[0].name"),
    ("bridge = [{name = 'A'}]\n", "Name at bridge[0].name"),
    ("bridge = [{name = 'a-b'}]\n", "Name at bridge[0].name"),
    ("bridge = [{name = 'a b'}]\n", "Name at bridge[0].name"),
    ("bridge = [{name = 'a.b'}]\n", "Name at bridge[0].name"),
    ("bridge = [{name = 'a:b1'}]\n", "Name at bridge[0].name"),
    ("bridge = [{name = 'a/b'}]\n", "Name at bridge[0].name"),
    ("bridge = [{name = '`'}]\n", "Name at bridge[0].name"),
    ("bridge = [{name = '{'}]\n", "Name at bridge[0].name"),
    ("bridge = [{name = '/'}]\n", "Name at bridge[0].name"),
    ("bridge = [{name = ':'}]\n", "Name at bridge[0].name"),
    ("bridge = [{name = '\xe9'}]\n", "Name at bridge[0].name"),
    ("bridge = [{name = 'az09', topology = 't'}]\n", "ok"),
    ("bridge = [{name = '0', topology = ''}]\n", "ok"),
    ("bridge = [{name = 'a', topology = 1}]\n", "Kind at bridge[0].topology"),
    ("bridge = [{name = 'a', topology = 't', zoo = 1, ape = 1}]\n", "Unknown at bridge[0].ape"),
    ("bridge = [{zoo = 1, name = 1, topology = 1}]\n", "Unknown at bridge[0].zoo"),
    ("bridge = [{topology = 1, name = 1}]\n", "Kind at bridge[0].name"),
    ("bridge = [{topology = 1, name = 'a'}, {zoo = 1}]\n", "Kind at bridge[0].topology"),
    ("bridge = [{topology = 't', name = 'a'}, {zoo = 1}]\n", "Unknown at bridge[1].zoo"),
    ("bridge = [{name = 'a', topology = 't'}, {name = 'a', topology = 't'}]\n", "Repeat at bridge[1].name"),
    ("bridge = [{name = 'a', topology = 't'}, {name = 'b', topology = 't'}]\n", "ok"),
    ("bridge = [{name = 'b', topology = 't'}, {name = 'a', topology = 't'}, {name = 'a', topology = 't'}, {name = 'b', topology = 't'}]\n",
     "Repeat at bridge[2].name"),
]

# Two bridges, before the wires of a file.
TWO = "bridge = [{name = 'a', topology = 't'}, {name = 'b', topology = 't'}]\n"

WIRE = [
    ("wire = []\n", "ok"),
    ("wire = 1\n", "Kind at wire"),
    ("wire = {a = 'a:b1', b = 'b:b1'}\n", "Kind at wire"),
    ("wire = [1]\n", "Kind at wire"),
    ("wire = [{}]\n", "Missing at wire[0].a"),
    ("wire = [{b = 1}]\n", "Missing at wire[0].a"),
    ("wire = [{a = 'a:b1'}]\n", "Missing at wire[0].b"),
    ("wire = [{a = 1}]\n", "Kind at wire[0].a"),
    ("wire = [{a = ''}]\n", "Name at wire[0].a"),
    ("wire = [{a = 'a'}]\n", "Name at wire[0].a"),
    ("wire = [{a = 'a:'}]\n", "Name at wire[0].a"),
    ("wire = [{a = ':b1'}]\n", "Name at wire[0].a"),
    ("wire = [{a = 'A:b1'}]\n", "Name at wire[0].a"),
    ("wire = [{a = 'a:b0'}]\n", "Name at wire[0].a"),
    ("wire = [{a = 'a:b01'}]\n", "Name at wire[0].a"),
    ("wire = [{a = 'a:b65'}]\n", "Name at wire[0].a"),
    ("wire = [{a = 'a:x1'}]\n", "Name at wire[0].a"),
    ("wire = [{a = 'a:x1.*'}]\n", "Name at wire[0].a"),
    ("wire = [{a = 'a:b1-2'}]\n", "Name at wire[0].a"),
    ("wire = [{a = 'a:b1:b2'}]\n", "Name at wire[0].a"),
    ("wire = [{a = 'a:b:b1'}]\n", "Name at wire[0].a"),
    ("wire = [{a = ' a:b1'}]\n", "Name at wire[0].a"),
    ("wire = [{a = 'a:b1 '}]\n", "Name at wire[0].a"),
    ("wire = [{a = 'a:b1', b = 1}]\n", "Kind at wire[0].b"),
    ("wire = [{a = 'a:b1', b = 'b'}]\n", "Name at wire[0].b"),
    ("wire = [{b = 'b', a = 1}]\n", "Kind at wire[0].a"),
    ("wire = [{a = 1, zoo = 1, c = 1}]\n", "Unknown at wire[0].c"),
    ("wire = [{a = 'a:b1', b = 1}, {zoo = 1}]\n", "Kind at wire[0].b"),
    ("wire = [{a = 'a:b1', b = 'b:b1'}, {zoo = 1}]\n", "Unknown at wire[1].zoo"),
    ("wire = [{a = 'a:b1', b = 'b:x64.64'}]\n", "ok"),
    ("wire = [{a = 'z:b1', b = 'y:b1'}]\n", "ok"),
    ("wire = [{a = 'a:b1', b = 'a:b1'}]\n", "ok"),
    ("wire = [{a = 'a:b1', b = 'b:b1'}, {a = 'a:b1', b = 'b:b1'}]\n", "ok"),
]

# A name that is given twice, before the wires of a file: it comes behind all shapes.
TWICE = "bridge = [{name = 'a', topology = 't'}, {name = 'a', topology = 't'}]\n"

AFTER = [
    ("", "Repeat at bridge[1].name"),
    ("wire = [{a = 'a:b0'}]\n", "Name at wire[0].a"),
    ("wire = 1\n", "Kind at wire"),
    ("wire = [{a = 'z:b1', b = 'a:b1'}]\n", "Repeat at bridge[1].name"),
]

# Bytes that are no text.
NO_TEXT = [(b"a = \"\xff\"", "NotToml")]

BYTES = [
    (b"\xff" * 1_048_576, "NotToml"),
    (b"\xff" * 1_048_577, "Large"),
]

# Bridges, letters of their names, wires without keys, and the verdict.
COUNTS = [
    (1, 1, 0, "ok"),
    (16, 32, 0, "ok"),
    (17, 33, 16, "Range at bridge"),
    (17, 1, 0, "Range at bridge"),
    (16, 33, 16, "Name at bridge[0].name"),
    (16, 32, 16, "Range at wire"),
    (16, 32, 15, "Missing at wire[0].a"),
    (1, 33, 0, "Name at bridge[0].name"),
    (0, 1, 16, "Missing at bridge"),
]


def counted(bridges, letters, wires):
    """So many bridges with names of their own, of so many letters and digits, and then so many wires without keys."""
    return "".join(f"[[bridge]]\nname='{bridge:0{letters}}'\ntopology='t'\n" for bridge in range(bridges)) + "[[wire]]\n" * wires


FILES = {
    "top": ("", TOP),
    "bridge": ("", BRIDGE),
    "wire": (TWO, WIRE),
    "after": (TWICE, AFTER),
    "no text": ("", NO_TEXT),
    "bytes": ("", BYTES),
    "counts": ("", [(counted(*counts), verdict) for *counts, verdict in COUNTS]),
}

# ---- over the topologies of its bridges, whose names in the file are 1, 2 and so on

A = "bridge = [{name = 'a', topology = '1'}]\n"
AB = "bridge = [{name = 'a', topology = '1'}, {name = 'b', topology = '2'}]\n"
ABC = "bridge = [{name = 'a', topology = '1'}, {name = 'b', topology = '2'}, {name = 'c', topology = '3'}]\n"
ABCD = "bridge = [{name = 'a', topology = '1'}, {name = 'b', topology = '2'}, {name = 'c', topology = '3'}, {name = 'd', topology = '4'}]\n"

# A bridge with the external ports b1, b2 and b3.
THREE = "bridge = {ports = 3}\n"

# A bridge with the external ports b2, b3 and x1.1, of an extender on b1.
TREE = "bridge = {ports = 3}\nextender = [{number = 1, on = 'b1', ports = 1}]\n"

# The same with captures of b3 and of x1.1.
HEARD = "bridge = {ports = 3}\nextender = [{number = 1, on = 'b1', ports = 1}]\ncaptures = {b3 = 'in.pcap', 'x1.1' = 'in.pcap'}\n"

# Wires with a fault: the file, the topologies, and the verdict.
WIRES = [
    (AB + "wire = [{a = 'c:b1', b = 'd:b1'}]\n", [THREE, THREE], "Name at wire[0].a"),
    (AB + "wire = [{a = 'a:b1', b = 'd:b9'}]\n", [THREE, THREE], "Name at wire[0].b"),
    (AB + "wire = [{a = 'a:b4', b = 'd:b1'}]\n", [THREE, THREE], "UnknownPort at wire[0].a"),
    (AB + "wire = [{a = 'a:b1', b = 'b:b1'}]\n", [TREE, THREE], "UnknownPort at wire[0].a"),
    (AB + "wire = [{a = 'b:b1', b = 'a:x1.2'}]\n", [TREE, THREE], "UnknownPort at wire[0].b"),
    (AB + "wire = [{a = 'a:b3', b = 'b:b9'}]\n", [HEARD, THREE], "SharedPort at wire[0].a"),
    (AB + "wire = [{a = 'b:b3', b = 'a:x1.1'}]\n", [HEARD, THREE], "SharedPort at wire[0].b"),
    (AB + "wire = [{a = 'a:b1', b = 'a:b1'}]\n", [THREE, THREE], "SharedPort at wire[0].b"),
    (AB + "wire = [{a = 'a:b1', b = 'a:b2'}]\n", [THREE, THREE], "Loop at wire[0].a"),
    (AB + "wire = [{a = 'a:b1', b = 'b:b1'}, {a = 'b:b1', b = 'z:b1'}]\n", [THREE, THREE], "SharedPort at wire[1].a"),
    (AB + "wire = [{a = 'a:b1', b = 'b:b1'}, {a = 'b:b2', b = 'a:b1'}]\n", [THREE, THREE], "SharedPort at wire[1].b"),
    (AB + "wire = [{a = 'a:b1', b = 'b:b1'}, {a = 'b:b2', b = 'a:b2'}]\n", [THREE, THREE], "Loop at wire[1].a"),
    (ABC + "wire = [{a = 'a:b1', b = 'b:b1'}, {a = 'b:b2', b = 'c:b1'}, {a = 'c:b2', b = 'a:b2'}]\n", [THREE, THREE, THREE], "Loop at wire[2].a"),
    (ABCD + "wire = [{a = 'a:b1', b = 'b:b1'}, {a = 'd:b1', b = 'c:b1'}, {a = 'b:b2', b = 'c:b2'}, {a = 'd:b2', b = 'a:b2'}]\n",
     [THREE, THREE, THREE, THREE], "Loop at wire[3].a"),
    (AB + "wire = [{a = 'a:b1', b = 'a:b2'}, {a = 'z:b1', b = 'a:b2'}]\n", [THREE, THREE], "Loop at wire[0].a"),
    (AB + "wire = [{a = 'a:b1', b = 'b:b1'}, {a = 'a:b9', b = 'z:b2'}]\n", [THREE, THREE], "UnknownPort at wire[1].a"),
    (AB + "wire = [{a = 'a:b1', b = 'b:b1'}, {a = 'a:b2', b = 'b:b4'}]\n", [THREE, THREE], "UnknownPort at wire[1].b"),
]

# Two bridges and a wire that has a fault of its own, which comes behind those of captures.
PAIR = AB + "wire = [{a = 'z:b1', b = 'b:b1'}]\n"

# Captures that are outputs, or only look as if they were.
OUTPUTS = [
    (PAIR, ["bridge = {ports = 3}\ncaptures = {b3 = 'a-b1.pcap'}\n", THREE], "Repeat at bridge[0].topology"),
    (PAIR, [THREE, "bridge = {ports = 3}\ncaptures = {b3 = 'a-b1.pcap'}\n"], "Repeat at bridge[1].topology"),
    (PAIR, ["bridge = {ports = 3}\ncaptures = {b3 = 'b-b3.pcap'}\n", THREE], "Repeat at bridge[0].topology"),
    (PAIR, ["bridge = {ports = 3}\ncaptures = {b3 = 'b-b4.pcap'}\n", THREE], "Name at wire[0].a"),
    (PAIR, ["bridge = {ports = 3}\ncaptures = {b3 = 'a-journal.txt'}\n", THREE], "Repeat at bridge[0].topology"),
    (PAIR, [THREE, "bridge = {ports = 3}\ncaptures = {b3 = 'a-trace.txt'}\n"], "Repeat at bridge[1].topology"),
    (PAIR, [THREE, "bridge = {ports = 3}\ncaptures = {b3 = 'b-counters.txt'}\n"], "Repeat at bridge[1].topology"),
    (PAIR, [TREE, "bridge = {ports = 3}\ncaptures = {b3 = 'a-x1.1.pcap'}\n"], "Repeat at bridge[1].topology"),
    (PAIR, [TREE, "bridge = {ports = 3}\ncaptures = {b3 = 'a-b1.pcap'}\n"], "Name at wire[0].a"),
    (PAIR, [TREE, "bridge = {ports = 3}\ncaptures = {b3 = 'c-b2.pcap'}\n"], "Name at wire[0].a"),
    (PAIR, [TREE, "bridge = {ports = 3}\ncaptures = {b3 = 'a-b02.pcap'}\n"], "Name at wire[0].a"),
    (PAIR, [TREE, "bridge = {ports = 3}\ncaptures = {b3 = 'ab2.pcap'}\n"], "Name at wire[0].a"),
    (PAIR, [TREE, "bridge = {ports = 3, out = 'x-'}\ncaptures = {b3 = 'out-b2.pcap'}\n"], "Name at wire[0].a"),
    (PAIR,
     ["bridge = {ports = 3}\ncaptures = {b1 = 'good', b3 = 'b-journal.txt'}\n", "bridge = {ports = 3}\ncaptures = {b1 = 'a-journal.txt'}\n"], "Repeat at bridge[0].topology"),
    (AB + "wire = [{a = 'a:b1', b = 'b:b1'}]\n", [HEARD, HEARD], "UnknownPort at wire[0].a"),
]

# A bridge of 64 ports, and on each of them an extender with 64 ports.
WIDE = "bridge = {ports = 64}\n" + "".join(f"[[extender]]\nnumber={at}\non='b{at}'\nports=64\n" for at in range(1, 65))

# The topology of the second bridge beside one of 4,096 external ports, and the verdict.
TOGETHER = [
    ("bridge = {ports = 64}\n", "Name at wire[0].a"),
    ("bridge = {ports = 64}\nextender = [{number = 1, on = 'b1', ports = 2}]\n", "Range at bridge"),
    ("bridge = {ports = 64}\nextender = [{number = 1, on = 'b1', ports = 2}]\ncaptures = {b2 = 'a-x1.1.pcap'}\n", "Range at bridge"),
]

NETS = {
    "wires": WIRES,
    "outputs": OUTPUTS,
    "together": [(PAIR, [WIDE, other], verdict) for other, verdict in TOGETHER],
}
