"""The file of a net, read once more in plain Python: the first fault of it and of what it names, or none.

It is written from the page docs/net.md, over `tomllib` and the tree of `bridge.py`, and stands on nothing of exbr. A topology has no
reader here: what `exbr check` says of it is told (`flaws`), by its name.
"""
import tomllib

from bridge import Tree, name_of, number_of
import captured

LARGEST = 1_048_576
LETTERS = frozenset(b"abcdefghijklmnopqrstuvwxyz0123456789")
NUMBERS = {str(number): number for number in range(1, 65)}


class Fault(Exception):
    """The line that is printed behind `exbr: `, with the status."""

    def __init__(self, status, line):
        super().__init__(line)
        self.status, self.line = status, line


def at(kind, key):
    return Fault(3, f"net: {kind} at {key}")


# ---- the shape


def tables(net, key):
    its = net.get(key, [])
    if not isinstance(its, list) or not all(isinstance(it, dict) for it in its):
        raise at("Kind", key)
    return its


def only(table, known, where=""):
    others = sorted((it for it in table if it not in known), key=str.encode)
    if others:
        raise at("Unknown", where + others[0])


def text(table, key, where, fits):
    if key not in table:
        raise at("Missing", where + key)
    if not isinstance(table[key], str):
        raise at("Kind", where + key)
    if not fits(table[key]):
        raise at("Name", where + key)
    return table[key]


def is_name(word):
    return 1 <= len(word) <= 32 and LETTERS.issuperset(word.encode())


def is_port(word):
    extender, dot, port = word[1:].partition(".")
    if word[:1] == "x" and dot:
        return extender in NUMBERS and port in NUMBERS
    return word[:1] == "b" and word[1:] in NUMBERS


def is_end(word):
    name, colon, port = word.partition(":")
    return bool(colon) and is_name(name) and is_port(port)


def shape(data):
    """The bridges and the wires of a file that has no fault by itself."""
    if len(data) > LARGEST:
        raise Fault(3, "net: Large")
    try:
        net = tomllib.loads(data.decode())
    except (UnicodeDecodeError, tomllib.TOMLDecodeError):
        raise Fault(3, "net: NotToml") from None
    only(net, ("bridge", "wire"))
    bridges = tables(net, "bridge")
    if not bridges:
        raise at("Missing", "bridge")
    if len(bridges) > 16:
        raise at("Range", "bridge")
    for number, it in enumerate(bridges):
        where = f"bridge[{number}]."
        only(it, ("name", "topology"), where)
        text(it, "name", where, is_name)
        text(it, "topology", where, lambda _: True)
    wires = tables(net, "wire")
    if len(wires) > 15:
        raise at("Range", "wire")
    for number, it in enumerate(wires):
        where = f"wire[{number}]."
        only(it, ("a", "b"), where)
        text(it, "a", where, is_end)
        text(it, "b", where, is_end)
    names = [it["name"] for it in bridges]
    for number, name in enumerate(names):
        if name in names[:number]:
            raise at("Repeat", f"bridge[{number}].name")
    return bridges, wires


# ---- over the topologies


class Member:
    """A bridge of the net: its external ports, and its captures in port order."""

    def __init__(self, name, topology):
        self.name = name
        self.external = Tree(topology["bridge"], topology.get("extender", [])).external
        self.captures = {number_of(port): file for port, file in topology.get("captures", {}).items()}
        self.captures = dict(sorted(self.captures.items()))

    def outputs(self):
        return {f"{self.name}-{name_of(port)}.pcap" for port in self.external} | {f"{self.name}-{it}.txt" for it in ("journal", "trace", "counters")}


def members(bridges, files, flaws):
    """The topologies in the order of the file, up to the first that is missing or has a fault."""
    found = []
    for it in bridges:
        name, file = it["name"], it["topology"]
        if file not in files:
            raise Fault(5, f"missing {file}")
        if file in flaws:
            raise Fault(3, f"topology {name}: {flaws[file]}")
        found.append(Member(name, tomllib.loads(files[file].decode())))
    return found


def wired(found, wires):
    """Ports together, captures that are outputs, and the wires in their order."""
    if sum(len(it.external) for it in found) > 4160:
        raise at("Range", "bridge")
    outputs = set().union(*(it.outputs() for it in found))
    for number, it in enumerate(found):
        if outputs.intersection(it.captures.values()):
            raise at("Repeat", f"bridge[{number}].topology")
    named, taken = {it.name: it for it in found}, set()
    joined = {it.name: it.name for it in found}
    for number, wire in enumerate(wires):
        ends = []
        for side in ("a", "b"):
            key, (name, port) = f"wire[{number}].{side}", wire[side].split(":")
            port = number_of(port)
            if name not in named:
                raise at("Name", key)
            if port not in named[name].external:
                raise at("UnknownPort", key)
            if (name, port) in taken or port in named[name].captures:
                raise at("SharedPort", key)
            taken.add((name, port))
            ends.append(name)
        a, b = (joined[name] for name in ends)
        if a == b:
            raise at("Loop", f"wire[{number}].a")
        joined = {name: a if group == b else group for name, group in joined.items()}


def fault_of(name, files, flaws=()):
    """The status and the line of the first fault of a net, or None: of its file, its topologies, its wires and its captures."""
    try:
        if name not in files:
            raise Fault(5, f"missing {name}")
        bridges, wires = shape(files[name])
        found = members(bridges, files, dict(flaws))
        wired(found, wires)
        for it in found:
            for port, file in it.captures.items():
                if file not in files:
                    raise Fault(5, f"missing {file}")
                fault = captured.read(files[file])[1]
                if fault:
                    raise Fault(4, f"capture {it.name}:{name_of(port)}: {fault[0]} at {fault[1]}")
    except Fault as fault:
        return fault.status, f"exbr: {fault.line}"
    return None
