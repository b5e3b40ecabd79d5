"""Nets in which something is another: of their file, of a topology or of a capture."""
import tomllib

from bridge import Tree, name_of

# Topologies with a fault, and what is printed of it behind `topology NAME: `.
FLAWED = {
    b"[bridge]\nports = 0\n": "Range at bridge.ports",
    b"ports = 1\n": "Unknown at ports",
    b"[bridge]\n": "Missing at bridge.ports",
    b"[bridge\n": "NotToml",
    b"[bridge]\nports = 1\n[[extender]]\nnumber = 1\non = \"b2\"\nports = 1\n": "UnknownPort at extender[0].on",
}
NAMES = ["A", "a-b", "", "a b", "z" * 33, "é", 1, True, ["a"], {"a": 1}]
ENDS = ["a", "a:", ":b1", "a:b0", "a:b65", "a:x1", "a:b1-2", "a:b1:b1", "A:b1", 7, ["a:b1"]]
KEYS = ["zoo", "Ape", "links", "", "a.b", "é", "wires"]
FILE = "net.toml"


def flaws_of(files):
    """The topologies with a fault, each with its line."""
    return {name: FLAWED[data] for name, data in files.items() if data in FLAWED}


def value_of(value):
    if isinstance(value, bool):
        return str(value).lower()
    if isinstance(value, str):
        return '"' + value.replace("\\", "\\\\").replace('"', '\\"') + '"'
    if isinstance(value, list):
        return "[" + ", ".join(map(value_of, value)) + "]"
    if isinstance(value, dict):
        return "{ " + ", ".join(f"{value_of(key)} = {value_of(it)}" for key, it in value.items()) + " }"
    return str(value)


def text_of(net):
    """The file of a net: lists of tables as such, and anything else in front."""
    tables = {key: its for key, its in net.items() if isinstance(its, list) and its and all(isinstance(it, dict) for it in its)}
    lines = [f"{value_of(key)} = {value_of(it)}" for key, it in net.items() if key not in tables]
    for key, its in tables.items():
        for it in its:
            lines += [f"[[{value_of(key)}]]", *(f"{value_of(name)} = {value_of(value)}" for name, value in it.items())]
    return "\n".join(lines) + "\n"


class Changing:
    """A net as tables, and the files that it names."""

    def __init__(self, files, chance):
        self.files, self.chance = dict(files), chance
        self.net = tomllib.loads(files[FILE].decode())
        self.net.setdefault("wire", [])
        self.bytes = None

    def table(self):
        return self.chance.choice([*self.net["bridge"], *self.net["wire"]] if self.is_whole() else [{}])

    def is_whole(self):
        """There are bridges, and both lists are ones of tables."""
        lists = [self.net.get(key) for key in ("bridge", "wire")]
        return bool(lists[0]) and all(isinstance(its, list) and all(isinstance(it, dict) for it in its) for its in lists)

    def topologies(self):
        """The names of the topologies that are there and have no fault."""
        names = [it.get("topology") for it in self.net["bridge"]] if self.is_whole() else []
        return [it for it in names if isinstance(it, str) and self.files.get(it) and self.files[it] not in FLAWED]

    # ---- of the file

    def a_key_goes(self):
        it = self.table()
        if it:
            it.pop(self.chance.choice(list(it)))

    def a_key_comes(self):
        self.chance.choice([self.net, self.table()])[self.chance.choice(KEYS)] = self.chance.choice([1, "x", [], {}])

    def a_value_is_another(self):
        it = self.table()
        if it:
            key = self.chance.choice(list(it))
            it[key] = self.chance.choice(ENDS if key in ("a", "b") else [1, [], "no.toml", ""] if key == "topology" else NAMES)

    def a_name_is_there_already(self):
        if self.is_whole():
            one, other = self.chance.choice(self.net["bridge"]), self.chance.choice(self.net["bridge"])
            one["name"] = other.get("name", "a")

    def a_list_is_none(self):
        self.net[self.chance.choice(["bridge", "wire"])] = self.chance.choice([1, "x", {"name": "a"}, [1], [{}, 1], []])

    def a_list_is_long(self):
        key, least = self.chance.choice([("bridge", 17), ("wire", 16)])
        its = self.net.get(key)
        if isinstance(its, list) and its:
            self.net[key] = (its * least)[: self.chance.choice([least, least - 1, 20])]

    def a_list_is_turned(self):
        its = self.net.get(self.chance.choice(["bridge", "wire"]))
        if isinstance(its, list):
            self.chance.shuffle(its)

    def bytes_are_others(self):
        data = text_of(self.net).encode()
        at = self.chance.randrange(len(data))
        self.bytes = self.chance.choice([data[:at], data[:at] + b"\xff" + data[at:], data.ljust(1_048_577, b"#"), data + b"#".ljust(1_048_576 - len(data), b"#"), b"", data + data])

    def an_end_is_another(self):
        """Any port of any bridge: one that isn't there, one with a wire or a capture, one of the same bridge."""
        if self.is_whole() and self.net["wire"]:
            wire = self.chance.choice(self.net["wire"])
            wire[self.chance.choice("ab")] = self.end()

    def end(self):
        bridge = self.chance.choice([*self.net["bridge"], {"name": "nobody"}])
        ports = ["b1", "b2", "b3", "b4", "b5", "x1.1", "x64.64"]
        if bridge.get("topology") in self.topologies() and self.chance.random() < 0.7:
            topology = tomllib.loads(self.files[bridge["topology"]].decode())
            ports = list(map(name_of, Tree(topology["bridge"], topology.get("extender", [])).external))
        return f"{bridge.get('name', 'a')}:{self.chance.choice(ports)}"

    def a_wire_comes(self):
        """Where it joins what other wires join already, and where not."""
        if self.is_whole():
            ends = [self.end(), self.end()]
            if self.net["wire"] and self.chance.random() < 0.5:
                ends[0] = self.chance.choice(self.net["wire"]).get(self.chance.choice("ab"), "a:b1")
            self.net["wire"].insert(self.chance.randint(0, len(self.net["wire"])), dict(zip("ab", ends)))

    # ---- of what it names

    def a_file_is_missing(self):
        self.files.pop(self.chance.choice([it for it in self.files if it != FILE] or [""]), None)

    def a_topology_has_a_fault(self):
        for it in self.topologies():
            if self.chance.random() < 0.5:
                self.files[it] = self.chance.choice(list(FLAWED))

    def a_topology_for_two(self):
        its = self.topologies()
        if its:
            self.chance.choice(self.net["bridge"])["topology"] = self.chance.choice(its)

    def a_capture_is_an_output(self):
        its = self.topologies()
        if its:
            name = self.chance.choice([it.get("name", "a") for it in self.net["bridge"]])
            output = f"{name}-{self.chance.choice(['b1.pcap', 'b2.pcap', 'b6.pcap', 'x1.1.pcap', 'journal.txt', 'trace.txt', 'counters.txt', 'more.txt'])}"
            file = self.chance.choice(its)
            lines = self.files[file].decode().splitlines()
            places = [at for at, line in enumerate(lines) if line.endswith('.pcap"')]
            if places:
                at = self.chance.choice(places)
                lines[at] = f'{lines[at].split(" = ")[0]} = "{output}"'
                self.files[file] = ("\n".join(lines) + "\n").encode()
                self.files.setdefault(output, bytes(24))

    def a_capture_has_a_fault(self):
        its = [it for it, data in self.files.items() if it.endswith(".pcap") and data]
        for it in self.chance.sample(its, min(len(its), 2)):
            data = bytearray(self.files[it])
            at = self.chance.randrange(min(len(data), 120))
            data[at] ^= 1 << self.chance.randrange(8)
            self.files[it] = self.chance.choice([bytes(data), bytes(data[:at]), self.files[it] + b"\0"])


KINDS = [getattr(Changing, name) for name, it in vars(Changing).items()
         if callable(it) and name.split("_")[0] in ("a", "an", "bytes")]


def changed(files, chance):
    """The files of a net with one or two changes."""
    it = Changing(files, chance)
    for kind in chance.sample(KINDS, chance.choice((1, 1, 2))):
        kind(it)
    it.files[FILE] = text_of(it.net).encode() if it.bytes is None else it.bytes
    return it.files
