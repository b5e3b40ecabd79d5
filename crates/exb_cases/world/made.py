"""The input that is made of a number: a topology and the records of its ports."""
from bridge import Bridge, name_of
from world.schedule import SECOND, Lcg64Xsh32

EXTENDERS = [(1, "b1"), (2, "b2"), (3, "x1.8"), (4, "x3.8"), (5, "x2.8"), (6, "x5.8")]
TABLES = ", ".join(f"{{ number = {number}, on = '{on}', ports = 8 }}" for number, on in EXTENDERS)
BRIDGE = f"bridge = {{ ports = 4 }}\nextender = [{TABLES}]\n"


def listed(ports):
    return "[" + ", ".join(f"'{port}'" for port in ports) + "]"


def made(number):
    source = Lcg64Xsh32.seed_from_u64(number)
    below = lambda limit: source.next_u32() % limit
    ports = Bridge(BRIDGE).tree.external
    names = [name_of(port) for port in ports]
    text = BRIDGE + "vlan = [\n"
    for vid in range(1, 5):
        drawn = [below(3) for _ in ports]
        tagged, untagged = ([name for name, kind in zip(names, drawn) if kind == it] for it in (1, 2))
        text += f"  {{ vid = {vid}, tagged = {listed(tagged)}, untagged = {listed(untagged)} }},\n"
    text += "]\nport = [\n" + "".join(f"  {{ name = '{name}', pvid = {1 + below(4)} }},\n" for name in names) + "]\ncommand = [\n"
    for turn in range(20):
        vid, port, kind = 1 + below(4), names[below(46)], below(2)
        kind = "untagged" if kind else "tagged"
        text += f"  {{ at = {5 * turn}, op = 'member', vid = {vid}, port = '{port}', kind = '{kind}' }},\n"
    records = {port: [] for port in ports}
    for turn in range(1000):
        moment = (1000 + turn // 10) * SECOND + turn % 10 * 1_000_000
        at = below(46)
        records[ports[at]].append((moment, frame(at, below)))
    return text + "]\n", records


def frame(at, below):
    """A frame at a port, with what is drawn for it in the order in which it is drawn."""
    to = b"\xff" * 6 if below(4) == 0 else b"\x02\0\0\0\0" + bytes([below(46)])
    start = to + b"\x02\0\0\0\0" + bytes([at])
    if below(2) == 0:
        return start + b"\x08\x00" + bytes(46)
    return start + b"\x81\x00\x00" + bytes([1 + below(4)]) + b"\x08\x00" + bytes(46)
