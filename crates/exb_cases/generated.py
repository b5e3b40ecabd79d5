"""Cases that are too long to be told: the plain bridge alone says what comes of them."""
from bridge import capture_of, number_of
from frames import *

SECOND = 1_000_000_000


class Chance:
    """Numbers that look random and are the same everywhere."""

    def __init__(self, seed):
        self.state = seed

    def below(self, limit):
        self.state = (self.state * 6364136223846793005 + 1442695040888963407) % 2**64
        return (self.state >> 33) % limit

    def one(self, them):
        return them[self.below(len(them))]

    def some(self, them, of):
        """Each with a chance of one to so many."""
        return [it for it in them if self.below(of) == 0]


def address(number):
    return b"\x02\x00\x00\x00\x00" + bytes([number])


def hundred_vlans(cases):
    """A thousand tagged frames in some of a hundred VLANs between eight extenders on eight ports of the bridge."""
    chance, names = Chance(20), [f"x{number}.{port}" for number in range(1, 9) for port in range(1, 9)]
    heard = {vid: [] for vid in range(100, 200, 4)}
    records = {name: [] for name in names}
    for at in range(1000):
        vid, station = list(heard)[at % 25], chance.below(64)
        others = [who for who in heard[vid] if who != station]
        destination = address(chance.one(others)) if others else ALL
        heard[vid].append(station)
        records[names[station]].append((100 * SECOND + at * 60_000_000, tagged(vid, 0, destination, address(station), 20)))
    topology = tree([(number, f"b{number}", 8) for number in range(1, 9)], {name: f"{name}.pcap" for name in names}, "ports = 8",
                    "vlan = [{ vid = 100, last = 199, tagged = ['*'] }]\n")
    cases.plays("hundred-vlans", topology, {f"{name}.pcap": capture_of(its) for name, its in records.items()})


def set_for_each_vlan(cases):
    """Three hundred VLANs with three hundred sets, and a port in half of them that goes down and up."""
    ports = [f"x{number}.{port}" for number in (1, 2) for port in range(1, 6)]
    members = {vid: [f"'{port}'" for bit, port in enumerate(ports) if vid >> bit & 1] for vid in range(1, 301)}
    vlans = "".join(f"  {{ vid = {vid}, tagged = [{', '.join(its)}] }},\n" for vid, its in members.items())
    them = commands("1 down port = 'x1.1'", "2 up port = 'x1.1'", "3 unmember vid = 299, port = 'x2.1'")
    frames = [(100 + at, tagged(vid)) for at in range(5) for vid in (7, 299)]
    cases.plays("set-for-each-vlan", tree([(1, "b2", 6), (2, "x1.6", 5)], {"b1": "a.pcap"}, "ports = 2", f"vlan = [\n{vlans}]\n" + them),
                {"a.pcap": frames})


def flapping(cases):
    """A port goes down and up fifty times while frames go between others."""
    them = [f"{at} {'down' if at % 2 else 'up'} port = 'x2.1'" for at in range(1, 101)]
    cases.plays("flapping", tree([(1, "b1", 3), (2, "x1.3", 2)], {"x1.1": "a.pcap", "x2.1": "b.pcap"}, more=commands(*them)),
                {"a.pcap": [(100 + 7 * at, F) for at in range(15)], "b.pcap": [(101 + 9 * at, frame(source=TWO)) for at in range(11)]})


EVERY = [
    "1 vlan vid = 2, tagged = ['b2', 'x1.1'], untagged = ['x2.*']", "2 member vid = 2, port = 'x1.2', kind = 'tagged'",
    "3 pvid port = 'x3.1', vid = 2", "4 filter port = 'x3.1', filter = true", "5 member vid = 2, port = 'x3.1', kind = 'untagged'",
    "6 isolate port = 'x3.1', isolated = true", "6 isolate port = 'x2.1', isolated = true",
    "7 static vid = 2, mac = '01-00-00-00-00-09', ports = ['x1.2', 'x2.*']", "8 static vid = 2, mac = '01-00-00-00-00-09', ports = ['b2', 'x2.2']",
    "9 down port = 'x2.2'", "10 unstatic vid = 2, mac = '01-00-00-00-00-09'", "11 up port = 'x2.2'", "12 accept port = 'x3.1', accept = 'tagged'",
    "13 accept port = 'x3.1', accept = 'untagged'", "13 unmember vid = 2, port = 'b2'", "14 isolate port = 'x3.1', isolated = false",
    "15 vlan vid = 2",
]


def every_command(cases):
    """Each command once at least, with frames of one port to all and to a group between them."""
    group = bytes.fromhex("010000000009")
    frames = [(100 + at + part / 10, frame(to)) for at in range(17) for part, to in enumerate((ALL, group))]
    cases.plays("every-command", tree([(1, "b1", 3), (2, "x1.3", 2), (3, "b3", 2)], {"x3.1": "a.pcap"}, "ports = 3", commands(*EVERY)),
                {"a.pcap": frames})


VLANS = (1, 2, 10, 4094)
GROUP = bytes.fromhex("01005E000001")


def listed(ports):
    return "[" + ", ".join(f"'{port}'" for port in ports) + "]"


def hung_at_random(chance, count, local):
    """So many extenders on ports of the bridge or of one another, at most eight deep, and the ports that are left, in port order."""
    free, extenders, numbers = [(1, f"b{port}") for port in range(1, local + 1)], [], list(range(1, 65))
    while len(extenders) < count and any(depth <= 8 for depth, _ in free):
        place = chance.one([it for it in free if it[0] <= 8])
        free.remove(place)
        number, ports = numbers.pop(chance.below(len(numbers))), 1 + chance.below(3)
        extenders.append((number, place[1], ports))
        free += [(place[0] + 1, f"x{number}.{port}") for port in range(1, ports + 1)]
    return extenders, sorted((place for _, place in free), key=number_of)


def rules_at_random(chance, ports):
    """The rules of some ports, the members of some VLANs, and some static entries."""
    rules = [f"{{ name = '{port}', pvid = {chance.one(VLANS)}, accept = '{chance.one(['all', 'all', 'tagged', 'untagged'])}', "
             f"filter = {chance.one(['true', 'false'])}, isolated = {chance.one(['true', 'false'])} }}" for port in chance.some(ports, 3)]
    vlans = [f"{{ vid = {vid}, tagged = {listed(chance.some(ports, 3))}, untagged = {listed(chance.some(ports, 2))} }}" for vid in VLANS]
    entries = [f"{{ vid = {vid}, mac = '{chance.one([GROUP, address(3)]).hex('-')}', ports = {listed(chance.some(ports, 2))} }}"
               for vid in chance.some(VLANS, 2)]
    return f"port = [{', '.join(rules)}]\nvlan = [{', '.join(vlans)}]\nstatic = [{', '.join(entries)}]\n"


def command_at_random(chance, ports):
    """Any operation, with what it needs."""
    op = chance.one(["vlan", "member", "member", "unmember", "pvid", "accept", "filter", "isolate", "static", "unstatic", "up", "up", "down", "down"])
    port, vid = f"port = '{chance.one(ports)}'", f"vid = {chance.one(VLANS)}"
    mac = f"mac = '{chance.one([GROUP, address(3)]).hex('-')}'"
    switch = chance.one(["true", "false"])
    rest = {"vlan": f"{vid}, tagged = {listed(chance.some(ports, 3))}, untagged = {listed(chance.some(ports, 3))}",
            "member": f"{vid}, {port}, kind = '{chance.one(['tagged', 'untagged'])}'", "pvid": f"{vid}, {port}", "unmember": f"{vid}, {port}",
            "accept": f"{port}, accept = '{chance.one(['all', 'tagged', 'untagged'])}'", "filter": f"{port}, filter = {switch}",
            "isolate": f"{port}, isolated = {switch}", "static": f"{vid}, {mac}, ports = {listed(chance.some(ports, 3))}",
            "unstatic": f"{vid}, {mac}", "up": port, "down": port}
    return f"{op} {rest[op]}"


def frame_at_random(chance):
    """A frame between eight stations or to a group, with a tag or without."""
    destination, source = chance.one([ALL, GROUP, *[address(chance.below(8))] * 4]), address(chance.below(8))
    rest = chance.one([PLAIN, b"\x81\x00" + (chance.below(16) << 12 | chance.one([0, 4095, *VLANS * 2])).to_bytes(2, "big") + PLAIN])
    return frame(destination, source, rest, 14 + chance.below(20))


def at_random(cases, seed, count, groups, options="", order=None):
    """Any tree with so many extenders, any rules, twenty commands, and frames at eight of its ports."""
    chance = Chance(seed)
    local = 2 + chance.below(3)
    extenders, ports = hung_at_random(chance, count, local)
    bridge = f"ports = {local}, ageing = {chance.one([0, 10, 12, 300])}, channels = {count + chance.below(len(ports))}, groups = {groups}"
    at = sorted(chance.below(30) for _ in range(20))
    more = rules_at_random(chance, ports) + commands(*[f"{second} {command_at_random(chance, ports)}" for second in at])
    speaking = sorted({chance.one(ports) for _ in range(8)}, key=number_of)
    records = {port: [(100 * SECOND + (turn * 4 + chance.below(6)) * SECOND // 2 + chance.below(1000) * 1000, frame_at_random(chance))
                      for turn in range(chance.below(12))] for port in speaking}
    cases.plays(f"tree-at-random-{seed}", tree(extenders, {port: f"{port}.pcap" for port in speaking}, bridge, more),
                {f"{port}.pcap": capture_of(its) for port, its in records.items()}, options=options, seed=order)


def trees_at_random(cases):
    for seed, (count, groups) in enumerate([(1, 3), (2, 12), (3, 6), (4, 20), (6, 8), (8, 10), (12, 12), (16, 11), (24, 14), (64, 20)], 1):
        at_random(cases, seed, count, groups)


PARTS = [hundred_vlans, set_for_each_vlan, flapping, every_command, trees_at_random]
