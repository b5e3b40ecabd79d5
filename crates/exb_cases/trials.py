"""Generated inputs: any tree of so many extenders, with any rules, members, static entries, limits and commands, and what arrives at some of
its ports. A trial is drawn from its number; the plain bridge (bridge.py) says what comes of it.
"""
import struct

import bridge
from frames import HEADER
from world.schedule import Lcg64Xsh32

# The first number of trials, and over how many extenders they are: one trial each, whose number is the sum of both.
TRIALS = [(0, range(6)), (100, range(1, 6)), (200, range(6, 11)), (300, range(11, 14)), (402 - 30, [30]), (502 - 64, [64])]
VLANS = [1, 2, 10, 4094]
DEEPEST = 8
LONGEST = 9216


class Draw:
    """What is drawn for a trial, in the order in which it is drawn."""

    def __init__(self, number):
        self.source = Lcg64Xsh32.seed_from_u64(number)

    def below(self, limit):
        return self.source.next_u32() % limit

    def one_of(self, them):
        return them[self.below(len(them))]

    def switch(self):
        return self.below(2) == 0

    def vlan(self):
        return self.one_of(VLANS)

    def accept(self):
        return self.one_of(["tagged", "untagged", "all", "all"])

    def address(self):
        return self.one_of(["01-00-5E-00-00-01", "02-00-00-00-00-03", "02-00-00-00-00-05"])

    def some_of(self, ports):
        """Some of the ports, each in quotes and with a comma behind it."""
        return "".join(f'"{bridge.name_of(port)}",' for port in ports if self.below(5) < 2)


# ---- the tree


def hung(draw, number, free):
    """Hangs an extender of 1 to 3 ports on a free port, unless that is too deep: any, or the last one, so that trees become deep too."""
    if not free:
        return []
    any_place = draw.below(len(free))
    place = any_place if draw.switch() else len(free) - 1
    (port, depth), last = free[place], free.pop()
    if place < len(free):
        free[place] = last
    if depth >= DEEPEST:
        free.append((port, depth))
        return []
    ports = draw.below(3) + 1
    free.extend((64 * number + at, depth + 1) for at in range(ports))
    return [(number, port, ports)]


def tree(draw, count):
    """How many ports the bridge has, the extenders, and the external ports in any order."""
    local = draw.below(4) + 1
    free = [(at, 0) for at in range(local)]
    first, extenders = draw.below(64), []
    for turn in range(count):
        extenders += hung(draw, 1 + (turn * 37 + first) % 64, free)
    return local, extenders, [port for port, _depth in free]


# ---- the topology


def ageing(draw):
    return [lambda: 0, lambda: 300, lambda: 10 + draw.below(10), lambda: 10 + draw.below(10)][draw.below(4)]()


def channels(draw, extenders):
    """Mostly enough, and always one for each extender and one more."""
    return len(extenders) + 1 + draw.below(6) if draw.below(3) == 0 else 4094


def groups(draw):
    """Few, some, or enough."""
    return [lambda: 2 + draw.below(4), lambda: 4 + draw.below(6), lambda: 8 + draw.below(12), lambda: 12288][draw.below(4)]()


def rules(draw, port):
    accept, vlan, filters, isolated = draw.accept(), draw.vlan(), draw.switch(), draw.switch()
    return (f'[[port]]\nname = "{bridge.name_of(port)}"\npvid = {vlan}\naccept = "{accept}"\n'
            f"filter = {str(filters).lower()}\nisolated = {str(isolated).lower()}\n")


def members(draw, ports, head):
    tagged, untagged = draw.some_of(ports), draw.some_of(ports)
    return f"{head}tagged = [{tagged}]\nuntagged = [{untagged}]\n"


def entry(draw, ports, head):
    address, places = draw.address(), draw.some_of(ports)
    return f'{head}mac = "{address}"\nports = [{places}]\n'


def start(draw, ports):
    """What is set before anything happens: any rules of ports, any members of VLANs, any static entries."""
    text = "".join(rules(draw, port) for port in ports if draw.below(3) == 0)
    if draw.below(5) > 0:
        text += "".join(members(draw, ports, f"[[vlan]]\nvid = {vlan}\n") for vlan in VLANS if draw.below(4) > 0)
    return text + "".join(entry(draw, ports, f"[[static]]\nvid = {vlan}\n") for vlan in VLANS if draw.below(3) == 0)


def some_port(draw, ports):
    return bridge.name_of(draw.one_of(ports) if ports else 0)


def on_vlan(draw, ports):
    """A command on a VLAN and a port."""
    vlan, port = draw.vlan(), some_port(draw, ports)
    op, kind = draw.one_of([("unmember", ""), ("pvid", ""), ("member", 'kind = "tagged"\n'), ("member", 'kind = "untagged"\n')])
    return f'op = "{op}"\nvid = {vlan}\nport = "{port}"\n{kind}'


def on_port(draw, ports):
    """A command that sets a rule of a port, or makes it present or absent."""
    port, switch, accept = some_port(draw, ports), str(draw.switch()).lower(), draw.accept()
    isolate = ("isolate", f"isolated = {switch}\n")
    op, rule = draw.one_of([("accept", f'accept = "{accept}"\n'), ("filter", f"filter = {switch}\n"), isolate, isolate,
                            ("up", ""), ("up", ""), ("down", ""), ("down", "")])
    return f'op = "{op}"\nport = "{port}"\n{rule}'


def on_static(draw, ports):
    """A command that puts a static entry or removes one."""
    vlan, address, places = draw.vlan(), draw.address(), draw.some_of(ports)
    if draw.below(3) == 0:
        return f'op = "unstatic"\nvid = {vlan}\nmac = "{address}"\n'
    return f'op = "static"\nvid = {vlan}\nmac = "{address}"\nports = [{places}]\n'


def command(draw, ports):
    """Any command, without its second."""
    kind = draw.below(8)
    if kind == 0:
        return members(draw, ports, f'op = "vlan"\nvid = {draw.vlan()}\n')
    return (on_static if kind == 1 else on_vlan if kind < 5 else on_port)(draw, ports)


def topology(draw, local, extenders, ports, speaking):
    seconds, most = ageing(draw), channels(draw, extenders)
    text = f"[bridge]\nports = {local}\nageing = {seconds}\nchannels = {most}\ngroups = {groups(draw)}\n"
    text += "".join(f'[[extender]]\nnumber = {number}\non = "{bridge.name_of(on)}"\nports = {count}\n' for number, on, count in extenders)
    text += start(draw, ports)
    for turn in range(12):
        text += f"[[command]]\nat = {3 * turn + draw.below(3)}\n"
        text += command(draw, ports)
    return text + "[captures]\n" + "".join(f'"{name}" = "in-{name}.pcap"\n' for name in map(bridge.name_of, speaking))


# ---- what the stations at a port send


def station(draw):
    return bytes([2, 0, 0, 0, 0, draw.below(8)])


def destination(draw):
    """All, a group, an address that no bridge relays, or a station."""
    kind = draw.below(12)
    if kind == 3:
        return bytes([1, 0x80, 0xC2, 0, 0, draw.below(20)])
    return b"\xff" * 6 if kind < 2 else bytes([1, 0, 0x5E, 0, 0, 1]) if kind == 2 else station(draw)


def origin(draw, port):
    """Mostly the station of its port, else any, or a group."""
    kind = draw.below(10)
    return bytes([1, 0, 0x5E, 0, 0, 2]) if kind == 0 else station(draw) if kind < 3 else bytes([2, 0, 0, 0, 0, port % 8])


def tag(draw):
    """No tag, one of a VLAN or of none, or one of a VLAN that there can't be."""
    kind = draw.below(8)
    if kind > 4:
        return b""
    vlan = 0 if kind == 0 else 4095 if kind == 1 else draw.vlan()
    return b"\x81\x00" + struct.pack(">H", draw.below(16) << 12 | vlan)


def frame(draw, port):
    """A frame that arrives at a port. Some are cut to less than their head, and some as long as a frame may be or longer."""
    data = destination(draw) + origin(draw, port) + tag(draw) + draw.one_of([b"\x08\x00", b"\x86\xdd", b"\x89\x3f"])
    data += bytes(draw.below(255) for _byte in range(draw.below(60)))
    change = draw.below(40)
    if change < 3:
        return data[:draw.below(19)]
    return data.ljust(LONGEST + draw.below(2), b"\0") if change == 3 else data


def capture(draw, port):
    """A capture of 0 to 4 frames: within 35 seconds, and maybe one before the one in front of it."""
    data = HEADER
    for place in range(draw.below(5)):
        second, part = 100 + 6 * place + draw.below(11), draw.below(bridge.SECOND)
        one = frame(draw, port)
        data += struct.pack("<IIII", second, part // 1000, len(one), len(one)) + one
    return data


def trial(number, extenders):
    """The files of a trial: the topology, and a capture for each port that speaks: all of a few ports, and some ten of many."""
    draw = Draw(number)
    local, hangs, ports = tree(draw, extenders)
    speaking = [port for port in ports if draw.below(len(ports)) < 10]
    text = topology(draw, local, hangs, ports, speaking)
    return {"trial.toml": text.encode(), **{f"in-{bridge.name_of(port)}.pcap": capture(draw, port) for port in speaking}}
