#!/usr/bin/env python3
"""Measures how many frames exbr plays in a second, beside a plain learning bridge in C (bench/flat.c) on the same captures in the
same run, and compares what the two write byte for byte.

    bench/frames.py             captures of 4, 16 and 64 ports, flooded and learned, short and long frames
    bench/frames.py --vlans     64 ports with 1, 100 and 4,094 VLANs and with 10, 1,000 and 100,000 learned addresses, and 2 ports
                                with 1,000,000
    bench/frames.py --trees     an extender of 48 ports and a star of six of 8 ports, each with frames to one port, to all, and mixed;
                                frames to one port through 1, 8 and 64 extenders, and beside 0 and 63 that they don't touch
    bench/frames.py --commands  what a command takes where there are 64 extenders and 4,094 VLANs, and what it takes a port of 4,094
                                VLANs with a set each to go down and up. There the outputs are compared with the plain bridge in
                                Python of crates/exb_cases
    bench/frames.py --options   a run with a trace, and a run in a drawn order, beside the same run without, as ratios
    bench/frames.py --costs     where the time goes, by callgrind (instructions, and not seconds)

It works in a folder of its own under the system's folder for such, and takes it away at the end. The baseline is
built before; the program is the one that ./exbr runs, or the one that is named by EXBR=FILE. None is built for this.
"""
import argparse
import filecmp
import os
import random
import shutil
import struct
import subprocess
import sys
import tempfile
import time

sys.dont_write_bytecode = True
TOP = os.path.dirname(os.path.dirname(os.path.abspath(__file__)))
sys.path.insert(0, f"{TOP}/crates/exb_cases")
sys.path.insert(0, f"{TOP}/bench")
import bridge
from program import program

TURNS = 3  # each program runs so often in turn with the other, and its best time counts
BROADCAST = b"\xff" * 6
HEADER = struct.pack("<IHHIIII", 0xA1B23C4D, 2, 4, 0, 0, 65535, 1)


def address(number):
    """An individual address."""
    return b"\x02\x00" + struct.pack(">I", number)


def frame(destination, source, vid, size):
    """A frame of so many bytes, with a VLAN tag where a VID is given."""
    tag = b"" if vid is None else b"\x81\x00" + struct.pack(">H", vid)
    head = destination + source + tag + b"\x08\x00"
    return head + bytes(size - len(head))


def write_captures(ports, frames, active):
    """Frames come in turn at the first ports, so many are active, a microsecond apart."""
    files = [open(f"in-{port}.pcap", "wb") for port in ports]
    for file in files:
        file.write(HEADER)
    for at, data in enumerate(frames):
        second, rest = divmod(at * 1000, 1_000_000_000)
        files[at % active].write(struct.pack("<IIII", second, rest, len(data), len(data)) + data)
    for file in files:
        file.close()


class Tree:
    """Extenders by number, place and count of ports, and the external ports, all in port order."""

    def __init__(self, local, extenders):
        self.local, self.extenders = local, extenders
        places = {on for _, on, _ in extenders}
        names = [f"b{port}" for port in range(1, local + 1)]
        names += [f"x{number}.{port}" for number, _, ports in sorted(extenders) for port in range(1, ports + 1)]
        self.ports = [name for name in names if name not in places]


def one_extender(ports):
    return Tree(1, [(1, "b1", ports)])


def write_topology(tree, ageing=300, more="", captures=None):
    """A tree with these further tables, and a capture for each of these ports."""
    lines = ["[bridge]", f"ports = {tree.local}", f"ageing = {ageing}"]
    for number, on, ports in tree.extenders:
        lines += ["[[extender]]", f"number = {number}", f'on = "{on}"', f"ports = {ports}"]
    lines += [more, "[captures]"] + [f'"{port}" = "in-{port}.pcap"' for port in (tree.ports if captures is None else captures)]
    text = "\n".join(lines) + "\n"
    with open("topology.toml", "w", encoding="utf-8") as file:
        file.write(text)
    return text


def all_tagged(vlans):
    """The tables in which all ports are members of so many VLANs: with a tag if there are several."""
    return f'[[vlan]]\nvid = 1\nlast = {vlans}\ntagged = ["*"]' if vlans > 1 else ""


def flooded(count, ports, size):
    """Broadcasts, each from an address of its port."""
    return [frame(BROADCAST, address(at % ports), None, size) for at in range(count)]


def learned(count, ports, size, vid, addresses):
    """First each address speaks once, then frames go from one to another, each from the port at which its sender spoke."""
    chance = random.Random(1)
    frames = [frame(BROADCAST, address(who), vid, size) for who in range(addresses)]
    for _ in range(count):
        turn = len(frames) % ports
        who = turn + ports * chance.randrange(len(range(turn, addresses, ports)))
        frames.append(frame(address((who + 1) % addresses), address(who), vid, size))
    return frames


def run(words):
    """Runs a command, and gives its seconds and its peak memory in megabytes. `time` stands between, since a child that is made
    here would begin with the memory that this script has."""
    before = time.monotonic()
    ran = subprocess.run(["/usr/bin/time", "-f", "%M", "-o", "peak"] + words, capture_output=True, text=True, check=False)
    seconds = time.monotonic() - before
    if ran.returncode:
        sys.exit(f"{words[0]} ended with {ran.returncode}: {ran.stdout.strip()}")
    with open("peak", encoding="utf-8") as file:
        return seconds, int(file.read()) / 1024


def measure(name, tree, frames, vlans=1, ageing=300, active=None):
    """Runs both programs on the frames, and prints what they took. The first run has no frames, so that it is known what the opening takes."""
    ports = tree.ports
    write_topology(tree, ageing, all_tagged(vlans))
    write_captures(ports, [], 1)
    opening, _ = run([program(), "run", "topology.toml"])
    write_captures(ports, frames, active or len(ports))
    flat_words = ["./flat", "1" if ageing else "0", "flat-"] + [f"in-{port}.pcap" for port in ports]
    turns = [(run(flat_words), run([program(), "run", "topology.toml"])) for _ in range(TURNS)]
    flat_time, flat_memory = min(flat for flat, _ in turns)
    own_time, own_memory = min(own for _, own in turns)
    same = all(filecmp.cmp(f"out-{port}.pcap", f"flat-{at}.pcap", shallow=False) for at, port in enumerate(ports, 1))
    count, size, played = len(frames), sum(map(len, frames)), max(own_time - opening, 0.001)
    print(f"{name:42} {count:8} frames {own_time:8.2f} s, of it opening {opening:6.2f} s, then {count / played:9.0f} frames/s {size / played / 1e6:8.1f} MB/s "
          f"{own_memory:6.0f} MB | plain {flat_time:6.3f} s {flat_memory:5.0f} MB | ratio {own_time / flat_time:7.1f}"
          f" | {'same outputs' if same else 'OUTPUTS DIFFER'}", flush=True)


def sizes():
    for ports in (4, 16, 64):
        for size in (60, 1514):
            count = min(100_000, 60_000_000 // (size + 16))
            measure(f"{ports} ports, {size} bytes, flooded", one_extender(ports), flooded(count // ports * 4, ports, size))
            measure(f"{ports} ports, {size} bytes, learned", one_extender(ports), learned(count, ports, size, None, ports))


def vlans():
    for number in (1, 100, 4094):
        measure(f"64 ports, {number} VLANs, 64 addresses", one_extender(64), learned(50_000, 64, 64, None if number == 1 else number, 64), number)
    for addresses in (10, 1_000, 100_000):
        active = min(64, addresses)
        measure(f"64 ports, 1 VLAN, {addresses} addresses", one_extender(64), learned(50_000, active, 60, None, addresses), active=active)
    # A frame to all ports leaves but one here, so that the files stay small.
    for addresses in (10, 1_000_000):
        measure(f"2 ports, 1 VLAN, {addresses} addresses", one_extender(2), learned(50_000, 2, 60, None, addresses))


def mixed(count, ports, size):
    """Of ten frames nine go from one address to another, and one to all."""
    frames = learned(count, ports, size, None, ports)
    for at in range(ports, len(frames), 10):
        frames[at] = BROADCAST + frames[at][6:]
    return frames


def chain(count):
    """Each extender on the port of the one before it; b2 and the last one's port are external."""
    return Tree(2, [(1, "b1", 1)] + [(number, f"x{number - 1}.1", 1) for number in range(2, count + 1)])


def beside(count):
    """An extender of two ports, and so many others in a tree of their own, each with two ports."""
    others = [(at + 1, f"x{at // 2 + 1}.{1 + at % 2}" if at > 1 else "b2", 2) for at in range(1, count + 1)]
    return Tree(2, [(1, "b1", 2)] + others)


def trees():
    star = Tree(6, [(number, f"b{number}", 8) for number in range(1, 7)])
    for name, tree in (("an extender of 48 ports", one_extender(48)), ("six extenders of 8 ports", star)):
        measure(f"{name}, to one", tree, learned(100_000, 48, 64, None, 48))
        measure(f"{name}, mixed", tree, mixed(50_000, 48, 64))
        measure(f"{name}, to all", tree, flooded(10_000, 48, 64))
    for count in (1, 8, 64):
        measure(f"through {count} extenders", chain(count), learned(20_000, 2, 64, None, 2))
    for count in (0, 63):
        tree = beside(count)
        tree.ports.sort(key=lambda port: not port.startswith("x1."))
        measure(f"beside {count} extenders", tree, learned(50_000, 2, 64, None, 2), active=2)


def wide():
    """64 extenders: eight on ports of the bridge, and seven on each of these. b9 is the bridge's own."""
    first = [(number, f"b{number}", 8) for number in range(1, 9)]
    return Tree(9, first + [(8 + 7 * (above - 1) + port, f"x{above}.{port}", 2) for above in range(1, 9) for port in range(1, 8)])


def orders(*them):
    """The tables of commands, each an operation and the rest of its table, one each second."""
    return "".join(f'[[command]]\nat = {at}\nop = "{op}"\n{rest}\n' for at, (op, rest) in enumerate(them, 1))


def play(tree, tables, frames):
    """A run in which frames come at the first port, one each second: its seconds and memory, its summary, and whether it writes what the
    plain bridge in Python does."""
    port = tree.ports[0]
    write_captures([port], [], 1)
    with open(f"in-{port}.pcap", "ab") as file:
        for at, data in enumerate(frames):
            file.write(struct.pack("<IIII", at, 0, len(data), len(data)) + data)
    text = write_topology(tree, 300, tables, [port])
    with open(f"in-{port}.pcap", "rb") as file:
        written, line = bridge.run(text, {f"in-{port}.pcap": file.read()})
    seconds, memory = run([program(), "run", "--counters", "topology.toml"])
    for name, data in written.items():
        with open(name, "rb") as file:
            if file.read() != data:
                return seconds, memory, line, f"{name} DIFFERS"
    return seconds, memory, line, "same outputs"


def costs_of(name, tree, tables, frames, groups):
    """What the commands of each group take, each group behind those that it names. The opening takes most of each run, so they run once."""
    done = {(): play(tree, tables, frames)}
    print(f"{name}: run without a command {done[()][0]:.2f} s {done[()][1]:.0f} MB, {done[()][3]}", flush=True)
    for before, group, them in groups:
        given = [it for told in before for it in next(its for _, one, its in groups if one == told)]
        done[(*before, group)] = played = play(tree, tables + orders(*given, *them), frames)
        each = (played[0] - done[before][0]) / len(them) * 1000
        print(f"    {group:8} {each:9.2f} ms each of {len(them):3} | run {played[0]:6.2f} s {played[1]:6.0f} MB | {played[3]} | {played[2]}", flush=True)


def commands():
    frames = [frame(BROADCAST, address(1), 1, 64) for _ in range(40)]
    some = [f"x{number}.1" for number in range(10, 58)]
    down, up = ([(op, f'port = "{port}"') for port in some] for op in ("down", "up"))
    member = [("member", f'vid = 1\nport = "{port}"\nkind = "untagged"') for port in some]
    static = [("static", f'vid = 1\nmac = "02-00-00-00-01-{at:02}"\nports = ["x9.1", "{port}"]') for at, port in enumerate(some)]
    for vlans in (1, 100, 4094):
        tables = f'[[vlan]]\nvid = 1\nlast = {vlans}\ntagged = ["*"]\n'
        costs_of(f"64 extenders and {vlans} VLANs", wide(), tables, frames,
                 [((), "member", member), ((), "static", static), ((), "down", down), (("down",), "up", up)])
    # VLAN n has the ports of n's bits, and one port more that is in all.
    sets = [[f'"x1.{bit + 1}"' for bit in range(12) if vid >> bit & 1] for vid in range(1, 4095)]
    tables = "".join(f'[[vlan]]\nvid = {vid}\ntagged = [{", ".join(members)}, "x1.13"]\n' for vid, members in enumerate(sets, 1))
    costs_of("a port in 4,094 VLANs with a set each", Tree(2, [(1, "b2", 13)]), tables, frames[:10],
             [((), "down", [("down", 'port = "x1.13"')]), (("down",), "up", [("up", 'port = "x1.13"')])])


def options():
    """The same frames without an option, with a trace, and in a drawn order, in turn; the best time of each counts."""
    star = Tree(6, [(number, f"b{number}", 8) for number in range(1, 7)])
    for name, tree in (("an extender of 8 ports", one_extender(8)), ("six extenders of 8 ports", star), ("through 8 extenders", chain(8))):
        ports = tree.ports
        write_topology(tree)
        write_captures(ports, learned(20_000, len(ports), 64, None, len(ports)), len(ports))
        ways = ([], ["--trace"], ["--seed", "1"])
        turns = [[run([program(), "run", "topology.toml"] + way) for way in ways] for _ in range(TURNS)]
        plain, trace, seed = (min(turn[at][0] for turn in turns) for at in range(3))
        memory = max(turn[1][1] for turn in turns)
        size = os.path.getsize("out-trace.txt") / 1e6
        print(f"{name:42} {plain:6.2f} s | with a trace {trace:6.2f} s, ratio {trace / plain:5.1f}, {size:6.1f} MB written, {memory:4.0f} MB of memory"
              f" | with a seed {seed:6.2f} s, ratio {seed / plain:5.1f}", flush=True)


def costs():
    tree = one_extender(64)
    write_captures(tree.ports, learned(5_000, 64, 60, None, 64) + flooded(640, 64, 60), 64)
    write_topology(tree)
    subprocess.run(["valgrind", "--tool=callgrind", "--callgrind-out-file=costs", program(), "run", "topology.toml"],
                   check=True, capture_output=True)
    text = subprocess.run(["callgrind_annotate", "costs"], check=True, capture_output=True, text=True).stdout
    print("\n".join(line[:160] for line in text.splitlines()[:45]))


PARTS = {"vlans": vlans, "trees": trees, "commands": commands, "options": options, "costs": costs}


def main():
    parser = argparse.ArgumentParser(description=__doc__, formatter_class=argparse.RawDescriptionHelpFormatter)
    one = parser.add_mutually_exclusive_group()
    for name in PARTS:
        one.add_argument(f"--{name}", dest="part", action="store_const", const=name)
    part = PARTS.get(parser.parse_args().part, sizes)
    # Without a program it ends here, before captures are made.
    program()
    folder = tempfile.mkdtemp(prefix="exbr-bench-")
    try:
        subprocess.run(["cc", "-O2", "-o", f"{folder}/flat", f"{TOP}/bench/flat.c"], check=True)
        os.chdir(folder)
        part()
    finally:
        os.chdir(TOP)
        shutil.rmtree(folder)


if __name__ == "__main__":
    main()
