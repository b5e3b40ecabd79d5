"""Whether two topologies come to the same: where each frame goes once all their commands are made.

Two looks are taken. `differences` compares the configurations at the end by the second reading of the rules. `played` has the program
itself play both, with a probe of each kind at each port after the last command, and compares what leaves. A tool that says who reaches whom
is to be called in `ends`, and nowhere else.
"""
from __future__ import annotations

import os
import struct
import subprocess
import tempfile

from exbr_desk import plain, play, topology
from exbr_desk.errors import DeskError
from exbr_desk.short import ranges

START, PROBE = 1_000_000_000, b"\x88\xb5exbr probe"
QUIET = bytes.fromhex("0180c200000e")
MOST, MEMORY = 2_000_000, "/dev/shm"


def ends(one: str, other: str, exbr: str | None) -> tuple[list[str], bool]:
    """What differs between two topologies at their ends, in lines, none where they mean the same; and whether the program played them. Without
    a program, and where it would write too much, the rules alone are asked."""
    both = [topology.of_text(one), topology.of_text(other)]
    found = differences(*both)
    frames = probes(both) if exbr else {}
    if found or not exbr or copies(both, frames) > MOST:
        return found, False
    return played(both, frames, exbr), True


def at_end(given: topology.Topology) -> plain.Configuration:
    """The configuration when all ports are open and all commands made. What is refused isn't looked at."""
    now = given.start()
    now.present |= set(given.external)
    for it in given.commands:
        now.command(it.table)
    return now


Meaning = tuple[dict, dict, dict]


def meaning(now: plain.Configuration, names: dict[int, str] | None = None) -> Meaning:
    """What a configuration means, by the names of ports: what each port that is up lets in, the members of each VLAN, and static entries.
    Two with the same meaning send each frame to the same ports, while nothing is learned."""
    of = names or {port: plain.name_of(port) for port in now.rules}
    up = {port for port in now.present if port in of}
    ports, heard = {}, set()
    members: dict[int, set[int]] = {vid: set().union(*kinds.values()) for vid, kinds in now.vlans.items()}
    inside: dict[int, set[int]] = {}
    for vid, them in members.items():
        for port in them & up:
            inside.setdefault(port, set()).add(vid)
    for port in up:
        rules = now.rules[port]
        bare = rules.pvid if rules.accept != "tagged" and lets_in(port, rules.pvid, rules, members) else None
        tags = frozenset() if rules.accept == "untagged" else frozenset(inside.get(port, ()) if rules.filter else members)
        heard |= tags | ({bare} if bare else set())
        if bare or tags or port in inside:
            ports[of[port]] = bare, tags, rules.isolated
    vlans = {vid: {kind: frozenset(of[port] for port in them & up) for kind, them in kinds.items()} for vid, kinds in now.vlans.items() if vid in heard}
    statics = {key: frozenset(of[port] for port in them & members.get(key[0], set()) & up) for key, them in now.statics.items() if key[0] in heard}
    return ports, {vid: it for vid, it in vlans.items() if any(it.values())}, statics


def lets_in(port: int, vid: int, rules, members: dict[int, set[int]]) -> bool:
    """Whether frames of a VLAN may come in at a port."""
    return vid in members and (not rules.filter or port in members[vid])


def differences(one: topology.Topology, other: topology.Topology, mine: dict[int, str] | None = None, its: dict[int, str] | None = None) -> list[str]:
    """What differs between two topologies at their ends, by the rules."""
    first, second = meaning(at_end(one), mine), meaning(at_end(other), its)
    found = []
    for name in sorted(first[0].keys() | second[0].keys()):
        if first[0].get(name) != second[0].get(name):
            found.append(f"port {name}: {port_in_words(first[0].get(name))}; {port_in_words(second[0].get(name))}")
    for vid in sorted(first[1].keys() | second[1].keys()):
        if first[1].get(vid) != second[1].get(vid):
            found.append(f"VLAN {vid}: {vlan_in_words(first[1].get(vid))}; {vlan_in_words(second[1].get(vid))}")
    for key in sorted(first[2].keys() | second[2].keys()):
        if first[2].get(key) != second[2].get(key):
            found.append(f"the static entry {key[1].hex(':')} of VLAN {key[0]}")
    return found


def port_in_words(it: tuple | None) -> str:
    """What a port lets in, in short."""
    if it is None:
        return "nothing comes in"
    return f"without a tag {it[0] or 'nothing'}, tags {ranges(it[1]) or 'none'}{', isolated' if it[2] else ''}"


def vlan_in_words(it: dict | None) -> str:
    """The members of a VLAN, in short."""
    return "; ".join(f"{kind} {', '.join(sorted(ports))}" for kind, ports in it.items() if ports) if it else "no member"


# The program itself.

def probes(both: list[topology.Topology]) -> dict[int, list[tuple[int, bytes]]]:
    """Frames to all, after the last command of both: at each port one without a tag, one of each kind of VLAN in which it is in one of
    them, and one of a VLAN in which it is in none. VLANs with the same members in both are of one kind."""
    ends = [at_end(it) for it in both]
    first = {}
    for vid in sorted(set().union(*(it.vlans for it in ends))):
        first.setdefault(tuple(tuple((kind, ports) for kind, ports in sorted(it.vlans.get(vid, {}).items())) for it in ends), vid)
    vids = sorted(first.values())
    moment = (START + 1 + max([it.at for given in both for it in given.commands], default=0)) * plain.SECOND
    found: dict[int, list[tuple[int, bytes]]] = {}
    for port in sorted(set(both[0].external) & set(both[1].external)):
        mine = [vid for vid in vids if any(port in ports for it in ends for ports in it.vlans.get(vid, {}).values())]
        foreign = [vid for vid in vids if vid not in mine][:1]
        for vid in [0, *mine, *foreign]:
            moment += 1000
            found.setdefault(port, []).append((moment, probe(port, vid)))
    begin = min(found, default=None)
    if begin is not None:
        found[begin].insert(0, (START * plain.SECOND, QUIET + bytes.fromhex("02ee00000000") + PROBE.ljust(48, b"\0")))
    return found


def probe(port: int, vid: int) -> bytes:
    """A frame to all from a port's own address."""
    tag = struct.pack(">HH", 0x8100, vid) if vid else b""
    return (b"\xff" * 6 + struct.pack(">HHH", 0x02EE, port, vid) + tag + PROBE).ljust(60, b"\0")


def copies(both: list[topology.Topology], frames: dict[int, list[tuple[int, bytes]]]) -> int:
    """How many copies of probes leave at most."""
    ends = [at_end(it) for it in both]
    many = {vid: sum(map(len, kinds.values())) for it in ends for vid, kinds in it.vlans.items()}
    most = max(many.values(), default=0)
    return sum(many.get(struct.unpack(">H", frame[10:12])[0], most) for records in frames.values() for _, frame in records)


def played(both: list[topology.Topology], frames: dict[int, list[tuple[int, bytes]]], exbr: str) -> list[str]:
    """What differs between what leaves in two runs of the program, and what the first one refused."""
    # The program brings all it writes to the disk, which takes long for many ports. So it writes into memory, where there is such a folder.
    with tempfile.TemporaryDirectory(prefix="exbr-import-", dir=MEMORY if os.access(MEMORY, os.W_OK) else None) as folder:
        for port, records in frames.items():
            with open(os.path.join(folder, f"p-{plain.name_of(port)}.pcap"), "wb") as file:
                file.write(plain.capture_of(records))
        outs = [run(it, os.path.join(folder, name), frames, exbr) for it, name in zip(both, ("one", "other"))]
        found = refused(os.path.join(folder, "one", "out-journal.txt"))
        return found + [f"{name}: what leaves there at the end isn't the same" for name in sorted(outs[0].keys() & outs[1].keys())
                        if outs[0][name] != outs[1][name]]


def run(given: topology.Topology, folder: str, frames: dict, exbr: str) -> dict[str, bytes]:
    """What leaves each port when the program plays a topology with the probes."""
    os.makedirs(folder)
    tables = {key: it for key, it in given.tables.items() if key not in ("captures", "links")}
    tables["bridge"] = {key: it for key, it in tables["bridge"].items() if key != "out"} | {"ageing": 0}
    tables["captures"] = {plain.name_of(port): f"../p-{plain.name_of(port)}.pcap" for port in frames}
    with open(os.path.join(folder, "topology.toml"), "w", encoding="utf-8") as file:
        file.write(play.written(tables))
    done = subprocess.run([exbr, "run", "topology.toml"], cwd=folder, capture_output=True, stdin=subprocess.DEVNULL, check=False)
    if done.returncode:
        raise DeskError(f"exbr ended with status {done.returncode} when it tried the change: {done.stdout.decode(errors='replace').strip()[:200]}")
    found = {}
    for port in given.external:
        with open(os.path.join(folder, f"out-{plain.name_of(port)}.pcap"), "rb") as file:
            found[plain.name_of(port)] = file.read()
    return found


def refused(journal: str) -> list[str]:
    """What a run refused: commands, and ports that stayed absent."""
    with open(journal, encoding="utf-8") as file:
        lines = [it.split() for it in file if it.startswith(("refuse ", "noup "))]
    return [f"command {it[1]} is refused: it needs {it[3]} {it[2]}, and there are {it[4]}" if it[0] == "refuse" else
            f"{it[1]} stays absent at the opening: it needs {it[3]} {it[2]}, and there are {it[4]}" for it in lines]
