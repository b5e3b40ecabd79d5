"""A folder of captures that are named by port: `swp1.pcap`, `x1.2.pcapng`, `in-b3.pcap`."""
import os
from collections import defaultdict

from exbr_desk import captures, frames, names, plain
from exbr_desk.errors import DeskError
from exbr_desk.short import compact, natural, ranges

from .outputs import Outputs
from .switch import Port, Switch

ENDINGS = (".pcap", ".pcapng", ".cap")
LOOK, MOST = 20_000, 12


def port_of(file: str) -> str | None:
    """The port of which a file is the capture, by its name."""
    stem, ending = os.path.splitext(file)
    if ending not in ENDINGS or file.startswith("out-"):
        return None
    return stem.removeprefix("in-")


def files_of(folder: str) -> dict[str, str]:
    """The captures of a folder by port."""
    try:
        names = sorted(os.listdir(folder), key=natural)
    except OSError as fault:
        raise DeskError(f"{folder}: {fault.strerror}") from None
    found: dict[str, str] = {}
    for file in names:
        port = port_of(file)
        if port is None:
            continue
        if port in found:
            raise DeskError(f"{folder}: {found[port]} and {file} are both captures of {port}")
        found[port] = file
    if not found:
        raise DeskError(f"{folder}: there is no capture in it that is named by a port, as swp1.pcap or x1.2.pcap")
    return found


def switch_of(folder: str) -> Switch:
    """A switch of which nothing is known but its captures."""
    found = Switch(f"the captures in {os.path.basename(os.path.abspath(folder))}", [Port(it) for it in sorted(files_of(folder), key=natural)])
    for port in found.ports:
        port.pvid, port.filter, port.untagged = 1, False, {1}
    found.lost.append("VLANs: no capture says which port is in which. All ports are in VLAN 1 here, untagged")
    return found


def give(switch: Switch, folder: str, to: str | None, outputs: Outputs) -> None:
    """Gives each port its capture, as a path from the folder of the topology, or from here where it is printed. Captures of the members of a
    port become one."""
    files = files_of(folder)
    called = names.Names({it.place: names.Name(it.name or it.place, members=it.members) for it in switch.ports})
    captures = called.captures(list(files.values()))
    for port in switch.ports:
        them = captures.get(port.place, [])
        if len(them) > 1 and len(port.members) > 1:
            if to is None:
                raise DeskError(f"{folder}: {', '.join(them)} are captures of {port.name} and become one file; name the topology by -o FILE")
            path = os.path.join(to, f"in-{port.place}.pcapng")
            outputs.merge(path, [os.path.join(folder, it) for it in them])
            port.capture = os.path.relpath(path, to)
        elif len(them) > 1:
            raise DeskError(f"{folder}: {them[0]} and {them[1]} are both captures of {port.name or port.place}")
        elif them:
            port.capture = os.path.relpath(os.path.join(folder, them[0]), to or ".")
    found = {it for them in captures.values() for it in them}
    lost = [(name, file) for name, file in files.items() if file not in found]
    switch.lost += [f"{file}: there is no port {name}" for name, file in lost[:MOST]]
    switch.lost += [f"{len(lost) - MOST} more captures of no port that is known"] if len(lost) > MOST else []
    without = [it.name or it.place for it in switch.ports if not it.capture and not it.why]
    if without:
        many = sum(not it.why for it in switch.ports)
        switch.notes.append(f"nothing arrives at {f'{len(without)} of {many} ports, ' if len(without) > 12 else ''}{few(without)}: there is no capture of it")
    look(switch, {it.name or it.place: [os.path.join(folder, one) for one in captures[it.place]] for it in switch.ports if it.capture})


def few(them: list[str]) -> str:
    """Names in short, and of very many the first ones."""
    parts = compact(them).split(", ")
    return ", ".join(parts[:12]) + (" and others" if len(parts) > 12 else "")


def look(switch: Switch, files: dict[str, list[str]]) -> None:
    """Looks at the first frames of each capture, for tags and for signs that one was made in both directions."""
    seen: dict[bytes, set[str]] = defaultdict(set)
    tags: dict[int, set[str]] = defaultdict(set)
    for name, path in [(name, path) for name, paths in files.items() for path in paths]:
        look_at(name, path, seen, tags)
    both = {mac: ports for mac, ports in seen.items() if len(ports) > 1}
    for mac, ports in sorted(both.items())[:5]:
        switch.notes.append(f"{frames.mac(mac)} sends in the captures of {', '.join(sorted(ports, key=natural)[:6])}: a station that moved, or captures "
                            "of both directions. A capture has to hold what arrives alone (tcpdump -Q in)")
    if len(both) > 5:
        switch.notes.append(f"{len(both) - 5} more addresses send in several captures")
    switch.notes += strange_tags(switch, tags)


def strange_tags(switch: Switch, tags: dict[int, set[str]]) -> list[str]:
    """Tags of VLANs in which the port isn't where they arrive. VLANs that arrive at the same ports are told at once."""
    members = {it.name or it.place: it.tagged | it.untagged for it in switch.ports}
    same: dict[tuple, list[int]] = {}
    for vid, ports in sorted(tags.items()):
        strange = tuple(sorted((it for it in ports if vid not in members[it]), key=natural))
        if strange:
            same.setdefault(strange, []).append(vid)
    return [f"frames with tags of VLAN{'s' if len(vids) > 1 else ''} {ranges(vids)} arrive at {few(list(ports))}, which isn't in "
            f"{'them' if len(vids) > 1 else 'it'}" for ports, vids in same.items()]


def look_at(name: str, path: str, seen: dict[bytes, set[str]], tags: dict[int, set[str]]) -> None:
    """Looks at the first frames of one capture."""
    for record in captures.records(path):
        if record.index > LOOK:
            break
        kind, tag = plain.kind_of(record.frame)
        if kind in ("plain", "priority", "tagged") and not record.frame[6] & 1:
            seen[record.frame[6:12]].add(name)
        if kind == "tagged":
            tags[tag & 0xFFF].add(name)
