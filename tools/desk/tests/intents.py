"""Intents drawn at random: ports and VLANs of a switch with extenders, and what becomes of them by a change; and how each is written as NX-OS, as
Junos, as the answers of a Linux bridge, and as a plan. What is written differs in spelling from one to the next, as people write."""
from __future__ import annotations

import json
import os
import random
from dataclasses import dataclass, field, replace

Key = tuple[int, int]
ISOLATED = 4000


@dataclass(frozen=True)
class Port:
    """What a port is to be: an access port, a trunk with or without a native VLAN, or in no VLAN."""

    access: int = 0
    trunk: frozenset[int] = frozenset()
    native: int = 0
    is_up: bool = True


@dataclass
class Intent:
    """A switch: its own ports, its extenders with their ports, VLANs, in which of them the access ports are isolated, and static entries."""

    local: int
    boxes: dict[int, int]
    vlans: list[int]
    isolated: set[int]
    ports: dict[Key, Port]
    statics: dict[tuple[int, str], Key] = field(default_factory=dict)
    ageing: int = 300

    @property
    def keys(self) -> list[Key]:
        """All ports: those of the switch itself have box 0."""
        return list(self.ports)


def drawn(draw: random.Random) -> Intent:
    """A switch at random."""
    boxes = {101 + at: draw.randint(2, 8) for at in range(draw.randint(1, 3))}
    local, vlans = draw.randint(1, 4), sorted(draw.sample(range(2, 2900), draw.randint(2, 12)))
    isolated = {vid for vid in vlans if draw.random() < 0.2}
    keys = [(0, at) for at in range(1, local + 1)] + [(box, at) for box, many in boxes.items() for at in range(1, many + 1)]
    it = Intent(local, boxes, vlans, isolated, {key: port(draw, vlans) for key in keys}, ageing=draw.choice((10, 300, 1800)))
    it.statics = statics(draw, it)
    return it


def port(draw: random.Random, vlans: list[int]) -> Port:
    """A port at random."""
    is_up = draw.random() < 0.9
    if draw.random() < 0.55:
        return Port(access=draw.choice(vlans), is_up=is_up)
    if draw.random() < 0.1:
        return Port(is_up=is_up)
    them = frozenset(draw.sample(vlans, draw.randint(1, len(vlans))))
    return Port(trunk=them, native=draw.choice(sorted(them)) if draw.random() < 0.5 else 0, is_up=is_up)


def statics(draw: random.Random, it: Intent) -> dict[tuple[int, str], Key]:
    """Static entries at random."""
    them = [key for key, its in it.ports.items() if its.access or its.trunk]
    found = {}
    for at in range(draw.randint(0, 2) if them else 0):
        key = draw.choice(them)
        found[it.ports[key].access or min(it.ports[key].trunk), f"02:00:00:00:aa:{at + 1:02x}"] = key
    return found


def changed(draw: random.Random, it: Intent) -> Intent:
    """The same switch after a change."""
    ports = dict(it.ports)
    for key in draw.sample(it.keys, draw.randint(0, max(1, len(ports) // 2))):
        ports[key] = draw.choice((port(draw, it.vlans), replace(ports[key], is_up=not ports[key].is_up)))
    later = replace(it, ports=ports, statics={})
    later.statics = {what: key for what, key in it.statics.items() if ports[key].access or ports[key].trunk} if draw.random() < 0.5 else statics(draw, later)
    return later


# Spellings.

def ranges(draw: random.Random, vids: list[int]) -> list[str]:
    """VLANs as words of a list, with ranges where that is possible."""
    found: list[list[int]] = []
    for vid in sorted(vids):
        if found and found[-1][-1] + 1 == vid and draw.random() < 0.8:
            found[-1].append(vid)
        else:
            found.append([vid])
    return [f"{it[0]}-{it[-1]}" if len(it) > 1 else str(it[0]) for it in found]


def nxos_name(it: Intent, key: Key) -> str:
    """An interface of NX-OS."""
    return f"Ethernet{key[0]}/1/{key[1]}" if key[0] else f"Ethernet1/{key[1]}"


def nxos(draw: random.Random, it: Intent) -> str:
    """A running configuration of NX-OS."""
    lines = ["hostname drawn", "feature fex", f"vlan 1,{','.join(ranges(draw, it.vlans))}"]
    for vid in sorted(it.isolated):
        lines += [f"vlan {vid}", "  private-vlan primary", f"  private-vlan association {ISOLATED}", f"vlan {ISOLATED}", "  private-vlan isolated"]
    for at, box in enumerate(it.boxes):
        lines += [f"fex {box}", f"  description rack-{box}", f"interface Ethernet1/{it.local + 1 + at}", "  switchport mode fex-fabric", f"  fex associate {box}"]
    for key in draw.sample(it.keys, len(it.keys)):
        lines += [f"interface {spelled(draw, nxos_name(it, key))}", *(f"  {one}" for one in nxos_port(draw, it, it.ports[key]))]
    for (vid, mac), key in it.statics.items():
        bare = mac.replace(":", "")
        lines.append(f"mac address-table static {bare[:4]}.{bare[4:8]}.{bare[8:]} vlan {vid} interface {nxos_name(it, key)}")
    lines.append(f"mac address-table aging-time {it.ageing}")
    return "\n".join(lines) + "\n"


def spelled(draw: random.Random, name: str) -> str:
    """An interface as somebody types it."""
    return draw.choice((name, name, name.lower(), name.replace("Ethernet", "Eth"), name.replace("Ethernet", "ethernet ")))


def nxos_port(draw: random.Random, it: Intent, its: Port) -> list[str]:
    """The statements of a port."""
    lines = ["description drawn at random"] if draw.random() < 0.3 else []
    if its.access and its.access in it.isolated:
        lines += ["switchport mode private-vlan host", f"switchport private-vlan host-association {its.access} {ISOLATED}"]
    elif its.access:
        lines += (["switchport mode access"] if draw.random() < 0.3 else []) + [f"switchport access vlan {its.access}"]
    elif its.trunk:
        lines += ["switchport mode trunk"] + ([f"switchport trunk native vlan {its.native}"] if its.native else [])
        lines += nxos_list(draw, sorted(its.trunk))
    else:
        lines += ["switchport mode trunk", "switchport trunk allowed vlan none"]
    return lines + ([] if its.is_up else ["shutdown"]) + (["no shutdown"] if its.is_up and draw.random() < 0.2 else [])


def nxos_list(draw: random.Random, vids: list[int]) -> list[str]:
    """The VLANs of a trunk, in one of the ways in which they can be said."""
    how, words = draw.random(), ranges(draw, vids)
    if how < 0.3 and len(words) > 1:
        return [f"switchport trunk allowed vlan {words[0]}", f"switchport trunk allowed vlan add {','.join(words[1:])}"]
    if how < 0.4:
        return ["switchport trunk allowed vlan none", f"switchport trunk allowed vlan add {','.join(words)}"]
    if how < 0.5:
        others = sorted(set(range(1, 4095)) - set(vids))
        return [f"switchport trunk allowed vlan except {','.join(ranges(random.Random(1), others))}"]
    return [f"switchport trunk allowed vlan {','.join(words)}"]


def junos_name(it: Intent, key: Key) -> str:
    """An interface of Junos, whose ports count from 0."""
    return f"ge-{key[0]}/0/{key[1] - 1}" if key[0] else f"xe-0/0/{key[1] - 1}"


def junos(draw: random.Random, it: Intent) -> str:
    """A configuration of Junos in set form."""
    lines = ["set system host-name drawn"]
    for at, box in enumerate(it.boxes):
        lines.append(f"set chassis satellite-management fpc {box} cascade-ports xe-0/0/{it.local + at}")
    for key, its in it.ports.items():
        lines += [f"set interfaces {junos_name(it, key)} {one}" for one in junos_port(draw, it, its)]
    for vid in it.vlans:
        lines += [f"set vlans v{vid} vlan-id {vid}"] + ([f"set vlans v{vid} no-local-switching"] if vid in it.isolated else [])
    for (vid, mac), key in it.statics.items():
        lines.append(f"set vlans v{vid} switch-options interface {junos_name(it, key)}.0 static-mac {mac}")
    lines.append(f"set protocols l2-learning global-mac-table-aging-time {it.ageing}")
    return "\n".join(draw.sample(lines, len(lines))) + "\n"


def junos_port(draw: random.Random, it: Intent, its: Port) -> list[str]:
    """The statements of a port."""
    head = "unit 0 family ethernet-switching"
    lines = [] if its.is_up else ["disable"]
    if its.access:
        named = draw.choice((f"v{its.access}", str(its.access)))
        return lines + draw.choice(([f"{head} interface-mode access vlan members {named}"], [f"{head} vlan members {named}"]))
    if its.trunk:
        words = ranges(draw, sorted(its.trunk))
        lines += [f"native-vlan-id {its.native}"] if its.native else []
        listed = [f"{head} vlan members [ {' '.join(words)} ]"] if draw.random() < 0.5 else [f"{head} vlan members {one}" for one in words]
        return lines + [f"{head} interface-mode trunk", *listed]
    return lines + ["description unused"]


def linux(it: Intent) -> dict[str, str]:
    """The answers of iproute2 of a bridge that filters VLANs."""
    links = [{"ifname": "br0", "linkinfo": {"info_kind": "bridge", "info_data": {"ageing_time": it.ageing * 100, "vlan_filtering": 1}}}]
    vlans, fdb = [], []
    for at, its in enumerate(it.ports.values(), 1):
        data = {"state": "forwarding", "isolated": its.access in it.isolated}
        links.append({"ifname": f"swp{at}", "master": "br0", "operstate": "UP" if its.is_up else "DOWN", "linkinfo": {"info_slave_data": data}})
        bare = its.access or its.native
        rows = [{"vlan": vid, "flags": ["PVID", "Egress Untagged"] if vid == bare else []} for vid in sorted(its.trunk | ({its.access} if its.access else set()))]
        vlans.append({"ifname": f"swp{at}", "vlans": rows})
    for (vid, mac), key in it.statics.items():
        fdb.append({"mac": mac, "ifname": f"swp{it.keys.index(key) + 1}", "vlan": vid, "state": "static", "flags": []})
    return {"link": json.dumps(links), "vlan": json.dumps(vlans), "fdb": json.dumps(fdb)}


def plan_name(it: Intent, key: Key) -> str:
    """A port of a plan."""
    return f"x{key[0] - 100}.{key[1]}" if key[0] else f"b{key[1]}"


def plan(draw: random.Random, it: Intent) -> str:
    """A plan by hand. Ports of which the same is said stand together."""
    lines = ["[bridge]", f"ports = {it.local + len(it.boxes)}", f"ageing = {it.ageing}"]
    for at, (box, many) in enumerate(it.boxes.items()):
        lines += ["[[extender]]", f"number = {box - 100}", f'on = "b{it.local + 1 + at}"', f"ports = {many}"]
    same: dict[Port, list[str]] = {}
    for key, its in it.ports.items():
        same.setdefault(its, []).append(plan_name(it, key))
    for its, names in same.items():
        lines += ["[[ports]]", f'ports = "{", ".join(names)}"', *plan_port(draw, it, its)]
    for (vid, mac), key in it.statics.items():
        lines += ["[[static]]", f"vlan = {vid}", f'mac = "{mac}"', f'ports = "{plan_name(it, key)}"']
    return "\n".join(lines) + "\n"


def plan_port(draw: random.Random, it: Intent, its: Port) -> list[str]:
    """The keys of a block."""
    lines = [] if its.is_up else ["shutdown = true"]
    if its.access:
        return lines + [f"access = {its.access}"] + (["isolated = true"] if its.access in it.isolated else [])
    if its.trunk:
        return lines + [f'trunk = "{", ".join(ranges(draw, sorted(its.trunk)))}"'] + ([f"native = {its.native}"] if its.native else [])
    return lines


def write(folder: str, draw: random.Random, before: Intent, after: Intent) -> dict[str, list[str]]:
    """Writes all spellings of an intent and of its change, and gives the words with which exbr-import reads each."""
    os.makedirs(os.path.join(folder, "linux", "after"), exist_ok=True)
    files = {}
    for when, it in (("before", before), ("after", after)):
        files |= {f"{when}.cfg": nxos(draw, it), f"{when}.set": junos(draw, it), f"{when}.toml": plan(draw, it)}
        files |= {os.path.join("linux", "after" * (when == "after"), f"{name}.json"): text for name, text in linux(it).items()}
    for name, text in files.items():
        with open(os.path.join(folder, name), "w", encoding="utf-8") as out:
            out.write(text)
    at = lambda *names: os.path.join(folder, *names)
    told = [word for box, many in before.boxes.items() for word in ("--fex", f"{box}={many}")]
    return {
        "nxos": ["--nxos", at("before.cfg"), "--after", at("after.cfg"), *told],
        "junos": ["--junos", at("before.set"), "--after", at("after.set"), *told],
        "plan": ["--plan", at("before.toml"), "--after", at("after.toml")],
        "linux": [word for it in ("link", "vlan", "fdb") for word in (f"--{it}", at("linux", f"{it}.json"))] + ["--after", at("linux", "after")],
    }


def called(spelling: str, it: Intent) -> dict[str, Key]:
    """What the ports of an intent are called in a spelling."""
    names = {"nxos": nxos_name, "junos": junos_name, "plan": plan_name}
    if spelling == "linux":
        return {f"swp{at}": key for at, key in enumerate(it.keys, 1)}
    return {names[spelling](it, key): key for key in it.keys}
