"""A Linux bridge, by the answers of iproute2: `ip -j -d link`, `bridge -j vlan show`, `bridge -j fdb show`, `bridge -j mdb show`."""
import ipaddress
import json
import re

from exbr_desk.errors import DeskError
from exbr_desk.short import folded

from . import lines
from .switch import Port, Static, Switch

# What a port of a Linux bridge may do that the rules here have no word for: its key, its usual value, and what it means.
FLAGS = (("learning", True, "it doesn't learn addresses"), ("flood", True, "frames to unknown addresses don't leave there"),
         ("mcast_flood", True, "frames to groups don't leave there"), ("bcast_flood", True, "broadcasts don't leave there"),
         ("hairpin", False, "frames may leave where they came from"), ("neigh_suppress", False, "it answers ARP itself"),
         ("proxy_arp", False, "it answers ARP itself"), ("vlan_tunnel", False, "it maps VLANs to tunnels"),
         ("locked", False, "it lets in known addresses alone"), ("mcast_to_unicast", False, "it copies group frames to single stations"))
PASSING = ("forwarding",)
LARGEST = 67_108_864
MAC = re.compile("[0-9a-f]{2}(:[0-9a-f]{2}){5}", re.IGNORECASE)


def read(path: str, what: str) -> list:
    """The answer of a command, which is a list."""
    try:
        answer = json.loads(lines.data_of(path, LARGEST))
    except (ValueError, RecursionError) as fault:
        raise DeskError(f"{path}: it isn't JSON ({fault}); make it with: {what}") from None
    if not isinstance(answer, list) or not all(isinstance(it, dict) for it in answer):
        raise DeskError(f"{path}: it isn't an answer of: {what}")
    return answer


def name_in(it: dict, key: str) -> str:
    """A name of an answer, or nothing where there is none."""
    found = it.get(key)
    return found if isinstance(found, str) else ""


def flags_in(it: dict) -> list[str]:
    """The flags of an answer."""
    found = it.get("flags")
    return [one for one in found if isinstance(one, str)] if isinstance(found, list) else []


def vid_in(it: dict, key: str, path: str) -> int:
    """A VLAN of an answer."""
    found = it.get(key)
    if isinstance(found, bool) or not isinstance(found, int) or not 1 <= found <= 4094:
        raise DeskError(f"{path}: a VLAN isn't in 1 to 4094: {json.dumps(it)[:80]}")
    return found


def mac_in(text: str, path: str) -> str:
    """An address."""
    if not MAC.fullmatch(text):
        raise DeskError(f"{path}: {json.dumps(text[:40])} is no address")
    return text


def bridge_of(links: list[dict], name: str | None, path: str) -> dict:
    """The bridge that is meant."""
    known = [it for it in links if info(it).get("info_kind") == "bridge"]
    chosen = [it for it in known if it.get("ifname") == name] if name else known
    if len(chosen) == 1:
        return chosen[0]
    names = ", ".join(str(it.get("ifname")) for it in known) or "none"
    if name:
        raise DeskError(f"{path}: there is no bridge {name}; bridges: {names}")
    if known:
        raise DeskError(f"{path}: there are several bridges, name one by --bridge: {names}")
    raise DeskError(f"{path}: there is no bridge in it; make it with: ip -j -d link (without -d the kinds of links are missing)")


def info(link: dict) -> dict:
    """What is special to a kind of link."""
    found = link.get("linkinfo")
    return found if isinstance(found, dict) else {}


def part(link: dict, key: str) -> dict:
    """A part of that."""
    found = info(link).get(key)
    return found if isinstance(found, dict) else {}


def switch_of(links: str, vlans: str | None, name: str | None, host: bool) -> Switch:
    """The switch that a bridge is."""
    every = read(links, "ip -j -d link")
    bridge = bridge_of(every, name, links)
    name = str(bridge.get("ifname"))
    data = part(bridge, "info_data")
    found = Switch(f"the Linux bridge {name}", [])
    members = [it for it in every if it.get("master") == name and name_in(it, "ifname")]
    found.ports = [port_of(it, found) for it in members]
    found.lost += [f"{folded(names)}: {meaning}" for meaning, names in found.extra.items()]
    if host:
        found.ports.append(Port(name))
    if not found.ports:
        raise DeskError(f"{links}: the bridge {name} has no ports")
    set_ageing(data, found)
    told = {name_in(it, "ifname"): it.get("vlans") for it in read(vlans, "bridge -j vlan show")} if vlans else {}
    if data.get("vlan_filtering"):
        if not vlans:
            raise DeskError(f"{name} filters VLANs, so the answer of bridge -j vlan show is needed: --vlan FILE")
        set_vlans(found, told, str(vlans))
    else:
        set_unaware(found, name)
    tell_bridge(data, found, name, host)
    return found


def port_of(link: dict, found: Switch) -> Port:
    """A port, with what of it can't be carried over."""
    name, data = str(link["ifname"]), part(link, "info_slave_data")
    port = Port(name, isolated=data.get("isolated") is True)
    state = data.get("state", "forwarding")
    port.is_up = state in PASSING and link.get("operstate") not in ("DOWN", "LOWERLAYERDOWN")
    if state not in (*PASSING, "disabled"):
        found.notes.append(f"{name} is {state} in the spanning tree, so it is down here")
    told = set()
    for key, usual, meaning in FLAGS:
        if key in data and data[key] is not usual and meaning not in told:
            told.add(meaning)
            found.extra.setdefault(f"{meaning} ({key} {'on' if data[key] else 'off'})", []).append(name)
    return port


def set_ageing(data: dict, found: Switch) -> None:
    """The ageing time. Linux gives hundredths of seconds."""
    told = data.get("ageing_time", 30000)
    seconds = told / 100 if isinstance(told, int) and told >= 0 else 300.0
    found.ageing = 0 if seconds == 0 else min(max(round(seconds), 10), 1_000_000)
    if found.ageing != seconds:
        found.lost.append(f"the ageing time of {seconds:g} s: it is {found.ageing} s here")


def set_vlans(found: Switch, told: dict, path: str) -> None:
    """The VLANs of each port. A Linux bridge that knows VLANs lets in members alone, and without a PVID no frame without a tag."""
    for port in found.ports:
        rows = told.get(port.name, [])
        if not isinstance(rows, list):
            raise DeskError(f"{path}: the VLANs of {port.name} are no list; make it with: bridge -j vlan show")
        for row in rows:
            set_row(port, row, path)


def set_row(port: Port, row: object, path: str) -> None:
    """One VLAN of a port, or a range of them."""
    if not isinstance(row, dict):
        raise DeskError(f"{path}: the VLANs of {port.name} are no list of VLANs; make it with: bridge -j vlan show")
    first = vid_in(row, "vlan", path)
    last = vid_in(row, "vlanEnd", path) if "vlanEnd" in row else first
    flags = flags_in(row)
    (port.untagged if "Egress Untagged" in flags else port.tagged).update(range(first, last + 1))
    if "PVID" in flags:
        port.pvid = first


def set_unaware(found: Switch, name: str) -> None:
    """A bridge that doesn't know VLANs: all ports exchange all frames."""
    for port in found.ports:
        port.pvid, port.filter, port.untagged, port.tagged = 1, False, {1}, set(range(2, 4095))
    found.lost.append(f"{name} doesn't know VLANs (vlan_filtering is off) and passes tags as they are. Here all ports are tagged members of VLANs 2 to "
                      "4094 and untagged ones of VLAN 1: a tag of VLAN 1 or of a priority alone is taken off, and addresses are learned in each VLAN "
                      "apart")


def tell_bridge(data: dict, found: Switch, name: str, host: bool) -> None:
    """What of the bridge itself can't be carried over."""
    if data.get("vlan_protocol", "802.1Q") != "802.1Q":
        found.lost.append(f"{name} works with tags of {data['vlan_protocol']}; here tags are those of 802.1Q")
    if data.get("stp_state"):
        found.lost.append(f"{name} runs the spanning tree; here ports stay as they were found")
    if data.get("mcast_snooping"):
        found.lost.append(f"{name} snoops IGMP and MLD; here a group's frames go to all members of the VLAN, but for static entries")
    if data.get("group_fwd_mask") not in (None, "0", "0x0", 0):
        found.lost.append(f"{name} relays some reserved addresses (group_fwd_mask {data['group_fwd_mask']}); here none are")
    if not host:
        found.lost.append(f"the host itself, which is a port of {name}: what is for it leaves nowhere. With --host it is a port here")


def add_entries(found: Switch, path: str) -> None:
    """The static entries of the forwarding table."""
    known, own, bare = {it.name for it in found.ports}, 0, []
    for it in read(path, "bridge -j fdb show"):
        if name_in(it, "ifname") not in known or "self" in flags_in(it):
            continue
        own += it.get("state") == "permanent" and "vlan" in it
        if it.get("state") != "static":
            continue
        if "vlan" not in it:
            bare.append(f"{name_in(it, 'mac')} at {name_in(it, 'ifname')}")
        else:
            found.statics.append(Static(vid_in(it, "vlan", path), mac_in(name_in(it, "mac"), path), [name_in(it, "ifname")]))
    if own:
        found.lost.append(f"{own} entries for the host's own addresses (state permanent)")
    if bare:
        found.lost.append(f"{len(bare)} static entr{'y' if len(bare) == 1 else 'ies'} without a VLAN: {', '.join(bare[:6])}{' and others' if len(bare) > 6 else ''}")


def add_groups(found: Switch, path: str) -> None:
    """The permanent entries of groups. Those of one group are one entry."""
    groups: dict[tuple[int, str], list[str]] = {}
    for it in group_entries(found, path):
        if "vid" in it:
            key = vid_in(it, "vid", path), group_address(name_in(it, "grp"), path)
            groups.setdefault(key, []).append(name_in(it, "port"))
        else:
            found.lost.append(f"the group {name_in(it, 'grp')} at {name_in(it, 'port')}, which has no VLAN")
    found.statics.extend(Static(vid, mac, ports) for (vid, mac), ports in groups.items())


def group_entries(found: Switch, path: str) -> list[dict]:
    """The permanent entries of groups at known ports."""
    known = {it.name for it in found.ports}
    tables = [it.get("mdb") for it in read(path, "bridge -j mdb show")]
    entries = [it for table in tables if isinstance(table, list) for it in table]
    return [it for it in entries if isinstance(it, dict) and it.get("state") == "permanent" and name_in(it, "port") in known]


def group_address(group: str, path: str) -> str:
    """The Ethernet address of a group of IPv4 or IPv6. One that is such an address stays it."""
    try:
        address = ipaddress.ip_address(group)
    except ValueError:
        return mac_in(group, path)
    data = address.packed
    mac = bytes((1, 0, 0x5E, data[1] & 0x7F, *data[2:])) if address.version == 4 else b"\x33\x33" + data[-4:]
    return mac.hex(":")
