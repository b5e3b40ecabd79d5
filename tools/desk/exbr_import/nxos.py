"""A switch of a configuration of NX-OS: what the statements of its interfaces come to, once all of them are known."""
import os
import re
from dataclasses import dataclass, field

from exbr_desk.errors import DeskError

from . import boxes, lines, numbers
from .blocks import Action, Block, Reader, box_of
from .switch import Box, Left, Port, Static, Switch

DEFAULT_AGEING = 300


@dataclass
class Settings:
    """What is set at an interface. `allowed` is None where all VLANs are. `at` has the lines of what was set, by verb."""

    mode: str = "access"
    access: int = 1
    native: int = 1
    allowed: set[int] | None = None
    private: list[int] = field(default_factory=list)
    private_kind: str = ""
    fex: int | None = None
    channel: int | None = None
    shut: bool = False
    routed: bool = False
    isolated: bool = False
    tag_native: bool | None = None
    description: str = ""
    vpc: str = ""
    at: dict[str, int] = field(default_factory=dict)


def put(it: Settings, action: Action, profiles: dict[str, Block]) -> None:
    """Does what a statement says at an interface."""
    values, words = action.values, action.words
    it.at[action.verb] = action.line
    if action.verb == "mode":
        it.mode = words or values["mode"].lower()
    elif action.verb == "not_mode":
        it.mode = f"not {words}"
    elif action.verb in ("access", "native"):
        setattr(it, action.verb, values["vlan"])
    elif action.verb == "allow":
        it.allowed = allowed(it.allowed, words, values.get("vlans"))
    elif action.verb == "private":
        it.private, it.private_kind = values["vids"], values["rest"].split()[0].lower()
    elif action.verb in ("fex", "channel"):
        setattr(it, action.verb, int(values["fex" if action.verb == "fex" else "number"][:9]))
    elif action.verb in ("routed", "bridged"):
        it.routed = action.verb == "routed"
    elif action.verb == "layer3":
        it.routed = it.routed or "bridged" not in it.at
    elif action.verb == "description":
        it.description = values["text"].strip('"')
    elif action.verb in ("vpc", "peer_link"):
        it.vpc = "peer-link" if action.verb == "peer_link" else values["number"]
    elif action.verb == "inherit":
        inherit(it, profiles.get(values["name"]), profiles)
    else:
        put_flag(it, action)


def put_flag(it: Settings, action: Action) -> None:
    """The statements that are on or off, and those that are taken back."""
    flag = {"shut": "shut", "isolated": "isolated", "port_tag_native": "tag_native"}.get(action.verb)
    if flag:
        setattr(it, flag, action.words == "on")
    elif action.verb == "forget":
        usual = Settings()
        if hasattr(usual, action.words):
            setattr(it, action.words, getattr(usual, action.words))


def inherit(it: Settings, profile: Block | None, profiles: dict[str, Block]) -> None:
    """What a port profile sets. One within another is looked at too."""
    for action in profile.actions if profile else []:
        if action.verb != "inherit":
            put(it, action, profiles)


def allowed(now: set[int] | None, how: str, vids: set[int] | None) -> set[int] | None:
    """The VLANs that a trunk lets pass, after one more statement of them."""
    every = set(numbers.EVERY)
    if how in ("all", "none"):
        return None if how == "all" else set()
    if how == "except":
        return every - vids
    if how == "remove":
        return (every if now is None else now) - vids
    return vids | (now or set()) if how == "add" and now is not None else every if how == "add" else vids


class Maker:
    """Makes a switch of what a configuration says."""

    def __init__(self, read: Reader, ports_of: dict[int, int]):
        self.read, self.ports_of = read, ports_of
        self.set = {name: self.settings(name) for name in sorted(read.interfaces, key=numbers.natural)}
        self.found = Switch("", [], file=os.path.basename(read.path), carried=read.carried, left=read.left)
        self.there = {vid for vid, it in read.vlans.items() if not it.is_off}
        self.missing: dict[tuple, list[str]] = {}
        self.members: dict[int, list[str]] = {}
        self.guessed: dict[int, list[int]] = {}
        self.links: dict[int, list[str]] = {}
        self.dead: set[int] = set()

    def settings(self, name: str) -> Settings:
        """What is set at an interface. What its profile sets comes first, as the switch has it."""
        block = self.read.interfaces[name]
        flags = self.read.flags
        it = Settings(shut=flags.get("default_shutdown", False) and box_of(name) is None, routed=flags.get("routed", False) and box_of(name) is None)
        for action in sorted(block.actions, key=lambda one: one.verb != "inherit"):
            put(it, action, self.read.profiles)
            if action.verb == "inherit" and action.values["name"] not in self.read.profiles:
                self.read.leave(lines.Line(action.line, "inherit port-profile .."), "port profiles that aren't there", f"interface {name}")
        return it

    def made(self) -> Switch:
        """The switch."""
        found, read = self.found, self.read
        if not self.set:
            raise DeskError(f"{read.path}: there is no interface in it: it is no running configuration of NX-OS (show running-config)")
        found.name = read.name
        found.source = f"the NX-OS configuration of {read.name}, {found.file}" if read.name else f"the NX-OS configuration {found.file}"
        found.vlan_names = {vid: it.name for vid, it in sorted(read.vlans.items()) if it.name}
        self.join()
        self.hang()
        for name in self.set:
            self.add(name)
        self.fill()
        self.enter()
        self.tell()
        return found

    def join(self) -> None:
        """The members of each port-channel. One that has no block is as its first member is."""
        for name, it in self.set.items():
            if it.channel is not None and not name.startswith("port-channel"):
                self.members.setdefault(it.channel, []).append(name)
        for number, names in sorted(self.members.items()):
            whole = f"port-channel{number}"
            if whole not in self.set:
                self.set[whole] = self.set[names[0]].__class__(**{**vars(self.set[names[0]]), "channel": None})
                self.read.interfaces[whole] = self.read.interfaces[names[0]]
            its = self.set[whole]
            self.set[whole].shut = its.shut or all(self.set[it].shut for it in names)
            for it in names:
                self.set[it].fex = self.set[it].fex or its.fex

    def hang(self) -> None:
        """Where extenders hang: on the first of the interfaces that are associated with each."""
        for name, it in self.set.items():
            if it.fex is not None and not name.startswith("port-channel"):
                self.links.setdefault(it.fex, []).append(name)
        seen: dict[int, int] = {}
        for name in self.set:
            box = box_of(name)
            if box:
                seen[box[0]] = max(seen.get(box[0], 0), box[1])
        for number in sorted(self.read.fexes.keys() | self.links.keys() | seen.keys()):
            self.hang_one(number, self.links.get(number, []), seen.get(number, 0))

    def hang_one(self, number: int, links: list[str], seen: int) -> None:
        """One extender."""
        fex = self.read.fexes.get(number)
        ports = boxes.count(number, self.ports_of, seen, self.guessed, "FEX", "Ethernet{}/1/{}")
        if not ports:
            self.found.notes.append(f"FEX {number} has no host interface in the file, so it is left out; --fex {number}=48 says how many it has")
            return
        alive = [it for it in links if not self.is_shut(it)]
        its = Box((alive or links)[0] if links else "", ports, fex.description if fex else "", fex.line if fex else 0, f"FEX {number}")
        self.found.boxes[number] = its
        if links and not alive:
            self.dead.add(number)
            self.found.notes.append(f"all fabric links of FEX {number} are shut down: its ports are down here")
        if not links:
            self.found.notes.append(f"FEX {number} hangs on no interface (no `fex associate {number}`): its ports are down here")

    def is_shut(self, name: str) -> bool:
        """Whether a fabric link is shut down, by itself or with its port-channel."""
        it = self.set[name]
        whole = self.set.get(f"port-channel{it.channel}") if it.channel is not None else None
        return it.shut or bool(whole and whole.shut)

    def is_alive(self, number: int) -> bool:
        """Whether an extender has a link that is up."""
        return bool(self.found.boxes[number].on) and number not in self.dead

    def add(self, name: str) -> None:
        """The port that an interface is."""
        it, box, block = self.set[name], box_of(name), self.read.interfaces[name]
        port = Port(name, line=block.line, description=it.description, is_up=not it.shut)
        if name.startswith("port-channel"):
            port.members = tuple(self.members.get(int(name[12:]), ()))
            if not port.members and it.mode != "fabric":
                self.found.notes.append(f"{name} has no members, so it is no port here")
            if not port.members or it.mode == "fabric" or it.fex is not None:
                return
            box = box_of(port.members[0])
        elif it.mode == "fabric" or it.fex is not None:
            self.fabric(port, it)
            return
        elif it.channel is not None and self.members[it.channel][0] == name:
            return
        if box:
            port.box, port.slot = box
            if box[0] not in self.found.boxes:
                return
            port.is_up = port.is_up and self.is_alive(box[0])
        self.found.ports.append(port)
        self.vlans_of(port, it)

    def fabric(self, port: Port, it: Settings) -> None:
        """An interface that leads to an extender: it is no port, but where it is a further one of several."""
        its = self.found.boxes.get(it.fex) if it.fex is not None else None
        if its is None or its.on != port.name:
            port.why = f"a further fabric link of FEX {it.fex}" if its else "a fabric link of no extender"
            self.found.ports.append(port)

    def vlans_of(self, port: Port, it: Settings) -> None:
        """The VLANs of a port, by its mode."""
        if not port.members and it.channel is not None:
            port.why = f"a member of port-channel{it.channel}"
        elif it.routed:
            port.why = "a port of L3"
            if "routed" in it.at:
                self.leave(it.at["routed"], "L3 and other interfaces", "no switchport", port.name)
        elif it.mode.startswith("not "):
            port.why = it.mode[4:]
        elif it.mode == "trunk":
            self.trunk(port, it)
        elif it.mode in ("host", "promiscuous"):
            self.private(port, it)
        else:
            port.pvid = it.access
            port.untagged = self.known({it.access}, port)
            port.isolated = it.isolated
        if it.vpc == "peer-link":
            self.found.notes.append(f"{port.name} is the peer link of a vPC: a port like others here, and the other switch isn't seen")

    def trunk(self, port: Port, it: Settings) -> None:
        """The VLANs of a trunk."""
        tags = self.read.flags.get("tag_native", False) if it.tag_native is None else it.tag_native
        vids = self.there if it.allowed is None else it.allowed & self.there if len(it.allowed) > 2000 else self.known(it.allowed, port)
        if it.native in vids and not tags:
            port.pvid, port.untagged = it.native, {it.native}
        port.tagged = vids - port.untagged
        port.isolated = it.isolated

    def private(self, port: Port, it: Settings) -> None:
        """A port of private VLANs."""
        vids = it.private
        if not vids or (it.mode == "host") != (it.private_kind == "host-association"):
            port.why = "private VLANs that aren't stated"
            self.leave(it.at.get("mode", port.line), "private VLANs", f"switchport mode private-vlan {it.mode}", port.name)
            return
        kind = self.read.vlans[vids[1]].kind if len(vids) > 1 and vids[1] in self.read.vlans else ""
        if it.mode == "host" and kind != "isolated":
            port.why = "a community VLAN" if kind == "community" else "a secondary VLAN that isn't isolated"
            self.leave(it.at["private"], "community VLANs", f"switchport private-vlan host-association {vids[0]} {vids[-1]}", port.name)
            return
        port.pvid, port.untagged, port.isolated = vids[0], self.known({vids[0]}, port), it.mode == "host"

    def leave(self, line: int, kind: str, text: str, name: str) -> None:
        """A statement that turns out not to be carried over."""
        self.read.carried.discard(line)
        its = Left(kind, text, line, f"interface {name}")
        if its not in self.read.left:
            self.read.left.append(its)

    def known(self, vids: set[int], port: Port) -> set[int]:
        """Those of some VLANs that are there. Of the others a note is made."""
        absent = vids - self.there
        if absent:
            self.missing.setdefault(tuple(sorted(absent)), []).append(port.name)
        return vids & self.there

    def fill(self) -> None:
        """The host interfaces of which the file says nothing: they are as the switch makes them, in VLAN 1."""
        named = {(it.box, it.slot) for it in self.found.ports} | {box_of(one) for it in self.found.ports for one in it.members}
        for number, box in self.found.boxes.items():
            spare = [slot for slot in range(1, box.ports + 1) if (number, slot) not in named]
            self.found.ports += [Port(f"Ethernet{number}/1/{slot}", 1, untagged=self.there & {1}, box=number, slot=slot, is_up=self.is_alive(number))
                                 for slot in spare]
            if spare:
                self.found.notes.append(f"Ethernet{number}/1/{numbers.ranges(spare)} isn't in the file: it is in VLAN 1 here, as without any statement")

    def enter(self) -> None:
        """The static entries. What a member of a port-channel has, the port-channel has."""
        of = {member: it.name for it in self.found.ports for member in it.members}
        there = {it.name for it in self.found.ports if not it.why}
        entries: dict[tuple, Static] = {}
        for it in self.read.entries:
            names = [of.get(name, name) for name in it.ports]
            lacking = [name for name in names if name not in there]
            if lacking:
                self.read.carried.discard(it.line)
                self.read.left.append(Left("static entries", f"an entry of {lacking[0]}, which is no port here", it.line))
                continue
            entry = entries.setdefault((it.vid, it.mac), Static(it.vid, it.mac, [], it.line))
            entry.ports += [name for name in names if name not in entry.ports]
        self.found.statics = list(entries.values())

    def tell(self) -> None:
        """The ageing time, and what a reader should know."""
        found, read = self.found, self.read
        found.ageing = DEFAULT_AGEING
        if read.ageing is None:
            found.notes.append(f"the file has no ageing time: it is {DEFAULT_AGEING} s here; Nexus 7000 and 9000 have 1800 s")
        else:
            found.ageing = 1_000_000 if read.ageing[0] == 0 else min(max(read.ageing[0], 10), 1_000_000)
            if found.ageing != read.ageing[0]:
                found.notes.append(f"line {read.ageing[1]}: an ageing time of {read.ageing[0]} s is {found.ageing} s here")
        if read.flags.get("default_shutdown"):
            found.notes.append("system default switchport shutdown is taken for the switch's own ports; those of extenders are up without a statement")
        for vids, names in self.missing.items():
            one = len(vids) == 1
            found.notes.append(f"VLAN{'' if one else 's'} {numbers.ranges(vids)} of {numbers.compact(names)} {'is' if one else 'are'} "
                               f"not defined by `vlan`, or {'is' if one else 'are'} off: nothing passes there")
        found.notes += boxes.notes("FEX", self.guessed, self.links, "fabric link") + boxes.joined(found.ports)


def switch_of(path: str, ports_of: dict[int, int]) -> Switch:
    """The switch of a running configuration. `ports_of` says how many ports extenders have, as far as that is known."""
    first = lines.text_of(path)[:4096]
    if re.match(r"\s*(#.*\n\s*)*set (version|system|chassis|interfaces|vlans|groups)\b", first):
        raise DeskError(f"{path}: it is a configuration of Junos: name it by --junos")
    read = Reader(path)
    read.read()
    return Maker(read, ports_of).made()
