"""A switch of a configuration of Junos, with its satellites: what its statements come to, once all of them are known."""
import os

from exbr_desk.errors import DeskError

from . import boxes, numbers
from .sets import Interface, Reader, box_of, port_name
from .switch import Box, Left, Port, Static, Switch

CARD, SMALL_CARD = 48, 8


def slot_of(card: int, port: str, where: str) -> int:
    """Where a port of a satellite stands: first its card 0 with 48 ports, then the small cards with 8 each."""
    number = int(port.partition(":")[0])
    slot = number + 1 if card == 0 else CARD + SMALL_CARD * (card - 1) + number + 1
    if ":" in port or slot > 64 or card and number >= SMALL_CARD:
        raise DeskError(f"{where}: a satellite has 64 ports at most here: 0/0 to 0/63, or 0/0 to 0/47, 1/0 to 1/7 and 2/0 to 2/7")
    return slot


class Maker:
    """Makes a switch of what a configuration says."""

    def __init__(self, read: Reader, ports_of: dict[int, int]):
        self.read, self.ports_of = read, ports_of
        self.found = Switch("", [], file=os.path.basename(read.path), carried=read.carried, left=read.left)
        self.vids = {name: it.vids or ({1} if name == "default" else set()) for name, it in read.vlans.items()} | ({} if "default" in read.vlans else {"default": {1}})
        self.there = set().union(*self.vids.values())
        self.isolated = {vid for it in read.vlans.values() if it.is_isolated for vid in it.vids}
        self.private = {vid for it in read.vlans.values() if it.kind for vid in it.vids}
        self.missing: dict[str, list[str]] = {}
        self.members: dict[str, list[str]] = {}
        self.guessed: dict[int, list[int]] = {}
        self.links: dict[int, list[str]] = {}
        self.dead: set[int] = set()

    def made(self) -> Switch:
        """The switch."""
        found, read = self.found, self.read
        if not read.interfaces:
            raise DeskError(f"{read.path}: there is no interface in it: it is no configuration of Junos (show configuration | display set)")
        found.name = read.name
        found.source = f"the Junos configuration of {read.name}, {found.file}" if read.name else f"the Junos configuration {found.file}"
        found.vlan_names = {min(it.vids): name for name, it in read.vlans.items() if len(it.vids) == 1}
        self.join()
        self.hang()
        for name in sorted(read.interfaces, key=numbers.natural):
            self.add(name, read.interfaces[name])
        self.enter()
        self.tell()
        return found

    def join(self) -> None:
        """The members of each aggregate."""
        for name, it in sorted(self.read.interfaces.items(), key=lambda one: numbers.natural(one[0])):
            if it.aggregate:
                self.members.setdefault(it.aggregate, []).append(name)
        for name, them in self.members.items():
            its = self.read.interfaces.setdefault(name, Interface(self.read.interfaces[them[0]].line))
            its.is_off = its.is_off or all(self.read.interfaces[it].is_off for it in them)

    def hang(self) -> None:
        """Where satellites hang: on the first of their cascade ports."""
        seen: dict[int, int] = {}
        for name, it in self.read.interfaces.items():
            box = box_of(name)
            if box:
                slot = slot_of(box[1], box[2], f"{self.read.path}: line {it.line}")
                seen[box[0]] = max(seen.get(box[0], 0), slot)
        for number in sorted(self.read.satellites.keys() | seen.keys()):
            self.hang_one(number, seen.get(number, 0))

    def hang_one(self, number: int, seen: int) -> None:
        """One satellite."""
        its = self.read.satellites.get(number)
        told = {number: max(self.ports_of[number], seen)} if number in self.ports_of else {}
        ports = boxes.count(number, told, seen, self.guessed, "satellite", "port {1} of {0}")
        if not ports:
            self.found.notes.append(f"satellite {number} has no interface in the file, so it is left out; --fex {number}=48 says how many it has")
            return
        links = sorted({link for on in its.on for link in self.members.get(on, [on])}, key=numbers.natural) if its else []
        alive = [it for it in links if it not in self.read.interfaces or not self.read.interfaces[it].is_off]
        self.found.boxes[number] = Box((alive or links)[0] if links else "", ports, its.alias if its else "", its.line if its else 0, f"satellite {number}")
        self.links[number] = links
        if links and not alive:
            self.dead.add(number)
            self.found.notes.append(f"all cascade ports of satellite {number} are disabled: its ports are down here")
        if not links:
            self.found.notes.append(f"satellite {number} has no cascade port: its ports are down here")

    def add(self, name: str, it: Interface) -> None:
        """The port that an interface is."""
        port = Port(name, line=it.line, description=it.description, is_up=not it.is_off)
        port.members = tuple(self.members.get(name, ()))
        if name.startswith("ae") and not port.members:
            self.found.notes.append(f"{name} has no members, so it is no port here")
            return
        is_cascade = any(name in its.on for its in self.read.satellites.values()) and name.startswith("ae")
        if is_cascade or it.aggregate and self.members[it.aggregate][0] == name or any(box.on == name for box in self.found.boxes.values()):
            return
        box = box_of(port.members[0] if port.members else name)
        if box:
            port.box, port.slot = box[0], slot_of(box[1], box[2], self.read.path)
            if box[0] not in self.found.boxes:
                return
            port.is_up = port.is_up and bool(self.found.boxes[box[0]].on) and box[0] not in self.dead
        self.found.ports.append(port)
        self.vlans_of(port, it)

    def vlans_of(self, port: Port, it: Interface) -> None:
        """The VLANs of a port, by its mode."""
        links = {link: number for number, box in self.read.satellites.items() for link in box.on}
        if port.name in links:
            port.why = f"a further cascade port of satellite {links[port.name]}"
        elif it.aggregate:
            port.why = f"a member of {it.aggregate}"
        elif it.why or not it.switches:
            port.why = it.why or "no family ethernet-switching"
        elif it.mode == "trunk":
            vids = self.known(it, port)
            if it.native is not None and it.native in vids:
                port.pvid, port.untagged = it.native, {it.native}
            elif it.native is not None:
                self.found.notes.append(f"{port.name}: the native VLAN {it.native} isn't among its members, so frames without a tag are refused there")
            port.tagged = vids - port.untagged
        else:
            self.access(port, it)

    def access(self, port: Port, it: Interface) -> None:
        """The VLAN of an access port. Without members that is the one called default."""
        vids = self.known(it, port) if it.members else self.vids["default"]
        if vids & self.private:
            port.why = "a secondary VLAN"
            return
        if len(vids) > 1:
            line = it.members[-1][1]
            self.found.left.append(Left("other modes of ports", f"an access port with {len(vids)} VLANs", line, f"interface {port.name}"))
            self.read.carried.discard(line)
            port.why = "several VLANs at an access port"
            return
        port.untagged = vids
        port.pvid = next(iter(vids), None)
        port.isolated = bool(vids & self.isolated)

    def known(self, it: Interface, port: Port) -> set[int]:
        """The VLANs of the members of an interface. Of those that aren't there a note is made."""
        found: set[int] = set()
        for name, line in it.members:
            if name == "all":
                found |= self.there
            elif name in self.vids:
                found |= self.vids[name]
            elif name[0].isdigit():
                vids = numbers.vlans(name, f"{self.read.path}: line {line}")
                found |= vids & self.there
                if vids - self.there:
                    self.missing.setdefault(numbers.ranges(vids - self.there), []).append(port.name)
            else:
                self.missing.setdefault(name, []).append(port.name)
        return found

    def enter(self) -> None:
        """The static entries. What a member of an aggregate has, the aggregate has."""
        of = {member: it.name for it in self.found.ports for member in it.members}
        there = {it.name for it in self.found.ports if not it.why}
        entries: dict[tuple, Static] = {}
        for name, mac, port, line in self.read.statics:
            where = f"{self.read.path}: line {line}"
            at = port_name(port, where)
            at = of.get(at, at)
            vids = self.vids.get(name) or (numbers.vlans(name, where) if name.isdigit() else set())
            if at not in there or len(vids) != 1:
                what = f"{at}, which is no port here" if at not in there else f"VLAN {name}, which isn't one VLAN"
                self.found.left.append(Left("static entries", f"an entry of {what}", line))
                self.read.carried.discard(line)
                continue
            key = min(vids), numbers.mac(mac, where)
            entry = entries.setdefault(key, Static(*key, [], line))
            entry.ports += [at] if at not in entry.ports else []
        self.found.statics = list(entries.values())

    def tell(self) -> None:
        """The ageing time, and what a reader should know."""
        found, (told, line) = self.found, self.read.ageing
        found.ageing = 1_000_000 if told == 0 else min(max(told, 10), 1_000_000)
        if found.ageing != told:
            found.notes.append(f"line {line}: an ageing time of {told} s is {found.ageing} s here")
        for name, ports in self.missing.items():
            found.notes.append(f"VLAN {name} of {numbers.folded(ports)} isn't defined: nothing passes there")
        found.notes += boxes.notes("satellite", self.guessed, self.links, "cascade port") + boxes.joined(found.ports)


def switch_of(path: str, ports_of: dict[int, int]) -> Switch:
    """The switch of a configuration. `ports_of` says how many ports satellites have, as far as that is known."""
    read = Reader(path)
    read.read()
    return Maker(read, ports_of).made()
