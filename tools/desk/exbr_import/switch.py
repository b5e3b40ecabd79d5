"""A switch as it is found, whatever it was read from: the intent of a configuration."""
import re
from collections.abc import Callable
from dataclasses import dataclass, field


from exbr_desk.short import natural

PLACE = re.compile(r"b([1-9]\d?)|x([1-9]\d?)\.([1-9]\d?)")
__all__ = ["Box", "Left", "Port", "Static", "Switch", "natural", "place", "place_by_names"]


@dataclass
class Port:
    """A port under the name that it has on its switch. `place` is its name in the topology.

    `box` is the number that its extender has on the switch, and `slot` its number there, or at the switch itself, from 1. `members` are
    the interfaces of which a port-channel is made, and `why` says why a port is in no VLAN. `line` is where it begins in its file.
    """

    name: str
    pvid: int | None = None
    tagged: set[int] = field(default_factory=set)
    untagged: set[int] = field(default_factory=set)
    isolated: bool = False
    filter: bool = True
    is_up: bool = True
    place: str = ""
    capture: str | None = None
    accept: str = ""
    description: str = ""
    line: int = 0
    box: int | None = None
    slot: int = 0
    members: tuple[str, ...] = ()
    why: str = ""

    @property
    def accepts(self) -> str:
        """Which frames it takes. Without a PVID these are tagged ones alone."""
        return self.accept or ("tagged" if self.pvid is None else "all")

    @property
    def shown(self) -> str:
        """Its name, with its description."""
        return f"{self.name} ({self.description})" if self.description else self.name


@dataclass
class Box:
    """An extender under the number that it has on its switch: on which interface of the switch it hangs, or on which place, and with how
    many ports."""

    on: str
    ports: int
    rack: str = ""
    line: int = 0
    name: str = ""
    number: int = 0


@dataclass
class Static:
    """An address that has its place for good."""

    vid: int
    mac: str
    ports: list[str]
    line: int = 0


@dataclass(frozen=True)
class Left:
    """A statement that isn't carried over: its kind, its text as it may be shown, its line, and the port, VLAN or extender in whose block it
    stands."""

    kind: str
    text: str
    line: int
    where: str = ""


@dataclass
class Switch:
    """A switch. `left` has the statements that aren't carried over, `lost` what else can't be, and `notes` what a reader should know.
    `carried` has the lines that are. `extenders` and `local` are the tree of the topology, by its own numbers."""

    source: str
    ports: list[Port]
    ageing: int = 300
    statics: list[Static] = field(default_factory=list)
    lost: list[str] = field(default_factory=list)
    notes: list[str] = field(default_factory=list)
    extenders: dict[int, tuple[str, int]] = field(default_factory=dict)
    local: int = 0
    boxes: dict[int, Box] = field(default_factory=dict)
    left: list[Left] = field(default_factory=list)
    carried: set[int] = field(default_factory=set)
    vlan_names: dict[int, str] = field(default_factory=dict)
    name: str = ""
    file: str = ""
    limits: dict[str, int] = field(default_factory=dict)
    captures: dict[str, str] = field(default_factory=dict)
    extra: dict = field(default_factory=dict)

    def by(self, key: Callable[[Port], str] = lambda it: it.name) -> dict[str, Port]:
        """The ports by their names, or by another key."""
        return {key(it): it for it in self.ports}


def place(switch: Switch, per_extender: int | None) -> None:
    """Gives each port its place: at the bridge itself, or at extenders of so many ports, which hang on the ports of the bridge."""
    count = len(switch.ports)
    if per_extender is None and count <= 64:
        switch.local = max(count, 1)
        for number, port in enumerate(switch.ports, 1):
            port.place = f"b{number}"
        return
    size = per_extender or 64
    boxes = -(-count // size)
    if boxes > 64:
        raise ValueError(f"{count} ports are more than 64 extenders of {size} ports have")
    switch.local = boxes
    switch.extenders = {it: (f"b{it}", size) for it in range(1, boxes + 1)}
    for number, port in enumerate(switch.ports):
        port.place = f"x{number // size + 1}.{number % size + 1}"
    spare = boxes * size - count
    if spare:
        switch.notes.append(f"the last {spare} ports of extender {boxes} are spare, and are in no VLAN")


def place_by_names(switch: Switch) -> bool:
    """Where all ports have names of places, as `b1` and `x2.3`, they get these. Says whether they have."""
    found = [PLACE.fullmatch(it.name) for it in switch.ports]
    if not switch.ports or not all(found):
        return False
    local, boxes = 0, {}
    for port, it in zip(switch.ports, found):
        port.place = port.name
        if it and it[1]:
            local = max(local, int(it[1]))
        elif it:
            boxes[int(it[2])] = max(boxes.get(int(it[2]), 0), int(it[3]))
    if max([local + len(boxes), *boxes.keys(), *boxes.values()]) > 64:
        return False
    switch.local = local + len(boxes)
    for at, number in enumerate(sorted(boxes), 1):
        switch.extenders[number] = (f"b{local + at}", boxes[number])
    if boxes:
        switch.lost.append("where extenders hang isn't told by names: here each hangs on a port of the bridge of its own, after the named ones, "
                           "and has as many ports as its highest name says")
    return True
