"""Where ports of a switch stand in a topology. Two configurations of one switch get the same places, so that a change is between them."""
import re

from exbr_desk.errors import DeskError

from . import numbers
from .switch import Box, Port, Switch

MOST = 64


def give(switches: list[Switch], first_slot: int = 1) -> None:
    """Gives all ports their places, and each switch the tree. `first_slot` is the number that the first port of a switch has there."""
    boxes = boxes_of(switches)
    own = sorted({name for it in switches for name in locals_of(it)} | {box.on for box in boxes.values() if box.on}, key=numbers.natural)
    places = by_number(own, boxes, first_slot)
    over = {} if places else surplus(own, boxes)
    places = places or {name: f"b{at}" for at, name in enumerate([it for it in own if it not in over] + [it.on for key, it in boxes.items() if key < 0], 1)}
    number(boxes)
    places |= {name: f"x{boxes[key].number}.{slot}" for name, (key, slot) in over.items()}
    tree, local = hang(boxes, places)
    for switch in switches:
        switch.extenders, switch.local = tree, local
        for port in switch.ports:
            port.place = f"x{boxes[port.box].number}.{port.slot}" if port.box is not None else places[home_of(port)]
    for switch in switches:
        fill(switch, switches)


def boxes_of(switches: list[Switch]) -> dict[int, Box]:
    """The extenders of all configurations. How one hangs in an earlier one counts."""
    found: dict[int, Box] = {}
    for switch in switches:
        for number, box in switch.boxes.items():
            mine = found.setdefault(number, box)
            mine.ports = max(mine.ports, box.ports)
            mine.rack = mine.rack or box.rack
            if mine is not box and box.on and mine.on and mine.on != box.on:
                switch.lost.append(f"{box.name} moves from {mine.on} to {box.on}: no command moves an extender, so it stays where it was")
            mine.on = mine.on or box.on
    if len(found) > MOST:
        raise DeskError(f"there are {len(found)} extenders, and a bridge has {MOST} at most")
    return dict(sorted(found.items()))


def home_of(port: Port) -> str:
    """The interface of which a port has the place: a port-channel that of its first member."""
    return port.members[0] if port.members else port.name


def locals_of(switch: Switch) -> list[str]:
    """The interfaces of the switch itself that need a place. What is a part of another port has none where there is no room."""
    return [home_of(it) for it in switch.ports if it.box is None]


def by_number(own: list[str], boxes: dict[int, Box], first_slot: int) -> dict[str, str]:
    """The place of each interface of the switch itself by its number, where all are of one card, few are missing, and there is room. Else
    nothing."""
    parts = [re.fullmatch(r"(.*?)(\d+)", it) for it in own]
    slots = [int(it[2]) - first_slot + 1 for it in parts if it]
    spare = sum(not box.on for box in boxes.values())
    if len({it and it[1] for it in parts}) != 1 or min(slots, default=0) < 1 or max(slots) + spare > MOST or max(slots) > 2 * len(slots):
        return {}
    return {name: f"b{slot}" for name, slot in zip(own, slots)}


def surplus(own: list[str], boxes: dict[int, Box]) -> dict[str, tuple[int, int]]:
    """The ports of the switch itself that find no place at a bridge of 64 ports: they are ports of extenders, with keys below 0."""
    on = {box.on for box in boxes.values()}
    ports = [it for it in own if it not in on]
    room = MOST - (len(own) - len(ports)) - sum(not box.on for box in boxes.values())
    more = 0 if len(ports) <= room else -(-(len(ports) - room) // (MOST - 1))
    if more + len(boxes) > MOST or more > room:
        raise DeskError(f"{len(ports)} ports of the switch itself and {len(boxes)} extenders are more than a bridge here has room for")
    rest = ports[room - more:] if more else []
    for at in range(more):
        boxes[-1 - at] = Box(f"own ports {at + 1}", len(rest[64 * at:64 * at + 64]), name="ports of the switch itself")
    return {name: (-1 - at // 64, at % 64 + 1) for at, name in enumerate(rest)}


def number(boxes: dict[int, Box]) -> None:
    """The numbers of extenders here: of 101 to 164 the last two digits, else their order."""
    real = sorted(it for it in boxes if it > 0)
    by_digits = all(100 < it <= 100 + MOST for it in real)
    for at, key in enumerate(real, 1):
        boxes[key].number = key - 100 if by_digits else at
    free = [it for it in range(MOST, 0, -1) if it not in {boxes[key].number for key in real}]
    for key, its in zip(sorted((it for it in boxes if it < 0), reverse=True), free):
        boxes[key].number = its


def hang(boxes: dict[int, Box], places: dict[str, str]) -> tuple[dict[int, tuple[str, int]], int]:
    """The extenders of the topology, and how many ports the bridge has. One that hangs nowhere gets a port of the bridge."""
    local = max([int(it[1:]) for it in places.values() if it.startswith("b")], default=0)
    tree = {}
    for box in boxes.values():
        local += not box.on
        tree[box.number] = places[box.on] if box.on else f"b{local}", box.ports
    if local > MOST:
        raise DeskError(f"the bridge would have {local} ports, and it has {MOST} at most")
    return tree, max(local, 1)


def fill(switch: Switch, switches: list[Switch]) -> None:
    """Ports of the topology that a switch doesn't have let nothing in. They keep the names that they have elsewhere."""
    on = {place for place, _ in switch.extenders.values()}
    every = [f"b{it}" for it in range(1, switch.local + 1)]
    every += [f"x{number}.{it}" for number, (_, ports) in sorted(switch.extenders.items()) for it in range(1, ports + 1)]
    taken = {it.place for it in switch.ports}
    names = {it.place: it.name for other in switches for it in other.ports}
    switch.ports += [Port(names.get(it, ""), place=it, why="no interface here") for it in every if it not in taken | on]
    switch.ports = [it for it in switch.ports if it.place not in on]
    switch.ports.sort(key=lambda it: (it.place[0], numbers.natural(it.place)))
