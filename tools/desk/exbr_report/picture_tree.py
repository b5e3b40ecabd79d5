"""The tree as a picture: each device a face plate with its ports, from the bridge on the left to the deepest extenders on the right."""
from .colours import Palette
from .facts import Device, Port, Report
from .markup import Markup, join, tag

TILE_WIDE, TILE_HIGH, GAP, LANE = 76, 60, 6, 6
PADDING, HEAD = 10, 24
COLUMN_GAP, ROW_GAP = 70, 22
STRIPE = 7
# How small a picture may be shown, so that it fits and can still be read. Beyond that one scrolls.
SMALLEST = 0.75


class Plate:
    """A device with its place in the picture."""

    def __init__(self, device: Device) -> None:
        self.device = device
        self.across = 4 if device.ports <= 16 else 8
        self.wide = max(2 * PADDING + min(self.across, device.ports) * (TILE_WIDE + GAP) - GAP, 120)
        self.x = self.y = 0
        self.below: list[Plate] = []

    def hangs(self, row: int) -> list[int]:
        """The ports of a row on which extenders hang."""
        numbers = [port_number(it.device.on or "b0") for it in self.below]
        return [it for it in numbers if (it - 1) // self.across == row]

    def top(self, row: int) -> int:
        """Where a row begins. Below each row there is a lane for the link of each extender that hangs on it."""
        lanes = sum(len(self.hangs(it)) for it in range(row))
        return HEAD + row * (TILE_HIGH + GAP) + LANE * lanes

    @property
    def high(self) -> int:
        """How high it is."""
        return self.top(-(-self.device.ports // self.across)) + PADDING - GAP + 2

    def tile(self, number: int) -> tuple[int, int]:
        """Where a port stands."""
        row, column = divmod(number - 1, self.across)
        return self.x + PADDING + column * (TILE_WIDE + GAP), self.y + self.top(row)

    def lane(self, number: int) -> tuple[int, int, int]:
        """The link of a port inside its device: it goes down from the middle of the tile, and along its lane to the edge."""
        x, y = self.tile(number)
        row = (number - 1) // self.across
        hanging = self.hangs(row)
        # The last port of a row has the highest lane, so that links don't cross.
        at = len(hanging) - 1 - hanging.index(number)
        return x + TILE_WIDE // 2, y + TILE_HIGH, y + TILE_HIGH + 4 + LANE * at


def plates_of(devices: list[Device]) -> list[Plate]:
    """The plates of a tree, the bridge first, each behind the one on which it hangs."""
    known = {it.number: Plate(it) for it in devices}
    for plate in known.values():
        if plate.device.on is not None:
            known[parent_of(plate.device.on)].below.append(plate)
    for plate in known.values():
        plate.below.sort(key=lambda it: port_number(it.device.on or "b0"))
    found = [known[0]]
    for plate in found:
        found.extend(plate.below)
    return found


def parent_of(port: str) -> int:
    """The number of the device that has a port."""
    return 0 if port.startswith("b") else int(port[1:].split(".")[0])


def port_number(port: str) -> int:
    """The number of a port at its device."""
    return int(port[1:] if port.startswith("b") else port.split(".")[1])


def depths(plates: list[Plate]) -> dict[int, int]:
    """How many devices stand above each."""
    found = {0: 0}
    for plate in plates[1:]:
        found[plate.device.number] = found[parent_of(plate.device.on or "b1")] + 1
    return found


def place(plates: list[Plate]) -> tuple[int, int]:
    """Gives each plate its place, and says how large the picture is."""
    depth = depths(plates)
    wide = [0] * (max(depth.values()) + 1)
    for plate in plates:
        at = depth[plate.device.number]
        wide[at] = max(wide[at], plate.wide)
    for plate in plates:
        plate.x = 2 + sum(wide[:depth[plate.device.number]]) + COLUMN_GAP * depth[plate.device.number]
    return sum(wide) + COLUMN_GAP * (len(wide) - 1) + 4, stack(plates)


def stack(plates: list[Plate]) -> int:
    """Gives each plate its height in the picture, those below it beside it, and says how high all of it is."""
    high: dict[int, int] = {}
    for plate in reversed(plates):
        below = sum(high[it.device.number] for it in plate.below) + ROW_GAP * max(len(plate.below) - 1, 0)
        high[plate.device.number] = max(plate.high, below)
    top = {0: 2}
    for plate in plates:
        at = top[plate.device.number]
        room = high[plate.device.number]
        below = sum(high[it.device.number] for it in plate.below) + ROW_GAP * max(len(plate.below) - 1, 0)
        plate.y = at + (room - plate.high) // 2
        put_below(plate, at + (room - below) // 2, high, top)
    return high[0] + 4


def put_below(plate: Plate, at: int, high: dict[int, int], top: dict[int, int]) -> None:
    """Where the devices below a plate begin."""
    for child in plate.below:
        top[child.device.number] = at
        at += high[child.device.number] + ROW_GAP


def short(number: int) -> str:
    """A number in few letters."""
    if number < 10_000:
        return str(number)
    return f"{number / 1000:.0f}k" if number < 1_000_000 else f"{number / 1_000_000:.1f}M"


def vlan_words(port: Port) -> str:
    """The VLANs of a port in few letters."""
    if not port.members:
        return "no VLAN"
    if port.vlans > 2:
        return f"{port.vlans} VLANs"
    return " ".join(f"{it.vid}{'t' if it.tagged else ''}" for it in port.members)


def spoken(port: Port) -> str:
    """A port in words, for those who hear the page."""
    vlans = ", ".join(f"VLAN {it.vid} {'tagged' if it.tagged else 'untagged'}" for it in port.members[:8]) or "in no VLAN"
    more = f" and {port.vlans - 8} more" if port.vlans > 8 else ""
    state = ("" if port.present else ", absent") + (", isolated" if port.isolated else "")
    return f"Port {port.shown}, {vlans}{more}{state}: {port.counters.arrived} frames arrived, {port.counters.left} left"


def stripe(port: Port, x: int, y: int, palette: Palette) -> list[Markup]:
    """The colours of a port's VLANs, at the foot of its tile: high where the port is untagged, low where it is tagged."""
    shown = port.members[:8]
    wide = (TILE_WIDE - 2) / max(len(shown), 1)
    parts = []
    for at, it in enumerate(shown):
        high = STRIPE // 2 if it.tagged else STRIPE
        parts.append(tag("rect", x=f"{x + 1 + at * wide:.1f}", y=y + TILE_HIGH - 1 - high, width=f"{wide:.1f}", height=high,
                         class_="stripe " + palette.of(it.vid)))
    return parts


def tile(port: Port, x: int, y: int, palette: Palette, most: int) -> Markup:
    """A port: its name, its VLANs, and how many frames arrived and left."""
    state = "port" + (" isolated" if port.isolated else "") + ("" if port.present else " absent")
    bar = 0 if not most else round((TILE_WIDE - 12) * (port.counters.arrived + port.counters.left) / most)
    return tag(
        "g",
        tag("title", spoken(port)),
        tag("rect", x=x, y=y, width=TILE_WIDE, height=TILE_HIGH, rx=4, class_="plate"),
        stripe(port, x, y, palette),
        tag("text", port.short or port.name, x=x + 6, y=y + 14, class_="name"),
        tag("text", "⊘" if port.isolated else "", x=x + TILE_WIDE - 6, y=y + 14, class_="mark"),
        tag("text", vlan_words(port) if port.present else "absent", x=x + 6, y=y + 27, class_="vlans"),
        tag("text", f"↓{short(port.counters.arrived)} ↑{short(port.counters.left)}", x=x + 6, y=y + 40, class_="count"),
        tag("rect", x=x + 6, y=y + 46, width=bar, height=2, class_="bar") if bar else None,
        class_=state, role="button", tabindex="-1", data_port=port.name, aria_label=spoken(port))


def cascade(device: Device, number: int, below: Plate, x: int, y: int) -> Markup:
    """A port on which an extender hangs."""
    return tag("g",
               tag("title", f"{device.port(number)} carries extender x{below.device.number}"),
               tag("rect", x=x, y=y, width=TILE_WIDE, height=TILE_HIGH, rx=4, class_="plate"),
               tag("text", device.port(number), x=x + 6, y=y + 14, class_="name"),
               tag("text", f"to x{below.device.number}", x=x + 6, y=y + 27, class_="vlans"), class_="cascade")


def wire(plate: Plate, below: Plate) -> Markup:
    """The link between a port and the extender on it. It begins where the port's lane ends."""
    _, _, y = plate.lane(port_number(below.device.on or "b1"))
    x = plate.x + plate.wide
    end_x, end_y = below.x, below.y + HEAD // 2
    bend = (x + end_x) // 2
    return tag("path", d=f"M{x} {y}C{bend} {y} {bend} {end_y} {end_x} {end_y}", class_="wire")


def lead(plate: Plate, below: Plate) -> Markup:
    """The link of a port inside its device."""
    x, foot, y = plate.lane(port_number(below.device.on or "b1"))
    return tag("path", d=f"M{x} {foot}L{x} {y}L{plate.x + plate.wide} {y}", class_="wire lead")


def drawn(plate: Plate, ports: dict[str, Port], palette: Palette, most: int) -> Markup:
    """A device with its ports."""
    device = plate.device
    hanging = {port_number(it.device.on or "b0"): it for it in plate.below}
    parts = []
    for number in range(1, device.ports + 1):
        x, y = plate.tile(number)
        below = hanging.get(number)
        parts.append(cascade(device, number, below, x, y) if below else tile(ports[device.port(number)], x, y, palette, most))
    name = "bridge" if not device.number else f"x{device.number} {device.label}".strip()
    on = f" on {device.on}" if device.on else ""
    return tag("g",
               tag("rect", x=plate.x, y=plate.y, width=plate.wide, height=plate.high, rx=8, class_="device"),
               [lead(plate, it) for it in plate.below],
               tag("text", name, tag("tspan", on, class_="on"), x=plate.x + PADDING, y=plate.y + 16, class_="title"),
               parts, role="group", aria_label=("The bridge" if not device.number else f"Extender {device.number}{on}"))


def picture(report: Report, palette: Palette) -> Markup:
    """The whole tree."""
    plates = plates_of(report.devices)
    wide, high = place(plates)
    ports = {it.name: it for it in report.ports}
    most = max((it.counters.arrived + it.counters.left for it in report.ports), default=0)
    wires = [wire(plate, below) for plate in plates for below in plate.below]
    devices = [drawn(plate, ports, palette, most) for plate in plates]
    return tag("svg", join(wires), join(devices), id="tree", viewBox=f"0 0 {wide} {high}",
               style=f"width: min(100%, {wide}px); min-width: {SMALLEST * wide:.0f}px; height: auto",
               role="group", aria_label="The tree of bridge and extenders, with their ports")
