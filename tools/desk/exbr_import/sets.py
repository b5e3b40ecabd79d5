"""Reading a configuration of Junos in `set` form: its lines, by the rows of `junos.table`, as interfaces, VLANs and satellites."""
import re
from dataclasses import dataclass, field

from exbr_desk.errors import DeskError

from . import lines, numbers, statements
from .lines import Line
from .switch import Left

PORT = re.compile(r"([a-z]{2,4})-(\d{1,3})/(\d{1,2})/(\d{1,3}(?::\d)?)(?:\.0)?")
AGGREGATE = re.compile(r"ae\d{1,4}(?:\.0)?")
FIRST_BOX, LAST_BOX = 65, 254
# How many settings a configuration may have, ranges of interfaces spread out.
LARGEST = 2_000_000
VERBS = ("set", "delete", "deactivate", "activate", "annotate", "protect", "unprotect")


@dataclass
class Interface:
    """What is said of an interface. `members` are names and numbers of VLANs, each with its line."""

    line: int
    description: str = ""
    mode: str = "access"
    members: list[tuple[str, int]] = field(default_factory=list)
    native: int | None = None
    is_off: bool = False
    switches: bool = False
    aggregate: str = ""
    why: str = ""


@dataclass
class Vlan:
    """A VLAN: its numbers, and whether its access ports hear each other."""

    line: int
    vids: set[int] = field(default_factory=set)
    is_isolated: bool = False
    kind: str = ""


@dataclass
class Satellite:
    """An extender: the ports on which it hangs, and what it is called."""

    line: int
    on: list[str] = field(default_factory=list)
    alias: str = ""


def port_name(text: str, where: str) -> str:
    """An interface without its unit."""
    if not PORT.fullmatch(text) and not AGGREGATE.fullmatch(text):
        raise DeskError(f"{where}: {lines.shown(text)[:30]} is no interface as ge-101/0/7 or ae1")
    return text.removesuffix(".0")


def box_of(name: str) -> tuple[int, int, str] | None:
    """The extender, the card and the port of an interface of one, as 101, 0 and 7 of ge-101/0/7."""
    it = PORT.fullmatch(name)
    return (int(it[2]), int(it[3]), it[4]) if it and FIRST_BOX <= int(it[2]) <= LAST_BOX else None


class Reader:
    """Goes through a configuration. Each line is carried over, or is in `left`."""

    def __init__(self, path: str):
        self.path = path
        self.grammar = statements.table("junos.table")
        self.interfaces: dict[str, Interface] = {}
        self.vlans: dict[str, Vlan] = {}
        self.satellites: dict[int, Satellite] = {}
        self.ranges: dict[str, list[str]] = {}
        self.waiting: list[tuple[Line, str, str]] = []
        self.statics: list[tuple[str, str, str, int]] = []
        self.left: list[Left] = []
        self.carried: set[int] = set()
        self.name, self.ageing = "", (300, 0)

    def read(self) -> None:
        """All lines. Statements of ranges of interfaces are looked at when their members are known."""
        for line in self.effective(lines.read(self.path)):
            self.take(line, line.text.split(" ", 1)[1] if " " in line.text else "")
        if sum(len(self.ranges.get(name, [])) for _, name, _ in self.waiting) > LARGEST:
            raise DeskError(f"{self.path}: its ranges of interfaces have more than {LARGEST:,} settings, and no switch has so many")
        for line, name, rest in self.waiting:
            for member in self.ranges.get(name, []):
                self.walk(line, "interface", rest, member)

    def effective(self, them: list[Line]) -> list[Line]:
        """The lines with `set` that hold: those that were deleted or deactivated later are carried over as nothing."""
        held: list[Line] = []
        gone: list[str] = []
        for line in them:
            verb, _, rest = line.text.partition(" ")
            if line.text.startswith(("#", "/*")) or re.match(r"[\w.@-]+[>#] ?(show|set cli)", line.text):
                self.carried.add(line.number)
            elif verb not in VERBS or (not rest and verb != "delete"):
                self.refuse(line)
            elif verb == "set":
                held.append(line)
            else:
                self.carried.add(line.number)
                held, gone = self.turned(line, verb, rest, held, gone)
        if len(held) * len(gone) > 20 * LARGEST:
            raise DeskError(f"{self.path}: {len(gone):,} statements `deactivate` are more than can be looked at")
        cut = {it.number for it in held if any(is_below(it.text[4:], path) for path in gone)}
        self.carried |= cut
        return [it for it in held if it.number not in cut]

    def refuse(self, line: Line) -> None:
        """A line that is no statement in set form."""
        if line.text.endswith(("{", "}", ";")):
            raise DeskError(f"{self.path}: line {line.number} is of a configuration in braces; make it with: show configuration | display set")
        raise DeskError(f"{self.path}: line {line.number} doesn't begin with set; make it with: show configuration | display set")

    def turned(self, line: Line, verb: str, rest: str, held: list[Line], gone: list[str]) -> tuple[list[Line], list[str]]:
        """What `delete`, `deactivate` and `activate` do to the lines before them."""
        if verb == "delete":
            cut = {it.number for it in held if is_below(it.text[4:], rest)}
            self.carried |= cut
            return [it for it in held if it.number not in cut], gone
        if verb == "deactivate":
            self.left.append(Left("statements that are off", lines.shown(line.text), line.number))
            self.carried.discard(line.number)
            return held, [*gone, rest]
        return held, [it for it in gone if it != rest] if verb == "activate" else gone

    def at(self, line: Line) -> str:
        """A line, for a fault."""
        return f"{self.path}: line {line.number}"

    def take(self, line: Line, text: str) -> None:
        """One statement."""
        found = self.grammar.take("top", text)
        if found is None:
            self.leave(line, "unknown statements")
        elif found.verb == "into":
            self.into(line, found, "")
        else:
            self.do(line, found, "")

    def into(self, line: Line, found: statements.Found, here: str) -> None:
        """Goes on in a block."""
        where = {"interface": "port", "vlan": "name", "satellite": "fex", "range": "name"}.get(found.words)
        name = found.values[where] if where else here
        self.carried.add(line.number)
        if found.words == "interface":
            if not PORT.fullmatch(name) and not AGGREGATE.fullmatch(name):
                self.leave(line, "L3 and other interfaces")
                return
            name = name.removesuffix(".0")
            self.interfaces.setdefault(name, Interface(line.number))
        elif found.words == "vlan":
            self.vlans.setdefault(name, Vlan(line.number))
        elif found.words == "satellite":
            self.satellites.setdefault(self.box(name, line), Satellite(line.number))
        elif found.words == "switching":
            self.interfaces[name].switches = True
        if found.words == "range":
            self.ranges.setdefault(name, [])
        self.walk(line, found.words, found.rest, name)

    def box(self, text: str, line: Line) -> int:
        """The number of an extender."""
        if not FIRST_BOX <= int(text[:9]) <= LAST_BOX:
            raise DeskError(f"{self.at(line)}: satellites have the numbers {FIRST_BOX} to {LAST_BOX}")
        return int(text)

    def walk(self, line: Line, block: str, rest: str, here: str) -> None:
        """The statements of a block that stand in one line."""
        if block == "interface":
            self.interfaces.setdefault(here, Interface(line.number))
        while rest:
            found = self.grammar.take(block, rest)
            if found is None:
                self.leave(line, "unknown statements", self.where(block, here))
                return
            if found.verb == "into":
                self.into(line, found, here)
                return
            self.do(line, found, here, block)
            rest = "" if found.verb in ("not", "not_mode", "range_statement") else found.rest

    def where(self, block: str, here: str) -> str:
        """A block, as a reader says it."""
        return {"vlan": f"VLAN {here}", "satellite": f"satellite {here}", "range": f"interface-range {here}"}.get(block, f"interface {here}" if here else "")

    def do(self, line: Line, found: statements.Found, here: str, block: str = "") -> None:
        """What a statement means."""
        if found.verb == "not":
            self.leave(line, found.words, self.where(block, here))
            return
        self.carried.add(line.number)
        if found.verb != "same":
            getattr(self, f"_{found.verb}")(line, found, here)

    def leave(self, line: Line, kind: str, where: str = "") -> None:
        """A statement that isn't carried over."""
        words = line.text.split()
        text = " ".join(words[:3]) + " .." if kind in ("unknown statements", "management") and len(words) > 3 else line.text
        self.carried.discard(line.number)
        its = Left(kind, lines.shown(text), line.number, where)
        if its not in self.left[-64:]:
            self.left.append(its)

    # What statements mean.

    def _hostname(self, line: Line, found: statements.Found, here: str) -> None:
        self.name = found.values["name"].strip('"')

    def _ageing(self, line: Line, found: statements.Found, here: str) -> None:
        self.ageing = int(found.values["number"][:9]), line.number

    def _cascade(self, line: Line, found: statements.Found, here: str) -> None:
        self.satellites[int(here)].on += [port_name(it, self.at(line)) for it in listed(found.values["list"])]

    def _alias(self, line: Line, found: statements.Found, here: str) -> None:
        its = self.satellites[int(here)]
        its.alias = its.alias or (found.values.get("name") or found.values["text"]).strip('"')

    def _range_span(self, line: Line, found: statements.Found, here: str) -> None:
        first, last = port_name(found.values["port"], self.at(line)), port_name(found.values["other"], self.at(line))
        head, _, begin = first.rpartition("/")
        other, _, end = last.rpartition("/")
        if head != other or not begin.isdigit() or not end.isdigit() or not int(begin) <= int(end) <= int(begin) + 1023:
            raise DeskError(f"{self.at(line)}: a range of interfaces is of one card, as ge-101/0/0 to ge-101/0/7")
        self.ranges[here] += [f"{head}/{it}" for it in range(int(begin), int(end) + 1)]

    def _range_member(self, line: Line, found: statements.Found, here: str) -> None:
        self.ranges[here] += [port_name(it, self.at(line)) for it in spread(found.values["name"].strip('"'), self.at(line))]

    def _range_statement(self, line: Line, found: statements.Found, here: str) -> None:
        self.waiting.append((line, here, line.text.split(" ", 4)[4]))

    def _description(self, line: Line, found: statements.Found, here: str) -> None:
        self.interfaces[here].description = found.values["quoted"].strip('"')

    def _disable(self, line: Line, found: statements.Found, here: str) -> None:
        self.interfaces[here].is_off = True

    def _native(self, line: Line, found: statements.Found, here: str) -> None:
        self.interfaces[here].native = numbers.vlan(found.values["number"], self.at(line))

    def _cascade_port(self, line: Line, found: statements.Found, here: str) -> None:
        self.interfaces[here].why = "a cascade port of no satellite"

    def _member(self, line: Line, found: statements.Found, here: str) -> None:
        self.interfaces[here].aggregate = port_name(found.values["name"], self.at(line))

    def _mode(self, line: Line, found: statements.Found, here: str) -> None:
        self.interfaces[here].mode = found.values["mode"].lower()

    def _not_mode(self, line: Line, found: statements.Found, here: str) -> None:
        self.interfaces[here].why = found.words
        self.leave(line, found.words, self.where("interface", here))

    def _members(self, line: Line, found: statements.Found, here: str) -> None:
        self.interfaces[here].members += [(it, line.number) for it in listed(found.values["list"])]

    def _vlan_id(self, line: Line, found: statements.Found, here: str) -> None:
        self.vlans[here].vids = {numbers.vlan(found.values["number"], self.at(line))}

    def _vlan_list(self, line: Line, found: statements.Found, here: str) -> None:
        for it in listed(found.values["list"]):
            self.vlans[here].vids |= numbers.vlans(it, self.at(line))

    def _vlan_range(self, line: Line, found: statements.Found, here: str) -> None:
        self.vlans[here].vids |= numbers.vlans(found.values["vlans"], self.at(line))

    def _isolate(self, line: Line, found: statements.Found, here: str) -> None:
        self.vlans[here].is_isolated = True

    def _vlan_kind(self, line: Line, found: statements.Found, here: str) -> None:
        self.vlans[here].kind = found.words
        self.leave(line, "community VLANs" if found.words == "community" else "private VLANs", f"VLAN {here}")

    def _vlan_interface(self, line: Line, found: statements.Found, here: str) -> None:
        name = port_name(found.values["port"], self.at(line))
        its = self.interfaces.setdefault(name, Interface(line.number))
        its.switches = True
        its.members.append((here, line.number))

    def _vlan_static(self, line: Line, found: statements.Found, here: str) -> None:
        self.statics.append((here, found.values["mac"], found.values["port"], line.number))

    def _static(self, line: Line, found: statements.Found, here: str) -> None:
        self.statics.append((found.values["name"], found.values["mac"], found.values["port"], line.number))

    def _group(self, line: Line, found: statements.Found, here: str) -> None:
        mac = numbers.group(found.values["group"], self.at(line))
        self.statics.append((found.values["name"], mac, found.values["port"], line.number))


def is_below(text: str, path: str) -> bool:
    """Whether a statement is a path or stands below it. Nothing is a path above all."""
    return not path or text == path or text.startswith(f"{path} ")


def listed(text: str) -> list[str]:
    """The parts of `[ a b ]`, or of a word."""
    return [it.strip('"') for it in text.strip("[] ").split()]


def spread(text: str, where: str) -> list[str]:
    """The interfaces of `ge-101/0/[1-8,11]`."""
    it = re.fullmatch(r"(.*?)\[([\d,\- ]+)\]", text)
    if not it:
        return [text]
    found = []
    for part in it[2].split(","):
        first, _, last = part.strip().partition("-")
        if not first.isdigit() or len(part) > 9 or last and not last.isdigit():
            raise DeskError(f"{where}: interfaces are as ge-101/0/[1-8]")
        if int(last or first) - int(first) > 1023:
            raise DeskError(f"{where}: a range of interfaces has 1,024 at most")
        found += [f"{it[1]}{at}" for at in range(int(first), int(last or first) + 1)]
    return found
