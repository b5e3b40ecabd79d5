"""Reading a configuration of NX-OS: its lines, by the rows of `nxos.table`, as actions on VLANs, interfaces and extenders."""
import re
from dataclasses import dataclass, field

from exbr_desk.errors import DeskError

from . import lines, numbers, statements
from .lines import Line
from .switch import Left

INTERFACE = re.compile(r"([A-Za-z-]*) ?(\d+(?:/\d+)*)(?: ?- ?(?:[A-Za-z-]+ ?)?(?:\d+/)*(\d+))?")
KINDS = {"ethernet": "Ethernet", "port-channel": "port-channel"}
TERMINAL = re.compile(r"!|#|[\w.@-]+# ?(?:sh|show|copy|term|terminal)\b|[\w.@-]+[#>]$|building configuration|current configuration|\.\.\.", re.IGNORECASE)
WRAPPED = re.compile(r"[\d,\- ]+")
FEWEST, MOST = 100, 199
# How many settings of ports and VLANs a configuration may have, ranges spread out. The largest switches have some ten thousand.
LARGEST = 2_000_000


@dataclass(frozen=True)
class Action:
    """What a statement sets at a port: the verb of its row, the words behind it, its values, and its line."""

    verb: str
    words: str
    values: dict
    line: int


@dataclass
class Vlan:
    """A VLAN that is defined."""

    line: int
    name: str = ""
    kind: str = ""
    is_off: bool = False


@dataclass
class Block:
    """What a configuration says of an interface, or a port profile."""

    line: int
    actions: list[Action] = field(default_factory=list)


@dataclass
class Fex:
    """An extender that is declared."""

    line: int
    description: str = ""


@dataclass
class Entry:
    """A static entry: its address, VLAN and ports."""

    vid: int
    mac: str
    ports: list[str]
    line: int


def interfaces(text: str, where: str) -> list[str]:
    """The interfaces that a text names, as `Ethernet1/1-4, port-channel 7`."""
    found: list[str] = []
    kind, end = "", 0
    for it in INTERFACE.finditer(text):
        kind = kind_of(it[1], where) if it[1] else kind
        if not kind or text[end:it.start()].strip(", "):
            break
        found += [f"{kind}{number}" for number in numbered(it[2], it[3], where)]
        end = it.end()
    if not found or text[end:].strip():
        raise DeskError(f"{where}: it names no interfaces as Ethernet101/1/1-8 or port-channel7")
    return found


def kind_of(word: str, where: str) -> str:
    """The kind of interface that a word or its beginning names."""
    full = next((full for full in KINDS if full.startswith(word.lower())), None)
    if full is None:
        raise DeskError(f"{where}: {word[:20]} is no kind of interface that is known here")
    return KINDS[full]


def numbered(first: str, last: str | None, where: str) -> list[str]:
    """The numbers of a range of interfaces."""
    head, slash, begin = first.rpartition("/")
    if any(len(it) > 4 for it in (*first.split("/"), last or "")):
        raise DeskError(f"{where}: a number of an interface has four digits at most")
    end = int(last) if last else int(begin)
    if not int(begin) <= end <= int(begin) + 1023:
        raise DeskError(f"{where}: the range {first}-{last} is the wrong way round, or too long")
    return [f"{head}{slash}{it}" for it in range(int(begin), end + 1)]


def box_of(name: str) -> tuple[int, int] | None:
    """The extender and the slot of a host interface, as 101 and 7 of Ethernet101/1/7."""
    it = re.fullmatch(r"Ethernet(\d+)/(\d+)/(\d+)", name)
    return (int(it[1]), int(it[3])) if it and FEWEST <= int(it[1]) <= MOST else None


class Reader:
    """Goes through a configuration line by line. Each line is carried over, or is in `left`."""

    def __init__(self, path: str):
        self.path = path
        self.grammar = statements.table("nxos.table")
        self.vlans: dict[int, Vlan] = {1: Vlan(0)}
        self.interfaces: dict[str, Block] = {}
        self.profiles: dict[str, Block] = {}
        self.fexes: dict[int, Fex] = {}
        self.entries: list[Entry] = []
        self.left: list[Left] = []
        self.carried: set[int] = set()
        self.ageing: tuple[int, int] | None = None
        self.flags: dict[str, bool] = {}
        self.name = ""
        self.block, self.here, self.skipped, self.header = "top", [], "", ""
        self.banner = ""
        self.spent = 0

    def read(self) -> None:
        """All lines."""
        for line in self.joined(lines.read(self.path)):
            self.take(line)
        if self.banner:
            raise DeskError(f"{self.path}: a banner has no end, so the file may be cut off")

    def joined(self, them: list[Line]) -> list[Line]:
        """Lines of which a list of VLANs was wrapped by a terminal, as one."""
        found: list[Line] = []
        for line in them:
            before = found[-1] if found else None
            if before and WRAPPED.fullmatch(line.text) and (before.text.endswith((",", "-")) or line.text[0] in ",-"):
                found[-1] = Line(before.number, before.text + line.text, before.indent)
                self.carried.add(line.number)
            else:
                found.append(line)
        return found

    def at(self, line: Line) -> str:
        """A line, for a fault."""
        return f"{self.path}: line {line.number}"

    def spend(self, line: Line, many: int) -> None:
        """Counts settings, so that a file of ranges of ranges ends."""
        self.spent += many
        if self.spent > LARGEST:
            raise DeskError(f"{self.at(line)}: up to here there are more than {LARGEST:,} settings of ports and VLANs, and no switch has so many")

    def take(self, line: Line) -> None:
        """One line."""
        self.spend(line, 1 + (len(self.here) if self.block != "top" else 0))
        if self.banner:
            self.banner = "" if self.banner in line.text else self.banner
            self.leave(line, "management", "banner")
        elif TERMINAL.match(line.text):
            self.carried.add(line.number)
        elif line.indent and self.block != "top":
            self.within(line)
        else:
            self.outside(line)

    def outside(self, line: Line) -> None:
        """A line that isn't moved in. Where it isn't known by itself it may still be one of the block."""
        found = self.grammar.find("top", line.text)
        if found is None and self.block not in ("top", "skip") and self.in_block(line.text):
            self.within(line)
            return
        negated = found is None and line.text.lower().startswith("no ") and self.grammar.find("top", line.text[3:])
        self.block = "top"
        if negated and negated.verb in ("not", "skip"):
            self.carried.add(line.number)
        elif found is None:
            self.block, self.skipped, self.here, self.header = "skip", "unknown statements", [], ""
            self.leave(line, "unknown statements", "")
        else:
            self.do(line, found, [])

    def in_block(self, text: str) -> statements.Found | None:
        """What a statement means in the block."""
        blocks = ("profile", "interface") if self.block == "profile" else (self.block,)
        return next((it for it in (self.grammar.find(block, text) for block in blocks) if it), None)

    def within(self, line: Line) -> None:
        """A line of a block."""
        if self.block == "skip":
            self.leave(line, self.skipped, self.header)
            return
        found, text = self.in_block(line.text), line.text
        if found is None and text.lower().startswith("no "):
            negated = self.in_block(text[3:])
            if negated and negated.verb in ("not", "not_mode"):
                self.carried.add(line.number)
                return
        if found is None:
            self.leave(line, "unknown statements", self.where())
        else:
            self.do(line, found, self.here)

    def do(self, line: Line, found: statements.Found, here: list) -> None:
        """What a statement means."""
        if found.verb in ("not", "skip", "is"):
            getattr(self, f"_{found.verb}")(line, found)
            return
        self.carried.add(line.number)
        if found.verb == "broken":
            raise DeskError(f"{self.at(line)} has to name {found.words}")
        if found.verb in ("same", "leave"):
            self.block = "top" if found.verb == "leave" else self.block
        elif self.block in ("interface", "profile"):
            self.note(line, found)
        else:
            getattr(self, f"_{found.verb}")(line, found, here)

    def note(self, line: Line, found: statements.Found) -> None:
        """A statement of an interface, which is looked at when all of them are known."""
        values = dict(found.values)
        if values.get("vlans"):
            values["vlans"] = numbers.vlans(values["vlans"], self.at(line))
        if values.get("vlan"):
            values["vlan"] = numbers.vlan(values["vlan"], self.at(line))
        if found.verb == "private":
            values["vids"] = [numbers.vlan(it, self.at(line)) for it in re.findall(r"\d+", values["rest"])]
        if found.verb == "fex" and not FEWEST <= int(values["fex"][:9]) <= MOST:
            raise DeskError(f"{self.at(line)}: extenders have the numbers {FEWEST} to {MOST}")
        if found.verb in ("not_mode", "layer3"):
            self.leave(line, found.words or "L3", self.where())
        its = Action(found.verb, found.words, values, line.number)
        of = self.profiles if self.block == "profile" else self.interfaces
        for name in self.here:
            of[name].actions.append(its)

    def where(self) -> str:
        """The block, as a reader says it."""
        names = {"interface": "interface", "profile": "port-profile", "fex": "FEX", "vlan": "VLAN", "vlanconfiguration": "VLAN"}
        many = len(self.here) > 1 and self.block in ("interface", "vlan")
        return f"{names.get(self.block, self.block)}{'s' * many} {numbers.folded([str(it) for it in self.here])}"

    def leave(self, line: Line, kind: str, where: str) -> None:
        """A statement that isn't carried over."""
        text = " ".join(line.text.split()[:2]) + " .." if kind in ("unknown statements", "management") and len(line.text.split()) > 2 else line.text
        self.carried.discard(line.number)
        self.left.append(Left(kind, "a line of it" if where == "banner" else lines.shown(text), line.number, where))

    # What statements outside of all blocks mean.

    def _not(self, line: Line, found: statements.Found) -> None:
        self.leave(line, found.words, self.where() if self.block != "top" else "")

    def _skip(self, line: Line, found: statements.Found) -> None:
        self.leave(line, found.words, "")
        self.block, self.skipped, self.here, self.header = "skip", found.words, [], lines.shown(line.text)

    def _is(self, line: Line, found: statements.Found) -> None:
        self.carried.add(line.number)
        self.block = found.words
        self.here = getattr(self, f"_is_{found.words}")(line, found.values)

    def _is_vlan(self, line: Line, values: dict) -> list:
        vids = sorted(numbers.vlans(values["vlans"], self.at(line)))
        self.spend(line, len(vids))
        for vid in vids:
            self.vlans.setdefault(vid, Vlan(line.number))
        return vids

    def _is_vlanconfiguration(self, line: Line, values: dict) -> list:
        return sorted(numbers.vlans(values["vlans"], self.at(line)))

    def _is_fex(self, line: Line, values: dict) -> list:
        number = int(values["fex"][:9])
        if not FEWEST <= number <= MOST:
            raise DeskError(f"{self.at(line)}: extenders have the numbers {FEWEST} to {MOST}")
        self.fexes.setdefault(number, Fex(line.number))
        return [number]

    def _is_interface(self, line: Line, values: dict) -> list:
        names = interfaces(values["ports"], self.at(line))
        self.spend(line, len(names))
        for name in names:
            self.interfaces.setdefault(name, Block(line.number))
        return names

    def _is_profile(self, line: Line, values: dict) -> list:
        self.profiles.setdefault(values["name"], Block(line.number))
        return [values["name"]]

    def _no_vlan(self, line: Line, found: statements.Found, here: list) -> None:
        for vid in numbers.vlans(found.values["vlans"], self.at(line)) - {1}:
            self.vlans.pop(vid, None)

    def _no_fex(self, line: Line, found: statements.Found, here: list) -> None:
        self.fexes.pop(int(found.values["fex"][:9]), None)

    def _no_interface(self, line: Line, found: statements.Found, here: list) -> None:
        for name in interfaces(found.values["ports"], self.at(line)):
            self.interfaces.pop(name, None)

    def _default_interface(self, line: Line, found: statements.Found, here: list) -> None:
        for name in interfaces(found.values["ports"], self.at(line)):
            self.interfaces[name] = Block(line.number)

    def _tag_native(self, line: Line, found: statements.Found, here: list) -> None:
        self.flags["tag_native"] = found.words == "on"

    def _default_shutdown(self, line: Line, found: statements.Found, here: list) -> None:
        self.flags["default_shutdown"] = found.words == "on"

    def _default_switchport(self, line: Line, found: statements.Found, here: list) -> None:
        self.flags["routed"] = found.words == "off"

    def _hostname(self, line: Line, found: statements.Found, here: list) -> None:
        self.name = found.values["name"].strip('"')

    def _ageing(self, line: Line, found: statements.Found, here: list) -> None:
        self.ageing = int(found.values["number"][:9]), line.number

    def _static(self, line: Line, found: statements.Found, here: list) -> None:
        at, its = self.at(line), found.values
        self.entries.append(Entry(numbers.vlan(its["vlan"], at), numbers.mac(its["mac"], at), interfaces(its["ports"], at), line.number))

    def _static_drop(self, line: Line, found: statements.Found, here: list) -> None:
        at = self.at(line)
        self.entries.append(Entry(numbers.vlan(found.values["vlan"], at), numbers.mac(found.values["mac"], at), [], line.number))

    def _banner(self, line: Line, found: statements.Found, here: list) -> None:
        """A text of several lines, up to the sign with which it begins."""
        words = line.text.split(None, 2)
        rest = words[2] if len(words) > 2 else ""
        sign = rest[:2] if rest.startswith("^C") else rest[:1]
        self.banner = sign if sign and sign not in rest[len(sign):] else ""
        self.leave(line, "management", "")

    # What statements of a VLAN and of an extender mean.

    def _vlan_name(self, line: Line, found: statements.Found, here: list) -> None:
        for vid in here:
            self.vlans[vid].name = found.values["text"].strip('"')

    def _vlan_kind(self, line: Line, found: statements.Found, here: list) -> None:
        words = line.text.lower().split()
        for vid in here:
            self.vlans[vid].kind = "" if words[0] == "no" else words[-1]

    def _vlan_off(self, line: Line, found: statements.Found, here: list) -> None:
        for vid in here:
            self.vlans[vid].is_off = True

    def _fex_description(self, line: Line, found: statements.Found, here: list) -> None:
        for number in here:
            self.fexes[number].description = found.values["text"].strip('"')

    def _group(self, line: Line, found: statements.Found, here: list) -> None:
        at = self.at(line)
        mac, ports = numbers.group(found.values["group"], at), interfaces(found.values["ports"], at)
        self.entries += [Entry(vid, mac, ports, line.number) for vid in here]
