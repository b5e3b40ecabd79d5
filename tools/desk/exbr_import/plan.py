"""A plan by hand: a topology in fewer words, with ranges and lists where a topology has single ports. docs/plan.md is its reference."""
from __future__ import annotations

import os
import re
import tomllib
from dataclasses import dataclass, field

from exbr_desk import plain
from exbr_desk import topology as topologies
from exbr_desk.errors import DeskError
from exbr_desk.short import natural

from . import lines, numbers
from .switch import Box, Port, Static, Switch

BLOCK = {"ports", "use", "access", "trunk", "native", "pvid", "tagged", "untagged", "accept", "filter", "isolated", "shutdown", "name", "interface"}
TABLES = {
    "bridge": {"ports", "channels", "groups", "ageing", "out"}, "links": {"fate"}, "vlans": None, "template": None, "names": None, "captures": None,
    "extender": {"number", "on", "ports", "name", "rack"}, "ports": BLOCK, "static": {"vlan", "mac", "ports"}, "change": BLOCK | {"at"},
    "command": None, "switch": None,
}
MOST = 1000
LISTS = ("extender", "ports", "static", "change", "command")
EXPLICIT = {"pvid", "tagged", "untagged", "accept", "filter"}
SPAN = re.compile(r"((?:b|x\d+\.))(\d+)-(?:b|x\d+\.)?(\d+)")


@dataclass
class Reader:
    """A plan that is read: its tables, the lines at which they begin, the tree, and what VLANs are called."""

    path: str
    tables: dict
    at: dict[str, list[int]] = field(default_factory=dict)
    tree: plain.Tree | None = None
    called: dict[str, set[int]] = field(default_factory=dict)

    def where(self, table: str, number: int) -> str:
        """An element of a list, for a fault."""
        known = self.at.get(table, [])
        return f"{self.path}: line {known[number]}" if number < len(known) else f"{self.path}: {table} {number + 1}"

    def line(self, table: str, number: int) -> int:
        """The line at which an element of a list begins, or 0."""
        known = self.at.get(table, [])
        return known[number] if number < len(known) else 0


def read(path: str) -> Reader:
    """The plan of a file, whose tables and keys are known ones."""
    text = lines.text_of(path)
    try:
        tables = tomllib.loads(text)
    except (tomllib.TOMLDecodeError, RecursionError) as fault:
        raise DeskError(f"{path}: no TOML ({fault})") from None
    it = Reader(path, tables)
    for name in LISTS:
        if not isinstance(tables.get(name, []), list) or not all(isinstance(one, dict) for one in tables.get(name, [])):
            raise DeskError(f"{path}: {name} is a list of tables, as [[{name}]]")
        heads = [number for number, line in enumerate(text.split("\n"), 1) if re.match(rf"\s*\[\[\s*{name}\s*\]\]", line)]
        it.at[name] = heads if len(heads) == len(tables.get(name, [])) else []
    look(it)
    return it


def look(it: Reader) -> None:
    """That all tables and keys are known."""
    for name in it.tables.keys() - TABLES.keys():
        raise DeskError(f"{it.path}: a plan has no table {name}; it has {', '.join(sorted(TABLES))}")
    for name in ("bridge", "links", "vlans", "template", "names", "captures"):
        if not isinstance(it.tables.get(name, {}), dict):
            raise DeskError(f"{it.path}: {name} is a table, as [{name}]")
    if "bridge" not in it.tables:
        raise DeskError(f"{it.path}: it has no [bridge] with its ports")
    elements = [(name, number, one) for name in LISTS for number, one in enumerate(it.tables.get(name, []))]
    for name, number, one in [("bridge", None, it.tables["bridge"]), *elements]:
        unknown = sorted(one.keys() - TABLES[name]) if TABLES[name] is not None else []
        if unknown:
            where = it.where(name, number) if number is not None else f"{it.path}: [bridge]"
            raise DeskError(f"{where}: there is no key {unknown[0]}; there are {', '.join(sorted(TABLES[name]))}")


def tree(it: Reader) -> list[dict]:
    """The extenders, each by itself, which are looked at as those of a topology are. It puts the tree into the plan."""
    found = [one for number, its in enumerate(it.tables.get("extender", [])) for one in spread(its, it.where("extender", number), it.line("extender", number))]
    bare = [{key: one[key] for key in ("number", "on", "ports")} for one in found]
    text = topologies_text({"bridge": it.tables["bridge"], "extender": bare} if bare else {"bridge": it.tables["bridge"]})
    it.tree = topologies.of_text(text, it.path).tree
    return found


def topologies_text(tables: dict) -> str:
    """Tables as a topology."""
    from exbr_desk.play import written
    return written(tables)


def spread(its: dict, where: str, line: int) -> list[dict]:
    """The extenders of one table: `number = "1-4"` and `on = "b5-8"` are four."""
    for key in ("number", "on", "ports"):
        if key not in its:
            raise DeskError(f"{where}: an extender has a {key}")
    count = its["number"]
    many = sorted(numbers.vlans(count, f"{where}: number")) if isinstance(count, str) and re.fullmatch(r"[\d, -]+", count) else [count]
    places = places_of(its["on"], f"{where}: on")
    if len(places) != len(many):
        raise DeskError(f"{where}: there are {len(many)} numbers of extenders, and {len(places)} ports on which they hang")
    return [{"number": number, "on": on, "ports": its["ports"], "line": line, "name": str(its.get("name", "")).replace("{n}", str(number)),
             "rack": str(its.get("rack", "")).replace("{n}", str(number))} for number, on in zip(many, places)]


def places_of(text: object, where: str) -> list[str]:
    """The ports that words of ranges name, without looking at the tree."""
    found: list[str] = []
    for word in words_of(text, where):
        span = SPAN.fullmatch(word)
        if span and int(span[3]) <= 64:
            found += [f"{span[1]}{it}" for it in range(int(span[2]), int(span[3]) + 1)]
        else:
            found.append(word)
    wrong = [it for it in found if not plain.is_port(it)]
    if wrong:
        raise DeskError(f"{where}: {lines.shown(wrong[0])[:20]} is no port as b5 or x1.3")
    return found


def words_of(text: object, where: str) -> list[str]:
    """The words of a text with commas or blanks between them, or of a list."""
    them = [text] if isinstance(text, (str, int)) and not isinstance(text, bool) else text
    if not isinstance(them, list) or not all(isinstance(it, (str, int)) and not isinstance(it, bool) for it in them):
        raise DeskError(f"{where} is a text, or a list of texts")
    return [word for it in them for word in re.split(r"[,\s]+", re.sub(r"\s*-\s*", "-", str(it).strip())) if word]


def ports_of(it: Reader, text: object, where: str) -> list[int]:
    """The external ports that words name, in their order, each once."""
    found: dict[int, None] = {}
    for word in words_of(text, where):
        span = SPAN.fullmatch(word)
        word = f"{span[1]}{span[2]}-{span[3]}" if span else word
        if not plain.is_port(word) and not topologies.WORD.fullmatch(word):
            raise DeskError(f"{where}: {lines.shown(word)[:20]} is no port as b5, x1.3, x1.1-8, x1.* or *")
        if span and int(span[3]) < int(span[2]):
            raise DeskError(f"{where}: {word} is the wrong way round")
        them = it.tree.ports(word)
        wrong = sorted(them - set(it.tree.external))
        if wrong or not them:
            raise DeskError(f"{where}: {word}: {plain.name_of(wrong[0]) if wrong else word} is no external port of this plan")
        found |= dict.fromkeys(sorted(them))
    return list(found)


def vids_of(it: Reader, value: object, where: str) -> set[int]:
    """The VLANs of a value: numbers, ranges, and names of [vlans]."""
    found: set[int] = set()
    for word in words_of(value, where):
        if word in it.called:
            found |= it.called[word]
        elif word[0].isdigit():
            found |= numbers.vlans(word, where)
        else:
            raise DeskError(f"{where}: [vlans] has no {lines.shown(word)[:20]}")
    return found


def vid_of(it: Reader, value: object, where: str) -> int:
    """One VLAN."""
    found = vids_of(it, value, where)
    if len(found) != 1:
        raise DeskError(f"{where} is one VLAN")
    return found.pop()


def block_of(it: Reader, block: dict, where: str) -> dict:
    """A block with what its template says."""
    name = block.get("use")
    templates = it.tables.get("template", {})
    if name is not None and not isinstance(templates.get(name) if isinstance(name, str) else None, dict):
        raise DeskError(f"{where}: there is no [template.{lines.shown(str(name))[:20]}]")
    base = templates[name] if name is not None else {}
    unknown = sorted(base.keys() - (BLOCK - {"use", "ports"}))
    if unknown:
        raise DeskError(f"{where}: its template has a key {unknown[0]}; a template has {', '.join(sorted(BLOCK - {'use', 'ports'}))}")
    its = base | block
    forms = [key for key in ("access", "trunk") if key in block] or [key for key in ("access", "trunk") if key in its]
    if len(forms) > 1 or forms and EXPLICIT & its.keys() - {"accept", "filter"}:
        raise DeskError(f"{where}: a port has one of access, trunk, or pvid, tagged and untagged")
    for key in ("filter", "isolated", "shutdown"):
        if not isinstance(its.get(key, False), bool):
            raise DeskError(f"{where}: {key} is true or false")
    if its.get("accept", "all") not in ("all", "tagged", "untagged"):
        raise DeskError(f"{where}: accept is all, tagged or untagged")
    return {key: value for key, value in its.items() if key not in ("access", "trunk") or key in forms}


def apply(it: Reader, port: Port, block: dict, where: str) -> None:
    """What a block says of a port."""
    port.why = ""
    port.is_up, port.isolated = not block.get("shutdown", False), block.get("isolated", False)
    port.accept, port.filter = block.get("accept", ""), block.get("filter", True)
    port.tagged, port.untagged, port.pvid = set(), set(), None
    if "access" in block:
        port.pvid = vid_of(it, block["access"], f"{where}: access")
        port.untagged = {port.pvid}
    elif "trunk" in block:
        port.tagged = vids_of(it, block["trunk"], f"{where}: trunk")
        if "native" in block:
            port.pvid = vid_of(it, block["native"], f"{where}: native")
            port.untagged = {port.pvid}
            port.tagged -= port.untagged
    elif EXPLICIT & block.keys():
        port.pvid, port.filter = vid_of(it, block.get("pvid", 1), f"{where}: pvid"), block.get("filter", False)
        port.tagged, port.untagged = (vids_of(it, block.get(key, []), f"{where}: {key}") for key in ("tagged", "untagged"))
        port.tagged -= port.untagged
        port.accept = block.get("accept", "all")
    else:
        port.why = "in no VLAN"
        port.accept = ""
    if "native" in block and "trunk" not in block:
        raise DeskError(f"{where}: native is of a trunk")


def name(port: Port, block: dict, at: int, where: str) -> None:
    """What a block calls a port: {n} is its number in the block, {port} that on its extender or bridge, {extender} its extender."""
    for key in ("name", "interface"):
        if not isinstance(block.get(key, ""), str):
            raise DeskError(f"{where}: {key} is a text")
    box, _, slot = port.place.lstrip("bx").rpartition(".")
    values = {"{n}": str(at), "{port}": slot, "{extender}": box or "0"}
    said = [re.sub(r"\{(?:n|port|extender)\}", lambda one: values[one[0]], block.get(key, "")) for key in ("name", "interface")]
    port.description, port.name = said[0] or port.description, said[1] or port.name


def switch_of(path: str) -> Switch:
    """The switch of a plan. Its changes stand in `extra`, as switches too."""
    it = read(path)
    extenders = tree(it)
    it.called = {key: numbers.vlans(str(value), f"{path}: vlans.{key}") if isinstance(value, (str, int)) and re.fullmatch(r"[\d, -]+", str(value)) else
                 broken(f"{path}: vlans.{lines.shown(key)[:20]} is a VLAN or a list, as 10 or \"20-22\"") for key, value in it.tables.get("vlans", {}).items()}
    found = Switch(f"the plan {os.path.basename(path)}", [], file=os.path.basename(path), ageing=it.tables["bridge"].get("ageing", 300))
    found.local = it.tables["bridge"]["ports"]
    found.extenders = {one["number"]: (one["on"], one["ports"]) for one in extenders}
    found.boxes = {one["number"]: Box(one["on"], one["ports"], one["rack"], one["line"], one["name"], one["number"]) for one in extenders}
    found.limits = {key: its for key, its in it.tables["bridge"].items() if key in ("channels", "groups")}
    found.vlan_names = {min(vids): key for key, vids in it.called.items() if len(vids) == 1}
    found.ports = [Port(plain.name_of(port), place=plain.name_of(port), why="in no block", box=port // 64 or None) for port in it.tree.external]
    named(it, found)
    blocks(it, found)
    found.statics = statics(it, found)
    rest(it, found)
    return found


def broken(said: str) -> set[int]:
    """Ends with a fault where an expression is asked for."""
    raise DeskError(said)


def named(it: Reader, found: Switch) -> None:
    """The names of single ports, as names.toml has them."""
    of = found.by(lambda one: one.place)
    for place, its in it.tables.get("names", {}).items():
        its = {"description": its} if isinstance(its, str) else its
        if place not in of or not isinstance(its, dict) or not all(isinstance(one, str) for key, one in its.items() if key != "members"):
            raise DeskError(f"{it.path}: names.{lines.shown(place)[:20]}: an external port of this plan, with its name as a text, or with interface and description")
        of[place].name, of[place].description = its.get("interface", place), its.get("description", "")
        of[place].members = tuple(str(one) for one in its.get("members", ()))


def blocks(it: Reader, found: Switch) -> None:
    """The blocks of ports."""
    of = {plain.number_of(one.place): one for one in found.ports}
    for number, block in enumerate(it.tables.get("ports", [])):
        where = it.where("ports", number)
        its = block_of(it, block, where)
        for at, port in enumerate(ports_of(it, its.get("ports", []), f"{where}: ports"), 1):
            if of[port].line or of[port].why != "in no block":
                raise DeskError(f"{where}: {of[port].place} is in an earlier block" + (f" too, of line {of[port].line}" if of[port].line else ""))
            apply(it, of[port], its, where)
            name(of[port], its, at, where)
            of[port].line = it.line("ports", number)


def statics(it: Reader, found: Switch) -> list[Static]:
    """The static entries."""
    of, made = {plain.number_of(one.place): one.name for one in found.ports}, []
    for number, its in enumerate(it.tables.get("static", [])):
        where = it.where("static", number)
        lacking = [key for key in ("vlan", "mac", "ports") if key not in its]
        if lacking:
            raise DeskError(f"{where}: a static entry has a {lacking[0]}")
        ports = [of[port] for port in ports_of(it, its["ports"], f"{where}: ports")]
        made.append(Static(vid_of(it, its["vlan"], f"{where}: vlan"), numbers.mac(str(its["mac"]), where), ports, it.line("static", number)))
    return made


def rest(it: Reader, found: Switch) -> None:
    """Commands, changes, captures, and the fate of links."""
    if it.tables.get("change") and it.tables.get("command"):
        raise DeskError(f"{it.path}: a plan has [[change]] or [[command]], and not both")
    of = found.by(lambda one: one.place)
    for place, file in it.tables.get("captures", {}).items():
        if place not in of or not isinstance(file, str):
            raise DeskError(f"{it.path}: captures.{lines.shown(place)[:20]}: an external port of this plan, with the name of a file")
        of[place].capture = file
    found.extra = {key: it.tables[key] for key in ("command", "links") if key in it.tables}
    if "out" in it.tables["bridge"]:
        found.extra["out"] = it.tables["bridge"]["out"]
    found.extra["changes"] = changes(it, found)


def changes(it: Reader, found: Switch) -> list[tuple[int, Switch, int]]:
    """The switch after each change, with its second and its line."""
    made: list[tuple[int, Switch, int]] = []
    now = found
    if len(it.tables.get("change", [])) > MOST:
        raise DeskError(f"{it.path}: it has more than {MOST} changes")
    for number, block in enumerate(it.tables.get("change", [])):
        where, at = it.where("change", number), block.get("at")
        if isinstance(at, bool) or not isinstance(at, int) or not 0 <= at <= 4294967295 or made and at < made[-1][0]:
            raise DeskError(f"{where}: at is a second from 0 on, and not before that of the change before")
        its = block_of(it, {key: value for key, value in block.items() if key != "at"}, where)
        wanted = set(ports_of(it, its.get("ports", []), f"{where}: ports"))
        ports = [Port(**vars(one)) for one in now.ports]
        for port in [one for one in ports if plain.number_of(one.place) in wanted]:
            apply(it, port, its, where)
            port.line = it.line("change", number)
        now = Switch(now.source, ports, now.ageing, now.statics, boxes=now.boxes, vlan_names=now.vlan_names, file=now.file)
        made.append((at, now, it.line("change", number)))
    return made


__all__ = ["natural", "switch_of"]
