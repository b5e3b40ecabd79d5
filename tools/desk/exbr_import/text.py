"""A switch as the text of a topology."""
import json

from . import notes
from .numbers import ranges, runs
from .switch import Port, Static, Switch


def words(places: list[str]) -> str:
    """Ports as a list of a topology."""
    heads: dict[str, list[int]] = {}
    for it in places:
        head, dot, last = it.rpartition(".")
        heads.setdefault(head + dot if dot else "b", []).append(int(last if dot else it[1:]))
    them = [f"{head}{first}-{last}" if last > first else f"{head}{first}"
            for head, numbers in heads.items() for first, last in runs(sorted(numbers))]
    return "[" + ", ".join(f'"{it}"' for it in them) + "]"


def members(ports: list[Port]) -> dict[int, tuple[list[str], list[str]]]:
    """The tagged and the untagged members of each VLAN."""
    found: dict[int, tuple[list[str], list[str]]] = {}
    for port in ports:
        for at, vids in enumerate((port.tagged, port.untagged)):
            for vid in vids:
                found.setdefault(vid, ([], []))[at].append(port.place)
    return found


def vlans(ports: list[Port], names: dict[int, str] | None = None) -> list[str]:
    """The tables of the VLANs. VLANs that follow each other with the same members are one table."""
    them = members(ports)
    parts: list[list] = []
    for vid in sorted(them):
        if parts and parts[-1][1] + 1 == vid and parts[-1][2] == them[vid]:
            parts[-1][1] = vid
        else:
            parts.append([vid, vid, them[vid]])
    return [vlan(*it, names or {}) for it in parts] or ["vlan = []"]


def vlan(first: int, last: int, them: tuple[list[str], list[str]], names: dict[int, str]) -> str:
    """The table of a VLAN, or of several."""
    named = ", ".join(names[it] for it in range(first, last + 1) if it in names)
    lines = [f"[[vlan]]   # {comment(named)}" if named else "[[vlan]]", f"vid = {first}"] + ([f"last = {last}"] if last > first else [])
    for key, ports in zip(("tagged", "untagged"), them):
        lines += [f"{key} = {words(ports)}"] if ports else []
    return "\n".join(lines)


def port(it: Port) -> str:
    """The table of a port, as far as it isn't as ports are."""
    lines = [f"pvid = {it.pvid}"] if it.pvid not in (None, 1) else []
    lines += [f'accept = "{it.accepts}"'] if it.accepts != "all" else []
    lines += ["filter = true"] if it.filter else []
    lines += ["isolated = true"] if it.isolated else []
    return "\n".join([f"[[port]]   # {comment(about(it))}", f'name = "{it.place}"', *lines]) if lines else ""


def about(it: Port) -> str:
    """What a reader should know of a port: its name, its line, and why it is in no VLAN."""
    parts = [it.shown] if it.name else []
    parts += [f"line {it.line}"] if it.line else []
    return ", ".join(parts + ([it.why] if it.why else []))


def comment(text: str) -> str:
    """A text that can stand in a comment."""
    return "".join(it if it.isprintable() else "?" for it in text)


def head(switch: Switch, names: list[Port]) -> str:
    """The comments with which a topology begins."""
    lost = notes.comments(switch)
    lines = [f"# Made by exbr-import from {comment(switch.source)}."]
    lines += ["#", "# Not carried over:"] + [f"# - {comment(it)}" for it in lost] if lost else []
    lines += ["#", "# To know:"] + [f"# - {comment(it)}" for it in switch.notes] if switch.notes else []
    lines += ["#", "# Ports:"] + [f"# - {it.place} is {comment(it.shown)}" for it in names] if names and not switch.boxes else []
    return "\n".join(lines)


def extenders(switch: Switch) -> list[str]:
    """The tables of the extenders."""
    of = {it.number: it for it in switch.boxes.values()}
    found = []
    for number, (on, count) in sorted(switch.extenders.items()):
        it = of.get(number)
        said = ", ".join([part for part in (it.name, it.rack, f"line {it.line}" if it.line else "") if part]) if it else ""
        found.append(f"[[extender]]{f'   # {comment(said)}' if said else ''}\nnumber = {number}\non = \"{on}\"\nports = {count}")
    return found


def static(it: Static, places: dict[str, str]) -> str:
    """The table of a static entry."""
    return f'[[static]]{f"   # line {it.line}" if it.line else ""}\nvid = {it.vid}\nmac = "{it.mac}"\nports = {words([places[name] for name in it.ports])}'


def topology(switch: Switch, commands: list[str] | None = None) -> str:
    """The whole text, with commands that come later."""
    names = [it for it in switch.ports if it.name and it.shown != it.place]
    bridge = ["[bridge]", f"ports = {switch.local}", *(f"{key} = {value}" for key, value in switch.limits.items()), f"ageing = {switch.ageing}"]
    bridge += [f"out = {json.dumps(switch.extra['out'])}"] if "out" in switch.extra else []
    links = [f"[links]\nfate = {json.dumps(switch.extra['links'].get('fate', ''))}"] if "links" in switch.extra else []
    them = vlans(switch.ports, switch.vlan_names)
    parts = [head(switch, names), *(it for it in them if it == "vlan = []"), "\n".join(bridge), *links, *extenders(switch)]
    parts += [it for it in map(port, switch.ports) if it] + [it for it in them if it != "vlan = []"]
    places = {it.name: it.place for it in switch.ports}
    parts += [static(it, places) for it in switch.statics]
    parts += [f'[[command]]   # {comment(it.shown)} was down\nat = 0\nop = "down"\nport = "{it.place}"' for it in switch.ports if not it.is_up and not it.why]
    parts += commands or []
    captured = [f'"{it.place}" = {json.dumps(it.capture)}' for it in switch.ports if it.capture]
    parts += ["\n".join(["[captures]", *captured])] if captured else []
    return "\n\n".join(parts) + "\n"


__all__ = ["comment", "members", "ranges", "runs", "topology", "vlans", "words"]
