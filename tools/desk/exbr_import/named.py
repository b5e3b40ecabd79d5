"""What ports are called, as the text of `names.toml`, which all tools of the desk take."""
import json

from .switch import Port, Switch
from .text import comment


def quoted(text: str) -> str:
    """A text of TOML, in one line."""
    return json.dumps("".join(it if it.isprintable() else "?" for it in text), ensure_ascii=False)


def row(it: Port, rack: str) -> str:
    """The name of a port."""
    parts = [f"interface = {quoted(it.name)}"]
    parts += [f"description = {quoted(it.description)}"] if it.description else []
    parts += [f"rack = {quoted(rack)}"] if rack else []
    parts += [f"members = [{', '.join(map(quoted, it.members))}]"] if it.members else []
    return f'"{it.place}" = {{ {", ".join(parts)} }}'


def names(switch: Switch) -> str:
    """The whole text."""
    racks = {number: it.rack for number, it in switch.boxes.items()}
    parts = [f"# Made by exbr-import from {comment(switch.source)}: what its ports are called."]
    parts += [f"switch = {quoted(switch.name)}"] if switch.name else []
    boxes = [f"x{it.number} = {{ name = {quoted(it.name)}{f', rack = {quoted(it.rack)}' if it.rack else ''} }}"
             for it in sorted(switch.boxes.values(), key=lambda one: one.number) if it.name]
    parts += ["\n".join(["[extender]", *boxes])] if boxes else []
    parts.append("\n".join(["[port]", *(row(it, racks.get(it.box, "")) for it in switch.ports if it.name)]))
    parts += ["\n".join(["[vlan]", *(f"{vid} = {quoted(it)}" for vid, it in sorted(switch.vlan_names.items()))])] if switch.vlan_names else []
    return "\n\n".join(parts) + "\n"
