"""Ports and VLANs in few words."""
from exbr_desk.lists import ports

from .markup import Markup, join, tag
from .colours import Palette
from .facts import Member

__all__ = ["chips", "ports"]


def chips(members: list[Member], count: int, palette: Palette, most: int = 12) -> Markup:
    """The VLANs of a port, of which there are so many, each with its colour. A tagged one has a dashed frame and a `t`."""
    shown = [tag("span", f"{it.vid}t" if it.tagged else it.vid, class_=f"chip {'t ' if it.tagged else ''}{palette.of(it.vid)}",
                 title=f"VLAN {it.vid}, {'tagged' if it.tagged else 'untagged'}") for it in members[:most]]
    more = f" and {count - len(shown)} more" if count > len(shown) else ""
    return join(shown, more) if members else join("none")
