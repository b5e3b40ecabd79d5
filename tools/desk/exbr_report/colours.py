"""Which colour a VLAN has. The page's style sheet says the colours, so that they suit its light and its dark look."""
from collections import Counter

from .facts import Port

SHADES = 10


class Palette:
    """The VLANs with most members have a colour of their own; all others share one."""

    def __init__(self, ports: list[Port]) -> None:
        count = Counter(it.vid for port in ports for it in port.members)
        chosen = sorted(count, key=lambda vid: (-count[vid], vid))[:SHADES]
        self.shade = {vid: f"v{at}" for at, vid in enumerate(sorted(chosen))}
        self.more = len(count) > SHADES

    def of(self, vid: int) -> str:
        """The class of a VLAN's colour."""
        return self.shade.get(vid, "vx")
