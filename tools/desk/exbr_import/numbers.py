"""VLANs, ports and addresses as configurations write them."""
import ipaddress
import re

from exbr_desk.errors import DeskError
from exbr_desk.short import compact, folded, natural, ranges, runs

__all__ = ["EVERY", "compact", "folded", "group", "mac", "natural", "ranges", "runs", "vlan", "vlans"]
EVERY = frozenset(range(1, 4095))


def vlan(text: str, where: str) -> int:
    """A VLAN."""
    if len(text) > 4 or not 1 <= int(text) <= 4094:
        raise DeskError(f"{where}: VLAN {text[:12]} isn't in 1 to 4094")
    return int(text)


def vlans(text: str, where: str) -> set[int]:
    """A list of VLANs, as `10,20-22`."""
    found: set[int] = set()
    for part in re.split("[, ]+", re.sub(r"\s*-\s*", "-", text.strip(", "))):
        ends = re.fullmatch(r"(\d+)(?:-(\d+))?", part)
        if not ends:
            raise DeskError(f"{where}: a list of VLANs is as 10,20-22")
        first = vlan(ends[1], where)
        last = vlan(ends[2], where) if ends[2] else first
        if last < first:
            raise DeskError(f"{where}: the VLANs {first}-{last} are the wrong way round")
        found.update(range(first, last + 1))
    return found


def mac(text: str, where: str) -> str:
    """An address in any of the usual forms, as `02:00:00:00:aa:01`."""
    digits = re.sub("[.:-]", "", text).lower()
    if not re.fullmatch("[0-9a-f]{12}", digits):
        raise DeskError(f"{where}: it has no address of 12 hexadecimal digits")
    return ":".join(digits[it:it + 2] for it in range(0, 12, 2))


def group(text: str, where: str) -> str:
    """The Ethernet address of a group of IPv4 or IPv6."""
    try:
        address = ipaddress.ip_address(text)
    except ValueError:
        return mac(text, where)
    if not address.is_multicast:
        raise DeskError(f"{where}: {address} is no address of a group")
    data = address.packed
    return (bytes((1, 0, 0x5E, data[1] & 0x7F, *data[2:])) if address.version == 4 else b"\x33\x33" + data[-4:]).hex(":")
