"""The names of `names.toml` on a page: ports keep their places as keys, and are shown as they are called on their switch."""
import string

from exbr_desk.names import Names

from .facts import Report

ROOM = 8


def put(report: Report, called: Names) -> None:
    """Puts the names into what the page shows. Without names nothing changes."""
    if not called.ports:
        return
    for port in report.ports:
        it = called.ports.get(port.name)
        port.label, port.short = (it.shown, small(it.interface)) if it else ("", "")
    for device in report.devices:
        device.label = called.extenders.get(device.number, "")
    for change in report.changes:
        change.words, change.cause = called.speak(change.words), called.speak(change.cause)
    for notice in report.notices:
        notice.text = called.speak(notice.text)
    report.frames["names"] = [port.shown for port in report.ports]
    report.frames["interfaces"] = [called.short(port.name) for port in report.ports]
    report.frames["words"] = [called.speak(it) for it in report.frames["words"]]


def small(interface: str) -> str:
    """An interface in the few letters for which a tile has room: `Eth1/3`, `Po1`, and `101/1/7` where its kind doesn't fit."""
    short = interface.replace("Ethernet", "Eth").replace("port-channel", "Po")
    return short if len(short) <= ROOM else short.lstrip(string.ascii_letters + "-")[:ROOM + 1]
