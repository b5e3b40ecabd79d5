"""Why a frame went where it went, in sentences.

A sentence is a code with its values. `TEMPLATES` has the text of each code, so a page may keep the texts once, and values by frame.
An explanation has to be made while the reading stands at its frame: the configuration in force is that of this moment.
"""
from __future__ import annotations

from dataclasses import dataclass, field

from . import frames, plain
from .judge import seconds
from .reading import NAMES, Arrival, Reading

TEMPLATES = {
    "absent": "ignored: {port} is down{since}",
    "short": "ignored: the frame is shorter than 14 bytes",
    "long": "ignored: the frame is longer than 9,216 bytes",
    "reserved": "ignored: it goes to {destination}, an address that no bridge relays",
    "bad tag": "relayed to nobody: its VLAN tag is cut off or names VLAN 4095, so it passes in no VLAN",
    "accept tagged": "refused by {port}, which accepts tagged frames alone{since}; this one has {tag}",
    "accept untagged": "refused by {port}, which accepts frames without a VLAN alone{since}; this one has {tag}",
    "vlan": "refused: VLAN {vid} has no member{since}, so nothing passes in it ({because})",
    "filter": "refused by {port}, which filters{filters} and isn't a member of VLAN {vid}{since} ({because})",
    "passes": "passed in VLAN {vid} ({because})",
    "by tag": "its tag says so",
    "by pvid": "it has {tag}, and {port} puts such frames into VLAN {vid}{since}",
    "static": "target: a static entry names {destination} in VLAN {vid}: {ports}{since}",
    "learned": "target: {destination} was learned in VLAN {vid} at {at}, by frame {index} of {at}, {ago} s before (ageing {ageing} s)",
    "learned here": "target: {destination} was learned at {at} itself, by frame {index}, {ago} s before: it is there already, so nothing leaves",
    "group": "target: {destination} is for a group, and no static entry names it in VLAN {vid}, so it is flooded",
    "unknown": "target: {destination} isn't learned in VLAN {vid}, so it is flooded",
    "aged": "target: {destination} was last seen in VLAN {vid} at {at}, by frame {index} of {at}, {ago} s before. That is too old "
            "(ageing {ageing} s), so it is flooded",
    "leaves": "left {port} with {tag}",
    "nowhere": "left nowhere",
    "not member": "not at {port}: it was chosen, and isn't a member of VLAN {vid}{since}",
    "not present": "not at {port}: it is down{since}",
    "not isolated": "not at {port}: it is isolated{since}, as {from} is{other}",
    "not back": "not at {port}: from there it came",
}


@dataclass(frozen=True)
class Sentence:
    """A sentence by its code, and the values that stand in it."""

    code: str
    values: dict = field(default_factory=dict)

    @property
    def text(self) -> str:
        return TEMPLATES[self.code].format(**self.values)


def explain(reading: Reading, it: Arrival) -> list[Sentence]:
    """The way of a frame by the rules, in the order in which they are asked."""
    if it.rule is not None:
        return [_refused(reading, it)]
    told = [Sentence("passes", {"vid": it.vid, "because": _because(reading, it)}), _target(reading, it)]
    told += [Sentence("leaves", {"port": NAMES[port], "tag": frames.tag_in_words(plain.egress(it.frame, kind, it.vid))})
             for port, kind in it.targets]
    return told + ([] if it.targets else [Sentence("nowhere")]) + _left_out(reading, it)


def since(reading: Reading, *what) -> str:
    """Which command touched something last, where one did."""
    number = last(reading.since, *what)
    return f" (as command {number} left it)" if number else ""


def last(since: dict[tuple, int], *what) -> int:
    """The number of the command that set something last, or 0. A membership is set by what sets all members, too."""
    found = since.get(what, 0)
    return max(found, since.get(("vlan", what[1]), 0)) if what[0] == "member" else found


def _because(reading: Reading, it: Arrival) -> str:
    if plain.kind_of(it.frame)[0] == "tagged":
        return TEMPLATES["by tag"]
    values = {"tag": frames.tag_in_words(it.frame), "port": NAMES[it.port], "vid": it.vid, "since": since(reading, "pvid", it.port)}
    return TEMPLATES["by pvid"].format(**values)


def _refused(reading: Reading, it: Arrival) -> Sentence:
    port, rules = it.port, reading.now.rules[it.port]
    values = {"port": NAMES[port], "vid": it.vid, "tag": frames.tag_in_words(it.frame), "destination": frames.mac(it.frame[:6])}
    if it.rule == "absent":
        return Sentence("absent", values | {"since": since(reading, "present", port) or _never(port)})
    if it.rule == "accept":
        return Sentence(f"accept {rules.accept}", values | {"since": since(reading, "accept", port)})
    if it.rule in ("vlan", "filter"):
        about = ("members", it.vid) if it.rule == "vlan" else ("member", it.vid, port)
        values |= {"since": since(reading, *about), "because": _because(reading, it), "filters": since(reading, "filter", port)}
    return Sentence(it.rule, values)


def _never(port: int) -> str:
    return " (it didn't come up at the opening)" if port >= 64 else ""


def _target(reading: Reading, it: Arrival) -> Sentence:
    values = {"destination": "broadcast" if it.frame[:6] == b"\xff" * 6 else frames.mac(it.frame[:6]), "vid": it.vid}
    if it.how == "static":
        ports = reading.now.statics[it.vid, it.frame[:6]]
        names = ", ".join(NAMES[port] for port in sorted(ports)) or "no port"
        return Sentence("static", values | {"ports": names, "since": since(reading, "static", it.vid, it.frame[:6])})
    if it.entry is not None:
        values |= {"at": NAMES[it.entry.port], "index": it.entry.index, "ago": it.clock - it.entry.clock, "ageing": reading.ageing}
        if it.how == "learned":
            return Sentence("learned here" if it.entry.port == it.port else "learned", values)
        return Sentence("aged", values)
    return Sentence("group" if it.frame[0] & 1 else "unknown", values)


def _left_out(reading: Reading, it: Arrival) -> list[Sentence]:
    """The members, and the ports that were chosen, at which it doesn't leave, and why."""
    now, there = reading.now, {port for port, _ in it.targets}
    members = {port for ports in now.vlans.get(it.vid, {}).values() for port in ports}
    chosen = now.statics[it.vid, it.frame[:6]] if it.how == "static" else {it.entry.port} if it.how == "learned" else members
    told = []
    for port in sorted(chosen - there):
        values = {"port": NAMES[port], "vid": it.vid}
        if port == it.port:
            if it.how == "static":
                told.append(Sentence("not back", values))
        elif port not in members:
            told.append(Sentence("not member", values | {"since": since(reading, "member", it.vid, port)}))
        elif port not in now.present:
            told.append(Sentence("not present", values | {"since": since(reading, "present", port) or _never(port)}))
        else:
            told.append(Sentence("not isolated", values | {"since": since(reading, "isolate", port), "from": NAMES[it.port],
                                                           "other": since(reading, "isolate", it.port)}))
    return told


def came(it: Arrival) -> str:
    """Which frame it is, and when it came."""
    return f"frame {it.index} of {NAMES[it.port]}, at {seconds(it.moment)}: {frames.describe(it.frame)}"


def counted(count: int, what: str) -> str:
    """A number of things in words."""
    return f"{count:,} {what}{'' if count == 1 else 's'}"
