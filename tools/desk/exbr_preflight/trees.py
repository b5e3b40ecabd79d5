"""The second and the third pass: the tree of extenders, the ports that words name, and what is given twice."""
from __future__ import annotations

from typing import Iterator

from exbr_desk import plain

from .faults import Fault, fault

NAMES = plain.name_of


# The second pass.

def of_tree(tables: dict) -> Iterator[Fault]:
    extenders = tables.get("extender", [])
    numbers, hung, ports = {}, {}, {0: tables["bridge"]["ports"]}
    for it in extenders:
        ports.setdefault(it["number"], it["ports"])
    for at, it in enumerate(extenders):
        number, on = it["number"], plain.number_of(it["on"])
        if number in numbers:
            yield fault("TwoUpstreams", "extender", at, "number", number=number, first=numbers[number])
        if on in hung:
            yield fault("SharedPort", "extender", at, "on", port=it["on"], first=hung[on])
        if on % 64 >= ports.get(on // 64, 0):
            yield fault("UnknownPort", "extender", at, "on", value=it["on"], ports=ports)
        numbers.setdefault(number, at)
        hung.setdefault(on, at)
    if not any(True for _ in _broken(extenders, ports)):
        yield from _loops(extenders)
        yield from _channels(tables)


def _broken(extenders: list[dict], ports: dict[int, int]) -> Iterator[int]:
    """The extenders with a fault of their own, behind which nothing is said of the tree."""
    numbers = [it["number"] for it in extenders]
    places = [plain.number_of(it["on"]) for it in extenders]
    for at, place in enumerate(places):
        if numbers.index(numbers[at]) < at or places.index(place) < at or place % 64 >= ports.get(place // 64, 0):
            yield at


def _loops(extenders: list[dict]) -> Iterator[Fault]:
    above = {it["number"]: plain.number_of(it["on"]) // 64 for it in extenders}
    for at, it in enumerate(extenders):
        way = [it["number"]]
        while way[-1] and len(way) <= len(extenders) + 1:
            way.append(above[way[-1]])
        if way[-1]:
            yield fault("Loop", "extender", at, "on", way=way)
            return


def _channels(tables: dict) -> Iterator[Fault]:
    extenders = tables.get("extender", [])
    if any(True for _ in _loops(extenders)):
        return
    tree, limit = plain.Tree(tables["bridge"], extenders), tables["bridge"].get("channels", 4094)
    for port in range(tables["bridge"]["ports"]):
        needed = tree.cascades(port)
        if needed > limit:
            yield fault("FewChannels", "bridge", "channels", port=NAMES(port), needed=needed, value=limit)
            return


# The third pass.

class Ports:
    """Which ports there are, and which of them are external."""

    def __init__(self, tables: dict):
        self.extenders = {it["number"]: it["ports"] for it in tables.get("extender", [])}
        self.local = tables["bridge"]["ports"]
        self.tree = plain.Tree(tables["bridge"], tables.get("extender", []))
        self.external = frozenset(self.tree.external)
        self.below = {on: number for number, on in self.tree.on.items()}
        self._known: dict[str, bool] = {}

    def knows(self, word: str) -> bool:
        """Whether the tree has what a word names. Words are kept, since lists of thousands of VLANs repeat them."""
        found = self._known.get(word)
        if found is None:
            found = self._known[word] = self._knows(word)
        return found

    def _knows(self, word: str) -> bool:
        if word == "*":
            return True
        if word.endswith(".*"):
            return int(word[1:-2]) in self.extenders
        return self.tree.ports(word) <= self.external


def of_ports(tables: dict) -> Iterator[Fault]:
    ports = Ports(tables)
    for table, keys in (("port", ("name",)), ("vlan", ("tagged", "untagged")), ("static", ("ports",)),
                        ("command", ("port", "tagged", "untagged", "ports"))):
        repeats = REPEATS.get(table, NoRepeats)()
        for at, element in enumerate(tables.get(table, [])):
            yield from _of_words(table, at, element, keys, ports)
            yield from repeats.of(at, element)
    yield from _of_captures(tables, ports)


def _of_words(table: str, at: int, element: dict, keys: tuple[str, ...], ports: Ports) -> Iterator[Fault]:
    """The first word of each key that names no external port."""
    for key in keys:
        words = element.get(key, [])
        alone = isinstance(words, str)
        wrong = next((place for place, word in enumerate([words] if alone else words) if not ports.knows(word)), None)
        if wrong is not None:
            yield fault("UnknownPort", table, at, key, word=None if alone else wrong, value=words if alone else words[wrong], there=ports)


class NoRepeats:
    """Commands may repeat whatever they like."""

    def of(self, _at: int, _element: dict) -> Iterator[Fault]:
        return iter(())


class RepeatedPorts:
    def __init__(self) -> None:
        self.first: dict[str, int] = {}

    def of(self, at: int, element: dict) -> Iterator[Fault]:
        name = element["name"]
        if self.first.setdefault(name, at) != at:
            yield fault("Repeat", "port", at, "name", value=name, first=self.first[name])


class RepeatedVlans:
    def __init__(self) -> None:
        self.first: dict[int, int] = {}

    def of(self, at: int, element: dict) -> Iterator[Fault]:
        vids = range(element["vid"], element.get("last", element["vid"]) + 1)
        twice = [vid for vid in vids if self.first.setdefault(vid, at) != at]
        if twice:
            yield fault("Repeat", "vlan", at, "vid", value=twice[0], first=self.first[twice[0]])


class RepeatedStatics:
    def __init__(self) -> None:
        self.first: dict[tuple, int] = {}

    def of(self, at: int, element: dict) -> Iterator[Fault]:
        key = element["vid"], plain.address_of(element["mac"])
        if self.first.setdefault(key, at) != at:
            yield fault("Repeat", "static", at, "mac", value=element["mac"], vid=element["vid"], first=self.first[key])


REPEATS = {"port": RepeatedPorts, "vlan": RepeatedVlans, "static": RepeatedStatics}


def _of_captures(tables: dict, ports: Ports) -> Iterator[Fault]:
    captures = sorted(tables.get("captures", {}).items(), key=lambda it: it[0].encode())
    for port, _ in captures:
        if not ports.knows(port):
            yield fault("UnknownPort", "captures", port, value=port, there=ports)
    out = tables["bridge"].get("out", "out-")
    rests = ["journal.txt", "trace.txt", "counters.txt", *(f"{NAMES(port)}.pcap" for port in ports.external)]
    names = {f"{out}{rest}" for rest in rests}
    for port, name in captures:
        if name in names:
            yield fault("Repeat", "captures", port, value=name)
