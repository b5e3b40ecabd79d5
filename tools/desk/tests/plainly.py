"""What the plain bridge of the cases says of a topology, port by port and number by number, for the tests of exbr-reach and exbr-preflight.

Nothing is folded here: each port sends each frame at each moment. Nothing of the program is asked.
"""
from __future__ import annotations

import random
import struct

import desk_help
import bridge
import generated

ALL = b"\xff" * 6
BODY = b"\x88\xb5plainly."


def random_topology(number: int) -> str:
    """The text of a random topology: any tree, any rules, twenty commands, limits that suffice and such that don't. Every second one has
    larger extenders with many ports that behave alike."""
    if number % 2:
        return alike_topology(number)
    given = Kept()
    count, groups = (1, 2, 3, 4, 5, 6, 8, 12)[number % 8], (3, 6, 10, 20, 60, 12288)[number // 8 % 6]
    generated.at_random(given, number, count, groups)
    return without_captures(given.text)


def alike_topology(number: int) -> str:
    """One whose ports were set up by ranges, as people do, and a few of which a command sets otherwise."""
    chance = random.Random(f"alike {number}")
    local, count = chance.randint(2, 6), chance.randint(1, 4)
    free, extenders = [f"b{port}" for port in range(1, local + 1)], []
    for extender in range(1, count + 1):
        on = chance.choice(free)
        free.remove(on)
        ports = chance.choice((3, 6, 9, 12))
        extenders.append(f"{{ number = {extender}, on = '{on}', ports = {ports} }}")
        free += [f"x{extender}.{port}" for port in range(1, ports + 1)]
    free.sort(key=bridge.number_of)
    groups = chance.choice((2, 4, 8, 16, 12288))
    text = f"bridge = {{ ports = {local}, groups = {groups}, channels = {chance.choice((len(free), 4094))} }}\nextender = [{', '.join(extenders)}]\n"
    rules = [f"{{ name = '{port}', pvid = {vid}, accept = '{accept}', filter = {on}, isolated = {isolated} }}"
             for first in range(0, len(free), 5) for vid, accept, on, isolated in [_rules(chance)] for port in free[first:first + 5]]
    vlans = [f"{{ vid = {vid}, tagged = {_stretch(chance, free)}, untagged = {_stretch(chance, free)} }}" for vid in generated.VLANS]
    statics = [f"{{ vid = {vid}, mac = '01-00-5e-00-00-01', ports = {_stretch(chance, free)} }}" for vid in chance.sample(generated.VLANS, 2)]
    draws = generated.Chance(number)
    at = sorted(draws.below(12) for _ in range(20))
    commands = "".join(f"  {{ at = {second}, op = '{op}', {rest} }},\n" for second in at
                       for op, _, rest in [generated.command_at_random(draws, free).partition(" ")])
    return f"{text}port = [{', '.join(rules)}]\nvlan = [{', '.join(vlans)}]\nstatic = [{', '.join(statics)}]\ncommand = [\n{commands}]\n"


def _rules(chance: random.Random) -> tuple[int, str, str, str]:
    return (chance.choice(generated.VLANS), chance.choice(("all", "all", "tagged", "untagged")), chance.choice(("true", "false")),
            chance.choice(("true", "false", "false")))


def _stretch(chance: random.Random, ports: list[str]) -> str:
    """Some ports that follow one another."""
    first = chance.randrange(len(ports))
    return generated.listed(ports[first:first + chance.randrange(12)])


class Kept:
    """What the generator of the cases gives."""

    def plays(self, _name, topology, _captures, options="", seed=None):
        self.text = topology.replace("FOLDER/", "")


def without_captures(text: str) -> str:
    """The same without the key of captures, which stands on a line of its own."""
    return "".join(f"{line}\n" for line in text.splitlines() if not line.startswith("captures"))


def frame(number: int, vid: int | None, to: bytes = ALL) -> bytes:
    tag = struct.pack(">HH", 0x8100, vid) if vid is not None else b""
    return to + b"\x02\x00" + number.to_bytes(4, "big") + tag + BODY


def moments(text: str):
    """The bridge at the beginning and after each command that takes effect, with the number of the command."""
    it = bridge.Bridge(text)
    it.open()
    yield 0, it
    for number, command in enumerate(it.commands, 1):
        before = it.counts["commits"]
        it.obey(number, command)
        if it.counts["commits"] > before:
            yield number, it


def heard(it: bridge.Bridge, port: int, vid: int | None, to: bytes = ALL) -> tuple[int | None, frozenset[int]]:
    """The VLAN in which a frame of a port passes, and the ports where it leaves. Nothing is learned."""
    sent = frame(port, vid, to)
    if port not in it.now.present:
        return None, frozenset()
    passed = it.vlan(port, sent)
    if passed is None:
        return None, frozenset()
    return passed, frozenset(target for target, _ in bridge.targets(it.now, port, passed, it.chosen(passed, to)))


def reach(it: bridge.Bridge, vids) -> dict[int, set[tuple[int, int]]]:
    """By VLAN all pairs of which the one reaches the other, by a frame without a tag or with any of these tags."""
    found: dict[int, set] = {vid: set() for vid in vids}
    for port in it.tree.external:
        for tag in (None, *vids):
            vid, ports = heard(it, port, tag)
            if ports:
                found[vid].update((port, other) for other in ports)
    return found


def needs(text: str) -> list[tuple[int, dict[int, int], dict[int, int]]]:
    """For the opening (0) and each command, by port of the bridge the most channels and groups that it needs, where nothing is refused."""
    wide = bridge.Bridge(text)
    wide.bridge = dict(wide.bridge, channels=1 << 30, groups=1 << 30)
    opening = [{"op": "up", "port": bridge.name_of(port)} for extender in wide.tree.opened for port in wide.tree.external if port // 64 == extender]
    found, most = [], ({}, {})
    for up in opening:
        _need(wide, up, most)
    found.append((0, *most))
    for number, command in enumerate(wide.commands, 1):
        most = ({}, {})
        _need(wide, command, most)
        found.append((number, *most))
    return found


def _need(it: bridge.Bridge, command: dict, most: tuple[dict, dict]) -> None:
    """Does a command, and notes what it needs below each port of the bridge."""
    before, after = it.now, it.now.after(command)
    parts = before.parts(), after.parts()
    for trunk in it.tree.extended:
        groups = len(before.sets(trunk, parts[0]) | after.sets(trunk, parts[1]))
        present = (before.present | after.present) & it.tree.extended[trunk]
        channels = it.tree.cascades(trunk) + len(present)
        most[0][trunk], most[1][trunk] = max(most[0].get(trunk, 0), channels), max(most[1].get(trunk, 0), groups)
    it.now.command(command)
