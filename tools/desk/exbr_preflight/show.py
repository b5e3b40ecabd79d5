"""What was found, as lines."""
from __future__ import annotations

import sys
from typing import Iterator

from exbr_desk import journal, plain
from exbr_desk.folding import folded
from exbr_desk.places import Place

from .lint import Warning
from .settling import Settling
from .tables import CHANNELS, GROUPS, KINDS, Refused, Tables
from .verdict import Verdict
from .wording import Message, hint_of, message_of

FEW = 8


def pointed(path: str, place: Place | None, word: str, text: str, advice: str | None, other: tuple[str, Place] | None = None) -> list[str]:
    """A fault as a compiler says it: the place, the line, a caret below it, and what would be right."""
    where = f"{path}:{place.line}:{place.column}" if place else path
    told = [f"{where}: {word}: {text}"]
    if place:
        told += _with_caret(place)
    if advice:
        told.append(f"      = {advice}")
    if other:
        told += [f"  {path}:{other[1].line}:{other[1].column}: {other[0]}", *_with_caret(other[1])[:1]]
    return told


def _with_caret(place: Place, width: int = 110) -> list[str]:
    """A line and a caret below its part. Of a long one what stands near that is shown."""
    begin = max(0, place.column - 1 - width // 2) if len(place.text) > width else 0
    shown = place.text[begin:begin + width].replace("\t", " ")
    text = ("..." if begin else "") + shown + ("..." if begin + width < len(place.text) else "")
    at = place.column - 1 - begin + (3 if begin else 0)
    return [f"{place.line:>5} | {text}", f"      | {' ' * at}{'^' * max(1, min(place.length, len(text) - at))}"]


def faults(it: Verdict) -> Iterator[str]:
    """All faults, and where the program says something else."""
    if it.unread:
        yield from pointed(it.path, it.place, "error", f"no TOML: {it.unread}", hint_of(it.unread, it.place))
    for fault in it.faults:
        message: Message = message_of(fault, it.placed)
        yield from pointed(it.path, message.place, "error", message.text, message.help, message.other)
    if it.words is not None:
        yield f"exbr says: {it.words}"
    if not it.agrees:
        yield disagreement(it)


def disagreement(it: Verdict) -> str:
    own = it.own or "no fault"
    if it.words is None:
        return f"note: exbr takes this file, and this tool reads {own} in it; what exbr says counts"
    return f"note: this tool reads {own} in it and exbr says {it.words}; what exbr says counts"


def tables(it: Tables, every: bool = False, commands: bool = False) -> Iterator[str]:
    """Needs and limits by port of the bridge, and what is refused."""
    if not it.trunks:
        yield "tables: no extender hangs anywhere, so none is needed"
        return
    yield from _refusals(it)
    yield "tables, by port of the bridge:   at rest / at the peak of the opening / at the peak of a command / of"
    order = sorted(it.trunks, key=lambda trunk: (-_fullness(it, trunk), trunk))
    kept = order if every or len(order) <= FEW else order[:FEW]
    for trunk in kept:
        yield f"  {plain.name_of(trunk):<4} " + "   ".join(_use(it, kind, trunk) for kind in KINDS)
    if len(kept) < len(order):
        yield f"  and {len(order) - len(kept)} ports of the bridge that are less full (--ports shows all)"
    if commands:
        yield from _by_command(it)


def _fullness(it: Tables, trunk: int) -> float:
    return max(it.needs[kind][trunk].most / it.limits[kind] for kind in KINDS)


def _use(it: Tables, kind: str, trunk: int) -> str:
    need, limit = it.needs[kind][trunk], it.limits[kind]
    peak = f"{need.commands} (command {need.worst})" if need.worst else "-"
    left = limit - need.most
    room = f"{left:,} left" if left >= 0 else f"{-left:,} TOO FEW"
    return f"{kind} {need.rest} / {need.opening} / {peak} / {limit:,}: {room}"


def _by_command(it: Tables) -> Iterator[str]:
    yield "by command, ports of the bridge whose numbers change (at the peak, at rest behind it):"
    for segment in it.wide[1:]:
        told = [f"{plain.name_of(trunk)} {kind} {use.peak}, {use.rest}" for kind, uses in ((CHANNELS, segment.channels), (GROUPS, segment.groups))
                for trunk, use in sorted(uses.items())]
        yield f"  command {segment.command}: {'; '.join(told) or 'none'}"


def _refusals(it: Tables) -> Iterator[str]:
    absent = [one for one in it.refused if not one.command]
    if absent:
        yield f"error: {len(absent)} port{'s' * (len(absent) > 1)} would stay absent: {_names(absent)}"
        yield from (f"  {plain.name_of(one.port)}: {journal.cause_in_words(one.cause)}" for one in absent[:FEW])
        if len(absent) > FEW:
            yield f"  and {len(absent) - FEW} more"
    for one in it.refused:
        if one.command:
            yield f"error: command {one.command} would be refused: {journal.cause_in_words(one.cause)}"


def _names(them: list[Refused]) -> str:
    return folded([it.port for it in them])


def table_verdict(it: Tables) -> str:
    """The verdict on the tables, in a line."""
    if not it.trunks:
        return "tables suffice"
    needs = {kind: it.most(kind) for kind in KINDS}
    if it.suffice:
        return "tables suffice: " + ", ".join(f"{needs[kind]:,} of {it.limits[kind]:,} {kind}" for kind in KINDS) + " at the most"
    if it.beyond:
        return "tables don't suffice, and no limits that a topology may have would"
    short = [kind for kind in KINDS if needs[kind] > it.limits[kind]]
    return "tables don't suffice: " + _short_of(it, short) + f"; {' and '.join(f'{it.least(kind):,} {kind} suffice' for kind in short)}"


def _short_of(it: Tables, short: list[str]) -> str:
    told = []
    for kind in short:
        opening = max(need.opening for need in it.needs[kind].values())
        if opening > it.limits[kind]:
            told.append(f"the opening needs {opening:,} {kind} and there are {it.limits[kind]:,}")
        else:
            worst = max(it.needs[kind].values(), key=lambda need: need.commands)
            told.append(f"command {worst.worst} needs {worst.commands:,} {kind} and there are {it.limits[kind]:,}")
    return ", ".join(told)


def in_time(beats: int, length: float | None) -> str:
    """Beats, and how long they are where that is known."""
    if length is None:
        return f"{beats:,} beat{'s' * (beats != 1)}"
    seconds = beats * length / 1000
    return f"{beats:,} beat{'s' * (beats != 1)} ({f'{seconds:,.1f} s' if seconds >= 1 else f'{seconds * 1000:,.0f} ms'})"


def settling(it: Settling, length: float | None, commands: bool) -> Iterator[str]:
    """How long the opening and the commands take."""
    opening, rest = it.plain[0], it.plain[1:]
    told = f"settling: the opening takes {in_time(opening, length)}"
    if rest:
        most = max(range(len(rest)), key=rest.__getitem__)
        told += f"; a command at most {in_time(rest[most], length)} (command {most + 1}), all {len(rest):,} together {in_time(sum(rest), length)}"
    yield told
    if it.fates:
        told = f"  the worst of {it.fates} drawn disturbances ({it.percent} of 100 control frames lost, repeated or late): the opening {in_time(it.worst[0], length)}"
        if rest:
            most = max(range(1, len(it.worst)), key=it.worst.__getitem__)
            told += f"; a command at most {in_time(it.worst[most], length)} (command {most})"
        yield told
    if commands:
        for at, (one, worst) in enumerate(zip(it.plain[1:], it.worst[1:]), 1):
            yield f"  command {at}: {in_time(one, length)}" + (f", at the worst {in_time(worst, length)}" if it.fates else "")


def warnings(path: str, them: list[Warning], word: str | None = None) -> Iterator[str]:
    for it in them:
        yield from pointed(path, it.place, word or f"warning ({it.name})", it.words(), None)


def say(lines: Iterator[str]) -> None:
    for line in lines:
        print(line)
    sys.stdout.flush()
