"""How many ports extenders have, which no running configuration says: from options, from `show fex detail`, or from the interfaces that are named."""
import re

from exbr_desk.errors import DeskError
from exbr_desk.short import compact, folded, ranges

from . import lines
from .switch import Port

FEX = re.compile(r"FEX:\s*(\d{1,4})\b", re.IGNORECASE)
HOST = re.compile(r"Eth(?:ernet)?(\d{1,4})/(\d+)/(\d{1,4})\b", re.IGNORECASE)


def of_words(words: list[str]) -> dict[int, int]:
    """The numbers of ports that `--fex 101=48` says, each for some extenders (`101-112=48`)."""
    found: dict[int, int] = {}
    for word in words:
        it = re.fullmatch(r"(\d{1,3})(?:-(\d{1,3}))?=(\d{1,2})", word)
        if not it or not 1 <= int(it[3]) <= 64:
            raise DeskError(f"--fex {word[:40]}: it is as 101=48 or 101-112=48, and an extender has 1 to 64 ports")
        found |= {number: int(it[3]) for number in range(int(it[1]), int(it[2] or it[1]) + 1)}
    return found


def of_detail(path: str) -> dict[int, int]:
    """The numbers of ports that `show fex detail` lists."""
    text = lines.text_of(path)
    known = {int(it) for it in FEX.findall(text)}
    found: dict[int, int] = {}
    for box, _, slot in HOST.findall(text):
        if int(box) in known:
            found[int(box)] = max(found.get(int(box), 0), int(slot))
    if not found:
        raise DeskError(f"{path}: it lists no ports of extenders; make it with: show fex detail")
    wrong = [it for it, many in found.items() if not 1 <= many <= 64]
    if wrong:
        raise DeskError(f"{path}: FEX {wrong[0]} has more than 64 ports, and an extender has 64 at most here")
    return found


def count(number: int, told: dict[int, int], seen: int, guessed: dict[int, list[int]], what: str, form: str) -> int:
    """How many ports an extender has, or 0 where nothing says it. What is told by its interfaces alone is noted in `guessed`, by how many."""
    if number in told:
        if seen > told[number]:
            raise DeskError(f"{what} {number} has {told[number]} ports by what was named, and the file has {form.format(number, seen)}")
        return told[number]
    if seen > 64:
        raise DeskError(f"{what} {number} has {seen} ports by its interfaces, and an extender has 64 at most here")
    if seen:
        guessed.setdefault(seen, []).append(number)
    return seen


def notes(what: str, guessed: dict[int, list[int]], links: dict[int, list[str]], link: str) -> list[str]:
    """What a reader should know of extenders: how many ports they have where that is a guess, and further links."""
    found = [f"{what} {ranges(them)} {has(them)} {many} port{'s' * (many > 1)} here, by the interfaces of the file; --fex {min(them)}=48 says how many there are"
             for many, them in sorted(guessed.items())]
    more = {number: them for number, them in links.items() if len(them) > 1}
    if more:
        first = folded([them[0] for them in more.values()])
        found.append(f"{what} {ranges(list(more))} {has(list(more))} several {link}s ({compact([it for them in more.values() for it in them])}): here "
                     f"one{' each' * (len(more) > 1)}, {first}. The failover of a link can't be tried")
    return found


def has(them: list[int]) -> str:
    """A verb for one or several."""
    return "has" if len(them) == 1 else "have"


def joined(ports: list[Port]) -> list[str]:
    """What a reader should know of ports that are made of several interfaces."""
    them = [it for it in ports if it.members and not it.why]
    if not them:
        return []
    said = ", ".join(f"{it.name} (of {folded(list(it.members))})" for it in them)
    return [f"{said}: one port {'here' if len(them) == 1 else 'each here'}, with the captures of its members merged; the failover of a member can't be tried"]
