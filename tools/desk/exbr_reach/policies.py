"""A file of what must never, always or only be, and whether it is so.

    [[never]]                      # no frame of a port of `from` comes to a port of `to`
    name = "guests are apart"      # as it is told
    from = "x6.*"                  # ports as in lists of a topology: a word, or a list of words
    to = ["x6.*", "b3"]
    vlan = "20-29"                 # a number, a range, or a list of these; left out: any VLAN
    when = "every moment"          # or "beginning", "end", "rest"

    [[always]]                     # each port of `from` reaches each port of `to`, or with `one = true` one of them at least
    [[only]]                       # a port of `from` reaches no other port than those of `to`
"""
from __future__ import annotations

import re
from dataclasses import dataclass, field, replace
from typing import Iterator

from exbr_desk import places, plain
from exbr_desk.errors import DeskError
from exbr_desk.places import Path, Placed
from exbr_desk.topology import WORD, Topology

from . import masks, relation
from .answers import Answers
from .moments import Moment
from .relation import Relation

NEVER, ALWAYS, ONLY = "never", "always", "only"
KINDS = (NEVER, ALWAYS, ONLY)
BEGINNING, END, REST, EVERY = "beginning", "end", "rest", "every moment"
TIMES = (BEGINNING, END, REST, EVERY)
KEYS = ("name", "from", "to", "vlan", "when", "one")
EVERY_VLAN = frozenset(range(1, 4095))


@dataclass(frozen=True)
class Policy:
    """What has to hold: its kind, its name, its ports as sets, its VLANs (None: any), when, its line in the file, and whether one port of
    those that are to be reached suffices."""

    kind: str
    name: str
    senders: int
    hearers: int
    vids: frozenset[int] | None
    when: str
    line: int
    one: bool = False


@dataclass
class Broken:
    """A policy that doesn't hold: by VLAN the pairs that are wrong, from a moment on, and the moment at which they are right again. VLAN 0
    stands for any."""

    policy: Policy
    moment: Moment
    wrong: dict[int, Relation]
    until: Moment | None = None


@dataclass
class Held:
    """A policy and where it is broken."""

    policy: Policy
    broken: list[Broken] = field(default_factory=list)


def read(path: str, given: Topology) -> list[Policy]:
    """The policies of a file, for the ports of a topology."""
    try:
        with open(path, "rb") as file:
            placed = places.read(file.read().decode("utf-8-sig"))
    except OSError as fault:
        raise DeskError(f"{path}: {fault.strerror}") from None
    except UnicodeDecodeError:
        raise DeskError(f"{path}: it isn't UTF-8") from None
    except places.NotToml as fault:
        where = f":{fault.place.line}:{fault.place.column}" if fault.place else ""
        raise DeskError(f"{path}{where}: no TOML: {fault}") from None
    return Reader(path, placed, given).policies()


class Reader:
    """Reads policies, and names each fault with its line."""

    def __init__(self, path: str, placed: Placed, given: Topology):
        self.path, self.placed, self.given = path, placed, given

    def fault(self, where: Path, text: str, of_key: bool = False) -> DeskError:
        place = (self.placed.key(where) if of_key else None) or self.placed.value(where)
        return DeskError(f"{self.path}{f':{place.line}:{place.column}' if place else ''}: {text}")

    def policies(self) -> list[Policy]:
        unknown = sorted(self.placed.tables.keys() - set(KINDS))
        if unknown:
            raise self.fault((unknown[0],), f"there is no policy {unknown[0]}; there are [[{']], [['.join(KINDS)}]]", True)
        found = []
        for kind in KINDS:
            its = self.placed.tables.get(kind, [])
            if not isinstance(its, list) or not all(isinstance(it, dict) for it in its):
                raise self.fault((kind,), f"write [[{kind}]], with two brackets, above each")
            found += [self.policy(kind, at, it) for at, it in enumerate(its)]
        if not found:
            raise DeskError(f"{self.path}: there is no policy in it; there are [[{']], [['.join(KINDS)}]]")
        return sorted(found, key=lambda it: it.line)

    def policy(self, kind: str, at: int, table: dict) -> Policy:
        here = (kind, at)
        unknown = sorted(table.keys() - set(KEYS))
        if unknown:
            raise self.fault((*here, unknown[0]), f"a policy has no key {unknown[0]}; its keys are {', '.join(KEYS)}", True)
        missing = [key for key in ("from", "to") if key not in table]
        if missing:
            raise self.fault(here, f"this policy has no {missing[0]}")
        when = table.get("when", EVERY)
        if when not in TIMES:
            raise self.fault((*here, "when"), f"when is one of {', '.join(TIMES)}")
        vids = self.vlans((*here, "vlan"), table["vlan"]) if "vlan" in table else None
        name = table.get("name") or f"{kind} {_shown(table['from'])} -> {_shown(table['to'])}" + (f" in VLAN {_shown(table['vlan'])}" if vids else "")
        if not isinstance(name, str):
            raise self.fault((*here, "name"), "a name is a text")
        one = table.get("one", False)
        if not isinstance(one, bool) or one and kind != ALWAYS:
            raise self.fault((*here, "one"), "one is true or false, and a key of [[always]]")
        place = self.placed.value(here)
        return Policy(kind, name, self.ports((*here, "from"), table["from"]), self.ports((*here, "to"), table["to"]), vids, when, place.line if place else 0,
                      one)

    def ports(self, where: Path, value) -> int:
        """The external ports that words name."""
        words = value if isinstance(value, list) else [value]
        if not words:
            raise self.fault(where, "there is no port in it")
        found: set[int] = set()
        for at, word in enumerate(words):
            place = (*where, at) if isinstance(value, list) else where
            if not isinstance(word, str) or not is_word(word):
                raise self.fault(place, f"{word} is no word of a list of ports, as b1, x1.1-8, x1.* or *")
            its = self.given.tree.ports(word)
            if not its or not its <= set(self.given.external):
                raise self.fault(place, f"{word} names no external ports of {self.given.path}")
            found |= its
        return masks.of(found)

    def vlans(self, where: Path, value) -> frozenset[int]:
        found: set[int] = set()
        for at, word in enumerate(value if isinstance(value, list) else [value]):
            match = re.fullmatch("([1-9][0-9]{0,3})(?:-([1-9][0-9]{0,3}))?", str(word)) if not isinstance(word, bool) else None
            first, last = (int(match[1]), int(match[2] or match[1])) if match else (1, 0)
            if not 1 <= first <= last <= 4094:
                raise self.fault((*where, at) if isinstance(value, list) else where, f'{word} is no VLAN; write 10, "10-19", or a list of these')
            found.update(range(first, last + 1))
        return frozenset(found)


def is_word(text: str) -> bool:
    """Whether a text is a word of a list of ports."""
    return plain.is_port(text) or WORD.fullmatch(text) is not None


def _shown(value) -> str:
    return ", ".join(map(str, value)) if isinstance(value, list) else str(value)


def held(policies: list[Policy], answers: Answers) -> list[Held]:
    """Each policy, with the stretches of moments in which it is broken. Of one that has to hold at the end it is told since when."""
    return [Held(policy, list(_broken_at_end(policy, answers) if policy.when == END else _broken(policy, answers))) for policy in policies]


def _broken_at_end(policy: Policy, answers: Answers) -> Iterator[Broken]:
    """The pairs that are wrong at the end, by the moment since which they are."""
    wrong = wrong_at(policy, answers, answers.end, {}, None)
    for it in _broken(replace(policy, when=EVERY), answers) if wrong else ():
        its = {vid: still for vid, its in it.wrong.items() if (still := relation.minus(its, relation.minus(its, wrong.get(vid, relation.NOBODY))))}
        if its and it.until is None:
            yield Broken(policy, it.moment, its)


def places_of(policy: Policy, answers: Answers) -> list[int]:
    """The moments at which a policy has to hold."""
    if policy.when == BEGINNING:
        return [0]
    return [moment.place for moment in answers.moments if policy.when == EVERY or moment.at_rest]


def _broken(policy: Policy, answers: Answers) -> Iterator[Broken]:
    """Where pairs become wrong that weren't before: told once, with the moment at which they are right again."""
    standing: list[Broken] = []
    before: dict[int, Relation] = {}
    for at, place in enumerate(places_of(policy, answers)):
        # Of moments that follow one another only what a command touched is looked at.
        touched = answers.plan.touched[place] if at and policy.when == EVERY else None
        wrong = wrong_at(policy, answers, place, before, touched)
        for it in [it for it in standing if not _stands(it.wrong, wrong)]:
            standing.remove(it)
            it.until = answers.moments[place]
            yield it
        new = {vid: rest for vid, its in wrong.items() if (rest := relation.minus(its, before.get(vid, relation.NOBODY)))}
        if new:
            standing.append(Broken(policy, answers.moments[place], new))
        before = wrong
    yield from standing


def _stands(mine: dict[int, Relation], wrong: dict[int, Relation]) -> bool:
    """Whether some pair that was wrong is wrong still."""
    return any(relation.pairs(its) > relation.pairs(relation.minus(its, wrong.get(vid, relation.NOBODY))) for vid, its in mine.items())


def wrong_at(policy: Policy, answers: Answers, place: int, before: dict[int, Relation], touched: frozenset[int] | None) -> dict[int, Relation]:
    """By VLAN the pairs that are wrong at a moment. What no command touched since the moment before is as it was."""
    if policy.kind == ALWAYS and policy.vids is None:
        every = relation.made(block for vid in answers.vlans for block in answers.at(vid, place))
        missing = _missing(policy, every)
        return {0: missing} if missing else {}
    vids = sorted(answers.vlans) if policy.vids is None else sorted(policy.vids)
    found = {}
    for vid in vids:
        if touched is not None and vid not in touched:
            its = before.get(vid, relation.NOBODY)
        else:
            its = _wrong(policy, answers.at(vid, place), answers.external)
        if its:
            found[vid] = its
    return found


def _wrong(policy: Policy, given: Relation, external: int) -> Relation:
    if policy.kind == NEVER:
        return relation.within(given, policy.senders, policy.hearers)
    if policy.kind == ONLY:
        return relation.within(given, policy.senders, external & ~policy.hearers)
    return _missing(policy, given)


def _missing(policy: Policy, given: Relation) -> Relation:
    """The pairs that have to be there and aren't."""
    wanted = policy.senders
    if policy.one:
        for senders, heard_at in given:
            found = heard_at & policy.hearers
            wanted &= ~(senders if masks.second(found) is not None else senders & ~found if found else 0)
        return relation.tidy([(wanted, policy.hearers)])
    return relation.minus(relation.tidy([(wanted, policy.hearers)]), given)
