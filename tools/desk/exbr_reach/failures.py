"""The loss of extenders and ports: what each takes, many side by side.

The loss of an extender is that its ports, and those of extenders below it, go down. It happens at the end, behind all commands. The program
plays some losses in one run: the ports go down, frames are sent in the VLANs in which they were, and they come up again before the next
loss. Limits are the widest there, since no loss is refused for want of numbers.
"""
from __future__ import annotations

import concurrent.futures
import contextlib
import math
import os
import re
import site
from dataclasses import dataclass, field, replace
from typing import Iterable, Iterator, NamedTuple

from exbr_desk import plain, play
from exbr_desk.errors import DeskError
from exbr_desk.progress import Progress
from exbr_desk.topology import Topology, of_text
from exbr_preflight.tables import WIDEST

from . import masks, policies, relation
from .answers import Answers, of_topology
from .policies import Policy
from .probes import Asked
from .relation import Relation

EACH_EXTENDER, EACH_PORT = "each-extender", "each-port"
TOGETHER = 32


class Loss(NamedTuple):
    """What is lost: its name, and its ports."""

    name: str
    ports: int


@dataclass
class Lost:
    """What a loss takes: by VLAN the pairs, those among them of which neither port is lost, the ports that reach nobody any more in a VLAN
    in which they did, and the policies that are broken then for the ports that are left."""

    name: str
    ports: int
    vlans: dict[int, Relation] = field(default_factory=dict)
    others: int = 0
    alone: dict[int, int] = field(default_factory=dict)
    broken: list[str] = field(default_factory=list)

    @property
    def pairs(self) -> int:
        return sum(map(relation.pairs, self.vlans.values()))


def losses_of(given: Topology, words: str) -> list[Loss]:
    """The losses that words name: each extender, each port, or a list of extenders, ports and ranges, as x3,b4,x1.1-8+x2."""
    external = set(given.external)
    if words == EACH_EXTENDER:
        return [Loss(f"x{number}", below(given, number)) for number in sorted(given.tree.on)]
    if words == EACH_PORT:
        return [Loss(plain.name_of(port), 1 << port) for port in given.external]
    found = []
    for word in words.split(","):
        ports = 0
        for part in word.split("+"):
            ports |= _named(given, part, external, words)
        found.append(Loss(word, ports))
    return found


def _named(given: Topology, part: str, external: set[int], words: str) -> int:
    if re.fullmatch("x[1-9][0-9]?", part) and int(part[1:]) in given.tree.on:
        return below(given, int(part[1:]))
    if not policies.is_word(part) or not (its := given.tree.ports(part)) or not its <= external:
        raise DeskError(f"--fail {words}: {part} is no extender and no external port of {given.path}; or write {EACH_EXTENDER} or {EACH_PORT}")
    return masks.of(its)


def below(given: Topology, number: int) -> int:
    """The external ports of an extender and of all below it."""
    def is_below(port: int) -> bool:
        while port >= 64:
            if port // 64 == number:
                return True
            port = given.tree.on[port // 64]
        return False

    return masks.of(port for port in given.external if is_below(port))


def at_end(answers: Answers) -> dict:
    """The tables of a topology that is at its beginning as this one is at its end: ports that are absent go down first, and commands that
    were refused aren't there."""
    given = answers.given
    tables = {name: its for name, its in given.tables.items() if name not in ("captures", "links", "command")}
    tables["bridge"] = {key: value for key, value in tables["bridge"].items() if key != "out"} | WIDEST
    absent = [{"at": 0, "op": "down", "port": plain.name_of(port)} for port in sorted(answers.course.absent)]
    taken = [{key: value for key, value in it.table.items() if key != "fate"} | {"at": 0} for it in given.commands if it.number not in answers.course.refused]
    return tables | {"command": absent + taken}


def present_at_end(answers: Answers) -> int:
    """The ports that are there at the end."""
    now = set(answers.course.up) | {port for port in answers.given.external if port < 64}
    for it in answers.given.commands:
        if it.table["op"] in ("up", "down") and it.number not in answers.course.refused:
            (now.add if it.table["op"] == "up" else now.discard)(plain.number_of(it.table["port"]))
    return masks.of(now)


def chunk(tables: dict, losses: list[Loss], present: int, exbr: str, asked: Asked, wanted: list[Policy]) -> list[Lost]:
    """Plays some losses in one run. It stands on nothing but what it is given, so another process or machine can do it."""
    commands = list(tables["command"])
    base, behind = len(commands), []
    for at, loss in enumerate(losses, 1):
        names = [plain.name_of(port) for port in masks.ports(loss.ports & present)]
        commands += [{"at": 2 * at, "op": "down", "port": name} for name in names]
        behind.append(len(commands))
        commands += [{"at": 2 * at + 1, "op": "up", "port": name} for name in names]
    given = of_text(play.written(tables | {"command": commands}), "the losses")
    answers = of_topology(given, exbr, replace(asked, unicast=False, places=frozenset((base, *behind))))
    if answers.course.refused or answers.course.absent:
        raise DeskError("even the widest limits that a topology may have don't suffice for this one")
    held = [policy for policy in wanted if not policies.wrong_at(policy, answers, base, {}, None)]
    return [_lost(answers, loss, base, place, present, held) for loss, place in zip(losses, behind)]


def _lost(answers: Answers, loss: Loss, base: int, behind: int, present: int, held: list[Policy]) -> Lost:
    """What a loss took. Between two losses all is as at the base, since the ports are up again."""
    gone = loss.ports & present
    left = answers.external & ~gone
    found = Lost(loss.name, loss.ports)
    for vid in sorted(answers.plan.touched[behind]) if gone else ():
        was, now = answers.at(vid, base), answers.at(vid, behind)
        lost = relation.minus(was, now)
        if lost:
            found.vlans[vid] = lost
            found.others += relation.pairs(relation.within(lost, left, left))
            alone = relation.ports(was) & left & ~relation.ports(now)
            if alone:
                found.alone[vid] = alone
    found.broken = [policy.name for policy in held if gone and policies.wrong_at(left_of(policy, gone), answers, behind, {}, None)]
    return found


def left_of(policy: Policy, gone: int) -> Policy:
    """A policy for the ports that are left."""
    if policy.kind != policies.ALWAYS:
        return policy
    return replace(policy, senders=policy.senders & ~gone, hearers=policy.hearers if policy.one else policy.hearers & ~gone)


def played(answers: Answers, losses: list[Loss], exbr: str, asked: Asked, wanted: list[Policy], jobs: int, dask: str | None) -> list[Lost]:
    """Plays all losses, so many runs side by side, or on the workers of dask."""
    tables, present = at_end(answers), present_at_end(answers)
    size = max(1, min(TOGETHER, math.ceil(len(losses) / max(1, jobs))))
    parts = [losses[at:at + size] for at in range(0, len(losses), size)]
    tasks = [(tables, part, present, os.path.abspath(exbr), asked, wanted) for part in parts]
    progress, done = Progress("losses", len(losses)), {}
    with workers(jobs, dask) as submit:
        for number, result in submit(tasks):
            done[number] = result
            progress.at(sum(map(len, done.values())))
    progress.end()
    return [lost for number in sorted(done) for lost in done[number]]


@contextlib.contextmanager
def workers(jobs: int, dask: str | None) -> Iterator:
    """What plays tasks, and gives the number of each with its result as it comes."""
    if dask is not None:
        with client_of(dask) as client:
            yield lambda tasks: by_dask(client, tasks)
    elif jobs > 1:
        with concurrent.futures.ProcessPoolExecutor(jobs) as pool:
            yield lambda tasks: by_pool(pool, tasks)
    else:
        yield lambda tasks: ((number, chunk(*task)) for number, task in enumerate(tasks))


def by_pool(pool: concurrent.futures.Executor, tasks: list[tuple]) -> Iterable[tuple[int, list[Lost]]]:
    waiting = {pool.submit(chunk, *task): number for number, task in enumerate(tasks)}
    try:
        for one in concurrent.futures.as_completed(waiting):
            yield waiting[one], one.result()
    finally:
        for one in waiting:
            one.cancel()


def client_of(address: str):
    """A client of a scheduler of dask, whose workers find these modules where they lie here."""
    try:
        import distributed
    except ImportError:
        raise DeskError("--dask needs dask.distributed, which isn't there (Debian: apt install python3-distributed); --jobs needs nothing") from None
    try:
        client = distributed.Client(address, timeout=10)
        client.run(site.addsitedir, os.path.dirname(os.path.dirname(os.path.abspath(__file__))))
    except (OSError, ValueError, TimeoutError) as fault:
        raise DeskError(f"--dask {address}: {str(fault).splitlines()[0] if str(fault) else 'no scheduler answers'}") from None
    return client


def by_dask(client, tasks: list[tuple]) -> Iterable[tuple[int, list[Lost]]]:
    import distributed
    waiting = {client.submit(chunk, *task, pure=False): number for number, task in enumerate(tasks)}
    for one, result in distributed.as_completed(list(waiting), with_results=True):
        yield waiting[one], result


def lines(them: list[Lost], most: int) -> Iterator[str]:
    """A table of losses, those that take most first."""
    yield "losses at the end (ports, pairs lost, ports left alone, by VLAN):"
    quiet = [it for it in them if not it.vlans]
    told = sorted((it for it in them if it.vlans), key=lambda it: -it.pairs)
    for it in told[:most or None]:
        yield f"  {it.name}: {masks.count(it.ports)} port{'s' * (masks.count(it.ports) != 1)}, {it.pairs:,} pairs in {_vlans(it)}{_alone(it)}{_others(it)}"
        yield from (f"    BREAKS: {name}" for name in it.broken)
    if most and len(told) > most:
        yield f"  and {len(told) - most:,} more losses; --limit 0 shows all"
    if quiet:
        yield f"  nothing is lost with {', '.join(it.name for it in quiet[:12])}{f' and {len(quiet) - 12:,} more' if len(quiet) > 12 else ''}"
    broken = [it.name for it in them if it.broken]
    if broken:
        yield f"  {len(broken):,} of {len(them):,} losses break a policy that holds without them"


def _vlans(it: Lost) -> str:
    from .show import vlan_words
    words = vlan_words(it.vlans)
    return f"VLAN {words}" if len(words) <= 60 else f"{len(it.vlans):,} VLANs"


def _alone(it: Lost) -> str:
    told = [f"{masks.words(ports, 8)} in VLAN {vid}" for vid, ports in it.alone.items()]
    return f"; left alone: {'; '.join(told[:4])}{f' and in {len(told) - 4} more VLANs' if len(told) > 4 else ''}" if told else ""


def _others(it: Lost) -> str:
    return f"; {it.others:,} of them between ports that are not lost" if it.others else ""
