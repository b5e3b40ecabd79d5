"""The answers as lines."""
from __future__ import annotations

from typing import Iterable, Iterator

from exbr_desk import frames, journal, plain

from . import differences, masks, policies, relation, wording
from .answers import Answers
from .differences import Difference
from .moments import Moment
from .relation import Relation


def vlan_words(vids: Iterable[int]) -> str:
    """Numbers of VLANs, folded to ranges."""
    told, first, last = [], None, None
    for vid in [*sorted(vids), None]:
        if last is not None and vid == last + 1:
            last = vid
            continue
        if first is not None:
            told.append(str(first) if first == last else f"{first}-{last}")
        first = last = vid
    return ", ".join(told)


def counted(count: int, what: str) -> str:
    return f"{count:,} {what}{'' if count == 1 else 's'}"


def by_vlan(relations: dict[int, Relation], sign: str = "") -> Iterator[str]:
    """The lines of all VLANs. VLANs with the same lines are told together."""
    together: dict[tuple[str, ...], list[int]] = {}
    known: dict[Relation, tuple[str, ...]] = {}
    for vid, given in sorted(relations.items()):
        lines = known.get(given)
        if lines is None:
            lines = known[given] = tuple(wording.lines(given))
        if lines:
            together.setdefault(lines, []).append(vid)
    for lines, vids in together.items():
        head = f"{sign}VLAN {vlan_words(vids)}: "
        yield head + lines[0]
        yield from (" " * len(head) + line for line in lines[1:])


def difference(given: Difference) -> Iterator[str]:
    yield from by_vlan(given.lost, "- ")
    yield from by_vlan(given.gained, "+ ")


def summed(given: Difference) -> str:
    lost, gained = given.counts()
    return f"{counted(lost, 'pair')} lost, {gained:,} gained"


def cut(lines: Iterable[str], limit: int) -> Iterator[str]:
    left = 0
    for at, line in enumerate(lines):
        if limit and at >= limit:
            left += 1
        else:
            yield line
    if left:
        yield f"  and {counted(left, 'more line')}; --limit 0 shows all"


def played(answers: Answers) -> str:
    """How many frames were played for how many pairs."""
    moments, plan = answers.moments, answers.plan
    return (f"{counted(len(plan.probes), 'frame')} played for {plan.wanted:,} that would be sent port by port, at {counted(len(moments), 'moment')} "
            f"in {counted(len(answers.vlans), 'VLAN')} of {counted(masks.count(answers.external), 'port')}; {counted(answers.copies, 'copy').replace('copys', 'copies')} left. "
            f"At the end {counted(answers.pairs(answers.end), 'pair')} reach each other")


def moment_words(moment: Moment) -> str:
    command = moment.command
    if command is None:
        return "at the beginning"
    passing = "" if moment.at_rest else ", with more commands in the same second"
    return f"command {command.number} ({command.words()}) at {command.at:,} s{passing}"


def commands(answers: Answers, limit: int) -> Iterator[str]:
    """What each command takes and gives."""
    quiet = []
    for moment, found in differences.by_command(answers):
        if not found:
            quiet.append(moment.number)
            continue
        yield f"{moment_words(moment)}: {summed(found)}"
        yield from cut((f"  {line}" for line in difference(found)), limit)
    if quiet:
        yield f"nothing is lost or gained by command{'s' * (len(quiet) > 1)} {vlan_words(quiet)}"
    for number, cause in sorted(answers.course.refused.items()):
        yield f"command {number} is refused: {journal.cause_in_words(cause)}"


def absent(answers: Answers) -> Iterator[str]:
    if answers.course.absent:
        yield f"{counted(len(answers.course.absent), 'port')} stay absent at the opening, for want of numbers: {masks.words(masks.of(answers.course.absent))}"


def state(answers: Answers, place: int) -> Iterator[str]:
    """Who reaches whom at a moment, with the tags with which frames leave, and what static entries lead to."""
    relations = {vid: line.at(place).every for vid, line in answers.vlans.items()}
    yield from by_vlan(relations)
    for (vid, mac), line in sorted(answers.statics.items()):
        its = line.at(place).every
        if its:
            yield from by_vlan({vid: its}, f"to {frames.mac(mac)} in ")


def stations(answers: Answers) -> Iterator[str]:
    """What came of frames to single stations."""
    if not answers.to_stations:
        return
    if answers.astray:
        yield f"frames to single stations: {len(answers.astray):,} of {answers.to_stations:,} come where a frame to all doesn't, or the other way round"
        for probe, target in answers.astray[:5]:
            yield f"  {plain.name_of(probe.sender)} to {plain.name_of(target)}, VLAN {probe.vid}, {answers.moments[probe.moment].words()}"
        return
    flooded = f"; {answers.flooded:,} are flooded, since their station is learned nowhere" if answers.flooded else ""
    yield f"frames to single stations: {answers.to_stations:,}, each comes to its station exactly where a frame to all does{flooded}"


def held(them: list[policies.Held], answers: Answers, limit: int) -> Iterator[str]:
    """Each policy, and where it is broken."""
    for it in them:
        policy = it.policy
        if not it.broken:
            yield f"holds: {policy.name} (line {policy.line}, {policy.when})"
            continue
        yield f"BROKEN: {policy.name} (line {policy.line}, {policy.when})"
        for broken in it.broken:
            what = "these have to reach each other and do not" if policy.kind == policies.ALWAYS else "these reach each other"
            yield f"  {stretch(broken)}: {what}"
            wrong = broken.wrong
            told = by_vlan(wrong) if 0 not in wrong else (f"in no VLAN: {line}" for line in wording.lines(wrong[0]))
            yield from cut((f"    {line}" for line in told), limit)
    broken = sum(bool(it.broken) for it in them)
    yield f"policies: {len(them) - broken} hold, {broken} {'is' if broken == 1 else 'are'} broken"


def stretch(it: policies.Broken) -> str:
    """From when on a policy is broken, and until when."""
    when = moment_words(it.moment)
    if it.policy.when == policies.END:
        return f"at the end, {'as from the beginning on' if it.moment.command is None else f'since {when}'}"
    return when + (f", until {moment_words(it.until)}" if it.until else "")
