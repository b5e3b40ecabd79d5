"""All that was found, for programs."""
from __future__ import annotations

from exbr_desk import frames

from . import differences, masks, policies, relation
from .answers import Answers
from .differences import Difference
from .moments import Moment
from .relation import Relation


def blocks(given: Relation) -> list[dict]:
    """Blocks of ports: each of `from` reaches each of `to` but itself."""
    return [{"from": names(block.senders), "to": names(block.heard_at), "pairs": block.pairs()} for block in given]


def names(mask: int) -> list[str]:
    """Ports as the words of a list of a topology, as b1 or x1.2-8."""
    return words.split(", ") if (words := masks.words(mask)) != "nobody" else []


def moment(it: Moment) -> dict:
    return {"command": it.number or None, "at": it.command.at if it.command else None, "words": it.command.words() if it.command else None, "at_rest": it.at_rest}


def difference(it: Difference) -> dict:
    lost, gained = it.counts()
    return {"lost": lost, "gained": gained, "vlans": {str(vid): {"lost": blocks(it.lost.get(vid, relation.NOBODY)), "gained": blocks(it.gained.get(vid, relation.NOBODY))}
                                                     for vid in it.vids}}


def answers(it: Answers) -> dict:
    return {"topology": it.given.path, "moments": len(it.moments), "frames": len(it.plan.probes), "frames_port_by_port": it.plan.wanted, "copies": it.copies,
            "ports": masks.count(it.external), "absent": names(masks.of(it.course.absent)), "refused": {str(number): cause for number, cause in it.course.refused.items()},
            "to_stations": {"frames": it.to_stations, "astray": len(it.astray), "flooded": it.flooded},
            "beginning": state(it, 0), "end": state(it, it.end),
            "commands": [moment(at) | difference(found) for at, found in differences.by_command(it)]}


def state(it: Answers, place: int) -> dict:
    vlans = {str(vid): {"reach": blocks(line.at(place).every), "tagged": names(line.at(place).tagged)} for vid, line in sorted(it.vlans.items()) if line.at(place).every}
    statics = [{"vlan": vid, "mac": frames.mac(mac), "reach": blocks(line.at(place).every)} for (vid, mac), line in sorted(it.statics.items()) if line.at(place).every]
    return {"pairs": it.pairs(place), "vlans": vlans, "statics": statics}


def broken(it: policies.Broken) -> dict:
    return {"from": moment(it.moment), "until": moment(it.until) if it.until else None, "vlans": {str(vid or "any"): blocks(wrong) for vid, wrong in it.wrong.items()}}


def of(found) -> dict:
    told = {"status": found.status, "before": answers(found.before), "after": answers(found.after) if found.after else None,
            "difference": difference(found.difference)}
    if found.seconds is not None:
        told["during"] = {"orders": found.seconds.orders, "frames": found.seconds.frames, "between": found.seconds.between, "odd": found.seconds.odd}
    if found.held is not None:
        told["policies"] = [{"name": it.policy.name, "kind": it.policy.kind, "line": it.policy.line, "when": it.policy.when, "holds": not it.broken,
                             "broken": [broken(each) for each in it.broken]} for it in found.held]
    if found.losses is not None:
        told["losses"] = [{"name": it.name, "ports": names(it.ports), "pairs": it.pairs, "between_others": it.others,
                           "vlans": {str(vid): blocks(lost) for vid, lost in it.vlans.items()}, "alone": {str(vid): names(ports) for vid, ports in it.alone.items()},
                           "breaks": it.broken} for it in found.losses]
    return told
