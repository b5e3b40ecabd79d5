"""What `exbr-compare` says, for programs: pairs and frames with the commands that did it, and no sentence that would have to be taken apart."""
from __future__ import annotations

from . import frames, told
from .blame import Cause
from .differ import Counted, Differences, Pair
from .reading import NAMES


def in_json(found: Differences) -> dict:
    """All of it."""
    homes = found.before.homes

    def pairs(its: dict[Pair, Counted]) -> list[dict]:
        return [{"from": NAMES[pair.port], "source": frames.mac(pair.source) if pair.to else None, "to": frames.mac(pair.to) if pair.to else None,
                 "at": [NAMES[it] for it in (homes.get(pair.to, ()) if pair.to else (pair.at,))], **counts(it), **caused(it)} for pair, it in its.items()]

    lines = [{"vlan": vid or None, "from": NAMES[port], "source": frames.mac(source), "what": way, "ports": [NAMES[at] for at in sorted(it.ports or {there})], "tag": tag, **counts(it)}
             for (vid, port, source, way, there, tag), it in found.detail.items()]
    sides = (("before", found.before), ("after", found.after))
    return {"differs": found.differs, "loses": pairs(found.loses), "paused": pairs(found.paused), "gains": pairs(found.gains), "fewer": pairs(found.fewer),
            "more": pairs(found.more), "by_command": _by_command(found), "frames": dict(found.frames),
            "vlans": {str(vid or "none"): dict(its) for vid, its in found.vlans.items()}, "detail": lines,
            "commands": {name: {"commits": [reach.number(it) for it in reach.commits], "refusals": reach.refusals} for name, reach in sides},
            "standing": {name: reach.table.standing.in_json() for name, reach in sides},
            "faults": {name: [f"{it.file}: {it.text}" for it in reach.faults] for name, reach in sides},
            "notes": {name: reach.table.notes for name, reach in sides}, "strange": found.strange}


def counts(it: Counted) -> dict:
    """How many frames, the first hundred of them, and why they don't arrive in the other run."""
    return {"frames": it.count, "vlans": sorted(it.vlans), "first": [f"{NAMES[port]}:{index}" for port, index in it.first],
            "why": [{**cause_in_json(cause), "frames": count} for cause, count in it.why.most_common()]}


def caused(it: Counted) -> dict:
    """The command that did it first, and from when to when where it was for a while."""
    pause = {"from": it.pause.begins, "to": it.pause.ends, "by": it.pause.by or None, "again_by": it.pause.again or None} if it.pause else None
    return {"command": it.cause.command or None if it.cause else None, "pause": pause}


def cause_in_json(cause: Cause) -> dict:
    return {"code": cause.code, "text": cause.text, "command": cause.command or None, "run": cause.run or None}


def _by_command(found: Differences) -> list[dict]:
    its = []
    for (run, number), deed in told.deeds(found).items():
        its.append({"command": number or None, "run": run or None, "at": told.second_of(found, run, number), "words": told.command_words(found, run, number) if number else None,
                    "loses": len(deed.loses), "gains": len(deed.gains), "paused": len(deed.paused),
                    "frames": sum(told.weight(row) for row in (*deed.loses, *deed.gains, *deed.paused))})
    return its
