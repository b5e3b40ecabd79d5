"""All that was found, for programs."""
from __future__ import annotations

from exbr_desk import plain
from exbr_desk.places import Place

from .tables import KINDS, Refused, Tables
from .verdict import Verdict
from .wording import hint_of, message_of


def of(report) -> dict:
    found = {"status": report.status, "topology": report.verdict.path, "exbr": report.verdict.words, "agrees": report.verdict.agrees,
             "faults": faults(report.verdict)}
    if report.tables is None:
        return found
    found["tables"] = tables(report.tables)
    if report.least is not None:
        found["least"] = report.least
    found["settling"] = {"opening": report.settling.plain[0], "commands": report.settling.plain[1:],
                         "fates": report.settling.fates, "worst_opening": report.settling.worst[0], "worst_commands": report.settling.worst[1:]}
    found["unread"] = [{"text": it.words(), **place(it.place)} for it in report.unread]
    found["warnings"] = [{"name": it.name, "text": it.words(), "ports": [plain.name_of(port) for port in it.ports], "since": it.since, "until": it.until,
                          **place(it.place)} for it in report.warnings]
    return found


def place(it: Place | None) -> dict:
    return {"line": it.line, "column": it.column} if it else {"line": None, "column": None}


def faults(it: Verdict) -> list[dict]:
    if it.unread:
        return [{"fault": "NotToml", "text": it.unread, "help": hint_of(it.unread, it.place), **place(it.place)}]
    told = []
    for fault in it.faults:
        message = message_of(fault, it.placed)
        told.append({"fault": fault.text, "text": message.text, "help": message.help, **place(message.place)})
    return told


def tables(it: Tables) -> dict:
    def refused(one: Refused) -> dict:
        return {"command": one.command or None, "port": plain.name_of(one.port) if one.port is not None else None, "cause": one.cause}

    return {"suffice": it.suffice, "limits": it.limits, "needed": {kind: it.most(kind) for kind in KINDS},
            "ports": {plain.name_of(trunk): {kind: vars(it.needs[kind][trunk]) for kind in KINDS} for trunk in it.trunks},
            "refused": [refused(one) for one in it.refused],
            "commands": [{"command": segment.command, "beats": segment.beats,
                          "channels": {plain.name_of(trunk): vars(use) for trunk, use in segment.channels.items()},
                          "groups": {plain.name_of(trunk): vars(use) for trunk, use in segment.groups.items()}} for segment in it.wide[1:]]}
