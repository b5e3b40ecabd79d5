"""All of it as a page: one HTML file that asks for nothing from outside."""
from __future__ import annotations

import os
from typing import Iterable, NamedTuple

from exbr_report.markup import Markup, join, tag

from . import differences, masks, policies, relation, show, wording
from .answers import Answers
from .relation import Relation

HERE = os.path.dirname(os.path.abspath(__file__))
MOST_VLANS, MOST_ROWS, MOST_LINES = 60, 200, 400
SAFE = "default-src 'none'; style-src 'unsafe-inline'"
PARTS = (("policies", "Policies"), ("differences", "Differences"), ("matrix", "Ports by VLAN"), ("state", "Who hears whom"), ("losses", "Losses"))


class Column(NamedTuple):
    """VLANs that are alike in all ports: by set of ports who sends and who hears there before and after, and who gets a tag."""

    vids: tuple[int, ...]
    sends: tuple[int, int]
    hears: tuple[int, int]
    tagged: int
    lost: int
    gained: int


def of(found) -> str:
    """The text of the page."""
    title = f"Who reaches whom: {found.before.given.path}" + (f" against {found.after.given.path}" if found.after else "")
    parts = {"policies": _policies(found), "differences": _differences(found), "matrix": _matrix(found), "state": _state(found.last), "losses": _losses(found)}
    there = [(name, head) for name, head in PARTS if parts[name] is not None]
    with open(os.path.join(HERE, "page.css"), encoding="utf-8") as file:
        style = Markup(file.read())
    head = tag("head", tag("meta", charset="utf-8"), tag("meta", name="viewport", content="width=device-width, initial-scale=1"),
               tag("meta", http_equiv="Content-Security-Policy", content=SAFE), tag("title", title), tag("style", style))
    body = tag("body", tag("header", tag("h1", title), tag("p", _what(found), class_="under"), tag("nav", [tag("a", text, href=f"#{name}") for name, text in there])),
               tag("main", _tiles(found), [tag("section", tag("h2", text), parts[name], id=name) for name, text in there]),
               tag("footer", tag("p", "Made by exbr-reach. Each answer is where a frame left that the proved program played; nobody has to have spoken.")))
    return "<!doctype html>\n" + tag("html", head, body, lang="en") + "\n"


def _what(found) -> str:
    return "AFTER at its end against BEFORE at its end." if found.after else "The end, behind all commands, against the beginning."


def _tiles(found) -> Markup:
    lost, gained = found.difference.counts()
    last = found.last
    tiles = [(f"{lost:,}", "pairs lost"), (f"{gained:,}", "pairs gained"), (f"{last.pairs(last.end):,}", "pairs at the end"),
             (f"{masks.count(last.external):,}", "ports"), (f"{len(last.vlans):,}", "VLANs"), (f"{len(last.plan.probes):,}", f"frames played for {last.plan.wanted:,}")]
    if found.held is not None:
        tiles.insert(0, (str(sum(bool(it.broken) for it in found.held)), f"of {len(found.held)} policies broken"))
    return tag("ul", [tag("li", tag("b", count), tag("span", text)) for count, text in tiles], class_="tiles")


def _lines(them: Iterable[str], kind: str | None = None) -> list[Markup]:
    found = list(them)
    told = [tag("li", line.strip(), class_=kind) for line in found[:MOST_LINES]]
    return told + ([tag("li", f"and {len(found) - MOST_LINES:,} more lines", class_="none")] if len(found) > MOST_LINES else [])


def _full(relations: dict[int, Relation]) -> list[str]:
    """The lines of all VLANs, each with its VLAN, since lines of a page have no column."""
    told, head = [], ""
    for line in show.by_vlan(relations):
        if line.startswith("VLAN"):
            head = line.partition(": ")[0]
            told.append(line)
        else:
            told.append(f"{head}: {line.strip()}")
    return told


def _changed(given: differences.Difference) -> Markup:
    return tag("ul", _lines(_full(given.lost), "lose"), _lines(_full(given.gained), "gain"), class_="pairs")


def _counts(given: differences.Difference) -> Markup:
    lost, gained = given.counts()
    return join(tag("b", f"{lost:,} lost", class_="lose"), ", ", tag("b", f"{gained:,} gained", class_="gain"))


def _differences(found) -> Markup:
    told = [tag("p", _counts(found.difference)), _changed(found.difference)]
    if found.after is None:
        for moment, each in differences.by_command(found.before):
            if each:
                told.append(tag("details", tag("summary", show.moment_words(moment), ": ", _counts(each)), _changed(each)))
    return join(*told)


def _state(answers: Answers) -> Markup:
    relations = {vid: line.at(answers.end).every for vid, line in answers.vlans.items()}
    return tag("ul", _lines(_full(relations)), class_="pairs")


def _policies(found) -> Markup | None:
    if found.held is None:
        return None
    told = []
    for it in found.held:
        word = tag("b", "broken", class_="lose") if it.broken else tag("b", "holds", class_="gain")
        told.append(tag("h3", word, f" {it.policy.name} (line {it.policy.line}, {it.policy.when})"))
        told += [_broken(broken) for broken in it.broken]
    return join(*told)


def _broken(it: policies.Broken) -> Markup:
    wrong = _full(it.wrong) if 0 not in it.wrong else [f"in no VLAN: {line}" for line in wording.lines(it.wrong[0])]
    what = "these have to reach each other and do not" if it.policy.kind == policies.ALWAYS else "these reach each other"
    return join(tag("p", f"{show.stretch(it)}: {what}"), tag("ul", _lines(wrong, "lose"), class_="pairs"))


def _losses(found) -> Markup | None:
    if found.losses is None:
        return None
    heads = ("Lost", "Ports", "Pairs", "VLANs", "Left alone", "Breaks")
    rows = [tag("tr", tag("th", it.name, scope="row"), tag("td", f"{masks.count(it.ports):,}"), tag("td", f"{it.pairs:,}"), tag("td", show.vlan_words(it.vlans) or "none"),
                tag("td", "; ".join(f"{masks.words(ports, 8)} in VLAN {vid}" for vid, ports in list(it.alone.items())[:6])), tag("td", "; ".join(it.broken)))
            for it in sorted(found.losses, key=lambda it: -it.pairs)[:MOST_ROWS]]
    left = len(found.losses) - len(rows)
    return join(tag("div", tag("table", tag("thead", tag("tr", [tag("th", head, scope="col") for head in heads])), tag("tbody", rows)), class_="scroll", tabindex="0"),
                tag("p", f"{left:,} losses that take less are left out.", class_="none") if left > 0 else None)


# The matrix.

def columns_of(found) -> list[Column]:
    """The VLANs, those in which most changed first, folded where they are alike."""
    before, after, first = found.before, found.last, found.before.end if found.after else 0
    by: dict[tuple, list[int]] = {}
    for vid in sorted(before.vlans.keys() | after.vlans.keys()):
        was, now = before.at(vid, first), after.at(vid, after.end)
        lost, gained = relation.minus(was, now), relation.minus(now, was)
        key = (_sends(was), _sends(now)), (_hears(was), _hears(now)), after.heard(vid, after.end).tagged, relation.ports(lost), relation.ports(gained)
        by.setdefault(key, []).append(vid)
    columns = [Column(tuple(vids), *key) for key, vids in by.items() if any(key[0]) or any(key[1])]
    return sorted(columns, key=lambda it: (not (it.lost or it.gained), it.vids[0]))


def _sends(given: Relation) -> int:
    found = 0
    for block in given:
        found |= block.senders
    return found


def _hears(given: Relation) -> int:
    found = 0
    for senders, heard_at in given:
        found |= heard_at if masks.count(senders) > 1 else heard_at & ~senders
    return found


def _matrix(found) -> Markup:
    columns = columns_of(found)
    shown = sorted(columns[:MOST_VLANS], key=lambda it: it.vids[0])
    external = found.before.external | found.last.external
    rows = sorted(masks.split(external, [mask for it in shown for mask in (*it.sends, *it.hears, it.tagged, it.lost, it.gained)]), key=masks.first)
    heard = [row for row in rows if any(row & mask for it in shown for mask in (*it.sends, *it.hears))]
    rest = sum(row for row in rows if row not in heard)
    head = tag("thead", tag("tr", tag("th", "Ports", scope="col"), [tag("th", show.vlan_words(it.vids), scope="col") for it in shown]))
    body = tag("tbody", [tag("tr", tag("th", masks.words(row, 12), scope="row"), [_cell(row, it) for it in shown]) for row in heard[:MOST_ROWS]])
    told = [tag("p", "↔ sends and hears, → is heard and hears nobody, ← hears and is heard by nobody; t: frames leave with a tag. Ports and VLANs that are alike are one row "
                "and one column. Red has lost a pair, green has gained one; was: as it was before.")]
    told.append(tag("div", tag("table", head, body, class_="matrix"), class_="scroll", tabindex="0"))
    for left, what in ((len(columns) - len(shown), "columns in which nothing differs"), (len(heard) - MOST_ROWS, "rows")):
        if left > 0:
            told.append(tag("p", f"{left:,} {what} are left out.", class_="none"))
    if rest:
        told.append(tag("p", f"In none of these VLANs: {masks.words(rest, 40)}", class_="none"))
    return join(*told)


def _cell(row: int, it: Column) -> Markup:
    before, now = (_sign(row & it.sends[at], row & it.hears[at]) for at in (0, 1))
    kind = "lose" if row & it.lost else "gain" if row & it.gained else None
    text = now + (" t" if now and row & it.tagged else "")
    if before != now:
        text = f"{text or '–'} (was {before or '–'})"
    return tag("td", text, class_=kind)


def _sign(sends: int, hears: int) -> str:
    return "↔" if sends and hears else "→" if sends else "←" if hears else ""
