"""The page of differences: what goes into a change ticket, as one HTML file that asks for nothing from outside and needs no script."""
from exbr_desk import told
from exbr_desk.explain import counted

from .changes import Changes, Doing, PairRow, Policy, VlanRow, pair_rows
from .markup import Markup, tag
from .page import asset, figure, number, section

LIMIT, SHOWN, FEW = 200, 20, 12
NUMBERS = ("Second", "Frames", "Command")
TITLES = (("loses", "Lose connectivity"), ("paused", "Cut off for a while"), ("gains", "Gain connectivity"), ("fewer", "Fewer frames arrive"), ("more", "More frames arrive"))
SAID = {
    "loses": "Frames arrived before and don't now, none of their later frames arrives, and none would at the end.",
    "paused": "From some frame on none arrived, but one would at the end.",
    "gains": "Frames arrive now that didn't before.",
    "fewer": "Some frames don't arrive that did before; later ones do.",
    "more": "Some frames arrive that didn't before; earlier or later ones did anyway.",
}
STYLE = """
.verdict { font-size: 1.15rem; font-weight: 600; border-left: 6px solid var(--left); padding: .5rem .9rem; margin: 0 0 1rem; background: var(--card); max-width: none; }
.verdict.bad { border-color: var(--bad); } .verdict.warn { border-color: var(--warn); }
td.end { white-space: nowrap; } td.end code { white-space: nowrap; } td.why { overflow-wrap: anywhere; min-width: 16rem; } td.first code { white-space: nowrap; }
details summary { cursor: pointer; color: var(--accent); } details ul { margin: .2rem 0; padding-left: 1.1rem; }
.lose { color: var(--bad); } .gain { color: var(--left); } .cut { color: var(--warn); }
.hang { overflow-wrap: anywhere; }
@media (max-width: 720px) {
  .cards thead { display: none; } .cards table, .cards tbody, .cards caption { display: block; }
  .cards tbody tr { display: block; border: 1px solid var(--line); border-radius: 8px; padding: .4rem .6rem; margin: .5rem 0; }
  .cards tbody td, .cards tbody th { display: block; border: 0; padding: .05rem 0; text-align: left; }
  .cards td.n { text-align: left; white-space: normal; } .cards td.end, .cards td.first code { white-space: normal; overflow-wrap: anywhere; }
  .cards [data-of]::before { content: attr(data-of) " "; color: var(--muted); font-size: .82rem; }
  .cards td:empty { display: none; } td.why { min-width: 0; }
}
@media print { .verdict { font-size: 14px; } details:not([open]) { display: block; } td.why { min-width: 10rem; } section { padding: 0 0 .6rem; } }
"""


def cell(of: str, *content: object, kind: str = "") -> Markup:
    """A cell that says its column where there is no head."""
    return tag("td", *content, class_=kind or None, data_of=of)


def table(heads: tuple[str, ...], rows: list[Markup], said: str = "") -> Markup:
    """A table, whose rows are cards on a narrow screen."""
    head = tag("tr", *(tag("th", it, scope="col", class_="n" if it in NUMBERS else None) for it in heads))
    return tag("div", tag("table", tag("caption", said) if said else None, tag("thead", head), tag("tbody", rows)), class_="wide cards", tabindex="0", role="region",
               aria_label="Table")


def ends(text: str) -> list[object]:
    """A port, and an address behind it."""
    port, _, rest = text.partition("  ")
    return [tag("b", port), " ", tag("code", rest) if rest and rest[2:3] == ":" else rest]


def pair_line(it: PairRow) -> Markup:
    return tag("tr", cell("from", *ends(it.one), kind="end"), cell("both ways" if it.both else "to", "↔ " if it.both else "→ ", *ends(it.other), kind="end"),
               cell("VLAN", it.vlans), cell("frames", number(it.frames), kind="n"), cell("first", tag("code", it.first), kind="first"), cell("why", it.why, kind="why"),
               cell("command", it.command, kind="n"))


def pairs(changes: Changes, kind: str, title: str) -> Markup | None:
    """The pairs of one kind."""
    its = getattr(changes.found, kind)
    if not its:
        return None
    rows = pair_rows(changes.found, its, kind)
    more = f" {len(rows) - LIMIT:,} more pairs aren't shown; exbr-compare --limit 0 lists them." if len(rows) > LIMIT else ""
    heads = ("From", "To", "VLAN", "Frames", "First", "Why", "Command")
    lines = [pair_line(it) for it in rows[:LIMIT]]
    rest = tag("details", tag("summary", f"{len(lines) - SHOWN:,} more"), table(heads, lines[SHOWN:])) if len(lines) > SHOWN else None
    return section(kind, f"{title}: {told.counted_pairs(its, changes.found.before.homes)}", table(heads, lines[:SHOWN], SAID[kind] + more), rest)


def doing_line(it: Doing) -> Markup:
    shown = it.pairs[:FEW] + ([f"and {len(it.pairs) - FEW:,} more"] if len(it.pairs) > FEW else [])
    words = [tag("span", f"{count:,} {said}", class_=mark) for count, said, mark in
             ((it.loses, "lose", "lose"), (it.paused, "cut off for a while", "cut"), (it.gains, "gain", "gain")) if count]
    parts = [part for word in words for part in (word, ", ")][:-1]
    return tag("tr", tag("th", it.number, scope="row", class_="n", data_of="command"), cell("second", "" if it.second is None else number(it.second), kind="n"), cell("", it.words, kind="hang"),
               cell("pairs", *parts), cell("", tag("details", tag("summary", "which"), tag("ul", [tag("li", one) for one in shown])), kind="hang"))


def doings(changes: Changes) -> list[Markup]:
    """What each command did."""
    if not changes.doings:
        return [tag("p", "No pair loses or gains anything.")]
    quiet = len(changes.found.after.table.effects) - sum(it.number.isdigit() for it in changes.doings)
    said = "Each pair stands at the command that touched last what keeps its frames out, or lets them in." + (
        f" {counted(quiet, 'command')} of AFTER took effect without a pair that loses or gains by {'it' if quiet == 1 else 'them'}." if quiet > 0 else "")
    return [table(("Command", "Second", "What it asks for", "Pairs", ""), [doing_line(it) for it in changes.doings], said)]


def vlan_line(it: VlanRow) -> Markup:
    said = ", ".join(f"{count:,} {told.WORDS.get(what, what)}" for what, count in it.frames.items()) or "none"
    return tag("tr", tag("th", it.vid or "none", scope="row", data_of="VLAN"), cell("frames that differ", said), cell("+", "; ".join(it.came), kind="gain"),
               cell("−", "; ".join(it.gone), kind="lose"), cell("by command", it.commands))


def vlans(changes: Changes) -> list[Markup]:
    """By VLAN: first those whose members differ."""
    if not changes.vlans:
        return [tag("p", "No VLAN differs.")]
    its = sorted(changes.vlans, key=lambda it: (not (it.came or it.gone), -sum(it.frames.values()), it.vid))
    heads = ("VLAN", "Frames that differ", "Members at the end that came", "that went", "By command")
    moved = sum(bool(it.came or it.gone) for it in its)
    rest = its[max(moved, 20):]
    main = table(heads, [vlan_line(it) for it in its[:max(moved, 20)]], f"{counted(len(its), 'VLAN')} with frames or members that differ; {moved} with other members at the end come first.")
    other = tag("details", tag("summary", f"{counted(len(rest), 'more VLAN')}, where frames differ alone"), table(heads, [vlan_line(it) for it in rest])) if rest else None
    return [main, *([other] if other else [])]


def policy_line(it: Policy) -> Markup:
    return tag("tr", tag("th", it.where, scope="row"), cell("", it.what), cell("before", it.before), cell("after", it.after), cell("by command", it.command))


def policies(changes: Changes) -> list[Markup]:
    """Rules that differ at the end."""
    if not changes.policies:
        return [tag("p", "Rules of ports, states of ports and static entries are the same at the end of both.")]
    rows = [policy_line(it) for it in changes.policies[:LIMIT]]
    more = f" {len(changes.policies) - LIMIT:,} more aren't shown." if len(changes.policies) > LIMIT else ""
    return [table(("Where", "Rule", "Before", "After", "By command"), rows, "Rules of ports, states of ports and static entries that aren't the same at the end." + more)]


def verdict(changes: Changes) -> Markup:
    """What an approver reads first."""
    found, homes = changes.found, changes.found.before.homes
    parts = [("loses connectivity for good" if len(found.loses) == 1 else "lose connectivity for good", found.loses), ("cut off for a while", found.paused), ("gain connectivity", found.gains)]
    words = [f"{told.counted_pairs(pairs, homes)} {said}" for said, pairs in parts if pairs]
    mark = "bad" if found.loses or any(reach.table.standing.lines([*reach.run.topology.commands]) for reach in (found.after,)) else "warn" if found.paused else ""
    text = "; ".join(words) if words else "No pair loses or gains connectivity."
    return tag("p", text if text.endswith(".") else f"{text}.", class_=f"verdict {mark}")


def notices(changes: Changes) -> Markup | None:
    """What has to be said before all else."""
    found = changes.found
    its = [("bad", line.removeprefix("FIRST: ")) for line in told.first(found)] + [("bad", it) for it in told.files(found)]
    its += [("note", f"{name}: {it}") for name, reach in (("BEFORE", found.before), ("AFTER", found.after)) for it in reach.table.notes]
    return tag("ul", [tag("li", f"{text}.", class_=level) for level, text in its], class_="notices") if its else None


def tiles(changes: Changes) -> Markup:
    found = changes.found
    differ = sum(count for what, count in found.frames.items() if what != "same")
    refused = len(found.after.refusals)
    return tag("ul", figure(len(told.rows(found.loses, found.before.homes)), "pair(s) that lose", "wrong"),
               figure(len(told.rows(found.paused, found.before.homes)), "cut off for a while", "hot"),
               figure(len(told.rows(found.gains, found.before.homes)), "pair(s) that gain"), figure(differ, "frame(s) that differ"),
               figure(found.frames["same"], "frame(s) as before"), figure(len(found.after.commits), "command(s) took effect after"),
               figure(refused, "command(s) refused after", "wrong"), class_="tiles")


def build(changes: Changes) -> str:
    """The text of the page."""
    head = tag("head", tag("meta", charset="utf-8"), tag("meta", name="viewport", content="width=device-width, initial-scale=1"),
               tag("meta", http_equiv="Content-Security-Policy", content="default-src 'none'; style-src 'unsafe-inline'"),
               tag("title", f"exbr: differences of {changes.title}"), tag("style", Markup(asset("page.css") + STYLE)))
    parts = [(kind, title, block) for kind, title in TITLES if (block := pairs(changes, kind, title)) is not None]
    links = [("commands", "By command"), *((kind, title) for kind, title, _ in parts), ("vlans", "By VLAN"), ("policies", "Rules")]
    nav = tag("nav", tag("div", [tag("a", words, href=f"#{name}") for name, words in links]), aria_label="Parts of the page")
    top = tag("header", tag("h1", f"Differences: {changes.title}"),
              tag("p", "Two runs of the same captures, frame by frame. What nobody sent in these captures is not judged here.", class_="under"))
    main = tag("main", notices(changes), verdict(changes), tiles(changes), section("commands", "By command", *doings(changes)), [block for _, _, block in parts],
               section("vlans", "By VLAN", *vlans(changes)), section("policies", "Rules that differ at the end", *policies(changes)))
    foot = tag("footer", tag("p", "Made by exbr-compare. b1:4 is the fourth record of the capture of b1; exbr-why b1:4 tells its way. Commands are counted from 1. "
                             "Why a frame went where it went is told by a second, plain reading of the rules, and held against what the runs wrote."))
    return "<!doctype html>\n" + tag("html", head, tag("body", top, nav, main, foot), lang="en") + "\n"
