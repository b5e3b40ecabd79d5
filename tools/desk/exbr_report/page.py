"""The page: one HTML file that holds all it needs, and asks for nothing from outside."""
import base64
import hashlib
import json
import os

from exbr_desk import shown

from . import lists, picture_time, picture_tree
from .colours import Palette
from .facts import Change, Port, Report, Vlan
from .markup import Markup, join, tag, text

HERE = os.path.dirname(os.path.abspath(__file__))
PARTS = (("notices", "What to know"), ("picture", "Tree"), ("timeline", "Time line"), ("ports", "Ports"), ("vlans", "VLANs"),
         ("changes", "Commands"), ("frames", "Frames"))


def asset(name: str) -> str:
    """A file that lies beside this one."""
    with open(os.path.join(HERE, name), encoding="utf-8") as file:
        return file.read()


def script_json(value: object) -> Markup:
    """JSON that can stand in a page: no `<` in it can end the element."""
    return Markup(shown.in_json(json.dumps(value, separators=(",", ":"), ensure_ascii=True)).replace("<", "\\u003c"))


def policy(script: str) -> str:
    """What a browser lets the page do: run this one script, and have styles of its own. It loads nothing and sends no form."""
    sum_of_script = base64.b64encode(hashlib.sha256(script.encode()).digest()).decode()
    return f"default-src 'none'; style-src 'unsafe-inline'; script-src 'sha256-{sum_of_script}'; form-action 'none'; base-uri 'none'"


def number(value: int) -> str:
    """A number with its thousands apart."""
    return f"{value:,}"


def octets(value: int) -> str:
    """Bytes as a reader says them."""
    size, unit = float(value), "B"
    for larger in ("kB", "MB", "GB", "TB"):
        if size < 1000:
            break
        size, unit = size / 1000, larger
    return f"{value} B" if unit == "B" else f"{size:.1f} {unit}"


def section(name: str, title: str, *content: object) -> Markup:
    """A part of the page under its heading."""
    return tag("section", tag("h2", title, id=f"{name}-head", tabindex="-1"), *content, id=name, aria_labelledby=f"{name}-head")


def figure(value: int, words: str, mark: str = "") -> Markup:
    """A number that one sees first. A word that ends with `(s)` loses or keeps its s."""
    return tag("li", tag("b", number(value)), tag("span", words.replace("(s)", "" if value == 1 else "s")), class_=mark if value else "")


def figures(report: Report) -> Markup:
    """The numbers of the summary, and what it hides: of those relayed, how many went nowhere."""
    done = [it for it in report.changes if it.done]
    refused = [it for it in report.changes if it.done is False]
    return tag("ul", figure(report.total("arrived"), "frame(s) arrived"), figure(report.total("left"), "copy left" if report.total("left") == 1 else "copies left"),
               figure(report.total("refused"), "refused by their port's rules", "hot"), figure(report.total("nobody"), "let in, but for nobody", "hot"),
               figure(report.total("ignored"), "ignored", "hot"), figure(len(done), "command(s) took effect"),
               figure(len(refused), "command(s) refused", "wrong"), class_="tiles")


def notices(report: Report) -> Markup:
    """What the reader should know first."""
    sign = {"bad": "Refused.", "warn": "Look here.", "note": "Note."}
    them = [tag("li", tag("b", "Fault." if it.is_fault else sign[it.level]), it.text, " " if it.link else None,
                Markup(it.link) if it.link else None, class_=it.level) for it in report.notices]
    return tag("ul", them, class_="notices") if them else tag("p", "Nothing: each frame left somewhere, and no command was refused.")


def key(shade: str, words: str) -> Markup:
    """A colour with what it stands for."""
    return tag("li", tag("i", class_=shade), words)


def tree(report: Report, palette: Palette) -> list[Markup]:
    """The picture of the tree with its legend."""
    shades = [key(f"sw {shade}", f"VLAN {vid}") for vid, shade in palette.shade.items()]
    if palette.more:
        shades.append(key("sw vx", "other VLANs"))
    hint = ("Each port: its VLANs (t: tagged), ↓ frames that arrived, ↑ frames that left. The stripe has the colours of its VLANs, low where it is "
            "tagged. ⊘ and a dashed frame: isolated. A port is a button: it shows its frames below; arrow keys go from port to port.")
    return [tag("div", picture_tree.picture(report, palette), class_="wide", tabindex="0", role="region", aria_label="Picture of the tree"),
            tag("ul", shades, class_="keys"), tag("p", hint, class_="hint")]


def timeline(report: Report) -> list[Markup]:
    """The picture of the time line with its legend, and the same as a table."""
    keys = [key("left", "left somewhere"), key("nowhere", "went nowhere"), key("ignored", "ignored")]
    length = report.spans[0].seconds if report.spans else 1
    each = "a second" if length == 1 else f"{length} seconds"
    hint = f"Each bar is {each}. ▼: commands took effect. ✕: a command was refused. A bar is a button: it shows the frames of its time below."
    busy = [it for it in report.spans if it.all]
    rows = [tag("tr", *(tag("td", number(it), class_="n") for it in (span.second, span.left, span.nowhere, span.ignored))) for span in busy]
    heads = tag("tr", *(tag("th", it, scope="col", class_="n") for it in ("From second", "Left somewhere", "Went nowhere", "Ignored")))
    table = tag("details", tag("summary", "The same as a table"), tag("div", tag("table", tag("thead", heads), tag("tbody", rows)), class_="tall"))
    return [tag("div", picture_time.picture(report), class_="wide"), tag("ul", keys, class_="keys"), tag("p", hint, class_="hint"), table]


def count(value: int) -> Markup:
    """A number of a table."""
    return tag("td", number(value), class_="n" if value else "n zero")


def port_row(port: Port, at: int, palette: Palette) -> Markup:
    """A port of the table."""
    it = port.counters
    rules = [] if port.accept == "all" else [f"{port.accept} only"]
    rules += ["filter"] if port.filter else []
    rules += ["isolated"] if port.isolated else []
    rules += [] if port.present else ["absent"]
    link = tag("a", port.shown, href="#frames", data_frames=json.dumps({"port": str(at)}), title=f"The frames of {port.name}")
    return tag("tr", tag("th", link, scope="row"), tag("td", port.pvid, class_="n"), tag("td", lists.chips(port.members, port.vlans, palette)),
               tag("td", ", ".join(rules) or "–"), count(it.arrived), count(it.relayed), count(it.refused), count(it.nobody), count(it.ignored), count(it.left),
               tag("td", octets(it.octets), class_="n" if it.octets else "n zero"),
               tag("td", "; ".join(f"{words}: {number(many)}" for words, many in it.dropped.items()) or "–"))


def port_table(report: Report, palette: Palette) -> list[Markup]:
    """All ports with their counters."""
    heads = (("Port", ""), ("PVID", "n"), ("VLANs", ""), ("Rules", ""), ("Arrived", "n"), ("Relayed", "n"), ("Refused", "n"), ("For nobody", "n"),
             ("Ignored", "n"), ("Left", "n"), ("Bytes left", "n"), ("Why refused", ""))
    head = tag("tr", *(tag("th", words, scope="col", class_=kind or None) for words, kind in heads))
    rows = [port_row(it, at, palette) for at, it in enumerate(report.ports)]
    said = ("As the ports were at the end. Relayed are all frames that the bridge took; Refused those of them that a rule of their port let in "
            "nowhere; For nobody those that were let in and had no target.")
    table = tag("table", tag("caption", said), tag("thead", head), tag("tbody", rows))
    return [tag("div", table, class_="wide tall", tabindex="0", role="region", aria_label="Table of ports")]


def change_of(before: list[str], after: list[str]) -> Markup:
    """Members at the end, and which came and went since the start."""
    new, gone = [it for it in after if it not in before], [it for it in before if it not in after]
    parts = [text(lists.ports(after, 40))]
    if new:
        parts.append(tag("div", f"+ {lists.ports(new, 20)}", class_="what left"))
    if gone:
        parts.append(tag("div", f"− {lists.ports(gone, 20)}", class_="what nowhere"))
    return join(parts)


def vlan_row(vlan: Vlan, palette: Palette) -> Markup:
    """A VLAN of the table."""
    link = tag("a", vlan.vid, href="#frames", data_frames=json.dumps({"vlan": str(vlan.vid)}), class_=f"chip {palette.of(vlan.vid)}")
    return tag("tr", tag("th", link, scope="row"), tag("td", change_of(vlan.untagged_before, vlan.untagged)),
               tag("td", change_of(vlan.tagged_before, vlan.tagged)))


def vlan_table(report: Report, palette: Palette) -> list[Markup]:
    """VLANs with their members at the end, and what the commands changed."""
    head = tag("tr", *(tag("th", it, scope="col") for it in ("VLAN", "Untagged members", "Tagged members")))
    hidden = report.every_vlan - len(report.vlans)
    more = f" Of {number(report.every_vlan)} VLANs {number(hidden)} that didn't change aren't shown." if hidden > 0 else ""
    said = f"Members at the end of the run. + and − say what came and went by commands.{more}"
    table = tag("table", tag("caption", said), tag("thead", head), tag("tbody", [vlan_row(it, palette) for it in report.vlans]))
    return [tag("div", table, class_="wide tall", tabindex="0", role="region", aria_label="Table of VLANs")]


def change_row(it: Change) -> Markup:
    """A command of the table."""
    fate = {True: "took effect", False: f"refused: {it.cause}", None: "isn't in the journal"}[it.done]
    mark = {True: "what left", False: "disagree", None: "what ignored"}[it.done]
    return tag("tr", tag("td", it.number, class_="n"), tag("td", it.second, class_="n"), tag("td", tag("code", it.words)), tag("td", fate, class_=mark))


def change_table(report: Report) -> list[Markup]:
    """The commands in order."""
    if not report.changes:
        return [tag("p", "The topology has no commands.")]
    head = tag("tr", *(tag("th", words, scope="col", class_=kind or None) for words, kind in
                       (("Number", "n"), ("Second", "n"), ("Command", ""), ("What became of it", ""))))
    refused = [it for it in report.changes if it.done is not True]
    shown = report.changes if len(report.changes) <= 2000 else (refused + [it for it in report.changes if it.done])[:2000]
    said = f"{number(len(report.changes))} commands" + (f", of which {number(len(shown))} are shown, refused ones first" if len(shown) < len(report.changes) else "")
    table = tag("table", tag("caption", said), tag("thead", head), tag("tbody", [change_row(it) for it in shown]))
    return [tag("div", table, class_="wide tall", tabindex="0", role="region", aria_label="Table of commands")]


def choice(name: str, words: str, options: list[tuple[str, str]]) -> Markup:
    """A list of which one is chosen."""
    return tag("label", words, tag("select", [tag("option", said, value=value) for value, said in options], id=name))


def filter_form(report: Report) -> Markup:
    """What narrows the frames down."""
    data = report.frames
    seen = sorted(set(data["columns"]["vid"]) - {0})
    reasons = [(f"nowhere:{code}", f"- {words}") for code, words in data.get("causes", {}).items()]
    whats = [("", "all"), ("left", "left somewhere"), ("nowhere", "went nowhere"), *reasons, ("ignored", "ignored")]
    ports = [("", "all"), *((str(at), it.shown) for at, it in enumerate(report.ports))]
    return tag("form", choice("f-port", "Arrived at", ports), choice("f-vlan", "VLAN", [("", "all"), *((str(it), str(it)) for it in seen)]),
               choice("f-what", "What became of it", whats),
               tag("label", "From second", tag("input", id="f-from", type="number", min="0", step="any")),
               tag("label", "to before second", tag("input", id="f-to", type="number", min="0", step="any")),
               tag("label", "Address or content", tag("input", id="f-word", type="search", placeholder="02:00:.. or ARP"), class_="word"),
               tag("button", "Show all", type="button", id="clear"), id="filter", class_="filter", role="search", aria_label="Frames")


def pager(*rest: Markup) -> Markup:
    """Buttons from page to page."""
    buttons = [tag("button", words, type="button", data_go=go) for go, words in
               (("first", "First"), ("back", "Back"), ("next", "Next"), ("last", "Last"))]
    return tag("div", buttons, *rest, class_="pager")


def frame_table(report: Report) -> list[Markup]:
    """The frames, which the script of the page fills in."""
    heads = (("Second", "n"), ("Arrived at", ""), ("VLAN", "n"), ("From", ""), ("To", ""), ("Content", ""), ("Bytes", "n"), ("", ""), ("Left at", ""),
             ("", ""))
    head = tag("tr", *(tag("th", words or tag("span", other, class_="only-heard"), scope="col", class_=kind or None)
                       for (words, kind), other in zip(heads, ("", "", "", "", "", "", "", "What became of it", "", "Why"))))
    size = tag("label", "Frames a page ", tag("select", [tag("option", it, value=it) for it in (50, 200, 1000)], id="size"))
    table = tag("table", tag("thead", head), tag("tbody", id="rows"))
    return [tag("p", report.held) if report.held else None, filter_form(report),
            pager(tag("span", id="where", role="status", aria_live="polite"), size),
            tag("div", table, class_="wide", tabindex="0", role="region", aria_label="Table of frames"), pager(),
            tag("noscript", tag("p", "This table needs JavaScript; all else on the page doesn't."))]


def build(report: Report) -> str:
    """The text of the page."""
    palette = Palette(report.ports)
    links = [tag("a", words, href=f"#{name}") for name, words in PARTS]
    head = tag("head", tag("meta", charset="utf-8"), tag("meta", name="viewport", content="width=device-width, initial-scale=1"),
               tag("meta", http_equiv="Content-Security-Policy", content=policy(asset("page.js"))),
               tag("title", f"exbr: {report.title}"), tag("style", Markup(asset("page.css"))))
    order = "All of one second was played at once, in a drawn order." if report.seeded else "Each event was played to its end before the next."
    begins = f"Seconds count from {report.begins} UTC, as the captures have it. " if report.begins else ""
    top = tag("header", tag("h1", f"Run of {report.title}"), tag("p", begins + order, class_="under"))
    bodies = {"notices": [notices(report)], "picture": tree(report, palette), "timeline": timeline(report), "ports": port_table(report, palette),
              "vlans": vlan_table(report, palette), "changes": change_table(report), "frames": frame_table(report)}
    main = tag("main", figures(report), [section(name, words, *bodies[name]) for name, words in PARTS])
    foot = tag("footer", tag("p", "Made by exbr-report from the topology, the captures and the journal of the run. Why a frame went where it went is "
                             "told by a second, plain reading of the rules, and held against what the run wrote."))
    body = tag("body", tag("a", "To the frames", href="#frames", class_="skip"), top,
               tag("nav", tag("div", links, tag("button", "Dark look", type="button", id="look")), aria_label="Parts of the page"), main, foot,
               tag("script", script_json(report.frames), id="data", type="application/json"), tag("script", Markup(asset("page.js"))))
    return "<!doctype html>\n" + tag("html", head, body, lang="en") + "\n"
