"""The words of exbr-import."""
import argparse
import json
import os
import sys

from exbr_desk import play, topology
from exbr_desk.errors import DeskError

from . import ends, folder, named, notes, page, sources, text, to_plan
from .outputs import Outputs
from .switch import Switch

ABOUT = """Makes a topology of what an operator has: the running configuration of a Nexus with fabric extenders, the configuration of a Junos switch
with satellites, the answers of `ip` and `bridge` of a Linux bridge, a plan by hand, a folder of captures that are named by port, or captures
and one of the others. What can't be carried over stands on standard error, and in the topology as comments. Beside the topology it writes
names.toml: what the ports are called, for all tools of the desk."""
END = """status: 0: all is written; 1: all is written, but the change doesn't lead where it should (see the page); 2: nothing is written, and a line on
standard error says why.
examples:
  exbr-import --nxos agg-1.cfg --fex 101-112=48 --captures . -o topology.toml
  exbr-import --nxos before.cfg --after after.cfg --at 60 -o topology.toml       and change.md beside it
  exbr-import --junos agg-1.set --fex 101=24 -o topology.toml                    of: show configuration | display set
  exbr-import --plan plan.toml -o topology.toml;  exbr-import --to-plan topology.toml -o plan.toml
  exbr-import --link link.json --vlan vlan.json --fdb fdb.json --captures . -o topology.toml
On a Linux switch: ip -j -d link > link.json; bridge -j vlan show > vlan.json; bridge -j fdb show > fdb.json; bridge -j mdb show > mdb.json."""


def parser() -> argparse.ArgumentParser:
    """The words of the tool."""
    it = argparse.ArgumentParser("exbr-import", description=ABOUT, epilog=END, formatter_class=argparse.RawDescriptionHelpFormatter)
    it.add_argument("--version", action="version", version="exbr-import 2")
    of = it.add_argument_group("what is read")
    of.add_argument("--nxos", metavar="FILE", help="a running configuration of NX-OS: show running-config")
    of.add_argument("--junos", metavar="FILE", help="a configuration of Junos: show configuration | display set")
    of.add_argument("--plan", metavar="FILE", help="a plan by hand (docs/plan.md)")
    of.add_argument("--to-plan", metavar="FILE", help="the other way: a topology becomes a plan")
    of.add_argument("--fex", metavar="N=PORTS", action="append", default=[], help="how many ports extender N has, or N to M: 101=48, 101-112=48")
    of.add_argument("--fex-detail", metavar="FILE", help="the same from the answer of: show fex detail")
    of.add_argument("--link", metavar="FILE", help="a Linux bridge: the answer of: ip -j -d link")
    of.add_argument("--vlan", metavar="FILE", help="the answer of: bridge -j vlan show (needed where the bridge filters VLANs)")
    of.add_argument("--fdb", metavar="FILE", help="the answer of: bridge -j fdb show; its static entries are carried over")
    of.add_argument("--mdb", metavar="FILE", help="the answer of: bridge -j mdb show; its permanent groups are carried over")
    of.add_argument("--bridge", metavar="NAME", help="which bridge, where there are several")
    of.add_argument("--host", action="store_true", help="the host itself becomes a port, the last one")
    of.add_argument("--extenders", metavar="PORTS", type=int, help="the ports become those of extenders of so many ports, and not of the bridge")
    of.add_argument("--captures", metavar="FOLDER",
                    help="a folder with captures of what arrives, named by port: swp1.pcap, x1.2.pcapng, in-b3.pcap, Ethernet101_1_7.pcap")
    more = it.add_argument_group("a change")
    more.add_argument("--after", metavar="FILE", help="a later configuration of the same kind: the commands that lead to it are written too; of a Linux "
                      "bridge a folder with link.json, vlan.json and so on")
    more.add_argument("--at", metavar="SECOND", type=int, help="when the change begins")
    more.add_argument("--every", metavar="SECONDS", type=int, default=0, help="how much later each step comes (0: all at once)")
    more.add_argument("--page", metavar="FILE", help="the page that says what each command is for (change.md beside the topology)")
    more.add_argument("--program", metavar="FILE", help="the exbr that tries the change (default: the file that EXBR names, or that of the repository)")
    more.add_argument("--no-play", action="store_true", help="look at the end of the change by the rules alone, and run no program")
    out = it.add_argument_group("what is written")
    out.add_argument("-o", "--output", metavar="FILE", default="-", help="the topology (standard output)")
    out.add_argument("--names", metavar="FILE", help="what the ports are called (names.toml beside the topology)")
    out.add_argument("--channels", metavar="N", type=int, help="the E-channels that there are below each port of the bridge")
    out.add_argument("--groups", metavar="N", type=int, help="the groups that there are below each port of the bridge")
    out.add_argument("--force", action="store_true", help="write over files that are there")
    out.add_argument("--all", action="store_true", help="say each statement that isn't carried over, and not a few of each kind")
    out.add_argument("--json", action="store_true", help="what isn't carried over, the names and the steps for programs; needs -o FILE")
    return it


def main(words: list[str] | None = None) -> int:
    """The status of the tool."""
    asked = parser().parse_args(words)
    sources.check(asked)
    outputs = Outputs(asked.force)
    if asked.to_plan:
        outputs.text(asked.output, to_plan.plan(topology.read(asked.to_plan)))
        outputs.write()
        return 0
    found, later = sources.switches(asked)
    for one, other in zip(found.ports, later.ports if later else []):
        one.description = one.description or other.description
    if asked.captures:
        folder.give(found, asked.captures, None if asked.output == "-" else os.path.dirname(asked.output) or ".", outputs)
    its = sources.differ(found, later, asked.at, asked.every) if later else None
    made = text.topology(found, page.commands(its) if its else sources.commands(found))
    topology.of_text(made, "the topology that was made")
    if its:
        check(asked, its, made, later)
    put(asked, outputs, found, made, its)
    outputs.write()
    tell(asked, found, its)
    return 1 if its and its.differs else 0


def check(asked: argparse.Namespace, its: page.Change, made: str, later: Switch) -> None:
    """Whether the change, played to its end, leads to the later configuration."""
    exbr = None
    if not asked.no_play:
        try:
            exbr = play.program(asked.program)
        except DeskError:
            if asked.program:
                raise
    its.differs, was_played = ends.ends(made, text.topology(later), exbr)
    how = "Played by exbr to the end with probes at each port" if was_played else "By the rules alone (exbr didn't play it)"
    its.checked = (f"{how}, the configuration is that of {later.file or 'the later one'}, and no command is refused." if not its.differs else
                   f"{how}, the end is **not** as {later.file or 'the later configuration'} has it:")


def put(asked: argparse.Namespace, outputs: Outputs, found: Switch, made: str, its: page.Change | None) -> None:
    """What is to be written."""
    at = None if asked.output == "-" else os.path.dirname(asked.output)
    outputs.text(asked.output, made)
    has_names = any(it.name and it.shown != it.place for it in found.ports)
    names = asked.names or (os.path.join(at, "names.toml") if at is not None and has_names else None)
    if names:
        outputs.text(names, named.names(found))
    path = asked.page or (os.path.join(at, "change.md") if at is not None else None)
    if its and path:
        outputs.text(path, page.page(its))


def tell(asked: argparse.Namespace, found: Switch, its: page.Change | None) -> None:
    """What wasn't carried over, and what a reader should know."""
    if asked.json:
        steps = [{"step": number, "at": at, "what": step.what, "ports": [it.place for it in step.ports], "commands": step.commands}
                 for number, (at, step) in enumerate(its.steps, 1)] if its else []
        ports = {it.place: {"interface": it.name, "description": it.description, "line": it.line} for it in found.ports if it.name}
        print(json.dumps(notes.in_json(found) | {"ports": ports} | ({"steps": steps, "stays": its.stays, "differs": its.differs} if its else {}), indent=1))
    for kind, them in (("not carried", notes.said(found, asked.all)), ("to know", found.notes), ("stays as it was", its.stays if its else [])):
        for it in them:
            print(f"exbr-import: {kind}: {it}", file=sys.stderr)
    if its:
        print(f"exbr-import: change: {page.plural(len(its.steps), 'step')}, {page.plural(its.count, 'command')}. {its.checked.replace('**', '')}", file=sys.stderr)
        for it in [*([f"a command is refused: {its.refusal}"] if its.refusal else []), *its.differs[:20]]:
            print(f"exbr-import: change: {it}", file=sys.stderr)
