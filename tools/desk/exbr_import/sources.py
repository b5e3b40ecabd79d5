"""What an import reads: which words go together, and the switches that they name."""
import argparse
import os

from exbr_desk import topology
from exbr_desk.errors import DeskError

from . import boxes, change, ends, folder, junos, linux, nxos, order, page, places, plan, switch, text
from .switch import Switch

OF_LINUX = ("vlan", "fdb", "mdb", "bridge", "host")
BIG = 4294967295


def check(asked: argparse.Namespace) -> None:
    """That words fit each other."""
    given = [it for it in ("nxos", "junos", "plan", "link", "to_plan") if getattr(asked, it)]
    if len(given) > 1:
        raise DeskError(f"--{given[0].replace('_', '-')} and --{given[1].replace('_', '-')} are two sources; name one")
    if not given and not asked.captures:
        raise DeskError("name --nxos FILE, --junos FILE, --plan FILE, --link FILE, or --captures FOLDER; exbr-import --help says more")
    if not asked.link and any(getattr(asked, it) for it in OF_LINUX):
        raise DeskError("--vlan, --fdb, --mdb, --bridge and --host are of a Linux bridge: they need --link FILE")
    if asked.extenders is not None and not 1 <= asked.extenders <= 64:
        raise DeskError("--extenders takes 1 to 64 ports")
    if asked.extenders is not None and (asked.nxos or asked.junos or asked.plan or asked.to_plan):
        raise DeskError("--extenders is of a Linux bridge and of captures: a configuration says which extenders there are")
    if (asked.fex or asked.fex_detail) and not (asked.nxos or asked.junos):
        raise DeskError("--fex and --fex-detail are of --nxos and --junos")
    check_change(asked)
    for name, most in (("channels", 4094), ("groups", 12288)):
        if getattr(asked, name) is not None and not 1 <= getattr(asked, name) <= most:
            raise DeskError(f"--{name} takes 1 to {most}")
    if asked.json and asked.output == "-":
        raise DeskError("--json goes to standard output, so -o has to name the topology")


def check_change(asked: argparse.Namespace) -> None:
    """That the words of a change fit each other."""
    if asked.after and not (asked.nxos or asked.junos or asked.plan or asked.link):
        raise DeskError("--after is a later configuration: it needs --nxos, --junos, --plan or --link")
    if asked.after and asked.at is None:
        raise DeskError("--after needs --at SECOND: when the change begins")
    if not asked.after and (asked.at is not None or asked.every):
        raise DeskError("--at and --every are of a change: they need --after")
    if asked.at is not None and not 0 <= asked.at <= BIG or not 0 <= asked.every <= 1_000_000:
        raise DeskError("--at and --every take seconds from 0 on")
    if asked.page and not asked.after:
        raise DeskError("--page is of a change: it needs --after")


def switches(asked: argparse.Namespace) -> tuple[Switch, Switch | None]:
    """The switch that is asked for, and its later configuration, with their ports in their places."""
    found = [read(asked, False)] + ([read(asked, True)] if asked.after else [])
    if asked.nxos or asked.junos:
        places.give(found, 1 if asked.nxos else 0)
    elif asked.link:
        places_of_linux(found, asked.extenders)
    elif not asked.plan and (asked.extenders is not None or not switch.place_by_names(found[0])):
        placed(found[0], asked.extenders)
    if asked.plan and asked.after and (found[0].extenders, found[0].local) != (found[1].extenders, found[1].local):
        raise DeskError(f"{asked.after}: it has another tree than {asked.plan}, and no command makes or moves an extender")
    for it in found:
        it.limits |= {name: getattr(asked, name) for name in ("channels", "groups") if getattr(asked, name) is not None}
    return found[0], found[1] if asked.after else None


def read(asked: argparse.Namespace, is_later: bool) -> Switch:
    """One configuration."""
    if asked.nxos or asked.junos:
        told = boxes.of_words(asked.fex) | (boxes.of_detail(asked.fex_detail) if asked.fex_detail else {})
        read_it = nxos.switch_of if asked.nxos else junos.switch_of
        return read_it(asked.after if is_later else asked.nxos or asked.junos, told)
    if asked.plan:
        found = plan.switch_of(asked.after if is_later else asked.plan)
        if asked.after and (found.extra["changes"] or found.extra.get("command")):
            raise DeskError(f"{asked.after if is_later else asked.plan}: it has [[change]] or [[command]], so --after has no place beside it")
        return found
    if asked.link:
        return of_linux(asked, is_later)
    return folder.switch_of(asked.captures)


def of_linux(asked: argparse.Namespace, is_later: bool) -> Switch:
    """A Linux bridge: its answers, or those of a folder."""
    files = {it: getattr(asked, it) for it in ("link", "vlan", "fdb", "mdb")}
    if is_later:
        if not os.path.isdir(asked.after):
            raise DeskError(f"{asked.after}: of a Linux bridge --after is a folder with link.json, vlan.json and so on")
        files = {it: path if os.path.exists(path := os.path.join(asked.after, f"{it}.json")) else None for it in files}
        files["link"] = files["link"] or asked.link
    found = linux.switch_of(files["link"], files["vlan"], asked.bridge, asked.host)
    if files["fdb"]:
        linux.add_entries(found, files["fdb"])
    if files["mdb"]:
        linux.add_groups(found, files["mdb"])
    return found


def places_of_linux(found: list[Switch], per_extender: int | None) -> None:
    """The places of a bridge's ports. Ports that are in one of two answers alone stand behind the others."""
    placed(found[0], per_extender)
    if len(found) < 2:
        return
    later, known = found[1], found[0].by()
    more = [it.name for it in later.ports if it.name not in known]
    if more:
        raise DeskError(f"the later bridge has a port {more[0]} that the first one hasn't: no command makes a port")
    ports = later.by()
    later.ports = [ports.get(it.name) or switch.Port(it.name, why="no port any more") for it in found[0].ports]
    for one, it in zip(found[0].ports, later.ports):
        it.place = one.place
    later.extenders, later.local = found[0].extenders, found[0].local


def placed(found: Switch, per_extender: int | None) -> None:
    """Gives the ports of a bridge, or of captures, their places."""
    try:
        switch.place(found, per_extender)
    except ValueError as fault:
        raise DeskError(str(fault)) from None


def commands(found: Switch) -> list[str]:
    """The commands that a plan has by itself: as they stand there, or those of its changes."""
    made = [page.raw(it) for it in found.extra.get("command", [])]
    now, first = found, 1
    for at, later, _ in found.extra.get("changes", []):
        its = differ(now, later, at, 0)
        first += its.count
        made += page.commands(its)
        now = later
    return made


def differ(found: Switch, later: Switch, at: int, every: int) -> page.Change:
    """The change from one switch to another one."""
    start = topology.of_text(text.topology(found), "the topology that was made")
    done = order.ordered(start.tree, start.tables["bridge"], ends.at_end(start), change.units(found, later))
    steps = [(at + every * number, it) for number, it in enumerate(change.steps(done.units))]
    return page.Change(found, later, steps, change.unchanged(found, later), done.refusal, done.is_whole, first=1 + len(start.commands))
