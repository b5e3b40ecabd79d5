"""A run's files as the facts of a page. Why a frame went where it went is told by the second reading of the rules, which is held against
the files while it is gone through."""
import json
import os
from collections import Counter
from collections.abc import Iterator
from datetime import datetime, timezone

from exbr_desk import earlier, frames, index, journal, runs
from exbr_desk.errors import DeskError
from exbr_desk.judge import Judge, is_seeded
from exbr_desk.plain import Configuration
from exbr_desk.progress import Progress
from exbr_desk.reading import NAMES, Arrival, Ordered, Told

from . import lists, words
from .facts import Change, Counters, Device, Member, Notice, Port, Report, Span, Vlan
from .markup import tag
from .rows import IGNORED, LEFT, NOWHERE, Choice, Rows

SPANS, SHOWN_VLANS, SHOWN_MEMBERS, SHOWN_FAULTS, FEW_LOST = 240, 300, 64, 20, 4


class Counting(Judge):
    """The judge, who counts what the output files hold while he reads them."""

    def __init__(self, run: runs.Run) -> None:
        self.counted = {port: Counters() for port in run.topology.external}
        super().__init__(run)

    def _keys(self, port: int) -> Iterator[tuple[int, bytes]]:
        it = self.counted[port]
        for key in super()._keys(port):
            it.left += 1
            it.octets += len(key[1])
            yield key


class Gathering:
    """What has been seen of a run so far."""

    def __init__(self, run: runs.Run, most: int) -> None:
        self.run, self.judge = run, Counting(run)
        self.reading = self.judge.reading
        self.before: Configuration | None = None
        # What became of each frame is kept for the questions that follow, where it isn't kept already.
        self.filling = None if index.read(run, index.path_of(run)) else index.filling_of(self.judge)
        self.rows = Rows(run.topology.external, Choice(most, run.arrivals), self.reading.start)
        self.seconds = [Counter(), Counter(), Counter()]
        self.fates: dict[int, Ordered] = {}
        self.absent: list[Told] = []
        self.nowhere: Counter = Counter()
        self.broken = ""

    def go(self, progress: Progress) -> None:
        """Goes through the run, as far as its files can be read."""
        done = 0
        try:
            for event in self.judge.events():
                self.take(event)
                done += 1
                if not done & 0xFFF:
                    progress.at(done)
        except DeskError as fault:
            self.broken = str(fault)
        if self.before is None:
            self.before = self.reading.now.copy()

    def take(self, event: Arrival | Ordered | Told) -> None:
        """One event."""
        if self.filling:
            self.filling.take(event, self.reading)
        if isinstance(event, Arrival):
            self.arrive(event)
        elif isinstance(event, Ordered):
            self.fates[event.command.number] = event
        elif event.kind == "noup":
            self.absent.append(event)
        elif event.kind == "settled" and self.before is None:
            self.before = self.reading.now.copy()

    def arrive(self, it: Arrival) -> None:
        """A record."""
        counters = self.judge.counted[it.port]
        what = LEFT if it.targets else NOWHERE if it.is_relayed else IGNORED
        if it.is_relayed:
            counters.relayed += 1
        else:
            counters.ignored += 1
            self.nowhere[it.port, it.rule, 0, None] += 1
        if what == NOWHERE:
            self.go_nowhere(it, counters)
        self.seconds[what][it.moment // 1_000_000_000 - self.reading.start] += 1
        self.rows.add(it, what, self.reading)

    def go_nowhere(self, it: Arrival, counters: Counters) -> None:
        """A record that was relayed to nobody."""
        if it.rule is None:
            counters.nobody += 1
            self.nowhere[it.port, words.nowhere(it, self.reading), it.vid, it.entry and it.entry.port] += 1
            return
        cause = words.refusal_of(it, self.reading)
        counters.dropped[words.CAUSES[cause]] = counters.dropped.get(words.CAUSES[cause], 0) + 1
        self.nowhere[it.port, cause, it.vid or 0, None] += 1


def devices_of(run: runs.Run) -> list[Device]:
    """The bridge and the extenders."""
    bridge = Device(0, run.topology.tables["bridge"]["ports"])
    return [bridge, *(Device(number, ports, NAMES[on]) for number, (on, ports) in sorted(run.topology.extenders.items()))]


def vlans_by_port(now: Configuration) -> tuple[dict[int, list[Member]], Counter]:
    """The first VLANs of each port, and in how many it is."""
    found: dict[int, list[Member]] = {}
    count: Counter = Counter()
    for vid, kinds in sorted(now.vlans.items()):
        for kind, ports in kinds.items():
            for port in ports:
                them = found.setdefault(port, [])
                count[port] += 1
                if len(them) < SHOWN_MEMBERS:
                    them.append(Member(vid, kind == "tagged"))
    return found, count


def ports_of(seen: Gathering) -> list[Port]:
    """The external ports as they are at the end."""
    now = seen.reading.now
    members, count = vlans_by_port(now)
    return [Port(NAMES[port], members.get(port, []), count[port], now.rules[port].pvid, now.rules[port].accept, now.rules[port].filter,
                 now.rules[port].isolated, port in now.present, seen.judge.counted[port]) for port in seen.run.topology.external]


def names_of(now: Configuration, vid: int, kind: str) -> list[str]:
    """The members of one kind of a VLAN, in port order."""
    return [NAMES[port] for port in sorted(now.vlans.get(vid, words.nobody())[kind])]


def vlans_of(seen: Gathering) -> tuple[list[Vlan], int]:
    """The VLANs of the page, those that changed first where there are too many; and how many there are in all."""
    before, now = seen.before or seen.reading.now, seen.reading.now
    every = sorted(before.vlans.keys() | now.vlans.keys())
    order = sorted(every, key=lambda vid: (before.vlans.get(vid) == now.vlans.get(vid), vid))[:SHOWN_VLANS]
    found = [Vlan(vid, names_of(now, vid, "tagged"), names_of(now, vid, "untagged"), names_of(before, vid, "tagged"),
                  names_of(before, vid, "untagged")) for vid in sorted(order)]
    return found, len(every)


def changes_of(seen: Gathering) -> list[Change]:
    """The commands with what became of them."""
    found = []
    for it in seen.run.topology.commands:
        fate = seen.fates.get(it.number)
        cause = words.cause_in_words(fate.cause) if fate and fate.cause else ""
        found.append(Change(it.number, it.at, words.command_in_words(it.table), fate and fate.cause is None, cause))
    return found


def spans_of(seen: Gathering) -> list[Span]:
    """The time line, in at most so many stretches of whole seconds."""
    seconds = set().union(*seen.seconds) | {it.command.at for it in seen.fates.values()}
    if not seconds:
        return []
    first, last = min(0, *seconds), max(seconds)
    length = -(-(last - first + 1) // SPANS)
    found = [Span(at, length) for at in range(first, last + 1, length)]
    for name, counts in zip(("left", "nowhere", "ignored"), seen.seconds):
        for second, count in counts.items():
            span = found[(second - first) // length]
            setattr(span, name, getattr(span, name) + count)
    return found


def frames_link(said: str, **settings: str) -> str:
    """A link that shows some of the frames."""
    return tag("a", said, href="#frames", data_frames=json.dumps(settings))


def disagreements(seen: Gathering) -> list[Notice]:
    """Where the files aren't what the rules ask for."""
    faults = seen.judge.faults
    if seen.broken:
        return [Notice("bad", f"The files of the run can't be read to their end: {seen.broken}. What stands here is of the part before it.", is_fault=True)]
    found = [Notice("bad", f"{os.path.basename(it.file)}: {it.text}. The rules and this file don't agree, so one of them is wrong.", is_fault=True)
             for it in faults[:SHOWN_FAULTS]]
    if len(faults) > SHOWN_FAULTS:
        found.append(Notice("bad", f"There are {len(faults) - SHOWN_FAULTS:,} more such differences.", is_fault=True))
    return found


def unended(seen: Gathering) -> list[Notice]:
    """What lies there and isn't of this run, and whether the run didn't end."""
    why = runs.unended(seen.run)
    found = [Notice("bad", f"{why}. What stands here is of the part before it.", is_fault=True)] if why else []
    return found + [Notice("note", f"{it}.") for it in seen.judge.notes]


def refusals(seen: Gathering) -> list[Notice]:
    """Ports that stayed absent, and commands that were refused."""
    found = []
    if seen.absent:
        first = seen.absent[0]
        cause = words.cause_in_words(" ".join(first.text.split()[2:]))
        names = lists.ports([NAMES[it.port] for it in seen.absent if it.port is not None], 12)
        found.append(Notice("bad", f"{len(seen.absent)} ports stayed absent at the opening, and nothing passes there: {names}. For {first.text.split()[1]}: {cause}."))
    refused = [it for it in seen.fates.values() if it.cause]
    for it in refused[:SHOWN_FAULTS]:
        said = words.command_in_words(it.command.table)
        found.append(Notice("bad", f"Command {it.command.number} (second {it.command.at}: {said}) was refused and changed nothing: {words.cause_in_words(it.cause)}."))
    if len(refused) > SHOWN_FAULTS:
        found.append(Notice("bad", f"{len(refused) - SHOWN_FAULTS:,} more commands were refused; they stand under Commands."))
    return found


def lost(seen: Gathering) -> list[Notice]:
    """Which frames went nowhere, most first. What is so at many ports is said once."""
    causes: dict[str, list[tuple]] = {}
    for key, count in seen.nowhere.most_common():
        causes.setdefault(key[1], []).append((*key, count))
    return [it for cause, them in causes.items() for it in (each_lost(seen, them) if len(them) <= FEW_LOST else [all_lost(cause, them)])]


def what_of(cause: str) -> str:
    """By what the filter of the frames finds them."""
    return "ignored" if cause in words.IGNORED else f"nowhere:{cause}"


def level_of(cause: str) -> str:
    """Whether it may be a fault that frames go nowhere for this cause."""
    return "note" if cause in ("back", "reserved") else "warn"


def frames_in_words(count: int) -> str:
    """A number of frames."""
    return "1 frame" if count == 1 else f"{count:,} frames"


def each_lost(seen: Gathering, them: list[tuple]) -> list[Notice]:
    """Frames that went nowhere for one cause, at few ports."""
    found = []
    for port, cause, vid, at, count in them:
        said = f"{frames_in_words(count)} of {NAMES[port]} " + words.went(cause, count).format(vid=vid, port=NAMES[port], at=NAMES[at or 0])
        found.append(Notice(level_of(cause), f"{said}.", frames_link("Show them", port=str(seen.rows.place[port]), what=what_of(cause))))
    return found


def all_lost(cause: str, them: list[tuple]) -> Notice:
    """Frames that went nowhere for one cause, at many ports."""
    ports = sorted({it[0] for it in them})
    names = lists.ports([NAMES[port] for port in ports], 8)
    at = f"{len(ports)} ports ({names})" if len(ports) > 1 else names
    said = f"{frames_in_words(sum(it[-1] for it in them))} of {at} went nowhere: {words.EVERY[cause]}."
    return Notice(level_of(cause), said, frames_link("Show them", what=what_of(cause)))


def counters_of(run: runs.Run) -> dict[str, list[int]] | None:
    """The counters that the run wrote, where it wrote any."""
    if run.counters is None:
        return None
    found = {}
    for line in journal.texts(run.counters):
        parts = line.split()
        if parts[1::2] != ["relayed", "dropped", "ignored", "left", "octets"] or not all(it.isdigit() for it in parts[2::2]):
            raise DeskError(f"{run.counters}: '{line[:60]}' is no line of counters")
        found[parts[0]] = [int(it) for it in parts[2::2]]
    return found


def counted(seen: Gathering, ports: list[Port]) -> list[Notice]:
    """Whether the counters that the run wrote are those of its files."""
    try:
        told = counters_of(seen.run)
    except DeskError as fault:
        return [Notice("bad", f"{fault}.", is_fault=True)]
    if told is None or seen.broken or earlier.is_older(seen.run, seen.run.counters):
        return []
    wrong = [it.name for it in ports if told.get(it.name) != [it.counters.relayed, it.counters.refused, it.counters.ignored, it.counters.left, it.counters.octets]]
    return [Notice("bad", f"The written counters aren't those of the files at {lists.ports(wrong, 12)}.", is_fault=True)] if wrong else []


def marked(seen: Gathering) -> dict[int, str]:
    """The rows of the page with which a file doesn't agree."""
    found: dict[int, str] = {}
    for it in seen.judge.faults[:1000]:
        row = seen.rows.row_of(*it.arrival) if it.arrival else None
        if row is not None:
            found[row] = f"{os.path.basename(it.file)} doesn't agree: {it.text}"
    return found


def begin_of(seen: Gathering) -> str:
    """When the run begins, as its captures say it."""
    if not any(seen.seconds):
        return ""
    return datetime.fromtimestamp(seen.reading.start, timezone.utc).strftime("%Y-%m-%d %H:%M:%S")


def report_of(run: runs.Run, most: int, quiet: bool = False) -> Report:
    """All that the page of a run shows."""
    progress = Progress("exbr-report: events", 0, quiet)
    seen = Gathering(run, most)
    seen.go(progress)
    progress.end()
    if seen.filling and not seen.broken:
        index.keep(run, seen.judge, seen.filling.table)
    ports = ports_of(seen)
    vlans, every = vlans_of(seen)
    notices = refusals(seen) + unended(seen) + disagreements(seen) + counted(seen, ports) + lost(seen)
    title = os.path.basename(os.path.abspath(run.folder)) + "/" + os.path.basename(run.topology.path)
    return Report(title, begin_of(seen), devices_of(run), ports, vlans, changes_of(seen), spans_of(seen), notices,
                  seen.rows.data([it.name for it in ports], marked(seen)), seen.rows.choice.words(), is_seeded(run), every)
