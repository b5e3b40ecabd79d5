"""What a page shows, as plain records: made from a run's files by `gather`, and drawn by `page`."""
from dataclasses import dataclass, field


@dataclass
class Member:
    """A VLAN of a port."""
    vid: int
    tagged: bool


@dataclass
class Counters:
    """What became of the frames of a port, and what left there."""
    relayed: int = 0
    dropped: dict[str, int] = field(default_factory=dict)
    nobody: int = 0
    ignored: int = 0
    left: int = 0
    octets: int = 0

    @property
    def arrived(self) -> int:
        """All records of the port's capture that the journal has."""
        return self.relayed + self.ignored

    @property
    def refused(self) -> int:
        """The frames that a rule of their port let in nowhere."""
        return sum(self.dropped.values())


@dataclass
class Port:
    """An external port, as it was at the end of the run: the first VLANs in which it is, and in how many it is."""
    name: str
    members: list[Member] = field(default_factory=list)
    vlans: int = 0
    pvid: int = 1
    accept: str = "all"
    filter: bool = False
    isolated: bool = False
    present: bool = True
    counters: Counters = field(default_factory=Counters)
    # What it is called on its switch, and the same in few letters.
    label: str = ""
    short: str = ""

    @property
    def shown(self) -> str:
        """What a reader sees: what it is called, or its place."""
        return self.label or self.name


@dataclass
class Device:
    """The bridge (number 0), or an extender, which hangs on the port `on`."""
    number: int
    ports: int
    on: str | None = None
    label: str = ""

    @property
    def name(self) -> str:
        return f"x{self.number}" if self.number else "bridge"

    def port(self, number: int) -> str:
        """The name of one of its ports."""
        return f"x{self.number}.{number}" if self.number else f"b{number}"


@dataclass
class Vlan:
    """A VLAN at the start of the run and at its end: members by kind."""
    vid: int
    tagged: list[str]
    untagged: list[str]
    tagged_before: list[str]
    untagged_before: list[str]

    @property
    def changed(self) -> bool:
        return (self.tagged, self.untagged) != (self.tagged_before, self.untagged_before)


@dataclass
class Change:
    """A command of the topology, and what became of it. `cause` is the reason of a refusal, in plain words."""
    number: int
    second: int
    words: str
    done: bool | None
    cause: str = ""


@dataclass
class Span:
    """A stretch of the time line, of `seconds` from `second` on."""
    second: int
    seconds: int
    left: int = 0
    nowhere: int = 0
    ignored: int = 0

    @property
    def all(self) -> int:
        return self.left + self.nowhere + self.ignored


@dataclass
class Notice:
    """Something that the reader should know. `level` is `bad`, `warn` or `note`; `link` the place on the page that shows it."""
    level: str
    text: str
    link: str = ""
    is_fault: bool = False


@dataclass
class Report:
    """A run."""
    title: str
    begins: str
    devices: list[Device]
    ports: list[Port]
    vlans: list[Vlan]
    changes: list[Change]
    spans: list[Span]
    notices: list[Notice]
    frames: dict = field(default_factory=dict)
    held: str = ""
    seeded: bool = False
    every_vlan: int = 0

    def total(self, name: str) -> int:
        """The sum of a counter over all ports."""
        return sum(getattr(it.counters, name) for it in self.ports)
