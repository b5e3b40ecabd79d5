"""Rounds, settling, and whole runs: each event by itself, or the events of a second in an order drawn from a seed."""
from bridge import SECOND, Bridge, capture_of, name_of, records_of
from world.extender import UP
from world.machine import DOWN, World

MASK = 2**64 - 1


class Lcg64Xsh32:
    """The generator PCG XSH RR 64/32, and how a number becomes its seed."""

    MULTIPLIER = 6364136223846793005

    def __init__(self, state, increment):
        self.increment = increment | 1
        self.state = (state + self.increment) & MASK
        self.step()

    @classmethod
    def seed_from_u64(cls, number):
        """Four words of another PCG, whose increment is fixed and which moves before it gives a word."""
        source = cls.__new__(cls)
        source.increment, source.state = 11634580027462260723, number
        words = []
        for _ in range(4):
            source.step()
            words.append(source.output())
        return cls(words[0] | words[1] << 32, words[2] | words[3] << 32)

    def step(self):
        self.state = (self.state * self.MULTIPLIER + self.increment) & MASK

    def output(self):
        word, turn = (self.state >> 18 ^ self.state) >> 27 & 0xFFFFFFFF, self.state >> 59
        return (word >> turn | word << (-turn & 31)) & 0xFFFFFFFF

    def next_u32(self):
        word = self.output()
        self.step()
        return word


def directions(world):
    """Up from the deepest, then down from the bridge."""
    depth = world.tree.depth
    numbers = sorted(world.extenders)
    return ([(number, UP) for number in sorted(numbers, key=lambda it: (-depth(it), it))]
            + [(number, DOWN) for number in sorted(numbers, key=lambda it: (depth(it), it))])


def is_free(words, at):
    """A control word before which no data word stands."""
    return words[at][1] is None and all(stamp is None for _, stamp in words[:at])


def meet(world, number, way, at):
    """Asks the fate of a control word; whether the word is gone."""
    verdict = world.next_fate()
    if verdict == "P":
        world.take(number, way, at)
    elif verdict == "L":
        world.links[number, way].pop(at)
    elif verdict == "T":
        world.keep(number, way, at)
    return verdict in "PL"


def play_round(world):
    for number, way in directions(world):
        at = 0
        for _ in range(len(world.links[number, way])):
            if world.links[number, way][at][1] is not None:
                world.take(number, way, at)
            elif not meet(world, number, way, at):
                at += 1
    world.beat()


def settle(world):
    rounds = 0
    while not world.settled():
        play_round(world)
        rounds += 1
    return rounds


def settle_and_mark(world):
    rounds = settle(world)
    world.mark()
    return rounds


class Event:
    """A command or a record, and when it comes."""

    def __init__(self, moment, port, number, what):
        self.moment, self.port, self.number, self.what = moment, port, number, what
        self.key = (moment, port is not None, port or 0, number)

    def happen(self, world):
        if self.port is None:
            world.fate += self.what.get("fate", "")
            world.command(self.what)
        else:
            world.arrive(self.port, self.number, self.moment, self.what)


def merged(commands, records):
    """Commands and records in the order in which they come."""
    events = []
    for port, its in records.items():
        highest = 0
        for index, (moment, frame) in enumerate(its, 1):
            highest = max(highest, moment)
            events.append(Event(highest, port, index, frame))
    start = min((event.moment // SECOND for event in events), default=0)
    events += [Event((start + it["at"]) * SECOND, None, number, it) for number, it in enumerate(commands, 1)]
    return sorted(events, key=lambda event: event.key)


def by_second(events):
    """The events of each second."""
    found = {}
    for event in events:
        found.setdefault(event.moment // SECOND, []).append(event)
    return list(found.values())


def with_seconds(segments):
    """Segments with the seconds since the one before."""
    before, found = None, []
    for segment in segments:
        second = segment[0].moment // SECOND
        found.append((second - before if before is not None else 0, segment))
        before = second
    return found


def play_eager(world, seconds, segment):
    if seconds:
        world.tick(seconds)
    for event in segment:
        event.happen(world)


class Draws:
    """What is left to be drawn of a segment."""

    def __init__(self, world, seconds, segment):
        self.world, self.seconds, self.rest = world, seconds, list(segment)

    def tick(self):
        seconds, self.seconds = self.seconds, 0
        self.world.tick(seconds)

    def happen(self, event):
        self.rest.remove(event)
        event.happen(self.world)

    def candidates(self):
        """What may be drawn, in order."""
        found = [self.tick] if self.seconds else []
        commands = [event for event in self.rest if event.port is None]
        found += [lambda: self.happen(commands[0])] if commands else []
        for port in sorted({event.port for event in self.rest if event.port is not None}):
            first = next(event for event in self.rest if event.port == port)
            found.append(lambda event=first: self.happen(event))
        for (number, way), words in self.world.links.items():
            # The first data word, and the control words in front of it.
            data = next((at for at, (_, stamp) in enumerate(words) if stamp is not None), len(words))
            found += [lambda it=(number, way, data): self.world.take(*it)] if data < len(words) else []
            found += [lambda it=(number, way, at): meet(self.world, *it) for at in range(data)]
        return found + [self.world.beat]


def play_seeded(world, chance, seconds, segment):
    draws = Draws(world, seconds, segment)
    for _ in range(64 * (len(segment) + 1)):
        them = draws.candidates()
        them[chance.next_u32() % len(them)]()
    if draws.seconds:
        draws.tick()
    for event in sorted(draws.rest, key=lambda it: it.port is not None):
        event.happen(world)


def play(text, records, seed=None):
    """A world that has played a topology with the records of its ports."""
    world = World(text)
    world.fate += world.bridge.topology.get("links", {}).get("fate", "")
    settle_and_mark(world)
    events = merged(world.bridge.commands, records)
    chance = None if seed is None else Lcg64Xsh32.seed_from_u64(seed)
    for seconds, segment in with_seconds([[event] for event in events] if seed is None else by_second(events)):
        if seed is None:
            play_eager(world, seconds, segment)
        else:
            play_seeded(world, chance, seconds, segment)
        settle_and_mark(world)
    return world


def run(text, files, seed=None):
    """Plays a topology with files: the files that are written by their names, the summary, and the world at its end."""
    records = {port: records_of(files[name]) for port, name in Bridge(text).captures.items()}
    world = play(text, records, seed)
    prefix = world.bridge.bridge.get("out", "out-")
    written = {f"{prefix}{name_of(port)}.pcap": capture_of(left) for port, left in world.left.items()}
    written[f"{prefix}journal.txt"] = "".join(f"{line}\n" for line in world.journal).encode()
    written[f"{prefix}trace.txt"] = "".join(f"{line}\n" for line in world.trace).encode()
    return written, summary(world), world


def is_in_order(world, text, files, seed):
    """Whether the journal, behind the opening, has each segment's tick, commands in order, and records."""
    records = {port: records_of(files[name]) for port, name in Bridge(text).captures.items()}
    events = merged(world.bridge.commands, records)
    segments = "\n".join(world.journal).split("settled")[1:-1]
    wanted = with_seconds([[event] for event in events] if seed is None else by_second(events))
    return len(segments) == len(wanted) and all(is_played(told.split("\n")[1:-1], *it) for told, it in zip(segments, wanted))


def is_played(lines, seconds, segment):
    """Whether these lines are those of a segment."""
    told = [line.split() for line in lines]
    ticks = [int(words[1]) for words in told if words[0] == "tick"]
    commands = [int(words[1]) for words in told if words[0] in ("commit", "refuse")]
    records = [(words[1], int(words[2])) for words in told if words[0] in ("relay", "ignore")]
    wanted = [(name_of(event.port), event.number) for event in segment if event.port is not None]
    # Those of a port of the bridge stand in order.
    by_port = sorted((it for it in records if it[0].startswith("b")), key=lambda it: it[0])
    return (ticks == [seconds] * (seconds > 0) and commands == [event.number for event in segment if event.port is None]
            and sorted(records) == sorted(wanted) and by_port == sorted(by_port)
            and len(told) == len(ticks) + len(commands) + len(records))


def summary(world):
    kinds = [line.split()[0] for line in world.journal]
    relayed, ignored, commits, refusals = map(kinds.count, ("relay", "ignore", "commit", "refuse"))
    left = sum(map(len, world.left.values()))
    return f"arrivals {relayed + ignored} relayed {relayed} ignored {ignored} left {left} commits {commits} refusals {refusals}"
