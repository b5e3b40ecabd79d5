"""Wrong players of nets: the second player with one thing wrong in it. Each is a mistake that a program may make, and is to be seen in
what comes of a few hundred nets. Those of UNSEEN no file of a net can show, as long as wires have no loop: a frame goes into each
bridge once at most, so it doesn't matter which of the frames on wires arrives first."""
from collections import deque

from bridge import SECOND, kind_of
from nets import Net


class Step(Net):
    """The second player in steps, of which a wrong one has another one."""

    def tick(self, at, seconds, event_at):
        """Lets a bridge know that seconds went by before an event at some bridge."""
        self.bridges[at].clock += seconds
        self.bridges[at].journal.append(f"tick {seconds}")

    def take(self, between):
        return between.popleft()

    def most(self):
        """How many frames cross wires by one event at most."""
        return None

    def play(self, records):
        for this in self.bridges:
            this.open()
        last = None
        for moment, is_record, at, port, number, what in self.coming(records):
            second = moment // SECOND
            for other in range(len(self.bridges)) if last is not None and second > last else []:
                self.tick(other, second - last, at)
            last = second
            between, done = deque(self.begin(is_record, at, port, number, moment, what)), 0
            while between and (self.most() is None or done < self.most()):
                (to, far_port), (when, sent) = self.take(between)
                done += 1
                self.crossed[to, far_port].append((when, sent))
                between += self.cross(to, far_port, when, sent)

    def begin(self, is_record, at, port, number, moment, what):
        return self.arrive(at, port, moment, what) if is_record else self.happen(at, lambda this: this.obey(number, what))

    def cross(self, at, port, moment, frame):
        return self.arrive(at, port, moment, frame)


class LastFirst(Step):
    def take(self, between):
        return between.pop()


class PortsBackwards(Step):
    def happen(self, at, does):
        return super().happen(at, does)[::-1]


class NoTime(Step):
    def tick(self, at, seconds, event_at):
        self.bridges[at].journal.append(f"tick {seconds}")


class TimeWhereItHappens(Step):
    """A tick for the bridge alone to which something comes."""

    def tick(self, at, seconds, event_at):
        if at == event_at:
            super().tick(at, seconds, event_at)


class OwnSeconds(Step):
    """Ticks of the seconds since what came before at the same bridge."""

    def __init__(self, text, files):
        super().__init__(text, files)
        self.owed = [0] * len(self.bridges)

    def tick(self, at, seconds, event_at):
        self.owed[at] += seconds
        if at == event_at:
            super().tick(at, self.owed[at], event_at)
            self.owed[at] = 0


class TicksOfOne(Step):
    def tick(self, at, seconds, event_at):
        super().tick(at, 1, event_at)


class SettledAfterTicks(Step):
    def tick(self, at, seconds, event_at):
        super().tick(at, seconds, event_at)
        if at != event_at:
            self.bridges[at].journal.append("settled")


class OwnStart(Step):
    """Commands behind the first record of the bridge's own captures."""

    def coming(self, records):
        found = super().coming(records)
        firsts = [min((moment // SECOND for its in each.values() for moment, _ in its[:1]), default=None) for each in records]
        start = min((it for it in firsts if it is not None), default=0)
        def own(it):
            return it if it[1] or firsts[it[2]] is None else (it[0] + (firsts[it[2]] - start) * SECOND, *it[1:])
        return sorted(map(own, found), key=lambda it: it[:5])


class RecordsFirst(Step):
    def coming(self, records):
        return sorted(super().coming(records), key=lambda it: (it[0], -it[1], *it[2:5]))


class BridgesBackwards(Step):
    def coming(self, records):
        return sorted(super().coming(records), key=lambda it: (it[0], it[1], -it[2], *it[3:5]))


class BridgeAfterBridge(Step):
    """All that comes to the first bridge, then all that comes to the next."""

    def coming(self, records):
        return sorted(super().coming(records), key=lambda it: (it[0] // SECOND, it[2], it[0], it[1], *it[3:5]))


class ByPort(Step):
    """Records of one moment by port, and then by bridge."""

    def coming(self, records):
        return sorted(super().coming(records), key=lambda it: (it[0], it[1], it[3], it[2], it[4]))


class FallingMoments(Step):
    """A moment that falls isn't raised where it crosses."""

    def play(self, records):
        self.read = {(at, port): its for at, each in enumerate(records) for port, its in each.items()}
        super().play(records)

    def begin(self, is_record, at, port, number, moment, what):
        return super().begin(is_record, at, port, number, self.read[at, port][number - 1][0] if is_record else moment, what)


class Microseconds(Step):
    """Moments without what is below a microsecond."""

    def coming(self, records):
        return super().coming([{port: [(moment // 1000 * 1000, frame) for moment, frame in its] for port, its in each.items()} for each in records])


class NoWire(Step):
    def most(self):
        return 0


class OneDelivery(Step):
    def most(self):
        return 1


class OneTooFew(Step):
    def most(self):
        return len(self.far) // 2 - 1


class IndexStays(Step):
    def cross(self, at, port, moment, frame):
        self.came[at][port] = 1
        return self.happen(at, lambda this: this.arrive(port, 1, moment, frame))


class IndexOfWhatIsRelayed(Step):
    """A frame that is ignored takes no number."""

    def cross(self, at, port, moment, frame):
        found = super().cross(at, port, moment, frame)
        if self.bridges[at].journal[-2].startswith("ignore"):
            self.came[at][port] -= 1
        return found


class MomentLost(Step):
    def cross(self, at, port, moment, frame):
        return super().cross(at, port, 0, frame)


class SecondOnTheWay(Step):
    def cross(self, at, port, moment, frame):
        return super().cross(at, port, moment + SECOND, frame)


class SettledOnce(Step):
    """Nothing is told as settled where a frame came over a wire."""

    def cross(self, at, port, moment, frame):
        found = super().cross(at, port, moment, frame)
        self.bridges[at].journal.pop()
        return found


class IgnoredIsNotTold(Step):
    """What a wired port can't take is lost on the wire."""

    def cross(self, at, port, moment, frame):
        if kind_of(frame)[0] in ("short", "long", "reserved") or port not in self.bridges[at].now.present:
            return []
        return super().cross(at, port, moment, frame)


class PortAlone(Step):
    """Which bridge is at the far end isn't looked at: a wire leads to the first bridge that has such a port wired."""

    def __init__(self, text, files):
        super().__init__(text, files)
        first = {}
        for at, port in sorted(self.far):
            first.setdefault(port, (at, port))
        self.far = {end: first[to[1]] if first[to[1]][0] != end[0] else to for end, to in self.far.items()}

    def most(self):
        return 20


class OneWay(Step):
    """A wire carries frames from a to b alone."""

    def __init__(self, text, files):
        super().__init__(text, files)
        self.far = dict(list(self.far.items())[::2])


class WiredPortsWriteNothing(Step):
    """What crosses a wire isn't in the capture of the port."""

    def happen(self, at, does):
        found = super().happen(at, does)
        for port in self.bridges[at].left:
            if (at, port) in self.far:
                self.bridges[at].left[port].clear()
        return found


class OneAgeing(Step):
    """The ageing time of the first bridge holds for all."""

    def __init__(self, text, files):
        super().__init__(text, files)
        for this in self.bridges:
            this.ageing = self.bridges[0].ageing


class LearnsNothingOverWires(Step):
    def cross(self, at, port, moment, frame):
        before = dict(self.bridges[at].learned)
        found = super().cross(at, port, moment, frame)
        self.bridges[at].learned = before
        return found


class ArrivalsOfCaptures(Step):
    """The summary has what came from captures alone."""

    def summary(self):
        words = super().summary().split()
        words[1] = str(int(words[1]) - sum(map(len, self.crossed.values())))
        return " ".join(words)


class LeftOnce(Step):
    """The summary has what left the net, and not what crossed."""

    def summary(self):
        words = super().summary().split()
        words[7] = str(int(words[7]) - sum(map(len, self.crossed.values())))
        return " ".join(words)


UNSEEN = {"the last frame on a wire arrives first", "ports from the last to the first"}
PLAYERS = {
    "the last frame on a wire arrives first": LastFirst,
    "ports from the last to the first": PortsBackwards,
    "ticks are told, and no time passes": NoTime,
    "a tick where something comes alone": TimeWhereItHappens,
    "each bridge has seconds of its own": OwnSeconds,
    "each tick is of one second": TicksOfOne,
    "settled behind each tick": SettledAfterTicks,
    "commands behind the bridge's own first record": OwnStart,
    "records before commands": RecordsFirst,
    "bridges from the last to the first": BridgesBackwards,
    "a second of one bridge after that of another": BridgeAfterBridge,
    "records of a moment by port, then by bridge": ByPort,
    "a falling moment isn't raised": FallingMoments,
    "events in the order of microseconds": Microseconds,
    "no wire": NoWire,
    "one frame crosses": OneDelivery,
    "one frame too few crosses": OneTooFew,
    "each frame of a wire has number 1": IndexStays,
    "an ignored frame takes no number": IndexOfWhatIsRelayed,
    "the moment is lost on a wire": MomentLost,
    "a second passes on a wire": SecondOnTheWay,
    "no settled behind what crossed": SettledOnce,
    "what is ignored at a wire isn't told": IgnoredIsNotTold,
    "a wire leads to any bridge with that port": PortAlone,
    "a wire carries one way": OneWay,
    "a wired port has an empty capture": WiredPortsWriteNothing,
    "all bridges age as the first": OneAgeing,
    "nothing is learned over wires": LearnsNothingOverWires,
    "the summary leaves out what came over wires": ArrivalsOfCaptures,
    "the summary leaves out what left over wires": LeftOnce,
}
