"""The worlds of `exb_schedule_tests`, which steps in words move, played over the tree in Python."""
import os
import re
import sys

from bridge import name_of, number_of
from world.extender import UP
from world.machine import DOWN, World
from world.schedule import is_free, settle_and_mark

TABLE = os.path.join(os.path.dirname(os.path.abspath(__file__)), "..", "exb_schedule_tests", "src", "worlds.rt")


class Recorded(World):
    """A world that knows which steps made it, so that a twin of it can be played on."""

    STEPS = ("arrive", "take", "keep", "lose", "beat", "tick", "command", "mark")

    def __init__(self, text):
        super().__init__(text)
        self.text, self.made = text, []
        for step in self.STEPS:
            setattr(self, step, self.noted(step, getattr(self, step)))

    def noted(self, step, make):
        def make_noted(*them):
            self.made.append((step, them))
            make(*them)
        return make_noted

    def lose(self, number, way, at):
        self.links[number, way].pop(at)

    def twin(self):
        world = Recorded(self.text)
        for step, them in self.made:
            getattr(world, step)(*them)
        return world


class Driver:
    """A world, what was told of it, and the log of what the steps ask for."""

    def __init__(self, topology):
        self.world, self.log = Recorded(topology), []
        self.given, self.armed, self.told = 0, 0, 0
        self.left, self.logged = [], {port: 0 for port in self.world.left}

    def note_left(self):
        """What left in the last step: a step lets frames leave by rising port."""
        for port, frames in sorted(self.world.left.items()):
            self.left += [(port, frame) for _, frame in frames[self.logged[port]:]]
            self.logged[port] = len(frames)

    def forget(self):
        self.told, self.left = len(self.world.journal), []

    # Words on a link: its extender, the way, and the position among the control words.

    def words(self, link, way):
        key = int(link), UP if way == "up" else DOWN
        return key, self.world.links[key]

    def control(self, link, way, at):
        """The place of a control word, which has to be free where it is to be delivered."""
        key, words = self.words(link, way)
        return key, [place for place, (_, stamp) in enumerate(words) if stamp is None][int(at)], words

    def free(self, link, way, at):
        _, place, words = self.control(link, way, at)
        return is_free(words, place)

    def deliver(self, link, way, at, keep=False):
        key, place, words = self.control(link, way, at)
        assert is_free(words, place), "a control word isn't free"
        (self.world.keep if keep else self.world.take)(*key, place)

    def carry(self, link, way):
        key, words = self.words(link, way)
        self.world.take(*key, next(place for place, (_, stamp) in enumerate(words) if stamp is not None))

    def lose(self, link, way, at):
        key, place, _ = self.control(link, way, at)
        self.world.lose(*key, place)

    def planned(self):
        """The announcements and answers that are still to come: those that come to a twin which is played to its end."""
        world = self.world.twin()
        control, answers = world.control, []
        unheard, answered = len(control.tree.on) - len(control.heard), control.answered

        def counted():
            answers.append(None)
            answered()

        control.answered = counted
        settle_and_mark(world)
        return unheard + len(answers)

    # Steps.

    def step(self, verb, words):
        world = self.world
        if verb == "arrive":
            port, index, frame = words
            world.arrive(number_of(port), int(index), 0, bytes.fromhex(frame))
        elif verb in ("control", "keep"):
            self.deliver(*words, keep=verb == "keep")
        elif verb in ("carry", "lose"):
            getattr(self, verb)(*words)
        elif verb == "beat":
            world.beat()
        elif verb == "give":
            world.command(world.bridge.commands[self.given])
            self.given += 1
        elif verb == "arm":
            self.armed += int(words[0])
            world.fate += "P" * int(words[0])
        elif verb == "settle":
            settle_and_mark(world)
        else:
            self.tell(verb, words)

    def tell(self, verb, words):
        world = self.world
        if verb == "tell":
            self.log += world.journal[self.told:] + [f"{name_of(port)} {frame.hex().upper()}" for port, frame in self.left]
            self.forget()
        elif verb == "skip":
            self.forget()
        elif verb == "bare":
            pass
        elif verb == "asked":
            self.log.append(f"asked {self.armed - len(world.fate)}")
        elif verb == "planned":
            self.log.append(f"planned {self.planned()}")
        elif verb == "free":
            self.log.append("free" if self.free(*words) else "waits")
        elif verb == "counts":
            told = []
            for way in ("up", "down"):
                control = [stamp is None for _, stamp in self.words(words[0], way)[1]]
                told.append(f"{way} {len(control) - sum(control)} {sum(control)}")
            self.log.append(f"x{words[0]} {' '.join(told)}")
        else:
            sys.exit(f"no such step: {verb}")

    def play(self, steps):
        for verb, *words in (step.split() for step in steps.split(";")):
            self.step(verb, words)
            self.note_left()
        return "".join(f"{line}\n" for line in self.log)


def cases():
    """A topology, steps, and what must be told, of each case."""
    with open(TABLE, encoding="utf-8") as it:
        text = re.search(r'const CASES: &str =\s*"([^"]*)";', it.read())[1]
    text = re.sub(r"\\\n *", "", text).replace("\\n", "\n")
    return [re.fullmatch(r"([^>]*)>([^\n]*)\n(.*)", case, re.DOTALL).groups() for case in text.split("%")]


def agree():
    """How many of these cases there are. The tree comes to what each of them tells."""
    them = cases()
    for topology, steps, wanted in them:
        told = Driver(topology).play(steps)
        if told != wanted:
            sys.exit(f"of {steps}\nthe tree over links tells\n{told}and the table of exb_schedule_tests\n{wanted}")
    return len(them)
