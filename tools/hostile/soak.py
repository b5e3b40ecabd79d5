#!/usr/bin/env python3
"""Plays random runs of the built program under faults drawn at random, and counts how they ended.

    tools/hostile/soak.py [--program FILE] [--seconds N | --inputs N] [--seed N] [--room FOLDER] [--quiet]

Each input is drawn as those of crates/exb_cases are: any tree, rules, commands and frames, often with fates, a seed or a trace; or a net of them. Its run
without a fault must come to what the plain bridge and the tree over links in Python come to. Then it is played again under some
faults: memory, files, disk or processor time come to an end, a call of the system fails or does a part of its work, a signal
comes, standard output is full or closed, an output or a capture is no file or leads elsewhere. Each has to end with a status that
fits, leave what it read as it was, and each output absent, as it was, or a front of what it holds without a fault; and the next
run has to be whole. Audits, counters and nets are played where the program offers them.

The same seed draws the same inputs and faults. What can't be done here, without root or a C compiler, is not drawn, and the summary
says so. The last line is `soak: N runs of M inputs, 0 unexplained`; the status is 0 where none is, 1 where one is, with how to play
it again, and 2 for words that are not as above. Python 3.11 or later.
"""
import argparse
import collections
import os
import random
import resource
import shutil
import signal
import subprocess
import sys
import tempfile
import time

sys.dont_write_bytecode = True
HERE = os.path.dirname(os.path.abspath(__file__))
CASES = os.path.join(os.path.dirname(os.path.dirname(HERE)), "crates", "exb_cases")
sys.path[:0] = [HERE, CASES]
import bridge
import generated
import nets
from faults_at_ends import Disk, limited
from folders import BEFORE, Input, Skipped, Wrong, end, held, play, program_of, read, start
from world.schedule import run as run_world

VERDICTS = "PLTD"
CAUSES = {"EIO": 5, "ENOSPC": 28, "EDQUOT": 122, "EACCES": 13, "EMFILE": 24, "ENOMEM": 12, "EROFS": 30}


class Taken:
    """Takes what the generator of crates/exb_cases would make a case of."""

    def plays(self, name, topology, captures, options="", seed=None, **_):
        self.topology, self.captures = topology.replace("FOLDER/", ""), captures


def drawn_net(chance):
    """A net of some bridges, with counters or without. Each run brings all its files to the disk, so they are to be few."""
    text = ""
    while not 1 <= text.count("[[bridge]]") <= 3:
        text, files = nets.drawn(chance.getrandbits(32))
    whole, line = nets.run(text, files)
    words = ["net", "net.toml"] + (["--counters"] if chance.random() < 0.5 else [])
    whole = {name: data for name, data in whole.items() if words[2:] or not name.endswith("counters.txt")}
    return Input({"net.toml": text.encode(), **files}, words, whole, f"{line}\n".encode())


def drawn(chance, offers_counters, offers_nets):
    """An input, and what must come of it. Counters are asked for where the program offers them and the models in Python have them."""
    if offers_nets and chance.random() < 0.2:
        return drawn_net(chance), False
    taken = Taken()
    generated.at_random(taken, chance.getrandbits(32), chance.choice([1, 1, 2, 2, 3, 4, 6]), chance.choice([3, 6, 12, 20]))
    text, words = taken.topology, ["run", "t.toml"]
    fated, seed, traced = chance.random() < 0.4, chance.getrandbits(64) if chance.random() < 0.4 else None, chance.random() < 0.5
    if fated:
        text = text.replace("\n", "\nlinks = { fate = '" + "".join(chance.choices(VERDICTS, k=chance.randrange(60))) + "' }\n", 1)
    words += (["--seed", str(seed)] if seed is not None else []) + (["--trace"] if traced else [])
    if seed is None and not traced:
        whole, line = bridge.run(text, taken.captures)
    else:
        whole, line, _ = run_world(text, taken.captures, seed)
        if not traced:
            whole = {name: data for name, data in whole.items() if not name.endswith("trace.txt")}
    counters = [name for name in whole if name.endswith("counters.txt")]
    if counters and offers_counters and chance.random() < 0.5:
        words.append("--counters")
    else:
        whole = {name: data for name, data in whole.items() if name not in counters}
    return Input({"t.toml": text.encode(), **taken.captures}, words, whole, f"{line}\n".encode()), traced


class Soak:
    """The program in a folder of its own, and what it offers."""

    def __init__(self, program, room):
        self.program, self.room, self.folder = program, room, os.path.join(room, "it")
        usage = subprocess.run([program], capture_output=True, check=False).stdout.decode()
        self.audits, self.offers_counters = "audit" in usage, "--counters" in usage
        self.offers_nets = "exbr net " in usage
        self.counts, self.statuses = collections.Counter(), collections.Counter()
        self.library = self.built("fail.c")
        self.refuses = self.built("refuse.c")
        self.kinds = self.offered()

    def built(self, source):
        """A library that is loaded into the program, where there is a compiler and the program takes one."""
        library = os.path.join(self.room, source.replace(".c", ".so"))
        compiler = shutil.which("gcc") or shutil.which("clang") or shutil.which("cc")
        made = compiler and subprocess.run([compiler, "-O2", "-shared", "-fPIC", "-o", library, os.path.join(HERE, source)],
                                           capture_output=True, check=False).returncode == 0
        return library if made else None

    def offered(self):
        """The faults that can be drawn here."""
        kinds = [self.no_fault, self.file_size, self.killed, self.little_memory, self.few_files, self.print_fault, self.odd_output, self.odd_capture]
        kinds += [self.failed_call, self.short_call] if self.library else []
        kinds += [self.refused_memory] if self.refuses else []
        try:
            with Disk(os.path.join(self.room, "disk"), 4096):
                kinds.append(self.full_disk)
        except Skipped:
            pass
        return kinds

    def missing(self):
        words = [] if self.full_disk in self.kinds else ["full disks: they need root"]
        return words + ([] if self.library and self.refuses else ["failing calls and refused memory: they need a C compiler"])

    def clear(self):
        shutil.rmtree(self.folder, ignore_errors=True)
        os.mkdir(self.folder)

    def first(self, it):
        """The run without a fault comes to what the models in Python come to."""
        self.clear()
        it.put(self.folder)
        ran = play(self.program, self.folder, it.words)
        it.judge(self.folder, ran, (0,))

    def audit(self, it):
        """An audit of a traced run finds nothing, changes nothing, and finds something where the trace lacks a line."""
        there = held(self.folder)
        ran = play(self.program, self.folder, ["audit", "t.toml"])
        if ran.status or ran.said or held(self.folder) != there:
            raise Wrong(f"audit: status {ran.status}, {ran.printed!r} {ran.said!r}")
        self.counts["audit"] += 1

    # ---- faults: each plays a run and answers what statuses fit

    def no_fault(self, it, chance, before):
        return play(self.program, self.folder, it.words), (0,), {}

    def file_size(self, it, chance, before):
        ignored = signal.SIGXFSZ if chance.random() < 0.5 else None
        limit = limited(resource.RLIMIT_FSIZE, chance.randrange(max(map(len, it.whole.values())) + 2), ignored=ignored)
        return play(self.program, self.folder, it.words, limit=limit), (0, 7 if ignored else -signal.SIGXFSZ), {}

    def killed(self, it, chance, before):
        number = chance.choice([signal.SIGKILL, signal.SIGTERM, signal.SIGINT, signal.SIGHUP])
        child = start(self.program, self.folder, it.words)
        time.sleep(chance.random() ** 2 * 0.05)
        child.send_signal(number)
        return end(child), (0, -number), {}

    def little_memory(self, it, chance, before):
        ran = play(self.program, self.folder, it.words, limit=limited(resource.RLIMIT_AS, chance.randrange(1000, 12_000) * 1024))
        if ran.status in (127, -signal.SIGSEGV, -signal.SIGKILL):
            # The system's loader had too little, so that the program didn't begin.
            ran.said, ran.printed = b"", b""
        return ran, (0, 1, 127, -signal.SIGSEGV, -signal.SIGKILL), {}

    def few_files(self, it, chance, before):
        # One file at a time is enough. With fewer the system can't load the program.
        return play(self.program, self.folder, it.words, limit=limited(resource.RLIMIT_NOFILE, 4)), (0,), {}

    def print_fault(self, it, chance, before):
        if chance.random() < 0.5:
            with open("/dev/full", "wb") as out:
                return play(self.program, self.folder, it.words, stdout=out), (7,), {}
        return play(self.program, self.folder, it.words, limit=lambda: os.close(1)), (7,), {}

    def odd(self, name, chance, target):
        """Puts something else in the place of a file."""
        path = os.path.join(self.folder, name)
        if os.path.lexists(path):
            os.remove(path)
        chance.choice([os.mkdir, os.mkfifo, lambda it: os.symlink("/dev/null", it), lambda it: os.symlink(target, it)])(path)

    def odd_output(self, it, chance, before):
        name = chance.choice(sorted(it.whole))
        self.odd(name, chance, chance.choice(sorted(it.files)))
        return play(self.program, self.folder, it.words), (7,), {"changed": [name]}

    def odd_capture(self, it, chance, before):
        captures = sorted(set(it.files) - {"t.toml"})
        if not captures:
            return self.no_fault(it, chance, before)
        name = chance.choice(captures)
        os.remove(os.path.join(self.folder, name))
        if chance.random() < 0.3:
            return play(self.program, self.folder, it.words), (5,), {"changed": [name]}
        self.odd(name, chance, ".")
        return play(self.program, self.folder, it.words), (6,), {"changed": [name]}

    def loaded(self, it, library, **settings):
        return play(self.program, self.folder, it.words, env={**os.environ, "LD_PRELOAD": library, **settings})

    def failed_call(self, it, chance, before):
        cause = chance.choice(sorted(CAUSES))
        rest = {"FAIL_REST": "1"} if chance.random() < 0.5 else {}
        ran = self.loaded(it, self.library, FAIL_AT=str(1 + int(300 * chance.random() ** 2)), FAIL_WITH=str(CAUSES[cause]), **rest)
        return ran, (0, 1, 6, 7), {}

    def short_call(self, it, chance, before):
        """Interrupted calls, and calls that do a part of their work, are no faults."""
        ran = self.loaded(it, self.library, FAIL_EACH=str(chance.randrange(2, 6)), FAIL_WITH=chance.choice(["0", "4"]))
        return ran, (0,), {}

    def refused_memory(self, it, chance, before):
        rest = {"REFUSE_REST": "1"} if chance.random() < 0.5 else {}
        return self.loaded(it, self.refuses, REFUSE_AT=str(1 + int(3000 * chance.random() ** 2)), **rest), (0, 1), {}

    def full_disk(self, it, chance, before):
        pages = sum(-(-len(data) // 4096) for data in [*it.files.values(), *before.values()])
        shutil.rmtree(self.folder)
        with Disk(self.folder, (pages + chance.randrange(2 * len(it.whole) + 2)) * 4096):
            it.put(self.folder, before)
            ran = play(self.program, self.folder, it.words)
            it.judge(self.folder, ran, (0, 7), before)
        it.put(self.folder, before)
        return ran, (0, 7), {}

    def one(self, it, chance, kind):
        """A run under a fault, and the run after it."""
        self.clear()
        before = {name: BEFORE for name in it.whole if chance.random() < 0.5}
        it.put(self.folder, before)
        ran, statuses, more = kind(it, chance, before)
        if kind != self.full_disk:
            it.judge(self.folder, ran, statuses, before, **more)
        self.counts[kind.__name__.replace("_", " ")] += 1
        self.statuses[ran.status] += 1
        if more:
            self.clear()
            it.put(self.folder)
        it.is_whole_again(self.program, self.folder)

    def input(self, number):
        """Plays the input of a number, and the same under some faults."""
        chance = random.Random(number)
        it, traced = drawn(chance, self.offers_counters, self.offers_nets)
        try:
            self.first(it)
            if traced and self.audits:
                play(self.program, self.folder, it.words)
                self.audit(it)
            for _ in range(8):
                kind = chance.choice(self.kinds)
                try:
                    self.one(it, chance, kind)
                except Wrong as why:
                    raise Wrong(f"{kind.__name__.replace('_', ' ')}: {why}") from None
        except Wrong as why:
            raise Wrong(f"input {number}, exbr {' '.join(it.words)}: {why}") from None


def soaked(soak, words):
    """How many inputs were played, and what is wrong."""
    begun = told = time.monotonic()
    inputs, wrong = 0, []
    while inputs < words.inputs if words.inputs else time.monotonic() - begun < words.seconds:
        try:
            soak.input(words.seed * 1_000_003 + inputs)
        except Wrong as why:
            wrong.append(str(why))
            print(f"UNEXPLAINED: {why}", flush=True)
        inputs += 1
        if not words.quiet and time.monotonic() - told > 15:
            told = time.monotonic()
            print(f"{told - begun:.0f} s: {soak.counts.total()} runs of {inputs} inputs, {len(wrong)} unexplained", flush=True)
    return inputs, wrong


def parsed():
    form = argparse.ArgumentParser(description=__doc__, formatter_class=argparse.RawDescriptionHelpFormatter)
    form.add_argument("--program", metavar="FILE", help="the program to try")
    form.add_argument("--seconds", type=float, default=60, metavar="N", help="how long (60)")
    form.add_argument("--inputs", type=int, metavar="N", help="how many inputs, however long that takes")
    form.add_argument("--seed", type=int, default=1, metavar="N", help="what is drawn (1)")
    form.add_argument("--room", metavar="FOLDER", help="where the runs have their folders, as /dev/shm, which is faster than a disk")
    form.add_argument("--quiet", action="store_true", help="print the summary alone")
    words = form.parse_args()
    if words.seconds <= 0 or words.seed < 0:
        form.error("--seconds is above 0, and --seed not below it")
    if words.inputs is not None and words.inputs < 1:
        form.error("--inputs is above 0")
    if words.room and not os.path.isdir(words.room):
        form.error(f"there is no folder {words.room}")
    return words


def main():
    words = parsed()
    program = program_of(words.program)
    with tempfile.TemporaryDirectory(prefix="exbr-soak-", dir=words.room) as room:
        soak = Soak(program, room)
        inputs, wrong = soaked(soak, words)
    print("; ".join(f"{kind} {count}" for kind, count in sorted(soak.counts.items())))
    print("; ".join(f"status {status} {count}" if status >= 0 else f"{signal.Signals(-status).name} {count}"
                    for status, count in sorted(soak.statuses.items())))
    for what in soak.missing():
        print(f"not drawn, {what}")
    print(f"soak: {soak.counts.total()} runs of {inputs} inputs, {len(wrong)} unexplained")
    return 1 if wrong else 0


if __name__ == "__main__":
    sys.exit(main())
