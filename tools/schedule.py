#!/usr/bin/env python3
"""In which order tools/build proves crates, with how many processes each, and how long that takes by tools/seconds.txt.

    tools/schedule.py [PROCESSORS]     what is to be expected, crate by crate, of this repository on so many processors
    tools/schedule.py --ci RT [--anew] `RT ci` where it is called, in this order (tools/build does so, on a copy)

The toolchain's own order counts lines of code, shares the idle processors between all that could begin, and gives a crate its processes once, as
its proof begins: one that begins beside two others has one until it ends, though what stands on it waits. Here the crates with the longest chain
of seconds behind them have up to four processes, and each other crate one, with less claim to processors: as many of these as there are
processors, so that none idles. With --ci that choice is replaced, by the function `in_lanes` of RT, and the two compilers of a program
work side by side: what is proved, built, said and kept is as RT does it. Status 3: RT has no such function.
"""
import concurrent.futures
import contextlib
import importlib.machinery
import importlib.util
import inspect
import os
import queue
import sys
import threading
import time

sys.dont_write_bytecode = True
HERE = os.path.dirname(os.path.abspath(__file__))
# The most processes that a proof gets: more of them find no more to do.
MOST = 4
# A crate is of the longest chain where so many seconds more would make it so, and has the same claim to processors where so many more would.
SLACK, NEAR = 60, 150
# How much less claim to processors the other crates have, as nice counts it, and the weight that Linux gives to that.
BEHIND, WEIGHT = 10, 110 / 1024
# About how much faster a proof ends with so many processes, and how much more of processors it takes in all: exb_model, network, schedule, net_run and run took 1.2 to 1.8
# times as much with four in one build as they had with one, which was measured on other days; two and three processes are between. That build took 26.3 minutes,
# in an order for which the plan had 24.9 by the seconds that it measured; one of 16.0 had 16.3 by those that tools/seconds.txt is made of.
FASTER = {1: 1, 2: 1.25, 3: 1.45, 4: 1.6}
DEARER = {1: 1, 2: 1.2, 3: 1.35, 4: 1.5}
# What a proof takes of the memory that rt plans for it, at most (1.0 GB of 3.8 for exb_topology, 2.9 of 7.4 for exb_world), and for each further process.
OF_PLAN, MORE = 0.5, 0.6
NO_SCHEDULER = 3


class Graph:
    """The crates, what each stands on, the seconds that its proof takes, and those of the longest chain that begins with it."""

    def __init__(self, crates, top):
        with open(f"{top}/crates.txt", encoding="utf-8") as it:
            heads = [line.split(":") for line in it if ":" in line and not line.startswith("#")]
        below = {head.split()[0]: rest.split() for head, rest in heads}
        self.below = {it: [other for other in below[it] if other in crates] for it in crates}
        self.seconds = self.measured(crates, top)
        # What a program takes is mostly its compilers, each on one processor, side by side.
        self.programs = {it for it in crates if os.path.exists(f"{top}/crates/{it}/src/main.rt")}
        self.chain = {}
        for name in crates:
            self.add_chain(name)

    @staticmethod
    def measured(crates, top):
        """By the table, and for a crate that isn't there by its lines."""
        with open(f"{HERE}/seconds.txt", encoding="utf-8") as it:
            pairs = [line.split() for line in it if not line.startswith("#")]
        table = {name: int(number) for name, number in pairs if name in crates}
        long = {it: lines_of(f"{top}/crates/{it}/src") for it in crates}
        each = sum(table.values()) / max(1, sum(long[it] for it in table))
        return {it: table.get(it) or max(10, each * long[it]) for it in crates}

    def add_chain(self, name):
        if name not in self.chain:
            above = [it for it, below in self.below.items() if name in below]
            self.chain[name] = self.seconds[name] + max(map(self.add_chain, above), default=0)
        return self.chain[name]

    def ready(self, done):
        """The crates that aren't done and stand on such as are, the longest chain first."""
        found = [it for it, below in self.below.items() if it not in done and all(dep in done for dep in below)]
        return sorted(found, key=lambda it: -self.chain[it])


def lines_of(folder):
    found = 0
    for at, _, names in os.walk(folder):
        for name in names:
            with open(os.path.join(at, name), "rb") as it:
                found += it.read().count(b"\n")
    return found


class Schedule:
    """Which crates begin next. What runs is told by name: how many processes it has, and whether it is of the longest chain or near to it."""

    def __init__(self, graph, processors, most=MOST):
        self.graph, self.processors, self.most = graph, processors, min(most, processors)

    def begin(self, ready, running, left):
        """Of the crates that are ready those that begin now, each with its processes and whether it is of the longest chain or near to it. left: the
        seconds that each crate still takes that isn't done."""
        chain = {it: self.graph.chain[it] - self.graph.seconds[it] + much for it, much in left.items()}
        longest = max(chain.values(), default=0)
        firsts = sorted((it for it in [*ready, *running] if chain[it] >= longest - SLACK), key=lambda it: -chain[it])
        others = sum(left.values()) - longest - sum(left[it] for it in firsts[1:])
        running, begun = dict(running), []
        for name in ready:
            beside = sum(not is_first for _, is_first in running.values())
            is_near = chain[name] >= longest - NEAR
            if not is_near and beside >= self.processors:
                continue
            jobs = self.idle_for(len(ready) - len(begun), running)
            # More processes take more of processors in all, so they wait until the others can't keep these busy.
            if name in firsts and others < longest:
                jobs = max(jobs, self.most // len(firsts))
            running[name] = jobs, is_near
            begun.append((name, *running[name]))
        return begun

    def idle_for(self, waiting, running):
        """The processes of a crate for which no processor has to leave another: one, or more where processors would idle."""
        idle = self.processors - sum(jobs for jobs, _ in running.values())
        return max(1, min(self.most, idle // waiting))


class Plan:
    """A run by the table of seconds: when each crate begins and ends, as processors are shared by those that run."""

    def __init__(self, graph, schedule, done=()):
        self.graph, self.schedule = graph, schedule
        self.done, self.left = set(done), {it: much for it, much in graph.seconds.items() if it not in done}
        self.running, self.lines, self.now = {}, [], 0.0
        while self.left:
            self.step()

    def wants(self, name):
        """How many processors a crate can use."""
        jobs = 1 if name in self.graph.programs else self.running[name][0]
        return FASTER[jobs] * DEARER[jobs]

    def shares(self):
        """The processors of each crate that runs: by its weight, and no more than it can use."""
        free, found = self.schedule.processors, {}
        weights = {it: jobs * (1 if is_first else WEIGHT) for it, (jobs, is_first) in self.running.items()}
        while len(found) < len(weights):
            whole = sum(it for name, it in weights.items() if name not in found)
            part = {name: free * it / whole for name, it in weights.items() if name not in found}
            full = {name: self.wants(name) for name in part if self.wants(name) <= part[name] + 1e-9}
            found.update(full or part)
            free -= sum(full.values())
        return found

    def step(self):
        """To the moment at which the next crate ends."""
        ready = [it for it in self.graph.ready(self.done) if it not in self.running]
        for name, jobs, is_first in self.schedule.begin(ready, self.running, self.left):
            self.running[name] = jobs, is_first
            self.lines.append([name, self.now, None, jobs, is_first])
        pace = {it: share / self.wants(it) * (1 if it in self.graph.programs else FASTER[self.running[it][0]]) for it, share in self.shares().items()}
        passed = min(self.left[it] / pace[it] for it in pace)
        self.now += passed
        for name in pace:
            self.left[name] -= passed * pace[name]
            if self.left[name] < 1e-6:
                del self.left[name], self.running[name]
                self.done.add(name)
                next(it for it in self.lines if it[0] == name)[2] = self.now


class Own:
    """As rt itself does it: the idle processors shared by all that could begin, each crate counted twice, for its tests."""

    def __init__(self, processors):
        self.processors = processors

    def begin(self, ready, running, _):
        idle, begun = self.processors - sum(jobs for jobs, _ in running.values()), []
        for at, name in enumerate(ready):
            if idle > 0:
                jobs = max(1, min(MOST, idle // (2 * (len(ready) - at))))
                begun.append((name, jobs, True))
                idle -= jobs
        return begun


class Lanes:
    """Runs rt's tasks side by side: each is what it waits for, its lines, the memory planned for it, and a call that gets what was given and
    how many processes it may use. A crate's proof is the task (NAME, proof); others, such as tests, run beside the longest chain."""

    def __init__(self, schedule, memory):
        self.schedule, self.memory = schedule, memory
        self.running, self.begun, self.given, self.ended = {}, {}, {}, queue.SimpleQueue()

    def run(self, tasks):
        left = [*tasks]
        while left or self.running:
            for key in self.begin_some(tasks, left):
                left.remove(key)
            key, gave, error = self.ended.get()
            if error:
                raise error
            del self.running[key]
            self.given[key] = gave
        return self.given

    def begin_some(self, tasks, left):
        """Begins what there are processors and memory for, and returns it."""
        ready = [it for it in left if all(other in self.given for other in tasks[it][0])]
        proofs = [it for it in ready if it[1] == "proof"]
        rest = {name: self.seconds_left(name) for name, kind, *_ in [*left, *self.running] if kind == "proof"}
        names = sorted((name for name, _ in proofs), key=lambda it: -self.schedule.graph.chain[it])
        of_proofs = {name: found[:2] for (name, kind, *_), found in self.running.items() if kind == "proof"}
        wanted = [((name, "proof"), jobs, is_first) for name, jobs, is_first in self.schedule.begin(names, of_proofs, rest)]
        wanted += [(it, 1, False) for it in ready if it not in proofs]
        begun = []
        for key, jobs, is_first in wanted:
            jobs = self.fitting(jobs, OF_PLAN * tasks[key][2])
            if jobs:
                self.begin(key, jobs, is_first, tasks[key])
                begun.append(key)
        return begun

    def seconds_left(self, name):
        """About how many seconds a proof still takes, by when it began."""
        begun, pace = self.begun.get(name, (time.monotonic(), 1))
        return max(1, self.schedule.graph.seconds[name] - pace * (time.monotonic() - begun))

    def fitting(self, jobs, much):
        """As many processes of these as memory has room for, and one in any case where nothing runs."""
        room = self.memory - sum(it for _, _, it in self.running.values())
        while jobs and much * (1 + MORE * (jobs - 1)) > room:
            jobs -= 1
        return jobs or not self.running

    def begin(self, key, jobs, is_first, task):
        self.running[key] = jobs, is_first, OF_PLAN * task[2] * (1 + MORE * (jobs - 1))
        if key[1] == "proof":
            self.begun[key[0]] = time.monotonic(), FASTER[jobs]

        def work():
            # A thread's own, and of the processes that it starts.
            with contextlib.suppress(OSError):
                os.setpriority(os.PRIO_PROCESS, threading.get_native_id(), os.getpriority(os.PRIO_PROCESS, 0) + (0 if is_first else BEHIND))
            try:
                self.ended.put((key, task[3](self.given, int(jobs)), None))
            except BaseException as error:
                self.ended.put((key, None, error))

        threading.Thread(target=work, daemon=True).start()


def toolchain(file):
    """The toolchain's rt as a module, or None where it isn't one with a scheduler that can be replaced."""
    try:
        loader = importlib.machinery.SourceFileLoader("rt", os.path.realpath(file))
        made = importlib.util.module_from_spec(importlib.util.spec_from_loader("rt", loader))
        sys.modules["rt"] = made
        loader.exec_module(made)
        fits = [*inspect.signature(made.in_lanes).parameters] == ["tasks"] and all(map(callable, (made.main, made.free, made.ending)))
    except Exception:
        return None
    return made if fits else None


def side_by_side(rt):
    """Has the two compilers of a program work side by side. rt calls one after the other when all else is proved, and a processor is enough for each."""
    made = getattr(getattr(rt, "Crate", None), "compile_by", None)
    if not callable(made) or [*inspect.signature(made).parameters] != ["self", "backend", "words", "to"] or [*getattr(rt, "BACKENDS", ())] != ["llvm", "rattle"]:
        return

    def compile_by(self, backend, words, to):
        if backend == "rattle":
            return self.by_rattle
        with concurrent.futures.ThreadPoolExecutor(1) as pool:
            other = pool.submit(made, self, "rattle", words, to)
            status = made(self, backend, words, to)
            self.by_rattle = other.result()
        return status

    rt.Crate.compile_by = compile_by


def ci(file, words):
    """`rt ci` here, in this order."""
    rt = toolchain(file)
    if rt is None:
        return NO_SCHEDULER

    def in_lanes(tasks):
        names = [name for name, kind, *_ in tasks if kind == "proof"]
        with rt.ending():
            return Lanes(Schedule(Graph(names, "."), len(os.sched_getaffinity(0))), 0.85 * rt.free()).run(tasks)

    rt.in_lanes = in_lanes
    side_by_side(rt)
    return rt.main(["ci", *words])


def show(graph, processors):
    plan = Plan(graph, Schedule(graph, processors))
    for name, begun, ended, jobs, is_first in plan.lines:
        print(f"{begun / 60:5.1f} to {ended / 60:5.1f}  {name:16} {jobs} process{'es' if jobs > 1 else ''}{', longest chain' if is_first else ''}")
    whole = sum(graph.seconds.values())
    print(f"{plan.now / 60:.1f} minutes on {processors} processors, {Plan(graph, Own(processors)).now / 60:.1f} in the order of rt ci; "
          f"no less than {whole / processors / 60:.1f} for all crates and {max(graph.chain.values()) / 60:.1f} for the longest chain at one process each")


def main():
    words = sys.argv[1:]
    if words in (["--help"], ["-h"]):
        print(__doc__, end="")
        return 0
    if words[:1] == ["--ci"] and len(words) > 1 and words[2:] in ([], ["--anew"]):
        return ci(words[1], words[2:])
    if len(words) > 1 or not all(it.isdigit() and int(it) for it in words):
        print("tools/schedule.py: usage: tools/schedule.py [PROCESSORS] | --ci RT [--anew]", file=sys.stderr)
        return 2
    sys.path.insert(0, HERE)
    import record
    show(Graph(record.crates_of(), record.TOP), int(words[0]) if words else len(os.sched_getaffinity(0)))
    return 0


if __name__ == "__main__":
    status = main()
    sys.stdout.flush()
    sys.exit(status)
