"""The order in which tools/build proves crates: which begin, with how many processes, what memory holds back, and how long that takes by the table."""
import os
import sys
import threading
import types
import unittest

sys.path.insert(0, os.path.dirname(os.path.dirname(os.path.abspath(__file__))))
import schedule


def graph(text, programs=()):
    """A graph of lines `NAME SECONDS: BELOW ..`, lowest first."""
    made = schedule.Graph.__new__(schedule.Graph)
    heads = [line.split(":") for line in text.strip().splitlines()]
    made.below = {head.split()[0]: rest.split() for head, rest in heads}
    made.seconds = {head.split()[0]: int(head.split()[1]) for head, _ in heads}
    made.programs, made.chain = set(programs), {}
    for name in made.below:
        made.add_chain(name)
    return made


WIDE = """
low 100:
high 600: low
beside 40: low
other 30: low
top 50: high beside other
"""


class Order(unittest.TestCase):
    def test_chains(self):
        self.assertEqual(graph(WIDE).chain, {"low": 750, "high": 650, "beside": 90, "other": 80, "top": 50})

    def test_ready(self):
        it = graph(WIDE)
        self.assertEqual(it.ready(()), ["low"])
        self.assertEqual(it.ready({"low"}), ["high", "beside", "other"])
        self.assertEqual(it.ready({"low", "high", "beside"}), ["other"])

    def test_the_longest_chain_has_all_and_the_others_one_each(self):
        it = graph(WIDE)
        order = schedule.Schedule(it, 4)
        self.assertEqual(order.begin(["low"], {}, it.seconds), [("low", 4, True)])
        left = {name: much for name, much in it.seconds.items() if name != "low"}
        self.assertEqual(order.begin(["high", "beside", "other"], {}, left), [("high", 4, True), ("beside", 1, False), ("other", 1, False)])
        self.assertEqual(order.begin(["other"], {"high": (4, True), "beside": (1, False)}, left), [("other", 1, False)])

    def test_the_longest_chain_has_one_while_others_keep_processors_busy(self):
        it = graph("long 700:\n" + "".join(f"short{at} 100:\n" for at in range(8)))
        begun = schedule.Schedule(it, 4).begin(it.ready(()), {}, it.seconds)
        self.assertEqual([(jobs, is_first) for _, jobs, is_first in begun], [(1, True)] + 4 * [(1, False)])
        left = {name: much for name, much in it.seconds.items() if name in ("long", "short0")}
        self.assertEqual(schedule.Schedule(it, 4).begin(["long", "short0"], {}, left), [("long", 4, True), ("short0", 1, False)])

    def test_two_long_chains_share(self):
        it = graph("one 500:\ntwo 450:\nthree 10:\n")
        self.assertEqual(schedule.Schedule(it, 4).begin(["one", "two", "three"], {}, it.seconds), [("one", 2, True), ("two", 2, True), ("three", 1, False)])

    def test_what_is_near_to_the_longest_chain_has_its_claim_and_one_process(self):
        it = graph("long 900:\nnear 750:\nshort 10:\n")
        self.assertEqual(schedule.Schedule(it, 4).begin(it.ready(()), {}, it.seconds), [("long", 4, True), ("near", 1, True), ("short", 1, False)])

    def test_no_more_beside_it_than_processors(self):
        it = graph("long 900:\n" + "".join(f"short{at} 5:\n" for at in range(9)))
        begun = schedule.Schedule(it, 4).begin(it.ready(()), {}, it.seconds)
        self.assertEqual([(jobs, is_first) for _, jobs, is_first in begun], [(4, True)] + 4 * [(1, False)])

    def test_what_has_run_counts_no_more(self):
        it = graph("one 500:\ntwo 300:\n")
        left = {"one": 250, "two": 300}
        self.assertEqual(schedule.Schedule(it, 4).begin(["two"], {"one": (4, True)}, left), [("two", 2, True)])


class Expected(unittest.TestCase):
    def minutes(self, text, processors, **more):
        it = graph(text, **more)
        return schedule.Plan(it, schedule.Schedule(it, processors)).now

    def test_one_processor_takes_all_seconds(self):
        self.assertAlmostEqual(self.minutes(WIDE, 1), 820)

    def test_processes_of_one_crate(self):
        for processors, seconds in ((2, 100 / 1.25), (3, 100 / 1.45), (4, 100 / 1.6), (16, 100 / 1.6)):
            self.assertAlmostEqual(self.minutes("one 100:\n", processors), seconds)

    def test_a_programs_compilers_use_one(self):
        self.assertAlmostEqual(self.minutes("one 100:\n", 4, programs=["one"]), 100)

    def test_each_begins_when_what_it_stands_on_has_ended(self):
        it = graph(WIDE)
        plan = schedule.Plan(it, schedule.Schedule(it, 4))
        ends = {name: ended for name, _, ended, _, _ in plan.lines}
        self.assertEqual(sorted(ends), sorted(it.below))
        for name, begun, *_ in plan.lines:
            self.assertGreaterEqual(begun, max((ends[below] for below in it.below[name]), default=0))
        self.assertGreaterEqual(plan.now, 820 / 4)

    def test_what_is_done_takes_nothing(self):
        it = graph(WIDE)
        self.assertAlmostEqual(schedule.Plan(it, schedule.Schedule(it, 1), {"low", "high"}).now, 120)
        self.assertEqual(schedule.Plan(it, schedule.Schedule(it, 1), it.below).now, 0)


class Side(unittest.TestCase):
    """Tasks as rt gives them, over calls that note what ran beside them."""

    def tasks(self, text, memory=(), fails=None):
        it, self.now, self.most, self.order, alone = graph(text), 0, 0, [], threading.Lock()
        two = threading.Event()

        def call(name):
            def work(given, jobs):
                with alone:
                    self.assertTrue(all((below, "proof") in given for below in it.below[name]))
                    self.now += 1
                    self.most = max(self.most, self.now)
                    self.order.append((name, jobs))
                    if self.now > 1:
                        two.set()
                two.wait(0.3)
                with alone:
                    self.now -= 1
                if name == fails:
                    raise MemoryError(name)
                return True

            return work

        found = {}
        for name, below in it.below.items():
            after = [(other, "proof") for other in below]
            found[name, "proof"] = (after, 1, dict(memory).get(name, 1), call(name))
            found[name, "tests"] = (after, 0, 1, lambda given, jobs: True)
        return schedule.Lanes(schedule.Schedule(it, 4), 100), found

    def test_all_run_and_give(self):
        lanes, tasks = self.tasks(WIDE)
        given = lanes.run(tasks)
        self.assertEqual(set(given), set(tasks))
        self.assertTrue(all(given.values()))
        self.assertEqual((self.order[0], dict(self.order)["high"], dict(self.order)["beside"], self.order[-1][0]), (("low", 4), 4, 1, "top"))
        self.assertGreater(self.most, 1)

    def test_memory_keeps_them_apart(self):
        lanes, tasks = self.tasks("one 10:\ntwo 10:\n", memory={"one": 150, "two": 150})
        lanes.run(tasks)
        self.assertEqual((self.most, [jobs for _, jobs in self.order]), (1, [1, 1]))

    def test_memory_takes_processes_away(self):
        lanes, tasks = self.tasks("one 10:\n", memory={"one": 100})
        lanes.run(tasks)
        self.assertEqual(self.order, [("one", 2)])

    def test_more_than_memory_runs_alone(self):
        lanes, tasks = self.tasks("one 10:\ntwo 10:\n", memory={"one": 900})
        lanes.run(tasks)
        self.assertEqual((self.most, self.order), (1, [("one", 1), ("two", 4)]))

    def test_what_a_call_raises_ends_the_run(self):
        lanes, tasks = self.tasks(WIDE, fails="high")
        self.assertRaises(MemoryError, lanes.run, tasks)


class Compilers(unittest.TestCase):
    """The two compilers of a program, each of which here waits for the other to begin."""

    def toolchain(self, statuses):
        begun = {name: threading.Event() for name in statuses}

        class Crate:
            def compile_by(self, backend, words, to):
                begun[backend].set()
                together = all(it.wait(10) for it in begun.values())
                self.made = [*getattr(self, "made", []), (backend, words, to, together)]
                return statuses[backend]

        return types.SimpleNamespace(Crate=Crate, BACKENDS={"llvm": "", "rattle": ".by-rattle"})

    def both(self, rt):
        """As rt calls them."""
        crate = rt.Crate()
        status = crate.compile_by("llvm", ["words"], "out/exbr") or crate.compile_by("rattle", ["words"], "out/exbr")
        return status, sorted(crate.made)

    def test_they_work_side_by_side_and_each_once(self):
        rt = self.toolchain({"llvm": 0, "rattle": 0})
        schedule.side_by_side(rt)
        self.assertEqual(self.both(rt), (0, [(name, ["words"], "out/exbr", True) for name in ("llvm", "rattle")]))

    def test_what_either_ends_with_is_the_status(self):
        for statuses, wanted in (({"llvm": 3, "rattle": 0}, 3), ({"llvm": 0, "rattle": 4}, 4)):
            rt = self.toolchain(statuses)
            schedule.side_by_side(rt)
            self.assertEqual(self.both(rt)[0], wanted)

    def test_another_toolchain_is_left_as_it_is(self):
        for rt in (types.SimpleNamespace(), types.SimpleNamespace(Crate=type("Crate", (), {"compile_by": lambda self, words: 0}), BACKENDS={"llvm": "", "rattle": ""})):
            before = getattr(getattr(rt, "Crate", None), "compile_by", None)
            schedule.side_by_side(rt)
            self.assertIs(getattr(getattr(rt, "Crate", None), "compile_by", None), before)


class Toolchain(unittest.TestCase):
    def test_what_is_no_such_toolchain(self):
        self.assertIsNone(schedule.toolchain("/bin/sh"))
        self.assertIsNone(schedule.toolchain("/nowhere"))
        self.assertIsNone(schedule.toolchain(os.path.abspath(__file__)))

    def tearDown(self):
        sys.modules.pop("rt", None)


if __name__ == "__main__":
    unittest.main()
