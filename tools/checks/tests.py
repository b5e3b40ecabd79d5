"""Tests, and how they are run: side by side, in groups, with a line for each group and for each that fails."""
import concurrent.futures
import multiprocessing
import os
import signal
import time


class Skip(Exception):
    """A test that isn't made, and why."""


# The seconds of a test that begins before all others.
FIRST = float("inf")


class Test:
    """A name within a group, and a call that fails by AssertionError. A call may return how many tests it stands for, as (passed,
    failed, skips, text): a file of tests, say, whose skips are texts. `seconds` is what it takes by guess, if that is much."""

    def __init__(self, group, name, call, seconds=0):
        self.group, self.name, self.call, self.seconds = group, name, call, seconds

    def run(self):
        try:
            result = self.call()
        except Skip as skip:
            return 0, 0, [str(skip)], ""
        except AssertionError as fault:
            return 0, 1, [], str(fault)
        except Exception as fault:
            return 0, 1, [], f"{type(fault).__name__}: {fault}"
        return result if isinstance(result, tuple) else (1, 0, [], "")


class Report:
    """What has been found, told group by group as each one ends."""

    def __init__(self, tests, is_long):
        self.left, self.found, self.begun = {}, {}, time.monotonic()
        for it in tests:
            self.left[it.group] = self.left.get(it.group, 0) + 1
        self.passed = self.failed = self.skipped = 0
        self.is_long = is_long

    def take(self, test, result):
        passed, failed, skips, text = result
        mine = self.found.setdefault(test.group, [0, 0, {}])
        mine[0], mine[1] = mine[0] + passed, mine[1] + failed
        for it in skips:
            mine[2][it] = mine[2].get(it, 0) + 1
        if failed:
            indented = "\n    ".join(text.splitlines())
            print(f"FAILED {test.group}: {test.name}\n    {indented}", flush=True)
        elif self.is_long:
            print(f"{'skipped' if skips and not passed else 'ok'} {test.group}: {test.name}", flush=True)
        self.left[test.group] -= 1
        if not self.left[test.group]:
            self.tell(test.group)

    def tell(self, group):
        passed, failed, skips = self.found[group]
        number = sum(skips.values())
        self.passed, self.failed, self.skipped = self.passed + passed, self.failed + failed, self.skipped + number
        more = f", {failed} failed" if failed else ""
        more += f", {number} skipped" if number else ""
        print(f"{group}: {passed} passed{more} (after {time.monotonic() - self.begun:.1f} s)", flush=True)
        for why, many in skips.items():
            print(f"    skipped{f' {many} times' if many > 1 else ''}: {why}", flush=True)


class Worker:
    """What each process has of the tests, which it finds as they were when it began."""

    tests = []

    @staticmethod
    def begin(tests):
        signal.signal(signal.SIGINT, signal.SIG_DFL)
        Worker.tests = tests

    @staticmethod
    def run(at):
        return Worker.tests[at].run()


def run_all(tests, is_long=False, jobs=None):
    """Runs tests side by side, each in one of some processes, and returns how many passed and failed. Those that take long begin first, and then
    they come in their order."""
    report = Report(tests, is_long)
    order = sorted(range(len(tests)), key=lambda at: -tests[at].seconds)
    fork = multiprocessing.get_context("fork")
    jobs = min(len(tests), jobs or max(2, len(os.sched_getaffinity(0))))
    with concurrent.futures.ProcessPoolExecutor(jobs, fork, Worker.begin, (tests,)) as pool:
        runs = {pool.submit(Worker.run, at): tests[at] for at in order}
        for it in concurrent.futures.as_completed(runs):
            report.take(runs[it], it.result())
    return report.passed, report.failed
