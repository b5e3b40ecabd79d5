"""Each call of the system that fails in turn, is interrupted, or does a part of its work. `fail.c` is loaded into the program."""
import os
import shutil
import subprocess

from fault import Faults
from folders import BEFORE, HERE, Skipped, Wrong, play, read

FAULTS = Faults()
CAUSES = {"EIO, a broken disk": 5, "ENOSPC, a full disk": 28, "EDQUOT, a quota": 122, "EROFS, a disk that may be read alone": 30, "ESTALE, a server that forgot": 116,
          "EMFILE, too many files": 24, "ENOMEM": 12}
RUNS = ("bare", "tree", "lossy")


def library(place):
    """The library that fails calls."""
    path = os.path.join(place.room, "fail.so")
    compiler = shutil.which("gcc") or shutil.which("clang") or shutil.which("cc")
    if not compiler:
        raise Skipped("it needs a C compiler")
    if not os.path.exists(path):
        subprocess.run([compiler, "-O2", "-shared", "-fPIC", "-o", path, os.path.join(HERE, "fail.c")], check=True)
    return path


def loaded(place, it, before, **settings):
    place.clear()
    it.put(place.folder, before)
    return play(place.program, place.folder, it.words, env={**os.environ, "LD_PRELOAD": library(place), **settings})


def calls_of(place, it):
    """How many calls a run makes over the files of an earlier one."""
    count = os.path.join(place.room, "count")
    if os.path.exists(count):
        os.remove(count)
    loaded(place, it, {name: BEFORE for name in it.whole}, FAIL_COUNT=count)
    if not os.path.exists(count):
        raise Skipped("the program takes no library")
    return int(read(count))


def each(cause, rest):
    """Each call fails, alone or with all later ones, over files of an earlier run."""
    def run(place):
        counts, calls = {0: 0, 6: 0, 7: 0}, 0
        for name in RUNS:
            it = place.input(name)
            before = {output: BEFORE for output in it.whole}
            many = calls_of(place, it)
            for at in range(1, many + 1):
                ran = loaded(place, it, before, FAIL_AT=str(at), FAIL_WITH=str(cause), **({"FAIL_REST": "1"} if rest else {}))
                try:
                    it.judge(place.folder, ran, (0, 6, 7), before)
                except Wrong as why:
                    raise Wrong(f"call {at} of {name}: {why}") from None
                counts[ran.status] += 1
            calls += many
            it.is_whole_again(place.program, place.folder)
        return f"of {calls} calls 6 in {counts[6]}, 7 in {counts[7]}, 0 in {counts[0]}; each output as it was or a front"
    return run


for what, number in CAUSES.items():
    FAULTS.named(f"each call of the system fails: {what}")(each(number, False))
FAULTS.named("each call of the system fails, and all later ones: EIO")(each(5, True))


def harmless(cause):
    """Each second, third .. call is interrupted, or does a part of its work. That is no fault."""
    def run(place):
        runs = 0
        for name in (*RUNS, "middling"):
            it = place.input(name)
            for every in range(2, 8):
                ran = loaded(place, it, {}, FAIL_EACH=str(every), FAIL_WITH=str(cause))
                it.judge(place.folder, ran, (0,))
                runs += 1
        return f"0 in {runs} runs; each output is whole"
    return run


FAULTS.named("calls are interrupted (EINTR)")(harmless(4))
FAULTS.named("reads and writes do a part of their work")(harmless(0))
