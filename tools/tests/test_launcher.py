"""What ./exbr, ./test, ./install, tools/program, tools/build, tools/dist and .ci/run do and say, with dist/ as it must be and with a changed
byte in it, in its record, or in a source; with the toolchain in the path, without it, and with another or a broken one."""
import os
import re
import resource
import shutil
import subprocess
import sys
import tempfile
import time
import unittest

from scratch import TOP, Scratch, can_run

sys.dont_write_bytecode = True
sys.path.insert(0, os.path.join(TOP, "tools"))
import record

# A toolchain that keeps what it proves, with a scheduler of its own that proves one crate after another. It tells in kit/calls what it proved,
# with how many processes, and as which process. What another run proves just now it waits for.
KEEPS = """#!/usr/bin/env python3
import contextlib, fcntl, os, sys, time

KIT = os.path.dirname(os.path.realpath(__file__))
HELP = "rt ci [--anew]"


def note(line):
    with open(f"{KIT}/calls", "a") as it:
        it.write(f"{line}\\n")


def free():
    return 8_000_000_000


ending = contextlib.nullcontext


def in_lanes(tasks):
    note("one after another")
    given = {}
    for key, task in tasks.items():
        given[key] = task[3](given, 1)
    return given


def prove(name, below, anew, given, jobs):
    if not all(given[it, "proof"] for it in below):
        return False
    with open(f"{KIT}/lock-{name}", "w") as lock:
        fcntl.flock(lock, fcntl.LOCK_EX)
        return prove_in_turn(name, anew, jobs)


def prove_in_turn(name, anew, jobs):
    kept = f"{KIT}/kept-{name}"
    if os.path.exists(kept) and not anew:
        print(f"rt: {name} is kept: an earlier run proved the same", flush=True)
        return True
    note(f"{name} by {jobs}, process {os.getpid()}")
    with contextlib.suppress(FileNotFoundError):
        with open(f"{KIT}/pause-{name}") as it:
            time.sleep(float(it.read()))
    found = "".join(open(f"crates/{name}/src/{it}").read() for it in os.listdir(f"crates/{name}/src"))
    print(f"rt: {name} {'NOT PROVED' if 'wrong' in found else 'proved'}", flush=True)
    if "wrong" not in found:
        open(kept, "w").close()
    return "wrong" not in found


def ci(anew):
    tasks = {}
    with open("crates.txt") as it:
        below = {line.split(":")[0]: line.split(":")[1].split() for line in it if line[0] != "#"}
    for name, others in below.items():
        after = [(it, "proof") for it in others]
        tasks[name, "proof"] = (after, 1, 1_000_000_000, lambda given, jobs, name=name: prove(name, below[name], anew, given, jobs))
        tasks[name, "tests"] = (after, 0, 1_000_000_000, lambda given, jobs: True)
    given = in_lanes(tasks)
    if all(given.values()):
        os.makedirs("crates/exbr/out", exist_ok=True)
        os.system("cat /bin/echo crates/exbr/src/main.rt >crates/exbr/out/exbr; chmod +x crates/exbr/out/exbr")
    print(f"{sum(given.values())} passed")
    return 0 if all(given.values()) else 1


def main(words):
    if words[0] == "ci":
        return ci("--anew" in words)
    print({"version": "kit one", "doc": f"{KIT}/START-HERE.md", "help": HELP}.get(words[0], ""))
    return 0


if __name__ == "__main__":
    sys.exit(main(sys.argv[1:]))
"""


class Launched(unittest.TestCase):
    def setUp(self):
        if not can_run():
            self.skipTest("the program that stands in for exbr is /bin/echo of x86-64 Linux, which isn't here")
        self.it = Scratch()
        self.addCleanup(self.it.close)

    kept = None

    def refreshed(self):
        """The repository once `tools/dist refresh` has run there: in the first test that asks for it, and copied to those behind it."""
        if Launched.kept is None:
            status, _, said = self.it.run("tools/dist", "refresh")
            self.assertEqual(status, 0, said)
            Launched.kept = tempfile.TemporaryDirectory(prefix="exbr-refreshed-")
            unittest.addModuleCleanup(Launched.kept.cleanup)
            shutil.copytree(self.it.top, Launched.kept.name, dirs_exist_ok=True)
        else:
            shutil.copytree(Launched.kept.name, self.it.top, dirs_exist_ok=True)
        return self.it

    def says(self, words, status, *parts, has_rt=True):
        """A command ends with that status, and what it says has each of these parts."""
        found, printed, said = self.it.run(*words, has_rt=has_rt)
        for part in parts:
            self.assertIn(part, printed + said)
        self.assertEqual(found, status, printed + said)
        return printed, said


class AsItMustBe(Launched):
    def test_dist_is_run_at_once(self):
        it = self.refreshed()
        os.remove(it.at("kit/calls"))
        for has_rt in (True, False):
            self.assertEqual(it.run("exbr", "run", "a b", "", has_rt=has_rt), (0, "run a b \n", ""))
        self.assertEqual(it.calls(), 0)

    def test_it_runs_in_the_callers_folder_and_through_a_link(self):
        it = self.refreshed()
        os.symlink(it.at("exbr"), it.at("kit/linked"))
        self.assertEqual(it.run("kit/linked", "hello", cwd="/"), (0, "hello\n", ""))

    def test_pages_and_tests_change_nothing(self):
        it = self.refreshed()
        it.write("README.md", "other")
        it.write("crates/exb_tests/src/lib.rt", "other tests")
        it.write("crates/exb_low/must-fail/one.edit", "edit")
        self.assertEqual(it.run("exbr", "x", has_rt=False), (0, "x\n", ""))

    def test_check_and_gate_pass(self):
        self.refreshed()
        self.says(["tools/dist", "check"], 0, "dist/exbr is the program of these sources, by kit one", has_rt=False)
        printed, _ = self.says([".ci/run"], 0, "rt: 2 passed, 0 failed", "byte for byte, the program that was proved", "testing", "dist/exbr")
        self.assertEqual(printed.splitlines()[-1], "8 passed, 0 failed")

    def test_refresh_twice_gives_the_same(self):
        it = self.refreshed()
        first = it.read("dist/record")
        self.says(["tools/dist", "refresh"], 0, "as it was")
        self.assertEqual(it.read("dist/record"), first)

    def test_refresh_takes_what_the_gate_left(self):
        it = self.it
        self.says(["tools/dist", "refresh", "--from", it.top], 1, "has no crates/exbr/out/exbr")
        self.says([".ci/run"], 1, "dist: FAILED")
        before = it.calls()
        self.says(["tools/dist", "refresh", "--from", it.top], 0, "kit kit one")
        self.says(["tools/dist", "refresh", "--from", it.top], 1, "no rt in the path", has_rt=False)
        self.assertEqual(it.calls(), before)
        self.says(["tools/dist", "check"], 0, "dist/exbr is the program of these sources, by kit one")
        other = Scratch()
        self.addCleanup(other.close)
        other.write("crates/exb_low/src/lib.rt", "other\n")
        other.run(".ci/run")
        self.says(["tools/dist", "refresh", "--from", other.top], 1, "has other sources than these")

    def test_build_in_any_case(self):
        it = self.refreshed()
        before = it.calls()
        self.says(["exbr", "--build", "hello"], 0, "hello\n", "exb_low kept (1 of 2", "exbr proved (2 of 2")
        self.assertEqual(it.calls(), before + 1)
        self.says(["exbr", "--build", "--help"], 0, "tools/build [--anew]")
        self.says(["exbr", "--build", "--other"], 2, "takes --anew or nothing")


# The part of a toolchain that lays out texts.
LAYS_OUT = """#!/bin/sh
[ "$1 $2" = "fmt --check" ] || exit 2
shift 2
grep -l "laid  out" "$@" | sed 's/$/ is not in the layout/' | grep . && exit 1
exit 0
"""


class NotLaidOut(Launched):
    def test_a_text_that_is_not_laid_out_is_told_before_anything_is_proved(self):
        it = self.it
        it.write("kit/rattle", LAYS_OUT)
        os.chmod(it.at("kit/rattle"), 0o755)
        it.write("crates/exb_low/specs/Low.antt", "laid  out\n")
        it.write("crates/exb_tests/src/lib.rt", "laid  out, and none of the program's\n")
        _, said = self.says(["tools/build"], 1, "crates/exb_low/specs/Low.antt is not in the layout", "nothing was proved", "rt fmt")
        self.assertNotIn("exb_tests", said)
        self.assertEqual(it.calls(), 0)
        it.write("crates/exb_low/specs/Low.antt", "laid out\n")
        self.says(["tools/build"], 0, "exbr proved (2 of 2")


class InOurOrder(Launched):
    """A kit that keeps what it proves: its scheduler is replaced in a first run, and another is its own and takes all."""

    def wide(self, rt=KEEPS):
        if len(os.sched_getaffinity(0)) < 3:
            self.skipTest("an order of our own takes three processors")
        it = self.it
        it.write("crates.txt", "exb_low:\nexb_high: exb_low\nexb_beside: exb_low\nexbr: exb_high exb_beside exb_low\nexb_tests: exb_low\n")
        it.write("tools/seconds.txt", "exb_low 10\nexb_high 600\nexb_beside 40\nexbr 10\n")
        for name in ("exb_high", "exb_beside"):
            it.write(f"crates/{name}/src/lib.rt", f"{name}\n")
        it.write("kit/rt", rt)
        return it

    def begun(self, word):
        """A command of the repository that runs."""
        it = self.it
        env = {"PATH": f"{it.at('kit')}:{it.at('bin')}:/usr/bin:/bin", "HOME": it.top, "LC_ALL": "C.UTF-8"}
        ran = subprocess.Popen([it.at(word)], env=env, stdin=subprocess.DEVNULL, stderr=subprocess.DEVNULL)
        self.addCleanup(ran.kill)
        return ran

    def until(self, holds):
        """Waits until it holds, at most half a minute."""
        end = time.monotonic() + 30
        while not holds():
            self.assertLess(time.monotonic(), end)
            time.sleep(0.05)

    def proved(self):
        """The crates that were proved, in order, with `own` where the toolchain's own scheduler ran."""
        lines = self.it.read("kit/calls").splitlines()
        return ["own" if it.startswith("one") else it.split()[0] for it in lines]

    # Two runs tell of the last crate at once: whether it is told as proved or as kept is chance, and `proved` says which were proved.
    def test_each_crate_is_proved_once_and_the_toolchain_has_the_last_word(self):
        it = self.wide()
        self.says(["tools/build"], 0, "4 crates", "exb_low proved (1 of 4", "exb_high proved", "exb_beside proved", "(4 of 4")
        found = self.proved()
        self.assertEqual((found[0], sorted(found[1:3]), sorted(found[3:])), ("exb_low", ["exb_beside", "exb_high"], ["exbr", "own"]))
        self.assertIn("exb_high proved", it.read("crates/exbr/out/build-first.log"))
        self.assertIn("exb_high is kept", it.read("crates/exbr/out/build.log"))
        self.assertEqual(it.run("exbr", "x", has_rt=False), (0, "x\n", ""))

    def test_the_last_word_waits_for_the_program_alone(self):
        it = self.wide()
        it.write("kit/pause-exbr", "600")
        ran = self.begun("tools/build")
        self.until(lambda: it.calls() and "own" in self.proved())
        self.assertEqual(sorted(self.proved()), ["exb_beside", "exb_high", "exb_low", "exbr", "own"])
        self.assertFalse(os.path.exists(it.at("kit/kept-exbr")))
        self.until(lambda: "exb_high is kept" in it.read("crates/exbr/out/build.log"))
        ran.terminate()
        self.assertEqual(ran.wait(30), 143)

    def test_the_longest_chain_has_more_processes(self):
        it = self.wide()
        self.says(["tools/build"], 0, "(4 of 4")
        jobs = {line.split()[0]: int(line.split()[2].rstrip(",")) for line in it.read("kit/calls").splitlines() if " by " in line}
        self.assertGreater(jobs["exb_high"], 2)
        self.assertEqual(jobs["exb_beside"], 1)

    def test_what_was_kept_is_taken(self):
        it = self.wide()
        it.write("kit/kept-exb_low", "")
        it.write("kit/kept-exb_high", "")
        self.says(["tools/build"], 0, "exb_low kept (1 of 4", "exb_high kept", "exb_beside proved", "(4 of 4")
        self.assertEqual(sorted(self.proved()), ["exb_beside", "exbr", "own"])

    def in_one_run_of_our_order(self):
        found = self.proved()
        self.assertEqual((found[0], sorted(found[1:3]), found[3:]), ("exb_low", ["exb_beside", "exb_high"], ["exbr"]))

    def test_anew_is_one_run_that_takes_nothing(self):
        it = self.wide()
        it.write("kit/kept-exb_low", "")
        self.says(["tools/build", "--anew"], 0, "exb_low proved (1 of 4", "(4 of 4")
        self.in_one_run_of_our_order()

    def test_a_kit_that_keeps_nothing_has_one_run_and_no_such_word(self):
        it = self.wide(KEEPS.replace("rt ci [--anew]", "rt ci"))
        for words in ([], ["--anew"]):
            it.write("kit/calls", "")
            self.says(["tools/build", *words], 0, "(4 of 4")
            self.assertEqual(self.proved()[0], "own")
            self.assertNotIn("own", self.proved()[1:])

    def test_where_nothing_is_shared_there_is_one_run(self):
        self.wide(KEEPS.replace('"doc"', '"none"'))
        self.says(["tools/build"], 0, "(4 of 4")
        self.in_one_run_of_our_order()

    def test_a_toolchain_without_that_scheduler_has_its_own_order(self):
        it = self.wide(KEEPS.replace("in_lanes(tasks)", "in_lanes(tasks, more=1)"))
        for words in ([], ["--anew"]):
            it.write("kit/calls", "")
            self.says(["tools/build", *words], 0, "(4 of 4")
            self.assertEqual(self.proved(), ["own", "exb_low", "exb_high", "exb_beside", "exbr"])

    def test_what_fails_in_our_order_is_tried_again_in_the_toolchains(self):
        it = self.wide()
        it.write("crates/exb_high/src/lib.rt", "wrong\n")
        self.says(["tools/build"], 1, "exb_beside proved (2 of 4", "the program could not be proved and built", "build.log says why")
        self.assertEqual(sorted(self.proved()), ["exb_beside", "exb_high", "exb_high", "exb_low", "own"])
        self.assertIn("exb_high NOT PROVED", it.read("crates/exbr/out/build.log"))

    def test_what_it_started_ends_with_it(self):
        it = self.wide()
        it.write("kit/pause-exb_low", "600")
        ran = self.begun("tools/build")
        self.until(it.calls)
        proof = int(it.read("kit/calls").split()[-1])
        ran.terminate()
        self.assertEqual(ran.wait(30), 143)
        self.assertFalse(os.path.exists(f"/proc/{proof}"))
        self.assertEqual(self.proved(), ["exb_low"])


# What may stand in the path as rt. Each notes what it was asked, and answers nothing but its version.
NOTES = '#!/bin/sh\necho "$*" >>"$(dirname "$0")/asked"\n'
TOOLCHAINS = {
    "no rt": None,
    "rt of the same kit": f'{NOTES}[ "$1" = version ] && echo "kit one" && exit 0\nexec sleep 600\n',
    "rt of another kit": f'{NOTES}[ "$1" = version ] && echo "kit two" && exit 0\nexec sleep 600\n',
    "a broken rt": f'{NOTES}echo "rt: no such library" >&2\nexit 127\n',
    "an rt that never ends": f"{NOTES}exec sleep 600\n",
}
SECONDS = 2
HELPS = ("exbr: ./exbr --build proves and builds these sources (up to an hour); ./look FOLDER plays a folder by them without a proof (a minute); "
         "both need rt\n")
IN_A_CONTAINER = 'exbr: it runs in a container, by {top}/Containerfile: podman build -t exbr {top}; podman run --rm -v "$PWD":/work exbr WORDS\n'


def of_children():
    """The seconds of processors that commands have taken which this process started."""
    used = resource.getrusage(resource.RUSAGE_CHILDREN)
    return used.ru_utime + used.ru_stime


class Anywhere(unittest.TestCase):
    """The program itself, in a small repository of which it is said to be built: what is said and done does not depend on the rt in the path."""

    def setUp(self):
        self.program = os.environ.get("EXBR_PROGRAM") or f"{TOP}/dist/exbr"
        if not can_run() or not os.path.isfile(self.program):
            self.skipTest("the program doesn't run here, or there is none")
        self.it = it = Scratch()
        self.addCleanup(it.close)
        it.furnish()
        os.makedirs(it.at("dist"))
        shutil.copy2(self.program, it.at("dist/exbr"))
        it.write("dist/record", record.make(self.program, record.sources_of(it.top), "kit one"))
        it.sum()
        self.printed = subprocess.run([self.program, "make", "3"], capture_output=True, text=True, check=True).stdout
        # What the three commands do where the program is run: status, printed text as an expression, and said text.
        self.exbr, self.install = (0, f"^{re.escape(self.printed)}$", ""), (0, r"^install: \d+ files in ", "")
        self.test = (0, r"^testing \S+/dist/exbr: 1 tests\n(?s:.*)\n1 passed, 0 failed\n$", "")

    def rows(self, exbr, test, install, toolchains=("no rt", "rt of another kit")):
        """Each toolchain, and each command: status, printed text and said text are as wanted, in time, and no proof is begun."""
        wanted = {"exbr make 3": exbr, "test --only dist:": test, "install PREFIX": install}
        for name in toolchains:
            self.it.write("kit/rt", TOOLCHAINS[name] or "")
            os.chmod(self.it.at("kit/rt"), 0o755)
            for words, answer in wanted.items():
                with self.subTest(rt=name, words=words):
                    self.row(words.split(), answer, bool(TOOLCHAINS[name]))
        asked = self.it.read("kit/asked").splitlines() if os.path.exists(self.it.at("kit/asked")) else []
        self.assertLessEqual(set(asked), {"version"})

    def row(self, words, answer, has_rt):
        status, printed, said = answer
        words = [it.replace("PREFIX", self.it.at("prefix")) for it in words]
        shutil.rmtree(self.it.at("prefix"), ignore_errors=True)
        before, begun = of_children(), time.monotonic()
        found = self.it.run(*words, has_rt=has_rt, seconds=120)
        spent, of_processors = time.monotonic() - begun, of_children() - before
        self.assertLessEqual(of_processors, SECONDS)
        # By the clock too, but for a machine that does other work. Whatever waits for the rt that never ends is stopped by the 120 seconds.
        if os.getloadavg()[0] < len(os.sched_getaffinity(0)) / 2:
            self.assertLessEqual(spent, SECONDS)
        self.assertEqual((found[0], found[2]), (status, said), found)
        self.assertRegex(found[1], printed)

    def refused(self, why, helps=HELPS, **more):
        """What comes where no program is of these sources: two lines, status 1, and nothing is made."""
        said = f"exbr: dist/exbr {why}\n{helps}"
        self.rows((1, r"^$", said), (1, r"^0 passed, 1 failed\n$", said), (1, r"^$", said), **more)
        self.assertFalse(os.path.exists(self.it.at("prefix")))

    def test_sources_as_recorded(self):
        self.rows(self.exbr, self.test, self.install, toolchains=TOOLCHAINS)
        ran = subprocess.run([self.it.at("prefix/bin/exbr"), "make", "3"], capture_output=True, text=True)
        self.assertEqual((ran.returncode, ran.stdout), (0, self.printed))

    def test_a_byte_of_a_source_is_another_one(self):
        self.it.change_byte("crates/exb_low/src/lib.rt", 0)
        self.refused("was built of other sources than these", toolchains=TOOLCHAINS)

    def test_no_dist(self):
        shutil.rmtree(self.it.at("dist"))
        self.refused("is missing", toolchains=TOOLCHAINS)

    def test_a_byte_of_the_program_is_another_one(self):
        self.it.change_byte("dist/exbr")
        self.refused("is not the program of its record: its sha256 sum is another one")

    def test_a_line_of_the_record_is_another_one(self):
        before = record.read(self.it.at("dist/record"))
        for word, why in (("program", "is not the program of its record: its sha256 sum is another one"), ("sources", "was built of other sources than these")):
            self.it.record(word, before[word][::-1])
            self.refused(why, toolchains=["no rt"])
            self.it.record(word, before[word])
        self.it.record("needs", "nothing")
        self.rows(self.exbr, (1, f"dist/record must have the line: needs {re.escape(before['needs'])}\n(?s:.*)\n0 passed, 1 failed\n$", ""), self.install)

    def test_what_a_build_left_is_taken(self):
        self.it.change_byte("crates/exb_low/src/lib.rt", 0)
        os.makedirs(self.it.at("crates/exbr/out"))
        shutil.copy2(self.program, self.it.at("crates/exbr/out/exbr"))
        self.it.write("crates/exbr/out/record", record.make(self.program, record.sources_of(self.it.top), "kit two"))
        failed = r"^testing \S+/crates/exbr/out/exbr: 1 tests\n(?s:.*)dist/ was built of other sources(?s:.*)\n0 passed, 1 failed\n$"
        self.rows(self.exbr, (1, failed, ""), self.install)

    def test_an_older_c_library(self):
        self.it.write("bin/getconf", "#!/bin/sh\necho glibc 2.9\n")
        os.chmod(self.it.at("bin/getconf"), 0o755)
        needs, top = record.read(self.it.at("dist/record"))["needs"], self.it.top
        self.refused(f"does not start here: it needs {needs}, and this system has only glibc 2.9", IN_A_CONTAINER.format(top=top))
        self.assertEqual(self.it.run("exbr", "--version")[1].splitlines()[1], "kit kit one")

    def test_no_such_c_library(self):
        """The repository in a root of busybox alone, where nothing can start the program."""
        busybox, chroot, root = shutil.which("busybox"), shutil.which("chroot"), self.it.at("root")
        if os.geteuid() or not busybox or not chroot:
            self.skipTest("it takes root and a static busybox (Debian's package busybox-static)")
        os.makedirs(f"{root}/bin")
        shutil.copy2(busybox, f"{root}/bin/busybox")
        if subprocess.run([chroot, root, "/bin/busybox", "--install", "-s", "/bin"], capture_output=True).returncode:
            self.skipTest("this busybox isn't a static one (Debian's package busybox-static), or chroot isn't allowed")
        self.it.write("root/dev/null", "")
        for name in ("dist", "tools", "crates"):
            shutil.copytree(self.it.at(name), f"{root}/it/{name}", symlinks=True)
        for name in ("exbr", "crates.txt"):
            shutil.copy2(self.it.at(name), f"{root}/it/{name}")
        ran = subprocess.run([chroot, root, "/it/exbr", "make", "3"], capture_output=True, text=True, env={"PATH": "/bin"})
        needs = record.read(self.it.at("dist/record"))["needs"]
        why = f"does not start here: it needs {needs}, and this system has no glibc for x86-64 (/lib64/ld-linux-x86-64.so.2)"
        self.assertEqual((ran.returncode, ran.stdout, ran.stderr), (1, "", f"exbr: dist/exbr {why}\n{IN_A_CONTAINER.format(top='/it')}"))


class AByteIsAnother(Launched):
    def test_in_the_program(self):
        it = self.refreshed()
        it.change_byte("dist/exbr")
        self.says(["tools/dist", "check"], 1, "dist/exbr isn't what dist/record says: its sum is another one")
        printed, _ = self.says([".ci/run"], 1, "dist: FAILED: dist/exbr is not the program that these sources give: they differ first at byte ")
        self.assertEqual(printed.splitlines()[-1], "7 passed, 1 failed")
        os.remove(it.at("crates/exbr/out/exbr"))
        self.stays("is not the program of its record: its sha256 sum is another one")
        printed, _ = self.says(["exbr", "--build", "x"], 0, "note: dist/exbr is not the program")
        self.assertEqual(printed, "x\n")

    def stays(self, why):
        """`./exbr` says why dist/exbr isn't run, and proves nothing, whether or not there is a toolchain."""
        before = self.it.calls()
        for has_rt in (True, False):
            self.assertEqual(self.it.run("exbr", "x", has_rt=has_rt), (1, "", f"exbr: dist/exbr {why}\n{HELPS}"))
        self.assertEqual(self.it.calls(), before)

    def test_in_a_source(self):
        it = self.refreshed()
        it.change_byte("crates/exbr/src/main.rt", 0)
        self.says(["tools/dist", "check"], 1, "dist/ was built of other sources than these")
        self.stays("was built of other sources than these")
        before = it.calls()
        self.says(["exbr", "--build", "x"], 0, "proving and building the program, 2 crates")
        for has_rt in (True, False):
            self.assertEqual(it.run("exbr", "x", has_rt=has_rt), (0, "x\n", ""))
        self.assertEqual(it.calls(), before + 1)
        printed, _ = self.says([".ci/run"], 1, "dist: FAILED: dist/ was built of other sources than these", "testing", "crates/exbr/out/exbr")
        self.assertEqual(printed.splitlines()[-1], "7 passed, 1 failed")
        it.change_byte("crates/exbr/src/main.rt", 0)
        self.assertEqual(it.run("tools/program"), (0, f"{it.at('dist/exbr')}\n", ""))
        it.write("crates/exb_low/specs/New.antt", "new\n")
        self.stays("was built of other sources than these")

    def test_in_a_line_of_crates(self):
        it = self.refreshed()
        it.write("crates.txt", it.read("crates.txt").replace("exb_low:\n", "exb_low: arrayvec\n"))
        self.stays("was built of other sources than these")

    def test_in_each_line_of_the_record(self):
        it = self.refreshed()
        program, sources = [line.split()[1] for line in it.read("dist/record").splitlines()[:2]]
        it.record("program", f"0{program[1:-1]}{'1' if program[-1] == '0' else '0'}")
        self.says(["exbr", "x"], 0, "x\n")
        os.remove(it.at("crates/exbr/out/record"))
        self.stays("is not the program of its record: its sha256 sum is another one")
        self.says([".ci/run"], 1, "dist: FAILED: dist/record must have the line: program ")
        it.record("program", program)
        it.record("sources", sources[::-1])
        self.stays("was built of other sources than these")
        self.says([".ci/run"], 1, "dist: FAILED: dist/ was built of other sources")
        it.record("sources", sources)
        it.record("needs", "nothing")
        self.assertEqual(it.run("exbr", "x"), (0, "x\n", ""))
        self.says([".ci/run"], 1, "dist: FAILED: dist/record must have the line: needs x86-64 Linux")

    def test_no_dist(self):
        it = self.it
        self.stays("is missing")
        self.says([".ci/run"], 1, "dist: FAILED: dist/ has no program with its record")
        it.write("dist/exbr", "no program")
        self.stays("has no record (dist/record)")

    def test_may_not_be_run(self):
        it = self.refreshed()
        os.remove(it.at("crates/exbr/out/exbr"))
        os.chmod(it.at("dist/exbr"), 0o644)
        self.stays("is not executable")


class AnotherKit(Launched):
    def test_stops_nobody(self):
        it = self.refreshed()
        it.write("kit/kit", "kit two\n")
        os.remove(it.at("crates/exbr/out/record"))
        printed, _ = self.says([".ci/run"], 0, "built by another kit, kit one, and this is kit two", "testing", "crates/exbr/out/exbr")
        self.assertEqual(printed.splitlines()[-1], "7 passed, 0 failed")
        before = it.calls()
        for has_rt in (True, False):
            self.assertEqual(it.run("exbr", "x", has_rt=has_rt), (0, "x\n", ""))
        self.assertEqual(it.calls(), before)

    def test_what_it_built_is_run_where_a_source_has_changed(self):
        it = self.refreshed()
        it.write("kit/kit", "kit two\n")
        it.change_byte("crates/exb_low/src/lib.rt", 0)
        self.says(["exbr", "--build"], 0, "proving and building", "another kit")
        it.write("kit/kit", "kit three\n")
        self.assertEqual(it.run("exbr", "x"), (0, "x\n", ""))
        self.assertIn("\nkit kit two\n", it.run("exbr", "--version")[1])


class Version(Launched):
    def git(self, *words):
        env = {**os.environ, "GIT_CONFIG_GLOBAL": os.devnull, "GIT_CONFIG_SYSTEM": os.devnull}
        who = ["-c", "user.name=one", "-c", "user.email=one@example"]
        ran = subprocess.run(["git", "-C", self.it.top, *who, *words], capture_output=True, text=True, check=True, env=env)
        return ran.stdout.strip()

    def lines(self, *words):
        status, printed, said = self.it.run(*words or ["exbr", "--version"], has_rt=False)
        self.assertEqual((status, said), (0, ""))
        return printed.splitlines()

    def test_in_a_clone(self):
        it = self.refreshed()
        sources = f"sources {record.read(it.at('dist/record'))['sources']}"
        self.assertEqual(self.lines(), ["commit unknown: this is no clone, or git isn't here", "kit kit one", sources])
        if not shutil.which("git"):
            self.skipTest("git isn't here")
        self.git("init", "-q")
        self.git("add", "-A")
        self.git("commit", "-qm", "one")
        commit = f"commit {self.git('rev-parse', 'HEAD')}"
        self.assertEqual(self.lines(), [commit, "kit kit one", sources])
        it.write("README.md", "a page")
        it.write("crates/exb_tests/src/lib.rt", "other tests")
        self.assertEqual(self.lines(), [commit, "kit kit one", sources])
        it.write("crates/exb_low/proofs/New.antt", "new\n")
        changed = self.lines()
        self.assertEqual(changed[:2], [f"{commit} changed", "kit none: there is no program of these sources"])
        self.assertRegex(changed[2], "^sources [0-9a-f]{64}$")
        self.assertNotEqual(changed[2], sources)
        os.remove(it.at("crates/exb_low/proofs/New.antt"))
        it.write("crates/exb_low/src/lib.rt", "other\n")
        self.assertEqual(self.lines()[0], f"{commit} changed")

    def test_of_a_program(self):
        it = self.refreshed()
        self.assertEqual(self.lines("tools/version", it.at("dist/exbr"))[1], "kit kit one")
        self.assertEqual(self.lines("tools/version", "/bin/echo")[1:], [f"{it} unknown: no record names the program" for it in ("kit", "sources")])
        self.says(["tools/version", "/nowhere"], 1, "there is no /nowhere")
        self.says(["tools/version", "--bad"], 2, "--bad is no option of it")

    def test_it_is_a_word_alone(self):
        it = self.refreshed()
        self.assertEqual(it.run("exbr", "run", "--version"), (0, "run --version\n", ""))


class ItIsNotProved(Launched):
    def test_nothing_is_run(self):
        it = self.refreshed()
        it.write("crates/exb_low/src/lib.rt", "wrong\n")
        printed, _ = self.says(["exbr", "--build", "x"], 1, "the program could not be proved and built", "build.log says why")
        self.assertEqual(printed, "")
        self.assertIn("exb_low NOT PROVED", it.read("crates/exbr/out/build.log"))
        self.says(["tools/dist", "refresh"], 1, "could not be proved")
        os.remove(it.at("crates/exbr/out/exbr"))
        printed, _ = self.says([".ci/run"], 1, "rt: 0 passed, 1 failed", "rt ci left no program")
        self.assertEqual(printed.splitlines()[-1], "0 passed, 1 failed")

    def test_no_toolchain_at_the_gate(self):
        printed = self.it.run(".ci/run", has_rt=False)[1]
        self.assertEqual(printed.splitlines()[-1], "0 passed, 1 failed")

    def test_a_broken_toolchain_at_the_gate(self):
        it = self.refreshed()
        it.write("kit/rt", TOOLCHAINS["a broken rt"])
        printed, _ = self.says([".ci/run"], 1, "gate: rt ended with status 127", "and this is none")
        self.assertEqual(printed.splitlines()[-1], "5 passed, 1 failed")


class Words(Launched):
    def test_bad_words(self):
        self.says(["tools/sources", "--bad"], 2, "--bad is no option of it")
        self.says(["tools/sources", "/nowhere"], 2, "/nowhere")
        self.says(["tools/dist"], 2, "usage:")
        self.says(["tools/dist", "check", "--program", "/nowhere"], 2, "there is no /nowhere")
        self.says([".ci/run", "--bad"], 2, "tools/gate")
        for name in ("tools/sources", "tools/program", "tools/version", "tools/build", "tools/schedule.py", "tools/dist", "tools/gate"):
            self.says([name, "--help"], 0, name)

    def test_crates_below(self):
        self.assertEqual(self.it.run("tools/sources", "--crates"), (0, "exb_low\nexbr\n", ""))


if __name__ == "__main__":
    unittest.main()
