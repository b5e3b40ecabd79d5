"""The tools' own tests: each file tools/**/test_*.py, by unittest, those that take long in parts."""
import os
import re
import subprocess
import sys

from .program import TOP
from .tests import Test

# A file is to take some ten seconds, and is stopped after so many.
SECONDS = 600
COUNTS = re.compile(r"(failures|errors|skipped|unexpected successes)=(\d+)")
# Files that take long, by how many processor seconds: they begin first, and run side by side in parts of some five seconds each.
LONG = {
    "tools/hostile/test_soak.py": 20,
    "tools/hostile/test_changes.py": 15,
    "tools/tests/test_launcher.py": 20,
    "tools/hostile/test_random_nets.py": 10,
    "tools/hostile/test_strangers.py": 12,
    "tools/captures/test_captures.py": 6,
    "tools/tests/test_help.py": 5,
    "tools/tests/test_checks.py": 5,
    "tools/desk/tests/test_why.py": 5,
    "tools/hostile/test_faults.py": 4,
    "tools/tests/test_install.py": 4,
}
PART = 5


def suite(program, path, names):
    """Runs tests of a file, all or those that are named. EXBR_PROGRAM names the program for them, and so does EXBR, as the tools take it."""
    env = {**os.environ, "PYTHONDONTWRITEBYTECODE": "1"}
    for name in ("EXBR_PROGRAM", "EXBR"):
        env.pop(name, None)
        if program:
            env[name] = program
    words = [sys.executable, "-m", "unittest", "discover", "-v", "-s", os.path.dirname(path), "-p", os.path.basename(path)]
    words += [it for name in names for it in ("-k", f"*.{name}")]
    how = {"stdin": subprocess.DEVNULL, "stdout": subprocess.PIPE, "stderr": subprocess.STDOUT, "text": True, "errors": "replace"}
    try:
        ran = subprocess.run(words, cwd=TOP, env=env, timeout=SECONDS, **how)
    except subprocess.TimeoutExpired:
        raise AssertionError(f"it had not ended after {SECONDS} seconds") from None
    number = re.search(r"^Ran (\d+) test", ran.stdout, re.M)
    assert number and int(number[1]), f"it ran no test:\n{ran.stdout[-1500:]}"
    last = ran.stdout.rstrip().splitlines()[-1]
    counts = {word: int(many) for word, many in COUNTS.findall(last)}
    failed = sum(many for word, many in counts.items() if word != "skipped") or int(ran.returncode != 0)
    skips = re.findall(r"\.\.\. skipped ['\"](.*)['\"]$", ran.stdout, re.M)
    skips += ["for a reason that it doesn't say"] * max(0, counts.get("skipped", 0) - len(skips))
    return max(0, int(number[1]) - failed - len(skips)), failed, skips, ran.stdout[-3000:] if failed else ""


def parts_of(program, path):
    """A file's tests: all in one, or cut into parts, where its tests are dealt out as they stand."""
    seconds = LONG.get(path, 0)
    with open(os.path.join(TOP, path), encoding="utf-8") as it:
        names = list(dict.fromkeys(re.findall(r"^    def (test_\w+)", it.read(), re.M)))
    count = min(len(names), -(-seconds // PART))
    if count < 2:
        return [Test("tools", path, lambda: suite(program, path, []), seconds)]
    return [Test("tools", f"{path}, {at + 1} of {count}", lambda its=names[at::count]: suite(program, path, its), seconds / count) for at in range(count)]


def suites(program):
    found = []
    for at, folders, names in os.walk(f"{TOP}/tools"):
        folders[:] = sorted(it for it in folders if it not in ("out", "__pycache__"))
        found += [os.path.relpath(os.path.join(at, it), TOP) for it in names if re.fullmatch(r"test_\w+\.py", it)]
    return [it for path in sorted(found) for it in parts_of(program, path)]
