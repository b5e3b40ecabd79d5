#!/usr/bin/env python3
"""Tells how many seconds each function of a crate took: in the last `rt check` or `rt test` there, or in checks while they run.

    rm -rf crates/exb_NAME/out/incremental; (cd crates/exb_NAME && rt test --jobs 1); tools/costs.py crates/exb_NAME
    tools/costs.py --watch FILE     beside `rt ci` or tools/build, until it is ended
    tools/costs.py FILE [CRATE]     what was watched: the seconds of each crate, or of the functions of one

What a check keeps is written when it is checked, so the time between two files is that of the second. It holds only for a
check from nothing at one job; beside other work the seconds are longer. Of what took long the dearest part is named too: Lts is the code with
all that it lets go of, Proof what is to be shown of it, with the search for what no answer says. --watch looks every two seconds at the files of checks that
run, those of `rt ci`, which keeps nothing in a crate, and those of `rt check` and `rt lib`, and tells processor seconds.
"""
import collections
import glob
import os
import re
import sys
import tempfile
import time

PARTS = r"(\.(Lts|Tie|Proof|Code|Goals|Given|Key|Kinds|Layout|Named|Reads|Symbol|TheLaws|Met|Statement|Mir)\b.*)?(\.decls)?\.oantt$"
RUNNING = os.path.join(tempfile.gettempdir(), "rattle-logic-built-locked-*")
PAUSE = 2
# The seconds from which the dearest part is named.
LONG = 3


def written(folder):
    """The files that a check kept, in the order in which they were written."""
    found = []
    for at, _folders, names in os.walk(os.path.join(folder, "out", "incremental")):
        for name in names:
            if name.endswith(".oantt"):
                found.append((os.stat(os.path.join(at, name)).st_mtime, name))
    return sorted(found)


def item_of(name):
    """The function or file of lemmas to which a kept file belongs."""
    part = re.match(r"Rattle-\w+?-(proofs|specs)\.(contracts\.)?(.*?)" + PARTS, name)
    return part.group(3) if part else name


def part_of(name):
    """Which part of its item a kept file is: Lts, Proof and so on."""
    part = re.match(r"Rattle-\w+?-(proofs|specs)\.(contracts\.)?(.*?)" + PARTS, name)
    return part.group(5) if part and part.group(5) else ""


def took(files):
    """The seconds of each item, and of each of its parts, by the files with their times in order."""
    seconds, parts = collections.Counter(), collections.defaultdict(collections.Counter)
    for (before, _name), (after, name) in zip(files, files[1:]):
        seconds[item_of(name)] += after - before
        parts[item_of(name)][part_of(name)] += after - before
    return seconds, parts


def show(files):
    print(f"{files[-1][0] - files[0][0]:.0f} seconds in all")
    seconds, parts = took(files)
    for item, much in seconds.most_common(30):
        [(part, most)] = parts[item].most_common(1)
        print(f"{much:7.1f} {item}" + (f" ({part} {most:.1f})" if part and much > LONG else ""))


def processor(number):
    """The processor seconds of a process until now."""
    with open(f"/proc/{number}/stat", encoding="utf-8") as it:
        parts = it.read().rpartition(")")[2].split()
    return (int(parts[11]) + int(parts[12])) / os.sysconf("SC_CLK_TCK")


def with_ended(number):
    """The processor seconds of a process and of the copies of it that have ended."""
    with open(f"/proc/{number}/stat", encoding="utf-8") as it:
        parts = it.read().rpartition(")")[2].split()
    return sum(map(int, parts[11:15])) / os.sysconf("SC_CLK_TCK")


def keeping():
    """The folders in which checks that run keep their work, each with the numbers of its processes."""
    found = collections.defaultdict(list)
    for file in glob.glob("/proc/[0-9]*/cmdline"):
        try:
            with open(file, encoding="utf-8", errors="replace") as it:
                words = it.read().split("\0")
            if os.path.basename(words[0]) == "rattle" and "--incremental" in words:
                kept = os.path.join(os.readlink(f"{os.path.dirname(file)}/cwd"), words[words.index("--incremental") + 1])
                found[kept].append(int(file.split("/")[2]))
        except OSError:
            # the process has ended
            pass
    return [(folder, numbers) for kept, numbers in found.items() for folder in glob.glob(f"{kept}/antt-checked-*")]


def look(folder, number, spent, seen, out):
    """Writes what a check has written since the last look: its number, the processor seconds until then, and the file. Files of one look
    share its seconds by the times at which they were written."""
    now = time.time()
    if folder not in seen:
        # what an earlier check has kept
        seen[folder] = {it.name: 0 for it in os.scandir(folder) if it.stat().st_mtime < now - 2 * PAUSE}
    new = sorted((it.stat().st_mtime, it.name) for it in os.scandir(folder) if it.name not in seen[folder])
    then, before = seen.get(number, (now - PAUSE, spent))
    for at, name in new:
        seen[folder][name] = at
        share = min(1, max(0, (at - then) / max(now - then, 1e-3)))
        print(number, f"{before + (spent - before) * share:.2f}", name, sep="\t", file=out, flush=True)
    seen[number] = now, spent


def watch(file):
    seen = {}
    with open(file, "a", encoding="utf-8") as out:
        try:
            while True:
                found = [(folder, [folder.split("-")[-2]], processor) for folder in glob.glob(RUNNING)]
                found += [(folder, numbers, with_ended) for folder, numbers in keeping()]
                for folder, numbers, spent_by in found:
                    try:
                        look(folder, str(min(map(int, numbers))), sum(map(spent_by, numbers)), seen, out)
                    except OSError:
                        # the check has ended
                        pass
                time.sleep(PAUSE)
        except KeyboardInterrupt:
            pass


def watched(file):
    """The files of each check, with the processor seconds until they were written, by crate."""
    checks, crates = collections.defaultdict(list), collections.defaultdict(list)
    with open(file, encoding="utf-8") as it:
        for line in it:
            number, spent, name = line.rstrip("\n").split("\t")
            checks[number].append((float(spent), name))
    for files in checks.values():
        names = collections.Counter(found.group(1) for _, name in files if (found := re.match(r"Rattle-(\w+?)-", name)))
        if names:
            crates[names.most_common(1)[0][0]].append(sorted(files))
    return crates


def main():
    words = sys.argv[1:]
    if words in (["--help"], ["-h"]):
        print(__doc__.strip())
    elif len(words) == 2 and words[0] == "--watch":
        try:
            watch(words[1])
        except OSError as error:
            sys.exit(f"tools/costs.py: {words[1]}: {error.strerror}")
    elif len(words) in (1, 2) and os.path.isfile(words[0]):
        for crate, checks in sorted(watched(words[0]).items(), key=lambda it: -max(files[-1][0] for files in it[1])):
            for files in checks:
                if len(words) == 1:
                    print(f"{files[-1][0]:7.1f} {crate}")
                elif crate == words[1]:
                    show(files)
    elif len(words) == 1:
        files = written(words[0])
        if not files:
            sys.exit(f"{words[0]}/out/incremental has nothing: run rt check there first")
        show(files)
    else:
        sys.exit(__doc__)


if __name__ == "__main__":
    main()
