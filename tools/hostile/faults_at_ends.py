"""Faults where something comes to its end: disks, limits of a process, and standard output."""
import os
import resource
import shutil
import signal
import subprocess

from fault import Faults
from folders import BEFORE, Skipped, Wrong, play, read, start, end

FAULTS = Faults()
PAGE = 4096


class Disk:
    """A small file system in memory at a folder."""

    def __init__(self, folder, size):
        os.makedirs(folder, exist_ok=True)
        self.folder = folder
        done = subprocess.run(["mount", "-t", "tmpfs", "-o", f"size={size},mode=777", "exbr-faults", folder], capture_output=True, check=False)
        if done.returncode:
            raise Skipped("it needs a user who may mount a file system in memory")

    def __enter__(self):
        return self

    def __exit__(self, *_):
        subprocess.run(["umount", self.folder], check=False)


def full_disk(name, before):
    """The disk is full at another page of what is written in each run, from the first to the last."""
    def run(place):
        it = place.input(name)
        outputs = sum(-(-len(data) // PAGE) for data in it.whole.values())
        given = sum(-(-len(data) // PAGE) for data in it.files.values())
        earlier = {output: BEFORE for output in it.whole} if before else {}
        counts = {0: 0, 7: 0}
        for pages in range(outputs + 1):
            shutil.rmtree(place.folder, ignore_errors=True)
            with Disk(place.folder, (given + len(earlier) + pages) * PAGE):
                it.put(place.folder, earlier)
                ran = play(place.program, place.folder, it.words)
                it.judge(place.folder, ran, (0, 7), earlier)
                counts[ran.status] += 1
            os.rmdir(place.folder)
        place.clear()
        it.put(place.folder)
        it.is_whole_again(place.program, place.folder)
        return f"7 in {counts[7]} runs, 0 in {counts[0]}; each output as it was or a front"
    return run


for run_name, what in (("bare", "a bridge alone"), ("tree", "a tree"), ("lossy", "a lossy tree with a trace"), ("middling", "a bridge alone, 400 KiB")):
    FAULTS.named(f"the disk is full at each page, {what}")(full_disk(run_name, False))
    FAULTS.named(f"the disk is full at each page, {what}, with files of an earlier run")(full_disk(run_name, True))


@FAULTS.named("the disk has no place for one more file")
def no_inode(place):
    it = place.input("bare")
    shutil.rmtree(place.folder, ignore_errors=True)
    counts = {0: 0, 7: 0}
    for room in range(len(it.whole) + 1):
        with Disk(place.folder, "1m"):
            it.put(place.folder)
            inodes = os.statvfs(place.folder)
            used = inodes.f_files - inodes.f_ffree
            subprocess.run(["mount", "-o", f"remount,nr_inodes={used + room}", place.folder], check=True)
            ran = play(place.program, place.folder, it.words)
            it.judge(place.folder, ran, (0, 7))
            counts[ran.status] += 1
        os.rmdir(place.folder)
    return f"7 in {counts[7]} runs, 0 in {counts[0]}; each output a front"


@FAULTS.named("the disk may be read alone")
def read_only_disk(place):
    it = place.input("bare")
    shutil.rmtree(place.folder, ignore_errors=True)
    with Disk(place.folder, "1m"):
        before = {output: BEFORE for output in it.whole}
        it.put(place.folder, before)
        subprocess.run(["mount", "-o", "remount,ro", place.folder], check=True)
        ran = play(place.program, place.folder, it.words)
        it.judge(place.folder, ran, (7,), before)
        if any(read(os.path.join(place.folder, output)) != BEFORE for output in it.whole):
            raise Wrong("an output of an earlier run has changed")
    os.rmdir(place.folder)
    return "7; each output as it was"


def limited(kind, size, *, ignored=None):
    """What the child does before the program begins: it takes a limit, and perhaps doesn't heed a signal."""
    def limit():
        # The system ends a run at the second number of processor seconds by SIGKILL.
        resource.setrlimit(kind, (size, size + 2 if kind == resource.RLIMIT_CPU else size))
        if ignored:
            signal.signal(ignored, signal.SIG_IGN)
    return limit


def file_size(heeded):
    """The most bytes of a file, at each sixteenth of the largest output and around its pieces. Where the signal isn't heeded, writes
    are taken in part, and then fail."""
    def run(place):
        it = place.input("middling")
        largest = max(map(len, it.whole.values()))
        sizes = sorted({largest * part // 16 for part in range(17)} | {0, 1, 23, 24, 25, 65_535, 65_536, 65_537, 131_072, largest - 1})
        counts = {0: 0, 7: 0, -signal.SIGXFSZ: 0}
        for size in sizes:
            place.clear()
            it.put(place.folder)
            ran = play(place.program, place.folder, it.words, limit=limited(resource.RLIMIT_FSIZE, size, ignored=None if heeded else signal.SIGXFSZ))
            it.judge(place.folder, ran, (0, -signal.SIGXFSZ if heeded else 7))
            if (ran.status == 0) != (size >= largest):
                raise Wrong(f"status {ran.status} where files may have {size} bytes")
            counts[ran.status] += 1
            it.is_whole_again(place.program, place.folder)
        return (f"SIGXFSZ in {counts[-signal.SIGXFSZ]} runs, " if heeded else f"7 in {counts[7]} runs, ") + f"0 in {counts[0]}; each output a front"
    return run


FAULTS.named("files may not grow past a size, and the signal ends the run")(file_size(True))
FAULTS.named("files may not grow past a size, and the signal isn't heeded")(file_size(False))


@FAULTS.named("one file more than the standard streams may be open")
def open_files(place):
    it = place.input("lossy")
    it.put(place.folder)
    # With fewer the system can't load the program.
    ran = play(place.program, place.folder, it.words, limit=limited(resource.RLIMIT_NOFILE, 4))
    it.judge(place.folder, ran, (0,))
    return "0; each output is whole"


@FAULTS.named("memory comes to its end")
def memory(place):
    it, counts = place.input("lossy"), {}
    for kib in [*range(200, 6000, 100), 8_000, 16_000, 64_000]:
        place.clear()
        before = {output: BEFORE for output in it.whole}
        it.put(place.folder, before)
        ran = play(place.program, place.folder, it.words, limit=limited(resource.RLIMIT_AS, kib * 1024))
        # With too little the system doesn't start it at all: a signal, or 127 of the C library's loader.
        loader = ran.status in (127, -signal.SIGSEGV, -signal.SIGKILL)
        if loader:
            ran.said = b""
        it.judge(place.folder, ran, (0, 1, 127, -signal.SIGSEGV, -signal.SIGKILL), before)
        counts[ran.status] = counts.get(ran.status, 0) + 1
    it.is_whole_again(place.program, place.folder)
    return "; ".join(f"{status} in {count} runs" for status, count in sorted(counts.items())) + "; each output as it was or a front"


@FAULTS.named("processor time comes to its end")
def processor_time(place):
    it = place.input("longest")
    it.put(place.folder)
    ran = play(place.program, place.folder, it.words, limit=limited(resource.RLIMIT_CPU, 1))
    it.judge(place.folder, ran, (0, -signal.SIGXCPU, -signal.SIGKILL))
    return f"{'SIGXCPU' if ran.status == -signal.SIGXCPU else ran.status}; each output a front"


def printed(place, status, whole, again=True, **where):
    it = place.input("tree")
    it.put(place.folder)
    ran = play(place.program, place.folder, it.words, **where)
    it.judge(place.folder, ran, (status,))
    if whole and any(read(os.path.join(place.folder, name)) != data for name, data in it.whole.items()):
        raise Wrong("an output is not whole")
    it.is_whole_again(place.program, place.folder)
    return f"{status}; each output {'is whole' if whole else 'a front'}"


@FAULTS.named("standard output is full")
def full_out(place):
    with open("/dev/full", "wb") as out:
        return printed(place, 7, True, stdout=out)


@FAULTS.named("standard output is closed")
def closed_out(place):
    return printed(place, 7, False, limit=lambda: os.close(1))


@FAULTS.named("standard output may be read alone")
def read_only_out(place):
    with open("/dev/null", "rb") as out:
        return printed(place, 7, True, stdout=out)


@FAULTS.named("standard output is a pipe that has ended")
def ended_pipe(place):
    reads, writes = os.pipe()
    os.close(reads)
    try:
        it = place.input("tree")
        it.put(place.folder)
        ran = end(start(place.program, place.folder, it.words, stdout=writes))
    finally:
        os.close(writes)
    it.judge(place.folder, ran, (7, -signal.SIGPIPE))
    if any(read(os.path.join(place.folder, name)) != data for name, data in it.whole.items()):
        raise Wrong("an output is not whole")
    return f"{'SIGPIPE' if ran.status < 0 else ran.status}; each output is whole"


@FAULTS.named("all three standard streams are closed")
def no_streams(place):
    def close():
        for number in range(3):
            os.close(number)
    return printed(place, 7, False, limit=close)
