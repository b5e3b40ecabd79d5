"""Faults while a run is under way: it is stopped once it has written some, something is done to its files, and it goes on."""
import os
import shutil
import signal
import time

from fault import Faults, needs_root
from folders import BEFORE, NOBODY, Wrong, end, go_on, held, pause_when, read, size_of, start, write

FAULTS = Faults()
SOME = 300_000


def stopped(place, name, watched, **more):
    """A run that is stopped after it has written some of an output."""
    it = place.input(name)
    it.put(place.folder)
    if name == "apart":
        os.chmod(os.path.join(place.folder, "made"), 0o777)
    child = start(place.program, place.folder, it.words, **more)
    try:
        pause_when(child, lambda: size_of(os.path.join(place.folder, watched)) > SOME)
    except Wrong:
        child.kill()
        end(child)
        raise
    return it, child


def under_way(place, do, statuses, name="long", watched="out-b2.pcap", changed=(), more=(), **started):
    """What a run answers and leaves where this is done to its folder after it has written some."""
    it, child = stopped(place, name, watched, **started)
    do(place.folder)
    go_on(child)
    ran = end(child)
    it.judge(place.folder, ran, statuses, changed=changed, more=more)
    return it, ran


def again(place, it):
    place.clear()
    it.put(place.folder)
    it.is_whole_again(place.program, place.folder)


def to_capture(do, statuses, **started):
    """The same for the capture, which the fault changes."""
    def run(place):
        it, ran = under_way(place, lambda folder: do(os.path.join(folder, "a.pcap")), statuses, changed=["a.pcap"], more=["b.pcap"], **started)
        if ran.status == 10 and not ran.printed.startswith(b"exbr: capture b1: Changed at "):
            raise Wrong(f"status 10 prints {ran.printed!r}")
        again(place, it)
        return f"{ran.status}; each output a front"
    return run


def change(at):
    def do(path):
        with open(path, "r+b") as file:
            file.seek(at, os.SEEK_SET if at >= 0 else os.SEEK_END)
            file.write(b"\xff" * 64)
    return do


def replace(path):
    os.rename(path, os.path.join(os.path.dirname(path), "b.pcap"))
    write(path, b"Another file.\n")


def append(data):
    def do(path):
        with open(path, "ab") as file:
            file.write(data)
    return do


FAULTS.named("a capture grows by half a record while it is read")(to_capture(append(b"\1\2\3"), (10,)))
FAULTS.named("a capture shrinks while it is read")(to_capture(lambda path: os.truncate(path, size_of(path) - 100), (10,)))
FAULTS.named("a capture is emptied while it is read")(to_capture(lambda path: os.truncate(path, 0), (10,)))
FAULTS.named("a capture changes while it is read")(to_capture(change(-7_000_000), (10,)))
FAULTS.named("a capture is another file while it is read")(to_capture(replace, (10,)))
FAULTS.named("a capture is removed while it is read")(to_capture(os.remove, (6,)))
FAULTS.named("a capture becomes a folder while it is read")(to_capture(lambda path: (os.remove(path), os.mkdir(path)), (6,)))


@FAULTS.named("a capture may not be read any more while it is read")
def unreadable(place):
    needs_root()
    return to_capture(lambda path: os.chmod(path, 0), (6,), user=NOBODY)(place)


def to_output(do, statuses=(7,), changed=("out-b3.pcap",), more=()):
    """The same for an output, which the fault changes: it is not written on."""
    def run(place):
        left = {}

        def done(folder):
            do(os.path.join(folder, "out-b3.pcap"))
            left.update({name: data for name, data in held(folder).items() if name in changed or name in more})
        it, ran = under_way(place, done, statuses, changed=changed, more=more)
        after = held(place.folder)
        for name, data in left.items():
            if after.get(name) != data:
                raise Wrong(f"{name} was written on")
        again(place, it)
        return f"{ran.status}; it was not written on, and each other output is a front"
    return run


def replace_output(path):
    os.rename(path, os.path.join(os.path.dirname(path), "moved"))
    write(path, BEFORE)


FAULTS.named("an output is removed under way")(to_output(os.remove))
FAULTS.named("an output is moved under way")(to_output(lambda path: os.rename(path, os.path.join(os.path.dirname(path), "moved")), more=["moved"]))
FAULTS.named("an output is another file under way")(to_output(replace_output, more=["moved"]))
FAULTS.named("an output is emptied under way")(to_output(lambda path: os.truncate(path, 0)))
FAULTS.named("an output gets bytes from elsewhere under way")(to_output(append(b"x")))
FAULTS.named("an output becomes a folder under way")(to_output(lambda path: (os.remove(path), os.mkdir(path))))


@FAULTS.named("another run begins in the same folder")
def two_runs(place):
    it, child = stopped(place, "long", "out-b2.pcap")
    other = end(start(place.program, place.folder, it.words))
    go_on(child)
    ran = end(child)
    it.judge(place.folder, other, (0,))
    it.judge(place.folder, ran, (7,))
    return "7, and 0 for the other run, whose outputs are whole"


def to_folder(do, statuses=(7,)):
    def run(place):
        it, child = stopped(place, "apart", "made/out-b2.pcap")
        do(os.path.join(place.folder, "made"))
        go_on(child)
        ran = end(child)
        there = held(place.folder)
        moved = {name.replace("moved/", "made/"): data for name, data in there.items()}
        kept = {**{name: data for name, data in it.files.items() if name == "made/keep" and name not in moved}, **moved}
        if ran.status not in statuses or ran.printed != b"exbr: write fault\n" or ran.said:
            raise Wrong(f"status {ran.status}: {ran.printed!r} {ran.said!r}")
        it.judge_files(kept, ran.status, {}, (), ())
        again(place, it)
        return f"{ran.status}; {'each output a front' if len(moved) > 2 else 'no output is left'}"
    return run


FAULTS.named("the outputs' folder is removed under way")(to_folder(shutil.rmtree))
FAULTS.named("the outputs' folder is moved under way")(to_folder(lambda path: os.rename(path, os.path.join(os.path.dirname(path), "moved"))))


@FAULTS.named("the outputs' folder may not be entered any more")
def closed_folder(place):
    needs_root()
    it, ran = under_way(place, lambda folder: os.chmod(os.path.join(folder, "made"), 0), (7,), "apart", "made/out-b2.pcap", user=NOBODY)
    os.chmod(os.path.join(place.folder, "made"), 0o755)
    again(place, it)
    return "7; each output a front"


def moments(it, place, count):
    """Moments of a run, from its start to behind its end, in equal parts."""
    begun = time.monotonic()
    end(start(place.program, place.folder, it.words))
    return [(time.monotonic() - begun) * at / count for at in range(count)]


def killed(number, name):
    def run(place):
        it, ended = place.input("long"), 0
        it.put(place.folder)
        for moment in moments(it, place, 12):
            place.clear()
            before = {output: BEFORE for output in it.whole}
            it.put(place.folder, before)
            child = start(place.program, place.folder, it.words)
            time.sleep(moment)
            child.send_signal(number)
            ran = end(child)
            it.judge(place.folder, ran, (0, -number), before)
            ended += ran.status != 0
            it.is_whole_again(place.program, place.folder)
        return f"{name} {ended} times, 0 {12 - ended} times; each output as it was or a front, and the next run whole"
    return run


for signal_name in ("SIGTERM", "SIGINT", "SIGKILL", "SIGHUP"):
    FAULTS.named(f"{signal_name} at twelve moments")(killed(getattr(signal, signal_name), signal_name))


@FAULTS.named("a run is stopped and goes on, again and again")
def stopped_often(place):
    it = place.input("long")
    it.put(place.folder)
    child, times = start(place.program, place.folder, it.words), 0
    while child.poll() is None and times < 500:
        child.send_signal(signal.SIGSTOP)
        child.send_signal(signal.SIGCONT)
        times += 1
        time.sleep(0.002)
    ran = end(child)
    it.judge(place.folder, ran, (0,))
    return "0; each output is whole"
