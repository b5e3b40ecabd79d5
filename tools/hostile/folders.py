"""Runs of the program in folders of their own, and what must be there after them."""
import os
import shutil
import signal
import stat
import struct
import subprocess
import sys
import time

HERE = os.path.dirname(os.path.abspath(__file__))
TOP = os.path.dirname(os.path.dirname(HERE))
BEFORE = b"This was here before, and is longer than a header.\n"
LINES = {1: b"exbr: out of memory\n", 6: b"exbr: read fault\n", 7: b"exbr: write fault\n"}
NOBODY = 65534
SECONDS = 120


class Wrong(Exception):
    """A run that ended as it must not."""


class Skipped(Exception):
    """Why this system can't show a fault."""


def program_of(given):
    """The program to try: the one that is given, or that of ./exbr. If there is none, a line or two say why, and the status is 1."""
    if given:
        if os.path.isfile(given) and os.access(given, os.X_OK):
            return os.path.abspath(given)
        sys.exit(f"{os.path.basename(sys.argv[0])}: there is no program {given}")
    found = subprocess.run([os.path.join(TOP, "tools/program")], stdout=subprocess.PIPE, text=True, check=False)
    if found.returncode:
        sys.exit(found.returncode)
    return found.stdout.strip()


def read(path):
    with open(path, "rb") as file:
        return file.read()


def write(path, data):
    os.makedirs(os.path.dirname(path) or ".", exist_ok=True)
    with open(path, "wb") as file:
        file.write(data)


def held(folder):
    """What stands in a folder and below: the bytes of each file, and in the place of anything else what it is."""
    found = {}
    for at, folders, names in os.walk(folder):
        for name in [*names, *[it for it in folders if os.path.islink(os.path.join(at, it))]]:
            path = os.path.join(at, name)
            mode, within = os.lstat(path).st_mode, os.path.relpath(path, folder)
            found[within] = read(path) if stat.S_ISREG(mode) else f"-> {os.readlink(path)}" if stat.S_ISLNK(mode) else stat.filemode(mode)[0]
    return found


class Ran:
    """How a run ended: a status below 0 is the number of the signal that ended it."""

    def __init__(self, status, printed, said):
        self.status, self.printed, self.said = status, printed, said


def start(program, folder, words, limit=None, user=None, **more):
    """Starts the program in a folder. `limit` is done in the child, before the program begins."""
    if user is not None:
        more |= {"user": user, "group": user, "extra_groups": []}
    more = {"stdin": subprocess.DEVNULL, "stdout": subprocess.PIPE, "stderr": subprocess.PIPE} | more
    return subprocess.Popen([program, *words], cwd=folder, preexec_fn=limit, restore_signals=True, **more)


def end(child, seconds=SECONDS):
    """Waits for it. One that doesn't end is a wrong one."""
    try:
        printed, said = child.communicate(timeout=seconds)
    except subprocess.TimeoutExpired:
        child.kill()
        child.communicate()
        raise Wrong(f"it had not ended after {seconds} seconds") from None
    return Ran(child.returncode, printed or b"", said or b"")


def play(program, folder, words, **more):
    return end(start(program, folder, words, **more))


class Input:
    """A topology and captures, the words of its run, and what a run of it writes and prints where nothing fails."""

    def __init__(self, files, words, whole=None, printed=None):
        self.files, self.words, self.whole, self.printed = files, words, whole, printed

    def put(self, folder, before=None):
        for name, data in {**self.files, **(before or {})}.items():
            write(os.path.join(folder, name), data)

    def learn(self, program, folder):
        """Plays it without a fault, and keeps what came of it."""
        shutil.rmtree(folder, ignore_errors=True)
        self.put(folder)
        ran = play(program, folder, self.words)
        if ran.status or ran.said:
            raise Wrong(f"without a fault: status {ran.status}, {ran.printed!r} {ran.said!r}")
        there = held(folder)
        self.printed = ran.printed
        self.whole = {name: data for name, data in there.items() if name not in self.files}
        for name, data in self.files.items():
            if there.get(name) != data:
                raise Wrong(f"without a fault: {name} has changed")
        return self

    def judge(self, folder, ran, statuses, before=None, changed=(), more=()):
        """What a run may print and leave. `changed` names what the fault itself changes, and `more` what else may be there."""
        if ran.status not in statuses:
            raise Wrong(f"status {ran.status} in place of {' or '.join(map(str, statuses))}: {ran.printed!r} {ran.said[:200]!r}")
        if ran.said:
            raise Wrong(f"on standard error: {ran.said[:200]!r}")
        if not self.may_print(ran):
            raise Wrong(f"status {ran.status} prints {ran.printed!r}")
        self.judge_files(held(folder), ran.status, before or {}, changed, more)

    def may_print(self, ran):
        """The line of the status or a front of it."""
        if ran.status == 0:
            return ran.printed == self.printed
        if ran.status < 0 or ran.status not in LINES:
            return ran.status > 0 or self.printed.startswith(ran.printed)
        return LINES[ran.status].startswith(ran.printed)

    def judge_files(self, there, status, before, changed, more):
        for name, data in self.files.items():
            if name not in changed and there.get(name) != data:
                raise Wrong(f"{name}, which was read, has changed")
        for name, text in self.whole.items():
            data = there.get(name)
            is_front = data == before.get(name) or isinstance(data, bytes) and text.startswith(data)
            if name not in changed and (not is_front or status == 0 and data != text):
                raise Wrong(f"{name} is neither as it was nor a front of what it holds otherwise")
        others = there.keys() - self.files.keys() - self.whole.keys() - set(changed) - set(more)
        if others:
            raise Wrong(f"{sorted(others)[0]} was made")

    def is_whole_again(self, program, folder, before=()):
        """The next run, without a fault, is whole."""
        ran = play(program, folder, self.words)
        self.judge(folder, ran, (0,), changed=before)


def is_paused(pid):
    with open(f"/proc/{pid}/stat", encoding="utf-8") as file:
        return file.read().rpartition(")")[2].split()[0] == "T"


def pause_when(child, holds, seconds=60):
    """Stops a run once something holds. It is wrong where the run ends before."""
    until = time.monotonic() + seconds
    while time.monotonic() < until:
        if child.poll() is not None:
            raise Wrong(f"it ended before it could be stopped: {child.returncode}")
        if holds():
            os.kill(child.pid, signal.SIGSTOP)
            while not is_paused(child.pid):
                time.sleep(0.001)
            return
        time.sleep(0.001)
    raise Wrong("it came to nothing at which it could be stopped")


def go_on(child):
    os.kill(child.pid, signal.SIGCONT)


def size_of(path):
    try:
        return os.path.getsize(path)
    except OSError:
        return 0


def capture(records):
    """A capture of moments in microseconds and frames."""
    parts = [struct.pack("<IHHIIII", 0xA1B2C3D4, 2, 4, 0, 0, 65535, 1)]
    for moment, frame in records:
        parts += [struct.pack("<IIII", moment // 1_000_000, moment % 1_000_000, len(frame), len(frame)), frame]
    return b"".join(parts)


def frames(count, size=60, source=1):
    """Frames to all, each with its number, a thousandth of a second apart."""
    head = b"\xff" * 6 + b"\2\0\0\0\0" + bytes([source]) + b"\x08\0"
    return capture([(100_000_000 + at * 1000, (head + at.to_bytes(4, "big")).ljust(size, b"\0")) for at in range(count)])
