"""The words of exbr-watch, and the line that it shows."""
import argparse
import shutil
import signal
import subprocess
import sys
import time

from exbr_desk import play
from exbr_desk.errors import DeskError

from . import causes, process
from .course import Course, Input, Watch, input_of

ABOUT = """Runs exbr and shows on standard error how far it is. What the program prints, and its status, pass through as they are. Where a file
couldn't be read or written it says on standard error which one, and why."""
END = """status: that of the program; 128 and the signal's number where a signal ended it; 2 with a line on standard error where it can't be
started. Example: exbr-watch -- run topology.toml --trace"""
TURN = 0.25
BAR = 20


def parser() -> argparse.ArgumentParser:
    """The words of the tool."""
    it = argparse.ArgumentParser("exbr-watch", description=ABOUT, epilog=END, usage="exbr-watch [options] -- WORDS OF EXBR ..")
    it.add_argument("--program", metavar="FILE", help="the program (default: the file that EXBR names, or the one that ./exbr runs)")
    it.add_argument("--every", metavar="SECONDS", type=float, default=10.0,
                    help="where standard error is no terminal: a line after so many seconds each (10)")
    it.add_argument("words", nargs="+", metavar="WORDS", help="what exbr is given, behind --")
    return it


def size(octets: int | float) -> str:
    """Bytes as a reader says them."""
    if octets < 1_000_000:
        return f"{octets / 1000:.0f} kB"
    return f"{octets / 1e6:.1f} MB" if octets < 1e9 else f"{octets / 1e9:.2f} GB"


def clock(seconds: float) -> str:
    """Seconds as minutes and seconds."""
    whole = int(seconds)
    hours, rest = divmod(whole, 3600)
    return (f"{hours}:{rest // 60:02}" if hours else f"{rest // 60}") + f":{rest % 60:02}"


def line(course: Course | None, given: Input | None, spent: float, held: int | None) -> str:
    """How far a run is, in a line."""
    after = f"after {clock(spent)}" + (f", {size(held)} of memory" if held else "")
    if course is None or given is None:
        return f"exbr: at work {after}"
    filled = int(BAR * course.part)
    left = f", {clock(course.left)} left" if course.left is not None else ""
    return (f"exbr: {course.doing} {given.captures} captures [{'#' * filled}{'.' * (BAR - filled)}] {100 * course.part:3.0f} % "
            f"({size(course.octets)} of {size(given.octets)}) {after}{left}")


class Shown:
    """The line, on a terminal always the same one, else a new one from time to time."""

    def __init__(self, every: float) -> None:
        self.live, self.every, self.next = sys.stderr.isatty(), every, every
        self.is_there = False

    def show(self, text: str, spent: float) -> None:
        """Shows a line, if it is time for one."""
        if self.live:
            wide = shutil.get_terminal_size().columns - 1
            print(f"\r{text[:wide]}\033[K", end="", file=sys.stderr, flush=True)
            self.is_there = True
        elif spent >= self.next:
            print(text, file=sys.stderr, flush=True)
            self.next = spent + self.every

    def end(self) -> None:
        """Takes the line away, so that what the program printed stands alone."""
        if self.is_there:
            print("\r\033[K", end="", file=sys.stderr, flush=True)


def follow(running: subprocess.Popen, given: Input | None, shown: Shown) -> None:
    """Shows how far the program is until it ends."""
    begun, watch = time.monotonic(), Watch(given) if given else None
    while running.poll() is None:
        try:
            running.wait(TURN)
        except subprocess.TimeoutExpired:
            spent, read = time.monotonic() - begun, process.bytes_read(running.pid)
            course = watch.course(read, spent) if watch and read is not None else None
            if running.poll() is None:
                shown.show(line(course, given, spent, process.memory(running.pid)), spent)


def topology_of(words: list[str]) -> str | None:
    """The topology of a run, or the file of a net, among its words."""
    if words[0] not in ("run", "net"):
        return None
    rest, named = iter(words[1:]), []
    for it in rest:
        if it == "--seed":
            next(rest, None)
        elif not it.startswith("--"):
            named.append(it)
    return named[0] if len(named) == 1 else None


def main(words: list[str] | None = None) -> int:
    """The status of the program."""
    asked = parser().parse_args(words)
    if asked.every <= 0:
        raise DeskError("--every takes a number of seconds above 0")
    path = topology_of(asked.words)
    given = input_of(path) if path else None
    path_of_program = play.program(asked.program)
    try:
        running = subprocess.Popen([path_of_program, *asked.words])
    except OSError as fault:
        raise DeskError(f"{path_of_program}: {fault.strerror}") from None
    # Whoever presses Ctrl-C ends the program, which shares the terminal, and this tool then ends with its status.
    signal.signal(signal.SIGINT, signal.SIG_IGN)
    signal.signal(signal.SIGTERM, lambda *_: running.terminate())
    shown = Shown(asked.every)
    try:
        follow(running, given, shown)
    finally:
        shown.end()
    status = running.returncode
    said = causes.cause(status, asked.words, path, path_of_program)
    if said:
        print(f"exbr-watch: {said}", file=sys.stderr)
    return status if status >= 0 else 128 - status
