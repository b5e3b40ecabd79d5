"""A folder in which the program plays, and what it says there.

The program brings each output to the disk, which takes seconds where there are thousands of ports. So the folder is one in memory where
the system has such a place and room in it.
"""
from __future__ import annotations

import contextlib
import os
import shutil
import signal
import subprocess
import sys
import tempfile
import time
from typing import Iterator, NamedTuple

from .errors import DeskError
from .progress import Progress

IN_MEMORY, ROOM = "/dev/shm", 1 << 30
BROKEN = "exbr: "


def tidy_at_end() -> None:
    """Has a tool that is asked to end by a signal take its folders away first."""
    signal.signal(signal.SIGTERM, lambda *_: sys.exit(128 + signal.SIGTERM))


class Said(NamedTuple):
    """How the program ended, and what it printed."""

    status: int
    text: str

    @property
    def line(self) -> str:
        return self.text.removesuffix("\n").removeprefix(BROKEN)


def place(needed: int = 0) -> str | None:
    """The folder in which folders are made: that of TMPDIR, or one in memory, or None for the system's."""
    if os.environ.get("TMPDIR"):
        return None
    with contextlib.suppress(OSError):
        if os.access(IN_MEMORY, os.W_OK) and shutil.disk_usage(IN_MEMORY).free >= max(ROOM, 2 * needed):
            return IN_MEMORY
    return None


@contextlib.contextmanager
def room(kept: str | None = None, needed: int = 0) -> Iterator[str]:
    """A folder that goes away again, or the one that is to be kept, which has to be empty or not there."""
    if kept is None:
        with tempfile.TemporaryDirectory(prefix="exbr-", dir=place(needed)) as folder:
            yield folder
        return
    if os.path.isdir(kept) and os.listdir(kept):
        raise DeskError(f"{kept} has files in it; name a folder that is empty or not there")
    os.makedirs(kept, exist_ok=True)
    yield os.path.abspath(kept)


def ask(exbr: str, words: list[str], folder: str | None = None) -> Said:
    """Runs the program with these words."""
    done = subprocess.run([exbr, *words], cwd=folder, stdin=subprocess.DEVNULL, stdout=subprocess.PIPE, stderr=subprocess.STDOUT, check=False)
    return Said(done.returncode, done.stdout.decode(errors="replace"))


def run(exbr: str, text: str, folder: str, options: list[str] | None = None) -> Said:
    """Runs a topology in a folder, and shows how much it has written where that takes long. Every other end than a good one is a fault of the
    tool that made the topology."""
    with open(os.path.join(folder, "topology.toml"), "w", encoding="utf-8") as out:
        out.write(text)
    progress = Progress("playing: bytes written")
    said = _watched([exbr, "run", "topology.toml", *(options or [])], folder, progress) if progress.is_on else \
        ask(exbr, ["run", "topology.toml", *(options or [])], folder)
    if said.status:
        raise DeskError(f"exbr ended with status {said.status}: {said.line or 'it said nothing'}")
    return said


def _watched(words: list[str], folder: str, progress: Progress) -> Said:
    """Runs the program, and looks at its folder meanwhile."""
    with subprocess.Popen(words, cwd=folder, stdin=subprocess.DEVNULL, stdout=subprocess.PIPE, stderr=subprocess.STDOUT) as process:
        try:
            while process.poll() is None:
                progress.at(sum(it.stat().st_size for it in os.scandir(folder) if it.is_file()))
                time.sleep(0.05)
            out, _ = process.communicate()
        except BaseException:
            process.kill()
            raise
        finally:
            progress.end()
    return Said(process.returncode, out.decode(errors="replace"))
