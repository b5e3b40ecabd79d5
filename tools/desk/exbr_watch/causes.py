"""Why a run ended, where its one line doesn't say it: the file that couldn't be read or written, and the system's reason.

The texts `read fault` and `write fault` are fixed and name no file. The files are looked at once more here, and nothing is written.
"""
import errno
import os
import re
import resource
import stat
import subprocess
from itertools import chain

from exbr_desk import plain, safe_files, toml_text, topology
from exbr_desk.errors import DeskError

OF_TOPOLOGY, OF_READING, OF_WRITING = 3, 6, 7
LITTLE = 1 << 20


def cause(status: int, words: list[str], path: str | None, program: str) -> str | None:
    """What is to be said beside the program's line, in a line."""
    if path is None:
        return None
    try:
        if status == OF_READING:
            return first(map(unread, to_read(path)), "each of its files can be read now")
        if status == OF_WRITING:
            them = to_write(path, words)
            return first(chain(map(unwritten, them), map(full, [them])), "each of its files can be written now, so what failed was printing, or EXBR_BYTES were written, or it has passed")
    except (OSError, ValueError, KeyError, TypeError, AttributeError, DeskError):
        return None
    return numbered(path, program) if status == OF_TOPOLOGY and words[0] == "run" else None


def first(them, other: str) -> str:
    """The first that is something."""
    return next((it for it in them if it), other)


def numbered(path: str, program: str) -> str | None:
    """Which number a command has that the line names by its key, as `check` says it once more."""
    said = subprocess.run([program, "check", path], stdin=subprocess.DEVNULL, capture_output=True, text=True, check=False).stdout
    found = re.search(r"command\[(\d{1,9})\]", said)
    return f"command[{found[1]}] is command {int(found[1]) + 1}, as journals and tools count them" if found else None


def tables_of(path: str) -> dict:
    data = safe_files.read(path, topology.LARGEST)
    return toml_text.tables((data or b"").decode())


def parts(path: str) -> list[tuple[str, str | None]]:
    """The topologies of a run, each with what the names of its outputs begin with where it is one of a net."""
    tables = tables_of(path)
    if isinstance(tables.get("bridge"), list):
        return [(it["topology"], f"{it['name']}-") for it in tables["bridge"]]
    return [(path, None)]


def to_read(path: str) -> list[str]:
    """What the program reads, in order."""
    found = [path]
    if unread(path):
        return found
    for one, _ in parts(path):
        found += [] if one == path else [one]
        found += [] if unread(one) else list(tables_of(one).get("captures", {}).values())
    return found


def to_write(path: str, words: list[str]) -> list[str]:
    """What the program writes."""
    found = []
    for one, head in parts(path):
        it = topology.read(one)
        begin = it.out if head is None else head
        rest = ["journal.txt"] + [f"{name}.txt" for name in ("trace", "counters") if f"--{name}" in words]
        found += [begin + name for name in (*(f"{plain.name_of(port)}.pcap" for port in it.external), *rest)]
    return found


def unread(path: str) -> str | None:
    """Why a file can't be read."""
    try:
        if not stat.S_ISREG(os.stat(path).st_mode):
            return f"{path}: it isn't a file of the disk"
        with open(path, "rb") as file:
            file.read(1)
    except OSError as fault:
        return f"{path}: {fault.strerror}"
    return None


def unwritten(path: str) -> str | None:
    """Why a file can't be written. It is opened where it is there, and neither made nor changed."""
    try:
        if odd := refused(path):
            return f"{path}: {odd}"
        if os.path.exists(path):
            os.close(os.open(path, os.O_WRONLY | os.O_NONBLOCK))
            limit = resource.getrlimit(resource.RLIMIT_FSIZE)[0]
            return f"{path}: {os.strerror(errno.EFBIG)}" if limit != resource.RLIM_INFINITY and os.path.getsize(path) >= limit else None
        folder = os.path.dirname(path) or "."
        os.stat(folder)
        return None if os.access(folder, os.W_OK | os.X_OK) else f"{path}: {os.strerror(errno.EACCES)}"
    except OSError as fault:
        return f"{path}: {fault.strerror}"


def refused(path: str) -> str | None:
    """Why the program writes nothing at a place though the system would."""
    if os.environ.get("EXBR_ANYWHERE") != "1":
        base = os.path.realpath(".")
        if os.path.commonpath([base, os.path.realpath(os.path.dirname(path) or ".")]) != base:
            return "it lies outside the folder of the run (EXBR_ANYWHERE=1 lifts that)"
    if os.path.islink(path):
        return "it is a link, and nothing is written through it"
    if os.path.isfile(path) and os.stat(path).st_nlink > 1:
        return "the file has another name too"
    return None


def full(them: list[str]) -> str | None:
    """Whether the disk of some files is full."""
    for folder in sorted({os.path.dirname(path) or "." for path in them}):
        it = os.statvfs(folder)
        if it.f_bavail * it.f_frsize < LITTLE or (it.f_files and not it.f_favail):
            return f"{folder}: {os.strerror(errno.ENOSPC)}"
    return None
