"""Files that others may have put there: reading none that never ends, and writing through no link.

What is read is a file of the disk, so that no pipe keeps a tool waiting and no device feeds it for ever. What is written is made beside its
place under a name that nobody knows before, and is then moved there, so that no half of it stands there and no link is followed.
"""
from __future__ import annotations

import os
import stat
import tempfile
from typing import BinaryIO

from .errors import DeskError


def opened(path: str) -> BinaryIO:
    """A file to be read, or a line that says why it can't be."""
    try:
        number = os.open(path, os.O_RDONLY | os.O_NONBLOCK | os.O_NOCTTY | os.O_CLOEXEC)
    except OSError as fault:
        raise DeskError(f"{path}: {fault.strerror}") from None
    except ValueError:
        raise DeskError(f"{path}: no file has such a name") from None
    mode = os.fstat(number).st_mode
    if not stat.S_ISREG(mode):
        os.close(number)
        raise DeskError(f"{path}: it is a folder" if stat.S_ISDIR(mode) else f"{path}: it isn't a file of the disk")
    return open(number, "rb", buffering=0)


def read(path: str, largest: int) -> bytes | None:
    """All bytes of a file, or None where it has more than so many."""
    with opened(path) as file:
        data = b""
        while len(data) <= largest and (more := file.read(largest + 1 - len(data))):
            data += more
    return data if len(data) <= largest else None


def write(path: str, data: bytes) -> None:
    """Writes a file whole or not at all. What stands there before has to be a file, and no link."""
    try:
        _look(path)
        number, part = tempfile.mkstemp(prefix=".exbr-", dir=os.path.dirname(path) or ".")
        try:
            with open(number, "wb") as file:
                file.write(data)
                os.fchmod(number, _mode(path))
            os.replace(part, path)
        except BaseException:
            os.unlink(part)
            raise
    except OSError as fault:
        raise DeskError(f"{path}: {fault.strerror}") from None


def _look(path: str) -> None:
    """That nothing else than a file stands at a place."""
    try:
        mode = os.lstat(path).st_mode
    except FileNotFoundError:
        return
    if not stat.S_ISREG(mode):
        kind = "a link" if stat.S_ISLNK(mode) else "a folder" if stat.S_ISDIR(mode) else "no file of the disk"
        raise DeskError(f"{path}: it is {kind}, and nothing is written through it; name a file")


def _mode(path: str) -> int:
    """What may be done with a file: as it was before, or as the user has new files."""
    try:
        return stat.S_IMODE(os.stat(path).st_mode) & 0o777
    except FileNotFoundError:
        mask = os.umask(0o077)
        os.umask(mask)
        return 0o666 & ~mask


def folder(path: str) -> None:
    """Makes a folder in which a tool works, or takes one that is there and is no link."""
    os.makedirs(path, exist_ok=True)
    if os.path.islink(path.rstrip("/")):
        raise DeskError(f"{path}: it is a link, and nothing is written through it; name a folder")
