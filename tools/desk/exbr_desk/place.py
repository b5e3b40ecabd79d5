"""Files that tools make: looked at before work begins, and written beside their place first, so that nobody finds half of one."""
from __future__ import annotations

import os

from . import safe_files
from .errors import DeskError


def check_place(path: str) -> None:
    """That a file can be made here. Nothing is made yet."""
    folder = os.path.dirname(path) or "."
    if path == "-":
        return
    if os.path.isdir(path):
        raise DeskError(f"{path}: it is a folder")
    if not os.path.isdir(folder):
        raise DeskError(f"{path}: there is no folder {folder}")
    if not os.access(folder, os.W_OK | os.X_OK) or (os.path.exists(path) and not os.access(path, os.W_OK)):
        raise DeskError(f"{path}: Permission denied")


def put(path: str, text: str) -> None:
    """Writes a text into a file, whole or not at all, and through no link."""
    safe_files.write(path, text.encode())


def umask() -> int:
    """The rights that new files don't get."""
    found = os.umask(0)
    os.umask(found)
    return found
