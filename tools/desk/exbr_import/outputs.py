"""The files that an import makes. None is made before all is known, and none is written over unless that is asked for."""
import os
import shutil
import subprocess
import sys
import tempfile

from exbr_desk.errors import DeskError
from exbr_desk.place import umask


class Outputs:
    """What is to be written: texts by path, and captures that are merged of others."""

    def __init__(self, force: bool):
        self.force, self.texts = force, {}
        self.merges: dict[str, list[str]] = {}

    def text(self, path: str, text: str) -> None:
        """A text that is to be written."""
        self._look(path)
        self.texts[path] = text

    def merge(self, path: str, of: list[str]) -> None:
        """A capture that is to be merged of others, in the order of their times."""
        if not shutil.which("mergecap"):
            raise DeskError(f"{', '.join(map(os.path.basename, of))} are captures of one port, and mergecap, which merges them, isn't here "
                            "(Debian: wireshark-common)")
        self._look(path)
        self.merges[path] = of

    def _look(self, path: str) -> None:
        """A path at which something may be written."""
        if path == "-":
            return
        if path in self.texts or path in self.merges:
            raise DeskError(f"{path} would be written twice; name other files")
        if os.path.isdir(path):
            raise DeskError(f"{path}: Is a directory")
        if os.path.islink(path):
            raise DeskError(f"{path}: it is a link, and nothing is written through it; name a file")
        if os.path.lexists(path) and not self.force:
            raise DeskError(f"{path} is there already; --force writes over it")
        if not os.path.isdir(os.path.dirname(path) or "."):
            raise DeskError(f"{path}: No such file or directory")

    def write(self) -> None:
        """Writes all: each beside its place first, under a name that nobody knows before, so that no half of one stands there."""
        parts = {}
        try:
            for path, of in self.merges.items():
                parts[path] = room_beside(path)
                merged(parts[path], of)
            for path, text in self.texts.items():
                if path != "-":
                    parts[path] = room_beside(path)
                    written(parts[path], text)
            for path, part in parts.items():
                os.chmod(part, 0o666 & ~umask())
                os.replace(part, path)
        except OSError as fault:
            raise DeskError(f"{fault.filename}: {fault.strerror}") from None
        finally:
            for part in parts.values():
                if os.path.exists(part):
                    os.remove(part)
        sys.stdout.write(self.texts.get("-", ""))


def room_beside(path: str) -> str:
    """A new file in the folder of another one."""
    number, part = tempfile.mkstemp(prefix=".exbr-", dir=os.path.dirname(path) or ".")
    os.close(number)
    return part


def written(path: str, text: str) -> None:
    """Writes a text."""
    with open(path, "w", encoding="utf-8") as file:
        file.write(text)


def merged(path: str, of: list[str]) -> None:
    """Merges captures."""
    done = subprocess.run(["mergecap", "-F", "pcapng", "-w", path, *of], capture_output=True, text=True, errors="replace", check=False)
    if done.returncode:
        raise DeskError(f"mergecap: {(done.stderr.strip().splitlines() or ['it failed'])[0][:200]}")
