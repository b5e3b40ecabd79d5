"""Running the program itself over a topology, in a folder of its own."""
from __future__ import annotations

import json
import os
import subprocess
import time

from . import runs, safe_files, topology
from .errors import DeskError
from .progress import Progress

TOP = os.path.normpath(os.path.join(os.path.dirname(os.path.abspath(__file__)), "..", "..", ".."))


def program(named: str | None = None) -> str:
    """The program: the one that `--program` names, else the one that the variable EXBR names, else the one that `tools/program` says these
    sources give. What is named and isn't a program is a fault. None is built here, since that takes long."""
    path, by = (named, "--program") if named else (os.environ.get("EXBR"), "EXBR")
    if path:
        if not (os.path.isfile(path) and os.access(path, os.X_OK)):
            raise DeskError(f"{path} is no program (it is named by {by})")
        return os.path.abspath(path)
    try:
        said = subprocess.run([os.path.join(TOP, "tools", "program")], capture_output=True, text=True, stdin=subprocess.DEVNULL)
    except OSError:
        raise DeskError("there is no exbr here; name one by --program FILE") from None
    if said.returncode:
        why = said.stderr.partition("\n")[0].removeprefix("exbr: ")
        raise DeskError(f"{why or 'there is no program of these sources'}; name a program by --program FILE, or build one by ./exbr --build")
    return said.stdout.strip()


def written(tables: dict) -> str:
    """The text of a topology."""
    def value(it) -> str:
        if isinstance(it, bool):
            return "true" if it else "false"
        if isinstance(it, list):
            return f"[{', '.join(map(value, it))}]"
        return json.dumps(it, ensure_ascii=False).replace("\x7f", "\\u007f") if isinstance(it, str) else str(it)

    def table(head: str, it: dict) -> str:
        return head + "\n" + "".join(f"{json.dumps(key)} = {value(its)}\n" for key, its in it.items())

    # A list without a table has to be a key, and keys come before tables.
    text = "".join(f"{name} = []\n" for name, it in tables.items() if it == [])
    for name, it in tables.items():
        text += table(f"[{name}]", it) if isinstance(it, dict) else "".join(table(f"[[{name}]]", each) for each in it)
    return text


def without(given: topology.Topology, numbers: set[int]) -> dict:
    """The tables of a topology without some of its commands."""
    unknown = sorted(it for it in numbers if not 1 <= it <= len(given.commands))
    if unknown:
        raise DeskError(f"{given.path} has {len(given.commands)} commands and no command {unknown[0]}")
    left = [it.table for it in given.commands if it.number not in numbers]
    return {name: its for name, its in given.tables.items() if name != "command"} | ({"command": left} if left else {})


def play(run: runs.Run, tables: dict, folder: str, exbr: str, options: list[str], quiet: bool = False) -> runs.Run:
    """Runs the program in a folder over these tables, with the captures of a run, and gives the run that it made there. The program
    says nothing on standard error, but the script that builds it does, so that stays where the user sees it."""
    safe_files.folder(folder)
    captures = {port: os.path.abspath(run.path(name)) for port, name in tables.get("captures", {}).items()}
    path = os.path.join(folder, "topology.toml")
    bridge = {key: value for key, value in tables["bridge"].items() if key != "out"}
    safe_files.write(path, written(tables | {"bridge": bridge} | ({"captures": captures} if captures else {})).encode())
    size = sum(os.path.getsize(path) for path in captures.values() if os.path.exists(path))
    progress = Progress(f"running {os.path.basename(exbr)}: bytes written, captures have {size:,}", quiet=quiet)
    with subprocess.Popen([exbr, "run", "topology.toml", *options], cwd=folder, stdout=subprocess.PIPE) as process:
        status, line = _waited(process, folder, progress)
    if status:
        raise DeskError(f"exbr ended with status {status}: {topology.by_number(line) or 'it said nothing'}")
    return runs.whole(folder)


def _waited(process: subprocess.Popen, folder: str, progress: Progress) -> tuple[int, str]:
    """The status of the program and what it said."""
    try:
        while process.poll() is None and progress.is_on:
            progress.at(sum(it.stat().st_size for it in os.scandir(folder) if it.is_file()))
            time.sleep(0.2)
        out, _ = process.communicate()
    except BaseException:
        process.kill()
        raise
    finally:
        progress.end()
    return process.returncode, out.decode(errors="replace").strip().removeprefix("exbr: ")
