"""Work that is done beside other work, in a process of its own."""
from __future__ import annotations

import os
import signal
import sys
from typing import Callable

from .errors import DeskError

MOST = 60_000


class Beside:
    """Does work that leaves its results in files. `wait` ends it, and raises the fault that it met."""

    def __init__(self, work: Callable[[], object]):
        self.reading, writing = os.pipe()
        sys.stdout.flush()
        sys.stderr.flush()
        self.process = os.fork()
        if not self.process:
            os.close(self.reading)
            _done(work, writing)
        os.close(writing)

    def __enter__(self) -> Beside:
        return self

    def __exit__(self, kind, *_) -> None:
        if kind is not None and self.process:
            os.kill(self.process, signal.SIGTERM)
            os.waitpid(self.process, 0)
            os.close(self.reading)
        elif self.process:
            self.wait()

    def wait(self) -> None:
        """Waits until it is done."""
        said = b""
        while piece := os.read(self.reading, MOST):
            said += piece
        _, status = os.waitpid(self.process, 0)
        os.close(self.reading)
        self.process = 0
        if status:
            raise DeskError(said.decode(errors="replace") or f"a process ended with {os.waitstatus_to_exitcode(status)}")


def _done(work: Callable[[], object], writing: int) -> None:
    """Does the work in the process that was made for it, and never returns."""
    status = 1
    try:
        signal.signal(signal.SIGTERM, signal.default_int_handler)
        work()
        status = 0
    except DeskError as fault:
        os.write(writing, str(fault).encode()[:MOST])
    except OSError as fault:
        os.write(writing, f"{fault.filename or 'a file'}: {fault.strerror or fault}".encode()[:MOST])
    except MemoryError:
        os.write(writing, b"out of memory")
    finally:
        os._exit(status)
