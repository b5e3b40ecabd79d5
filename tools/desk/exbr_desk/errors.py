"""What ends a tool of the desk in one line."""
from __future__ import annotations

import os
import sys
import traceback
from typing import Callable

from .shown import Screen


class DeskError(Exception):
    """Input that can't be used. Its text is the line that a tool prints before it ends with status 2."""


def ended(name: str, main: Callable[[], int], broken: int = 2) -> int:
    """The status of a tool: that of `main`, or `broken` with a line on standard error where input is broken."""
    sys.stdout, sys.stderr = Screen(sys.stdout), Screen(sys.stderr, by_line=True)
    try:
        return main()
    except DeskError as fault:
        print(f"{name}: {fault}", file=sys.stderr)
    except BrokenPipeError:
        # Whoever reads the output has enough of it. Nothing more may be written when Python ends.
        os.dup2(os.open(os.devnull, os.O_WRONLY), sys.stdout.fileno())
        return 0
    except KeyboardInterrupt:
        print(f"{name}: interrupted", file=sys.stderr)
    except MemoryError:
        print(f"{name}: out of memory", file=sys.stderr)
    except OSError as fault:
        print(f"{name}: {fault.filename or 'a file'}: {fault.strerror or fault}", file=sys.stderr)
    except Exception as fault:  # noqa: BLE001
        print(f"{name}: the input can't be read: {_strange(fault)}", file=sys.stderr)
    return broken


def _strange(fault: Exception) -> str:
    """A fault that no part of a tool has words for, and the place at which it came, for whoever mends it."""
    at = traceback.extract_tb(fault.__traceback__)[-1]
    return f"{type(fault).__name__}: {str(fault)[:200]} (at {os.path.basename(at.filename)}:{at.lineno})"
