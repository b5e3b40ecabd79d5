"""The rules of one VLAN bridge in plain Python.

They are those of the plain bridge that stands beside the cases of the tests (`crates/exb_cases/bridge.py`), so that there is one
such reading in Python and no copy of it. That file stands on nothing of exbr and of these tools.
"""
from __future__ import annotations

import importlib.util
import os
import re
import sys

HOME = os.path.normpath(os.path.join(os.path.dirname(os.path.abspath(__file__)), "..", "..", "..", "crates", "exb_cases"))


def _load():
    spec = importlib.util.spec_from_file_location("exb_plain_bridge", os.path.join(HOME, "bridge.py"))
    module = importlib.util.module_from_spec(spec)
    # What it stands on lies beside it.
    sys.path.insert(0, HOME)
    try:
        spec.loader.exec_module(module)
    finally:
        sys.path.remove(HOME)
    return module


_bridge = _load()
SECOND = _bridge.SECOND
Tree = _bridge.Tree
Configuration = _bridge.Configuration
kind_of = _bridge.kind_of
egress = _bridge.egress
passes = _bridge.passes
targets = _bridge.targets
refusal = _bridge.refusal
address_of = _bridge.address_of
number_of = _bridge.number_of
name_of = _bridge.name_of
capture_of = _bridge.capture_of

NUMBER = "([1-9]|[1-5][0-9]|6[0-4])"
PORT = re.compile(f"b{NUMBER}|x{NUMBER}[.]{NUMBER}")


def is_port(name: str) -> bool:
    """Whether a text is the name of a port, `b1` to `b64` or `x1.1` to `x64.64`."""
    return PORT.fullmatch(name) is not None
