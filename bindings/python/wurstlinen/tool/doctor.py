"""The command doctor: what is there on this machine, and what is missing."""
from __future__ import annotations

import argparse
import os
from pathlib import Path
from typing import List, Tuple, Union

from .._library import LIBRARY
from ..front.opening import OLA
from ..front.output import DONE, LINE_VARIABLE, Output
from ..line import LineFailed
from ..lines.opening import FORMS
from ..shared.place import canonical
from . import places
from .adapters import Adapter, Universe, chips, look_at, sharing, universes

# How the line of an adapter begins.
ADAPTER = "enttec:"
OTHER_KINDS = ("rig", "text", "exec")
NOT_SHARED = "no server shares it, so a command opens it"


def run_doctor(chosen: argparse.Namespace, output: Output) -> int:
    """Prints what the caller says, and what is there. What the caller says of a part takes its place."""
    said = {name for name, _ in chosen.also}
    named = chosen.named or os.environ.get(LINE_VARIABLE, "")
    for name, text in [*chosen.also, *(part for part in parts() if part[0] not in said), *adapters(named)]:
        output.result([f"{name:<11}{text}"], part=name, text=text)
    return DONE


def parts() -> List[Tuple[str, str]]:
    """The proved program and the C library."""
    program = places.program()
    try:
        LIBRARY.wurst_version()
        library = "there"
    except ImportError as fault:
        library = f"fixtures by names need it: {fault}"
    return [("version", places.version_line()),
            ("program", "there" if program is not None else
             "decode, encode, discover, run and explain need it, and it isn't here"),
            ("C library", library)]


def adapters(named: str) -> List[Tuple[str, str]]:
    """The adapters that are plugged in, and the line that the user names, if it is on none of them."""
    devices = chips()
    is_adapter = canonical(named).startswith(ADAPTER)
    if is_adapter and canonical(named) not in [canonical(f"{ADAPTER}{device}") for device in devices]:
        devices.append(Path(named[len(ADAPTER):] if named.startswith(ADAPTER) else named))
    found: List[Union[Adapter, Universe]] = [*map(look_at, devices), *universes()]
    lines = [("adapter", f"{each.line}: {each.text}") for each in found] or [("adapter", "none is plugged in")]
    return [*lines, ("line", f"{named}: {state_of(named)}")] if named and not is_adapter else lines


def state_of(line: str) -> str:
    """What is known of a line that is on no adapter. Its far end isn't started."""
    try:
        if not line.startswith(OLA):
            is_line = line.partition(":")[0] in OTHER_KINDS
            return sharing(line) or (NOT_SHARED if is_line else f"it names no line; a line is {FORMS}")
        # A command that has no universe doesn't load it.
        from ..olad.client import OlaClient
        with OlaClient(line):
            return "olad has this universe"
    except (LineFailed, ValueError) as fault:
        return str(fault)
