"""Lines in Python: a USB adapter, another program reached by text, and simulated fixtures.

Each has the one method of `wurstlinen.Line`. None of them needs the C library.
"""
from __future__ import annotations

import importlib
from typing import TYPE_CHECKING, Any

if TYPE_CHECKING:
    from .base import OpenLine
    from .ends import BranchEnd
    from .enttec import EnttecPro
    from .keys import SceneFault
    from .opening import open_line
    from .rig import Rig
    from .text import TextLine, serve_text

__all__ = ["BranchEnd", "EnttecPro", "OpenLine", "Rig", "SceneFault", "TextLine", "open_line", "serve_text"]
# A command uses one kind of line, and the modules of the others would take half of its time to load.
_MODULES = {"BranchEnd": "ends", "EnttecPro": "enttec", "OpenLine": "base", "Rig": "rig", "SceneFault": "keys",
            "TextLine": "text", "open_line": "opening", "serve_text": "text"}


def __getattr__(name: str) -> Any:
    """Loads the module of a name when the name is first used."""
    if name not in _MODULES:
        raise AttributeError(f"module {__name__!r} has no attribute {name!r}")
    found = globals()[name] = getattr(importlib.import_module(f".{_MODULES[name]}", __name__), name)
    return found
