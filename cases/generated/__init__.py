"""Cases that are too many or too large to write out: hostile input, large rigs, and logs.

Each answer to hostile input is one of the named faults, alone and with its status, or a whole answer: the one that the
formats give, or, if bytes are changed at random, one of the right form.
"""
from __future__ import annotations

from typing import List

from ..checker.case import Subject
from . import (
    answers, arguments, damage, damaged_logs, encodings, explained_flaws, explained_json, explained_logs,
    explained_orders, explained_runs, keys, lies, limits, log_lines, logs, neighbours, nesting, ports, remarks, scenes,
    searches, soaks,
)

MODULES = (damage, arguments, keys, limits, encodings, nesting, remarks, neighbours, ports, logs, log_lines,
           explained_runs, explained_orders, explained_flaws, explained_logs, explained_json, lies, damaged_logs, soaks,
           answers, searches, scenes)


def subjects() -> List[Subject]:
    """The cases of each module."""
    return [Subject(f"generated/{name_of(module)}", tuple(module.cases())) for module in MODULES]


def name_of(module: object) -> str:
    """A module's own name."""
    return getattr(module, "__name__").rsplit(".", maxsplit=1)[-1]
