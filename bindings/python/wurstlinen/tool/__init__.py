"""The command `wurstlinen` as a whole: what the proved program does, and what the package `front` does by names.

The proved program's commands get their arguments, streams and status as they are.
"""
from __future__ import annotations

import gc
import sys

# What is loaded here stays, so nobody looks for garbage in it.
gc.disable()
from .main import main, run, run_program  # noqa: E402

gc.freeze()
gc.enable()


def call() -> None:
    """The command with the arguments of this process, which it ends."""
    sys.exit(run())


__all__ = ["call", "main", "run", "run_program"]
