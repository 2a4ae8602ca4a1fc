"""The standard streams of a command, whatever the caller has made of them."""
from __future__ import annotations

import contextlib
import gc
import io
import os
import sys

# What replaces a closed stream. Results that can't be printed mustn't be lost without a word, so writing them fails.
INSTEAD = {"stdin": ("r", os.O_RDONLY), "stdout": ("w", os.O_RDONLY), "stderr": ("w", os.O_WRONLY)}
FAILED = 1


def mend() -> None:
    """Opens those that are closed, so that no other file is taken for one; no character ends a command."""
    for number, (name, (mode, flags)) in enumerate(INSTEAD.items()):
        if getattr(sys, name) is None:
            opened = os.open(os.devnull, flags)
            # It has this number already, unless something else was opened before.
            if opened != number:
                os.dup2(opened, number)
                os.close(opened)
            # A program that is started here has them too.
            os.set_inheritable(number, True)
            # Without a buffer, nothing is left to write at the end.
            raw = io.FileIO(number, mode, closefd=False)
            setattr(sys, name, io.TextIOWrapper(raw, encoding="utf-8", write_through=True))
        stream = getattr(sys, name)
        if isinstance(stream, io.TextIOWrapper) and stream.errors == "strict":
            stream.reconfigure(errors="backslashreplace")


def warn(text: str) -> None:
    """Says what goes wrong while a program goes on, which it does even if nobody can hear that."""
    with contextlib.suppress(OSError, ValueError):
        print(f"wurstlinen: {text}", file=sys.stderr, flush=True)


def finish(status: int) -> int:
    """A command's status, once its output is written. What can't be is lost, without another word at the end."""
    # The process ends, which frees all at once.
    gc.freeze()
    try:
        sys.stdout.flush()
        return status
    except OSError:
        os.dup2(os.open(os.devnull, os.O_WRONLY), sys.stdout.fileno())
        return status or FAILED
