"""Waiting for a line that another program has."""
from __future__ import annotations

import time
from typing import Callable, TypeVar

from ..line import LineBusy

DEFAULT_SECONDS = 5.0
AGAIN_SECONDS = 0.05
Opened = TypeVar("Opened")


def when_free(opening: Callable[[], Opened], seconds: float, note: Callable[[str], object]) -> Opened:
    """What `opening` opens, once whoever has the line has closed it. Raises LineBusy after these seconds.

    `note` is called with who has the line.
    """
    end = time.monotonic() + seconds
    noted = ""
    while True:
        try:
            return opening()
        except LineBusy as busy:
            if seconds and busy.holder != noted:
                noted = busy.holder
                note(f"waiting for {noted}")
            if time.monotonic() >= end:
                raise
        time.sleep(AGAIN_SECONDS)
