"""What ends a wait of another thread."""
from __future__ import annotations

import contextlib
import os
import select
import time
import weakref
from collections import deque
from typing import Deque, List, Optional

NOTHING: Deque[object] = deque(maxlen=0)
# Makes all calls of a map, in C: no interrupt divides that.
MAKE_ALL = NOTHING.extend


class Ended(OSError):
    """A wait was ended by another thread."""

    def __init__(self) -> None:
        super().__init__("it was closed by another thread")


class Alarm:
    """Ends waits for a descriptor, those of other threads too, from when it is rung."""

    def __init__(self) -> None:
        self._files: List[int] = []
        # All that are in the list at the end are closed. They come into it in one step, which no interrupt divides.
        weakref.finalize(self, MAKE_ALL, map(os.close, self._files))
        self._files.extend(os.pipe())
        os.set_blocking(self._files[1], False)

    def ring(self) -> None:
        """Ends all waits, now and later."""
        with contextlib.suppress(BlockingIOError):
            os.write(self._files[1], b"!")

    def wait(self, descriptor: int, event: int, end: Optional[float]) -> bool:
        """Whether an event comes before the time `end` of `time.monotonic`. Raises Ended."""
        ready = select.poll()
        ready.register(descriptor, event)
        ready.register(self._files[0], select.POLLIN)
        found = dict(ready.poll(None if end is None else max(0.0, end - time.monotonic()) * 1000))
        if self._files[0] in found:
            raise Ended
        return bool(found)
