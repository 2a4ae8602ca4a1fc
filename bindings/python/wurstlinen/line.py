"""What a line is: whatever carries a controller's frames to devices, and returns their replies.

`wurstlinen` exports these names. This module needs no other, and no C library.
"""
from __future__ import annotations

from typing import Protocol

# The most bytes of a reply.
MOST_REPLY_BYTES = 257


class LineFailed(Exception):
    """The line failed: it isn't known whether the frame was sent, or what the reply was."""


class LineBusy(LineFailed):
    """Another program has the line. `holder` says which one, as far as it is known."""

    def __init__(self, reason: str, holder: str = "another program") -> None:
        super().__init__(reason)
        self.holder = holder


class Line(Protocol):
    """One method, which makes one exchange."""

    def exchange(self, frame: bytes) -> bytes:
        """Sends a frame, and returns the reply, at most 257 bytes; no bytes are silence.

        The line decides how long it waits. It raises `LineFailed` if the exchange failed.
        """
        ...
