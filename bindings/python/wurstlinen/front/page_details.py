"""The frames, replies and texts of a log's exchanges, in packed pieces that a page unpacks when someone looks."""
from __future__ import annotations

import base64
import json
import zlib
from typing import List, Optional, Tuple

# How many exchanges are in one piece.
PIECE = 512
LEVEL = 6
# What an exchange is for, its frame and its reply in hexadecimal, and both as text. No reply is a line that failed.
Detail = Tuple[str, str, Optional[str], str, str]


class Details:
    """What is shown of one exchange."""

    def __init__(self) -> None:
        self._packed: List[str] = []
        self._open: List[Detail] = []

    def add(self, name: str, frame: str, reply: Optional[str], command: str, answer: str) -> None:
        """The next exchange."""
        self._open.append((name, frame, reply, command, answer))
        if len(self._open) == PIECE:
            self._pack()

    def _pack(self) -> None:
        self._packed.append(packed(json.dumps(self._open, separators=(",", ":")).encode()))
        self._open.clear()

    def pieces(self) -> List[str]:
        """All of them, packed."""
        if self._open:
            self._pack()
        return self._packed


def packed(data: bytes) -> str:
    """Bytes as a page has them: with zlib, in base 64."""
    return base64.b64encode(zlib.compress(data, LEVEL)).decode()
