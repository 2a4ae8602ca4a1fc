"""UIDs as numbers and as text, without any proved code."""
from __future__ import annotations

import re

ALL_DEVICES = 0xFFFFFFFFFFFF
BROADCAST_DEVICE = 0xFFFFFFFF
# A pattern.
UID_TEXT = "([0-9A-Fa-f]{4}):([0-9A-Fa-f]{8})"


def is_broadcast(uid: int) -> bool:
    """Whether a UID addresses all devices, or all of a manufacturer."""
    return uid & BROADCAST_DEVICE == BROADCAST_DEVICE


def uid_text(uid: int) -> str:
    """A UID as text, such as 7a70:00000001."""
    return f"{uid >> 32:04x}:{uid & BROADCAST_DEVICE:08x}"


def parse_uid(text: str) -> int:
    """The number of a UID as text; a `ValueError` for any other text."""
    match = re.fullmatch(UID_TEXT, text)
    if match is None:
        raise ValueError(f"'{text}' isn't a UID, such as 7a70:00000001")
    return int(match[1], 16) << 32 | int(match[2], 16)
