"""What the driver of a USB Pro finds out about the message that ends an exchange (label 12)."""
from __future__ import annotations

from enum import Enum

# So many exchanges in a row have to show the same.
EXCHANGES_TO_LEARN = 3
# E1.20, timing: a slot takes 44 microseconds, and a response begins at most 2.8 milliseconds after its request.
SLOT_SECONDS = 44e-6
SILENCE_SECONDS = 2.8e-3


class BranchEnd(Enum):
    """Whether the adapter sends its end (label 12) after a reply."""

    UNKNOWN = "unknown"
    SENT = "sent"
    NOT_SENT = "not sent"


class Ends:
    """Whether ends follow one kind of reply."""

    def __init__(self) -> None:
        self.known = BranchEnd.UNKNOWN
        self._missing = 0

    def came(self) -> None:
        """An end came, in time or late."""
        self.known = BranchEnd.SENT
        self._missing = 0

    def missed(self) -> None:
        """No end came in time."""
        self._missing += 1
        if self._missing == EXCHANGES_TO_LEARN:
            self.known = BranchEnd.NOT_SENT
            self._missing = 0

    def forget(self) -> None:
        """What was found out was wrong."""
        self.known = BranchEnd.UNKNOWN
        self._missing = 0


class EarlyEnds:
    """Whether an end that comes before its frame can have been on the wire may be an exchange's own.

    It isn't on a real line: then it belongs to an earlier exchange. An emulated adapter needs no time for its line.
    """

    def __init__(self) -> None:
        self._alone = 0

    @property
    def are_stale(self) -> bool:
        """Whether such an end is ignored if another message comes."""
        return self._alone < EXCHANGES_TO_LEARN

    def was_alone(self) -> None:
        """Nothing came after an early end, so it was the exchange's own."""
        self._alone += 1

    def was_stale(self) -> None:
        """The exchange's own message came after an early end."""
        self._alone = 0


def seconds_on_wire(frame: bytes, is_answered: bool) -> float:
    """The shortest time between a frame and its end without a reply."""
    return len(frame) * SLOT_SECONDS + (SILENCE_SECONDS if is_answered else 0.0)
