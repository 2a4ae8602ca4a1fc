"""What all lines of this package have besides `exchange`."""
from __future__ import annotations

from abc import ABC, abstractmethod
from types import TracebackType
from typing import Optional, Type, TypeVar

Self = TypeVar("Self", bound="OpenLine")


class OpenLine(ABC):
    """A line that is open, and is closed at the end of a `with`."""

    # The UID that a controller on this line should have as its own, as a number; None if the line doesn't care.
    source: Optional[int] = None

    @property
    def is_there(self) -> bool:
        """Whether exchanges can be made. If not, the line has to be opened again, as after an adapter was unplugged."""
        return True

    @abstractmethod
    def exchange(self, frame: bytes) -> bytes:
        """Sends a frame, and returns the reply's bytes; `LineFailed` if the exchange failed."""

    def close(self) -> None:
        """Releases what the line holds. Another close does nothing."""

    def __enter__(self: Self) -> Self:
        return self

    def __exit__(self, kind: Optional[Type[BaseException]], error: Optional[BaseException],
                 trace: Optional[TracebackType]) -> None:
        self.close()
