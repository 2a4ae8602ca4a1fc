"""The signals that end a command."""
from __future__ import annotations

import signal
from types import FrameType
from typing import Callable, Optional


def end_by(handler: Callable[[int, Optional[FrameType]], None], *numbers: int) -> None:
    """Has these signals handled. A hangup that is ignored stays ignored, as nohup wants it."""
    for number in numbers:
        if number != signal.SIGHUP or signal.getsignal(number) is not signal.SIG_IGN:
            signal.signal(number, handler)


def interrupt(number: int, frame: Optional[FrameType]) -> None:
    """Ends in the same way as an interrupt from the keyboard, so that lines are closed."""
    raise KeyboardInterrupt
