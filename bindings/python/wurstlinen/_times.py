"""The times that a log has where a clock is at hand."""
from __future__ import annotations

import time

NANOSECONDS = 1000


def now() -> int:
    """The microseconds since 1970, by the clock, which may be set."""
    return time.time_ns() // NANOSECONDS
