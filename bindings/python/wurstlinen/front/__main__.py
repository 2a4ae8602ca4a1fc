"""`python3 -m wurstlinen.front`."""
from __future__ import annotations

import signal
import sys

from .._endings import end_by, interrupt
from .._standard_streams import finish, mend
from .main import main

if __name__ == "__main__":
    mend()
    end_by(interrupt, signal.SIGINT, signal.SIGTERM, signal.SIGHUP)
    sys.exit(finish(main()))
