"""`python3 -m wurstlinen`: discovers and asks devices, bridges a line to another program, and shows a rig."""
from __future__ import annotations

import signal
import sys

from ._endings import end_by, interrupt
from ._standard_streams import mend
from .commands import main

if __name__ == "__main__":
    mend()
    # A shell makes background jobs ignore SIGINT.
    end_by(interrupt, signal.SIGINT, signal.SIGTERM, signal.SIGHUP)
    sys.exit(main())
