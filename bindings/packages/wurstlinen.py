"""The command wurstlinen."""
import os
import signal
import sys

# While the package is loaded, an interrupt ends it without a word.
signal.signal(signal.SIGINT, signal.SIG_DFL)
# Python looks for modules only among its own.
sys.path.append(os.path.join(os.path.dirname(os.path.realpath(__file__)), "@PACKAGES@"))
from wurstlinen.tool import run  # noqa: E402

sys.exit(run())
