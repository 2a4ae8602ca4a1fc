"""Lines of text from a stream whose other end may be slow, wrong or gone."""
from __future__ import annotations

import fcntl
import os
import select
import stat
import termios
from collections import deque
from typing import BinaryIO, Optional

from ..line import MOST_REPLY_BYTES
from .alarm import Alarm

# The longest line: its digits, a carriage return and the newline.
MOST_LINE_BYTES = 2 * MOST_REPLY_BYTES + 2
# Longer lines than the longest are cut off, but one that doesn't end isn't read for ever.
MOST_BYTES_TO_SKIP = 1 << 22
READ_BYTES = 4096
# The size of the number that FIONREAD gives.
INT_BYTES = 4


class TooLate(OSError):
    """Nothing came, or nothing was taken, in the time for it."""

    def __init__(self) -> None:
        super().__init__("it takes too long")


class Endless(OSError):
    """A line has no end."""

    def __init__(self) -> None:
        super().__init__(f"a line has more than {MOST_BYTES_TO_SKIP} bytes")


class LineReader:
    """Reads lines from a binary stream. A line is returned without its end, and cut off if it is too long.

    An alarm, if there is one, ends its waits.
    """

    def __init__(self, stream: BinaryIO, alarm: Optional[Alarm] = None) -> None:
        self._stream = stream
        self._alarm = alarm
        # Whether the stream's lines come one after another.
        self.is_pipe = _is_pipe(stream)
        # How many lines were read. An interrupt may keep a line that is counted from being returned.
        self.lines_read = 0
        self._left = bytearray()
        # How many bytes of the line at the front were dropped.
        self._skipped = 0

    def read(self, end: Optional[float] = None) -> Optional[bytes]:
        """The next line that comes before the time `end` of `time.monotonic`; None at the end of the stream.

        A last line without a newline may have been cut off, so it isn't returned.
        """
        line = self._take()
        while line is None:
            if self._skipped > MOST_BYTES_TO_SKIP:
                # The next call skips as much again.
                self._skipped = 1
                raise Endless
            if not is_ready(self._stream, select.POLLIN, end, self._alarm):
                raise TooLate
            if not self._more():
                return None
            line = self._take()
        return line

    def drop(self) -> None:
        """Drops all lines that are there, up to a limit; a file that isn't a pipe or a terminal has lines for later."""
        if not self.is_pipe:
            return
        while len(self._left) < MOST_BYTES_TO_SKIP and is_ready(self._stream, select.POLLIN, 0.0, self._alarm):
            if not self._more():
                break
        self._left.clear()
        self._skipped = 0

    def _more(self) -> bool:
        """Reads once: at least one byte, except at the end. Whether this isn't the end."""
        before = len(self._left)
        read = getattr(self._stream, "read1", self._stream.read)
        try:
            # In one step, so that an interrupt loses nothing that was read.
            deque(map(self._left.extend, map(read, (READ_BYTES,))), 0)
        except TypeError:
            # It is None if another reader was faster.
            return True
        return len(self._left) > before

    def _take(self) -> Optional[bytes]:
        """Takes the first line out, if it is there."""
        index = self._left.find(b"\n")
        if index < 0:
            self._skip()
            return None
        line, skipped, self._skipped = bytes(self._left[:index + 1]), self._skipped, 0
        # Counted first: a line that is counted and not taken is dropped later, and one that was taken isn't awaited.
        self.lines_read += 1
        del self._left[:index + 1]
        if skipped or len(line) > MOST_LINE_BYTES:
            return line[:MOST_LINE_BYTES]
        return line[:-2] if line.endswith(b"\r\n") else line[:-1]

    def _skip(self) -> None:
        """Keeps no more of a line than what shows that it is too long."""
        surplus = len(self._left) - MOST_LINE_BYTES
        if surplus > 0:
            self._skipped += surplus
            del self._left[MOST_LINE_BYTES:]


def wait_to_write(stream: BinaryIO, end: Optional[float], alarm: Alarm) -> None:
    """Waits until a stream takes a line, at most until the time `end`."""
    if not is_ready(stream, select.POLLOUT, end, alarm):
        raise TooLate


def is_ready(stream: BinaryIO, event: int, end: Optional[float], alarm: Optional[Alarm]) -> bool:
    """Whether a stream can be read or written before the time `end`. One that is no file never waits."""
    if alarm is None:
        return True
    try:
        descriptor = stream.fileno()
    except (OSError, ValueError):
        return True
    return alarm.wait(descriptor, event, end)


def has_unread(stream: BinaryIO) -> bool:
    """Whether a stream is a pipe with bytes that its other end hasn't read."""
    try:
        return any(fcntl.ioctl(stream.fileno(), termios.FIONREAD, bytes(INT_BYTES)))
    except (OSError, ValueError):
        return False


def _is_pipe(stream: BinaryIO) -> bool:
    """Whether a stream is a pipe, a socket or a terminal."""
    try:
        mode = os.fstat(stream.fileno()).st_mode
    except (OSError, ValueError):
        return False
    return stat.S_ISFIFO(mode) or stat.S_ISSOCK(mode) or stat.S_ISCHR(mode)
