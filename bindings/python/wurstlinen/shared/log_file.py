"""A log's file, which gets whole lines and doesn't grow for ever."""
from __future__ import annotations

import contextlib
import io
import os
import threading
from typing import Callable, List, Optional, Sequence

MOST_BYTES = 100 * 1024 * 1024
PRIVATE_MODE = 0o600
# So much waits for a disk that hangs.
MOST_WAITING_BYTES = 16 * 1024 * 1024


class LogFile:
    """Adds lines to a file. Before it would grow beyond `most_bytes` it is renamed to NAME.1, and a new one begins.

    If it can't be written, that is reported once, and these lines are lost; so is that it can be written again.
    """

    def __init__(self, name: str, report: Callable[[str], None], most_bytes: int = MOST_BYTES) -> None:
        self._name = name
        self._report = report
        self._most_bytes = most_bytes
        self._file: Optional[io.FileIO] = None
        # How many lines are lost since the last that was written.
        self.lost = 0

    def open(self) -> None:
        """Opens it. Raises OSError."""
        if self._file is None:
            self._file = io.FileIO(self._name, "ab", opener=lambda name, flags: os.open(name, flags, PRIVATE_MODE))

    def add(self, lines: Sequence[bytes]) -> None:
        """Adds lines: all of them, or none."""
        if not lines:
            return
        try:
            self._write(b"".join(lines))
        except (OSError, MemoryError) as fault:
            # The disk may fail again.
            with contextlib.suppress(OSError):
                self.close()
            self.lose(lines, fault)
            return
        if self.lost:
            self._report(f"{self._name}: the log goes on after {self.lost} lost lines")
            self.lost = 0

    def lose(self, lines: Sequence[bytes], fault: BaseException) -> None:
        """Reports why lines are lost, unless those before them were."""
        lost, self.lost = self.lost, self.lost + len(lines)
        if not lost:
            self.warn(str(getattr(fault, "strerror", None) or repr(fault)))

    def warn(self, reason: str) -> None:
        """Reports why lines are lost from now on."""
        self._report(f"{self._name}: {reason}; the log goes on when it can be written again")

    def _write(self, data: bytes) -> None:
        self.open()
        assert self._file is not None
        if self._is_moved() or (self._size() and self._size() + len(data) > self._most_bytes):
            self._begin_anew()
        before, left = self._size(), data
        try:
            while left:
                left = left[self._file.write(left) or 0:]
        except BaseException:
            # Half a line would make the rest unreadable.
            os.ftruncate(self._file.fileno(), before)
            raise

    def _size(self) -> int:
        assert self._file is not None
        return os.fstat(self._file.fileno()).st_size

    def _is_moved(self) -> bool:
        """Whether somebody has renamed or removed the file."""
        assert self._file is not None
        try:
            return not os.path.samestat(os.stat(self._name), os.fstat(self._file.fileno()))
        except FileNotFoundError:
            return True

    def _begin_anew(self) -> None:
        if not self._is_moved():
            os.replace(self._name, f"{self._name}.1")
        self.close()
        self.open()

    def close(self) -> None:
        """Closes it. Raises OSError if the disk hasn't taken all that it was given; it is closed then, too."""
        file, self._file = self._file, None
        if file is not None:
            file.close()

    def end(self) -> None:
        """Closes it, and reports what is lost by that."""
        try:
            self.close()
        except OSError as fault:
            self._report(f"{self._name}: {fault.strerror}; the end of the log may be lost")


class LogWriter:
    """Writes lines to a log's file in a thread of its own, since a disk may hang. What it doesn't take then is lost."""

    def __init__(self, file: LogFile, most_waiting: int = MOST_WAITING_BYTES) -> None:
        self._file = file
        self._most_waiting = most_waiting
        self._lines: List[bytes] = []
        # How many bytes these have, and those that are being written.
        self._waiting = 0
        self._missed = 0
        self._is_over = False
        self._changed = threading.Condition()
        self._thread = threading.Thread(target=self._run, name="log", daemon=True)
        self._thread.start()

    def add(self, lines: Sequence[bytes]) -> None:
        """Has lines written: all of them, or none. It waits for nothing."""
        size = sum(map(len, lines))
        with self._changed:
            if self._missed or self._waiting + size > self._most_waiting:
                if not self._missed:
                    self._file.warn("the disk hangs")
                self._missed += len(lines)
                return
            self._lines += lines
            self._waiting += size
            self._changed.notify()

    def end(self, seconds: float) -> None:
        """Writes what is left, but waits only so long."""
        with self._changed:
            self._is_over = True
            self._changed.notify()
        self._thread.join(seconds)

    def _run(self) -> None:
        while True:
            with self._changed:
                self._changed.wait_for(lambda: self._lines or self._is_over)
                lines, self._lines = self._lines, []
            if not lines:
                return self._file.end()
            try:
                self._file.add(lines)
            except Exception as fault:  # Whatever it is, it mustn't cost the lines that come later.
                self._file.lose(lines, fault)
            with self._changed:
                self._waiting -= sum(map(len, lines))
                self._file.lost += self._missed
                self._missed = 0
