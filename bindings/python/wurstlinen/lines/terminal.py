"""A serial device that is opened only for this process."""
from __future__ import annotations

import errno
import fcntl
import io
import os
import select
import termios
import weakref
from typing import Optional

from ..line import LineBusy, LineFailed
from .alarm import Alarm, Ended
from .locks import Folder, LockFile, user_of

LOCK_FOLDER = "/var/lock"
READ_BYTES = 4096
# Linux has it since 3.8, and Python doesn't name it.
TIOCGEXCL = 0x80045440


class Terminal:
    """An open serial device: raw, 115,200 baud, locked against other programs. One that fails is closed.

    The lock is a file LCK..NAME in the lock folder, as OLA has it, and beside it TIOCEXCL and a flock on the device,
    which also keeps root out. NAME is the device's own, even if the path is a link to it: OLA searches /dev for the
    devices themselves. A terminal that nobody uses any more is closed.
    """

    def __init__(self, path: str, lock_folder: Folder = LOCK_FOLDER) -> None:
        self._alarm = Alarm()
        self._device = _Device(path, lock_folder)
        weakref.finalize(self, self._device.close)
        try:
            self._device.open()
        except (OSError, termios.error) as error:
            failure = self._closed(f"{path} can't be opened: {_reason(error)}")
            # Who has it made it exclusive, and has no lock file.
            if getattr(error, "errno", None) == errno.EBUSY:
                failure = busy(path) or LineBusy(f"{failure}; if no program uses it, plug it in again, or start the "
                                                  "rig again")
            raise failure from error
        except BaseException:
            self.close()
            raise

    @property
    def is_open(self) -> bool:
        """Whether the device is still there, according to past reads and writes."""
        return self._device.descriptor >= 0

    @property
    def is_there(self) -> bool:
        """Whether the device is still there, according to the system."""
        descriptor = self._device.descriptor
        if descriptor < 0:
            return False
        ready = select.poll()
        # The system reports a device that is gone, whatever else is asked for.
        ready.register(descriptor, 0)
        return not ready.poll(0)

    def close(self) -> None:
        """Closes the device, and removes its lock file."""
        self._device.close()

    def interrupt(self) -> None:
        """Ends a read of another thread, and all later ones. The terminal is still to be closed."""
        self._alarm.ring()

    def write(self, data: bytes) -> None:
        """Writes all of it or fails, since half a message would make the other side lose its framing."""
        try:
            written = os.write(self._device.descriptor, data)
        except OSError as error:
            raise self._closed(f"the device took no message: {_reason(error)}") from error
        if written != len(data):
            raise self._closed(f"the device took {written} of {len(data)} bytes of a message")

    def read_until(self, end: float) -> bytes:
        """The next bytes that come before the time `end` of `time.monotonic`; none if none come."""
        if not self.is_open:
            raise LineFailed("the device was closed")
        try:
            has_come = self._alarm.wait(self._device.descriptor, select.POLLIN, end)
        except Ended:
            raise LineFailed("the device was closed") from None
        return self._read() if has_come else b""

    def _read(self) -> bytes:
        try:
            data = os.read(self._device.descriptor, READ_BYTES)
        except BlockingIOError:
            return b""
        except OSError as error:
            raise self._closed(f"the device can't be read: {_reason(error)}") from error
        if not data:
            raise self._closed("the device is gone")
        return data

    def _closed(self, why: str) -> LineFailed:
        """Closes the device, and returns the exception to raise."""
        self.close()
        return LineFailed(why)


class _Device:
    """What a terminal holds until it is closed."""

    def __init__(self, path: str, lock_folder: Folder) -> None:
        self._path = path
        self._lock = LockFile(os.path.join(lock_folder, f"LCK..{os.path.basename(os.path.realpath(path))}"), path)
        self._process = os.getpid()
        self._is_exclusive = False
        # It is closed by itself if an exception leaves it behind.
        self._file: Optional[io.FileIO] = None

    @property
    def descriptor(self) -> int:
        """The open device; -1 if it isn't open."""
        return -1 if self._file is None or self._file.closed else self._file.fileno()

    def open(self) -> None:
        """Takes all locks; what an exception leaves is released by `close`."""
        self._lock.take()
        flags = os.O_RDWR | os.O_NOCTTY | os.O_NONBLOCK | os.O_CLOEXEC
        self._file = io.FileIO(self._path, "rb", opener=lambda path, _: os.open(path, flags))
        try:
            fcntl.flock(self.descriptor, fcntl.LOCK_EX | fcntl.LOCK_NB)
        except BlockingIOError:
            raise LineBusy(f"{self._path} is used by another program") from None
        # Root isn't kept out, and olad's lock file has the name of a link.
        other = busy(self._path) if _is_exclusive(self.descriptor) else None
        if other is not None:
            raise other
        _make_raw(self.descriptor)
        self._is_exclusive = True
        fcntl.ioctl(self.descriptor, termios.TIOCEXCL)

    def close(self) -> None:
        """Releases it. After an interrupt another call goes on.

        What a fork has copied is closed, and stays its parent's.
        """
        try:
            self._let_others_open()
        finally:
            try:
                # If an interrupt came just before.
                self._let_others_open()
            finally:
                if self._file is not None:
                    self._file.close()
                self._lock.release()

    def _let_others_open(self) -> None:
        if self.descriptor >= 0 and self._is_exclusive and self._process == os.getpid():
            _unlock_terminal(self.descriptor)
            self._is_exclusive = False


def _is_exclusive(descriptor: int) -> bool:
    """Whether somebody has the terminal to itself, or had it."""
    try:
        return any(fcntl.ioctl(descriptor, TIOCGEXCL, bytes(4)))
    except OSError:
        return False


def busy(path: str) -> Optional[LineBusy]:
    """The exception for a device that another process has open, if one is known that has."""
    user = user_of(path)
    return LineBusy(f"{path} is used by {user}", user) if user else None


def _make_raw(descriptor: int) -> None:
    """Turns off all flags except the receiver and 8 data bits."""
    control = termios.tcgetattr(descriptor)[6]
    # A blocking read waits for at least one byte, so no bytes mean that the device is gone.
    control[termios.VMIN] = 1
    control[termios.VTIME] = 0
    flags = [0, 0, termios.CREAD | termios.CS8, 0, termios.B115200, termios.B115200, control]
    termios.tcsetattr(descriptor, termios.TCSANOW, flags)


def _unlock_terminal(descriptor: int) -> None:
    """Lets others open the device again: the kernel resets this only at the last close."""
    try:
        fcntl.ioctl(descriptor, termios.TIOCNXCL)
    except OSError:
        pass


def _reason(error: Exception) -> str:
    """The system's text for an error, without its number."""
    return getattr(error, "strerror", None) or str(error.args[-1] if error.args else error)
