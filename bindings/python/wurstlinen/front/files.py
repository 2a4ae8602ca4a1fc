"""Files that are written as a whole, or not at all, and how long the lines of a log may be."""
from __future__ import annotations

import contextlib
import errno
import os
import stat
from typing import Iterator, Optional, TextIO

# A little more than the longest line of a log, in bytes or characters.
MOST_LINE = 1 << 18
NEW_MODE = 0o666
PRIVATE_MODE = 0o600


class NewFile:
    """The text of a file. Nothing of it is there if it isn't written."""

    def __init__(self, file: TextIO, is_replaced: bool) -> None:
        self._file = file
        # Whether a file of this name has been there.
        self.is_replaced = is_replaced

    def write(self, text: str) -> None:
        """Writes the text, to the disk if it is a file there."""
        self._file.write(text)
        self._file.flush()
        if stat.S_ISREG(os.fstat(self._file.fileno()).st_mode):
            os.fsync(self._file.fileno())


@contextlib.contextmanager
def file_of(name: str, encoding: str = "utf-8", new_mode: int = NEW_MODE) -> Iterator[NewFile]:
    """A file for the duration of a `with`, which replaces a file of this name at its end, with its mode and owner.

    A new one has at most `new_mode`. What is no file on a disk, such as a device or a FIFO, is written to. Raises
    OSError, at once if there is no place.
    """
    if not name:
        raise FileNotFoundError(errno.ENOENT, os.strerror(errno.ENOENT), name)
    old = status_of(name)
    if old is not None and not stat.S_ISREG(old.st_mode):
        with open(name, "w", encoding=encoding) as file:
            yield NewFile(file, False)
        return
    path = os.path.realpath(name)
    made = os.path.join(os.path.dirname(path), f".wurstlinen.{os.urandom(8).hex()}")
    # A new file gets the usual mode from the system. Another one is nobody else's until it has the old one's mode.
    mode = new_mode if old is None else PRIVATE_MODE
    try:
        with open(made, "x", encoding=encoding, opener=lambda path, flags: os.open(path, flags, mode)) as file:
            if old is not None:
                take_mode(file.fileno(), old)
            yield NewFile(file, old is not None)
        os.replace(made, path)
    except BaseException:
        # An interrupt may come before it is there, or when it has its name already.
        with contextlib.suppress(FileNotFoundError):
            os.unlink(made)
        raise


def status_of(name: str) -> Optional[os.stat_result]:
    """What a name leads to, if it leads to anything."""
    try:
        return os.stat(name)
    except FileNotFoundError:
        return None


def take_mode(handle: int, old: os.stat_result) -> None:
    """Gives a new file the old one's mode and owner."""
    with contextlib.suppress(PermissionError):
        os.fchown(handle, old.st_uid, old.st_gid)
    os.fchmod(handle, stat.S_IMODE(old.st_mode))
