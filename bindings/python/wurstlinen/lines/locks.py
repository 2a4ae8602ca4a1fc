"""The lock file LCK..NAME of a serial device, as OLA and other programs have it.

Its owner also holds a flock on it for as long as it lives. So the number in it decides only about locks of other
programs, and two processes that find the same stale lock can't both remove it.
"""
from __future__ import annotations

import contextlib
import errno
import fcntl
import io
import os
import re
import stat
from typing import List, Optional, Union

from ..line import LineBusy, LineFailed

# Where lock files are.
Folder = Union[str, "os.PathLike[str]"]
# The number of the owner's process, ten characters wide, and a newline.
LOCK_FORMAT = "{:10d}\n"
MODE_OF_LOCK = 0o644
MOST_LOCK_BYTES = 32
PROCESS = rb"\s*0*([1-9][0-9]*)\s*"
# A lock that is in the way may be stale, and another one may have come when it is removed.
TRIES = 3


class LockFile:
    """The lock file at a path, for the device that its name stands for."""

    def __init__(self, path: str, device: str) -> None:
        self._path = path
        self._device = device
        self._process = os.getpid()
        # It is closed by itself if an exception leaves it behind.
        self._file: Optional[io.FileIO] = None
        # Names beside the lock's own, for as long as there is a file of that name.
        self._asides: List[str] = []

    def take(self) -> None:
        """Makes the file, or replaces a stale one; `LineFailed` if the device is used, or if that can't be known."""
        # The file is complete before it has the lock's name, so nobody finds it empty.
        own = self._aside()
        try:
            self._write(own)
            self._link(own)
        except OSError as error:
            raise LineFailed(f"{self._path} can't be made: {error.strerror}") from error
        finally:
            self._tidy()

    def release(self) -> None:
        """Removes the file, unless it is another's by now, or was taken by the process that this one was forked from.

        A file that can't be removed is a stale lock later.
        """
        # An exception may have come before the end of `take`.
        self._tidy()
        if self._file is None or self._file.closed:
            return
        try:
            if self._process == os.getpid() and self._is_at_path(os.fstat(self._file.fileno())):
                os.unlink(self._path)
        except OSError:
            pass
        # Not before: after an interrupt another call goes on.
        self._file.close()

    def _write(self, own: str) -> None:
        flags = os.O_WRONLY | os.O_CREAT | os.O_EXCL | os.O_CLOEXEC
        self._file = io.FileIO(own, "wb", opener=lambda path, _: os.open(path, flags, MODE_OF_LOCK))
        # Other users have to read it, whatever the umask is.
        os.fchmod(self._file.fileno(), MODE_OF_LOCK)
        _try_flock(self._file.fileno())
        text = LOCK_FORMAT.format(self._process).encode()
        if os.write(self._file.fileno(), text) != len(text):
            raise OSError(errno.ENOSPC, os.strerror(errno.ENOSPC))

    def _link(self, own: str) -> None:
        for _ in range(TRIES):
            try:
                os.link(own, self._path)
                return
            except FileExistsError:
                self._remove_stale()
        raise self._being_opened()

    def _remove_stale(self) -> None:
        """Removes a lock file whose process has ended; `LineFailed` if it hasn't, or if the file doesn't say."""
        try:
            found = _opened(self._path)
        except FileNotFoundError:
            return
        except OSError as error:
            raise self._unclear() from error
        with found:
            process = _process_in(found.fileno())
            if process is None:
                raise self._unclear()
            is_free = _try_flock(found.fileno())
            # A lock with this process's own number that nobody holds is from a process before.
            if _is_alive(process) and not (is_free and process == os.getpid()):
                holder = f"process {process}{_named(process)}"
                raise LineBusy(f"{self._device} is used by {holder}: {self._path}", holder)
            if not is_free:
                raise self._being_opened()
            self._move_away(os.fstat(found.fileno()))

    def _move_away(self, stale: os.stat_result) -> None:
        """Removes the stale lock, and no other that has come to its path."""
        if not self._is_at_path(stale):
            return
        aside = self._aside()
        try:
            os.rename(self._path, aside)
            if not os.path.samestat(os.lstat(aside), stale):
                os.link(aside, self._path, follow_symlinks=False)
                raise self._being_opened()
        except FileNotFoundError:
            pass
        finally:
            self._drop(aside)

    def _is_at_path(self, status: os.stat_result) -> bool:
        try:
            return os.path.samestat(os.lstat(self._path), status)
        except FileNotFoundError:
            return False

    def _aside(self) -> str:
        """A name that nobody else uses."""
        folder, name = os.path.split(self._path)
        aside = os.path.join(folder, f".{name}.{self._process}.{os.urandom(8).hex()}")
        self._asides.append(aside)
        return aside

    def _tidy(self) -> None:
        """Removes the files of all such names."""
        for aside in tuple(self._asides):
            self._drop(aside)

    def _drop(self, aside: str) -> None:
        with contextlib.suppress(FileNotFoundError):
            os.unlink(aside)
        self._asides.remove(aside)

    def _being_opened(self) -> LineFailed:
        return LineBusy(f"{self._device} is being opened by another program: {self._path}")

    def _unclear(self) -> LineFailed:
        return LineFailed(f"{self._path} can't be understood; remove it if no program uses {self._device}")


def _try_flock(descriptor: int) -> bool:
    """Takes a lock of the kernel on a file, if nobody has it. Where there is none, it is free."""
    try:
        fcntl.flock(descriptor, fcntl.LOCK_EX | fcntl.LOCK_NB)
    except BlockingIOError:
        return False
    except OSError:
        pass
    return True


def _opened(path: str) -> io.FileIO:
    """What has a lock's name. It may be anything, so it isn't waited for, and no link is followed."""
    flags = os.O_RDONLY | os.O_NOFOLLOW | os.O_NONBLOCK | os.O_CLOEXEC
    return io.FileIO(path, "rb", opener=lambda name, _: os.open(name, flags))


def _process_in(descriptor: int) -> Optional[int]:
    """The process that a lock file names; None if it names none."""
    text = b""
    if stat.S_ISREG(os.fstat(descriptor).st_mode):
        text = os.read(descriptor, MOST_LOCK_BYTES + 1)
    match = re.fullmatch(PROCESS, text)
    return None if match is None or len(text) > MOST_LOCK_BYTES else int(match[1])


def _is_alive(process: int) -> bool:
    try:
        os.kill(process, 0)
    except OSError as error:
        return error.errno != errno.ESRCH
    except OverflowError:
        return False
    return True


def _named(process: int) -> str:
    """What a process calls itself, in brackets, if the system says it."""
    name = name_of(process)
    return f" ({name})" if name else ""


def name_of(process: int) -> str:
    """What a process calls itself; nothing if the system doesn't say it."""
    try:
        with open(f"/proc/{process}/comm", encoding="utf-8", errors="replace") as file:
            name = file.read().strip()
    except OSError:
        return ""
    return name if name.isprintable() else ""


def user_of(device: str) -> str:
    """Another process that has a device open; nothing if none is known. Who has the other end emulates it."""
    path = os.path.realpath(device)
    for process in map(int, filter(str.isdigit, os.listdir("/proc"))):
        files = _open_files(process)
        if process != os.getpid() and path in files and not any(name.endswith("/ptmx") for name in files):
            return f"process {process}{_named(process)}"
    return ""


def _open_files(process: int) -> List[str]:
    """What a process has open, as far as this one may know it."""
    found, folder = [], f"/proc/{process}/fd"
    with contextlib.suppress(OSError):
        for name in os.listdir(folder):
            with contextlib.suppress(OSError):
                found.append(os.readlink(f"{folder}/{name}"))
    return found


def holder_of(path: str) -> str:
    """What the process calls itself that a lock file names; nothing if that isn't known."""
    try:
        with _opened(path) as file:
            process = _process_in(file.fileno())
    except OSError:
        return ""
    return "" if process is None else name_of(process)
