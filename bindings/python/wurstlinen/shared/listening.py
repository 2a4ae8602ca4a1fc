"""The socket of a line's server: made by the server itself, or passed to it by systemd."""
from __future__ import annotations

import contextlib
import fcntl
import grp
import os
import re
import socket
import stat
from pathlib import Path
from typing import FrozenSet, Iterator, Optional

from .peer import refuse_waiting
from .place import (
    MOST_PATH_BYTES, OWN_MODE, ROOT, SYSTEM_FOLDER, BadPlace, check_folder, check_socket, own_folder, path_of,
)
from .words import BadRequest

GROUP_MODE = 0o750
SOCKET_MODE = 0o600
SOCKET_GROUP_MODE = 0o660
MOST_NUMBER_BYTES = 32
FIRST_PASSED = 3


def made_folder(group: Optional[int]) -> Path:
    """The folder for the socket of a server. Raises BadPlace and OSError."""
    folder = own_folder() if group is None else SYSTEM_FOLDER
    try:
        os.mkdir(folder, OWN_MODE)
        if group is not None:
            os.chown(folder, -1, group)
        # Whatever the umask is.
        os.chmod(folder, OWN_MODE if group is None else GROUP_MODE)
    except FileExistsError:
        pass
    check_folder(folder)
    if group is not None:
        check_group(folder, group)
    return Path(folder)


def check_group(folder: str, group: int) -> None:
    """Raises BadPlace if a folder that is there keeps a group out."""
    found = os.lstat(folder)
    can_enter = found.st_gid == group and found.st_mode & stat.S_IXGRP
    if not can_enter and not found.st_mode & stat.S_IXOTH:
        raise BadPlace(f"{folder} isn't used: it isn't the group {grp.getgrgid(group).gr_name}'s, with mode 0750")


def group_number(name: str) -> int:
    """The number of a group. Raises BadPlace."""
    try:
        return grp.getgrnam(name).gr_gid
    except KeyError:
        raise BadPlace(f"there is no group {name}") from None


class Passed:
    """The socket that systemd has passed, which stays when the server ends. Raises BadPlace for a wrong one."""

    # Its mode lets programs in.
    users: Optional[FrozenSet[int]] = None

    def __init__(self, listener: socket.socket) -> None:
        listens = listener.getsockopt(socket.SOL_SOCKET, socket.SO_ACCEPTCONN)
        if listener.family != socket.AF_UNIX or listener.type != socket.SOCK_STREAM or not listens:
            raise BadPlace("the socket that systemd passes isn't one that listens on a path")
        self.listener = listener

    def listen(self) -> None:
        """It listens already."""

    def leave(self) -> None:
        """For who waits, systemd starts another server."""

    def close(self) -> None:
        """Closes it here."""
        self.listener.close()


class Place:
    """The socket of a line's server, for as long as it runs. Two servers of a line can't both have it.

    Before it listens, and when the server leaves it, nobody finds it.
    """

    def __init__(self, line: str, group: Optional[str] = None) -> None:
        self._line = line
        self._group = None if group is None else group_number(group)
        self.path = Path(path_of(str(made_folder(self._group)), line))
        if len(os.fsencode(self.path)) > MOST_PATH_BYTES:
            raise BadPlace(f"{self.path} is longer than the {MOST_PATH_BYTES} bytes that a socket's name may have")
        self._lock = _locked(self.path.with_suffix(".lock"), line)
        try:
            self._make_room()
            self.listener = socket.socket(socket.AF_UNIX)
        except BaseException:
            os.close(self._lock)
            raise
        try:
            self._bind()
            self._made = os.lstat(self.path)
        except BaseException:
            self._unbind()
            os.close(self._lock)
            raise

    def _make_room(self) -> None:
        """Removes the socket of a server that has died. Raises BadPlace for one that somebody listens on."""
        try:
            check_socket(str(self.path))
            # A server that systemd has started has no lock, and systemd has none.
            if is_listened_on(self.path):
                raise BadPlace(f"{self._line} is served already: another program listens on {self.path}")
            self.path.unlink()
        except FileNotFoundError:
            pass

    def _bind(self) -> None:
        # Its name gets at most this mode from the start. To set a umask would set that of all threads.
        os.fchmod(self.listener.fileno(), SOCKET_MODE)
        self.listener.bind(str(self.path))
        if self._group is not None:
            os.chown(self.path, -1, self._group)
        os.chmod(self.path, SOCKET_MODE if self._group is None else SOCKET_GROUP_MODE)

    def _unbind(self) -> None:
        """Closes the socket, and removes its name if it has one."""
        with contextlib.suppress(OSError):
            if self.listener.getsockname():
                self.path.unlink()
        self.listener.close()

    @property
    def users(self) -> Optional[FrozenSet[int]]:
        """Whose programs may connect; None: whom the socket's mode lets in."""
        return frozenset((os.geteuid(), ROOT)) if self._group is None else None

    def listen(self) -> None:
        """Programs can connect from now on."""
        self.listener.listen()

    def leave(self) -> None:
        """Removes the socket, unless it is another server's now. Programs that have connected get an error."""
        with contextlib.suppress(OSError):
            if os.path.samestat(os.lstat(self.path), self._made):
                self.path.unlink()
        refuse_waiting(self.listener, BadRequest("the server ends", "Closed"))

    def close(self) -> None:
        """Leaves it."""
        self.leave()
        self.listener.close()
        os.close(self._lock)


def is_listened_on(path: Path) -> bool:
    """Whether somebody listens on a socket. Raises FileNotFoundError."""
    with socket.socket(socket.AF_UNIX) as trying:
        trying.setblocking(False)
        try:
            trying.connect(str(path))
        except FileNotFoundError:
            raise
        except ConnectionRefusedError:
            return False
        except OSError:
            # Too many want to connect, or it is a socket of another kind.
            pass
        return True


def _locked(path: Path, line: str) -> int:
    """A lock that only one process has, with its number inside. Raises BadPlace."""
    descriptor = os.open(path, os.O_RDWR | os.O_CREAT | os.O_NOFOLLOW | os.O_CLOEXEC, SOCKET_MODE)
    try:
        fcntl.flock(descriptor, fcntl.LOCK_EX | fcntl.LOCK_NB)
        os.truncate(descriptor, 0)
        os.write(descriptor, f"{os.getpid()}\n".encode())
    except BlockingIOError:
        process = os.read(descriptor, MOST_NUMBER_BYTES).decode(errors="replace").strip()
        os.close(descriptor)
        raise BadPlace(f"{line} is served by process {process or 'that begins now'}") from None
    except BaseException:
        os.close(descriptor)
        raise
    return descriptor


def activated() -> Iterator[socket.socket]:
    """The listening sockets that systemd has passed to this process."""
    count = os.environ.pop("LISTEN_FDS", "")
    process = os.environ.pop("LISTEN_PID", "")
    os.environ.pop("LISTEN_FDNAMES", None)
    if process != str(os.getpid()) or not re.fullmatch("[0-9]{1,4}", count):
        return
    for descriptor in range(FIRST_PASSED, FIRST_PASSED + int(count)):
        os.set_inheritable(descriptor, False)
        yield socket.socket(fileno=descriptor)

