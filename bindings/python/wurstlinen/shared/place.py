"""Where the socket of a line's server is, and what has to hold of it before somebody uses it.

It is in the folder `wurstlinen` of the user's runtime folder, or else in one of the user's own below /tmp. A line that
a group shares has it in /run/wurstlinen.
"""
from __future__ import annotations

import os
import stat
import time
from typing import TYPE_CHECKING, FrozenSet, Optional, Tuple

from ..line import LineFailed
from ..lines.opening import is_device

if TYPE_CHECKING:
    import _socket

FOLDER = "wurstlinen"
RUNTIME_VARIABLE = "XDG_RUNTIME_DIR"
# Only root makes folders there.
SYSTEM_FOLDER = f"/run/{FOLDER}"
TEMPORARY_FOLDER = "/tmp"
# Where udev links names to the devices that have them.
BY_ID = "/dev/serial/by-id"
# A socket's address has so many bytes, and a zero.
MOST_PATH_BYTES = 107
OWN_MODE = 0o700
MODE_BITS = 0o777
WRITERS = 0o022
DIGITS = 16
# What systemd leaves as it is, besides letters and digits.
PLAIN = b":_."
ROOT = 0
SECONDS_TO_CONNECT = 5.0
AGAIN_SECONDS = 0.01


class BadPlace(LineFailed):
    """A folder or a socket isn't what it should be, so it isn't used."""


def canonical(text: str) -> str:
    """A line's text, the same for each way to name that line."""
    kind, _, rest = ("enttec", "", text) if is_device(text) else text.partition(":")
    if kind not in ("enttec", "rig", "text"):
        return text
    names = rest.split(",") if kind == "text" else [rest]
    return f"{kind}:{','.join(stable_name(name) if kind == 'enttec' else os.path.realpath(name) for name in names)}"


def stable_name(device: str) -> str:
    """The name that an adapter keeps if it is unplugged and gets another number, if it has one."""
    path, real = os.path.abspath(device), os.path.realpath(device)
    if os.path.dirname(path) == BY_ID:
        return path
    try:
        links = sorted(os.path.join(BY_ID, name) for name in os.listdir(BY_ID))
    except OSError:
        links = []
    return next((link for link in links if os.path.realpath(link) == real), real)


def path_of(folder: str, line: str) -> str:
    """The socket of a line. bindings/python/SERVER.md has the rule for its name."""
    kind, _, rest = canonical(line).partition(":")
    if kind == "exec":
        # What a command does depends on its folder.
        here = os.stat(".")
        rest = f"{here.st_dev}:{here.st_ino}:{rest}"
    name = escaped(rest.strip("/")) if kind == "enttec" else f"{kind}@{escaped(rest)}"
    path = os.path.join(folder, f"{name}.socket")
    if len(os.fsencode(path)) > MOST_PATH_BYTES:
        # Few lines need a checksum.
        import hashlib
        path = os.path.join(folder, f"{kind}@{hashlib.sha256(os.fsencode(rest)).hexdigest()[:DIGITS]}.socket")
    return path


def escaped(text: str) -> str:
    """A text as `systemd-escape` writes it."""
    return "".join(escaped_byte(byte) for byte in os.fsencode(text))


def escaped_byte(byte: int) -> str:
    """The same of a byte."""
    if byte in PLAIN or (chr(byte).isascii() and chr(byte).isalnum()):
        return chr(byte)
    return "-" if byte == ord("/") else f"\\x{byte:02x}"


def own_folder() -> str:
    """The user's folder for sockets."""
    runtime = os.environ.get(RUNTIME_VARIABLE, "")
    try:
        found = os.stat(runtime)
        if os.path.isabs(runtime) and found.st_uid == os.geteuid() and not found.st_mode & WRITERS:
            return os.path.join(runtime, FOLDER)
    except (OSError, ValueError):
        pass
    return os.path.join(TEMPORARY_FOLDER, f"{FOLDER}-{os.geteuid()}")


def check_folder(folder: str) -> FrozenSet[int]:
    """The users whose servers may be in a folder that is there. Raises BadPlace and OSError."""
    found = os.lstat(folder)
    if not stat.S_ISDIR(found.st_mode):
        raise BadPlace(f"{folder} isn't used: it is no folder")
    if folder == SYSTEM_FOLDER:
        if found.st_mode & WRITERS:
            raise BadPlace(f"{folder} isn't used: others may write to it")
        return frozenset((os.geteuid(), ROOT, found.st_uid))
    if found.st_uid != os.geteuid() or found.st_mode & MODE_BITS != OWN_MODE:
        raise BadPlace(f"{folder} isn't used: it isn't this user's own, with mode 0700")
    return frozenset((os.geteuid(), ROOT))


def check_socket(path: str) -> None:
    """Raises BadPlace if something else than a socket is there, and OSError if nothing is."""
    mode = os.lstat(path).st_mode
    if not stat.S_ISSOCK(mode):
        raise BadPlace(f"{path} isn't used: it is {'a link' if stat.S_ISLNK(mode) else 'no socket'}")


def may_be_served(line: str) -> bool:
    """Whether there is something where the socket of a line's server would be."""
    return any(os.path.lexists(path_of(folder, line)) for folder in (own_folder(), SYSTEM_FOLDER))


def connected(line: str) -> Optional[_socket.socket]:
    """A connection to the server of a line; None if there is none. Raises BadPlace."""
    for folder in (own_folder(), SYSTEM_FOLDER):
        try:
            users, path = check_folder(folder), path_of(folder, line)
            check_socket(path)
            return _connected(path, users)
        except (FileNotFoundError, NotADirectoryError, ConnectionRefusedError):
            continue
        except OSError as fault:
            raise BadPlace(f"{folder}: {fault.strerror or fault}") from None
    return None


def _connected(path: str, users: FrozenSet[int]) -> _socket.socket:
    # It does the work of `socket`, which takes longer to load than the rest of the connection: it names all constants.
    import _socket
    found = _socket.socket(_socket.AF_UNIX)
    try:
        _connect(found, path)
        if user_of(found) not in users:
            raise BadPlace(f"{path} isn't used: another user's program has it")
        return found
    except BaseException:
        found.close()
        raise


def _connect(connection: _socket.socket, path: str) -> None:
    """Connects, as soon as the server has accepted those that came before."""
    until = time.monotonic() + SECONDS_TO_CONNECT
    connection.setblocking(False)
    while True:
        try:
            connection.connect(path)
            return
        except BlockingIOError:
            if time.monotonic() >= until:
                raise BadPlace(f"{path} isn't used: too many programs connect to it") from None
        time.sleep(AGAIN_SECONDS)


def user_of(connection: _socket.socket) -> int:
    """The number of the user whose program is at the other end."""
    return peer_of(connection)[1]


def peer_of(connection: _socket.socket) -> Tuple[int, int]:
    """The numbers of the process at the other end, and of its user."""
    import _socket
    import struct
    form = struct.Struct("3i")
    process, user, _ = form.unpack(connection.getsockopt(_socket.SOL_SOCKET, _socket.SO_PEERCRED, form.size))
    return process, user
