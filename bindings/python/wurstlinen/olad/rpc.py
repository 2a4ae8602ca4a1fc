"""Calls of OLA's daemon on the loopback interface (OLA 0.10.9, common/rpc and common/protocol/Ola.proto)."""
from __future__ import annotations

import contextlib
import socket
import struct
import time
from typing import Callable, List, NamedTuple, Optional, Sequence, Tuple, TypeVar

from .._turns import Turns
from ..line import LineFailed
from .wire import BadMessage, Fields, Fixed, Value, bytes_in, decode, encode, messages_in, number_in, text_in

Read = TypeVar("Read")
LOOPBACK = "127.0.0.1"
PORT = 9010
# A message has a header: in the highest four bits the version, then the size.
HEADER = struct.Struct("=I")
VERSION = 1
SIZE_BITS = 28
MOST_BYTES = 1 << 20
READ_BYTES = 1 << 16
REQUEST, RESPONSE, FAILED, DISCONNECT = 1, 2, 4, 6
CONNECT_SECONDS = 2.0
# How long olad may take: it does one thing after another, and a search of many fixtures takes its time.
CALL_SECONDS = 30.0
DISCOVERY_SECONDS = 300.0


class NoDaemon(LineFailed):
    """No olad listens."""


class Refused(LineFailed):
    """olad refused a call."""


class Port(NamedTuple):
    """An output port with RDM, and its universe, if it has one."""

    device: str
    text: str
    universe: Optional[int]


class Daemon:
    """A connection to olad. Raises NoDaemon, and LineFailed if a call fails. Threads take turns.

    What comes amid a call, such as an interrupt, ends the connection: the next answer would be read from its middle.
    """

    def __init__(self, port: int = PORT) -> None:
        try:
            self._socket = socket.create_connection((LOOPBACK, port), CONNECT_SECONDS)
        except OSError as fault:
            raise NoDaemon(f"olad doesn't listen on port {port}: {fault.strerror or fault}") from None
        self._turns = Turns()
        self._is_closed = False
        self._left = bytearray()
        self._number = 0

    def close(self) -> None:
        """Closes it. A call of another thread fails."""
        self._is_closed = True
        # Who waits for an answer would go on to wait.
        with contextlib.suppress(OSError):
            self._socket.shutdown(socket.SHUT_RDWR)
        self._socket.close()

    def universes(self) -> List[int]:
        """The numbers of its universes."""
        return self._call("GetUniverseInfo", [], universes_in)

    def ports(self) -> List[Port]:
        """Its output ports that have RDM."""
        return self._call("GetDeviceInfo", [], ports_in)

    def uids(self, universe: int) -> List[int]:
        """The devices that it knows in a universe."""
        return self._call("GetUIDs", [(1, universe)], uids_in)

    def discover(self, universe: int, is_full: bool) -> List[int]:
        """The devices that it finds in a universe now."""
        return self._call("ForceDiscovery", [(1, universe), (2, int(is_full))], uids_in, DISCOVERY_SECONDS)

    def request(self, universe: int, uid: int, sub_device: int, pid: int, data: bytes, is_set: bool) -> Fields:
        """The fields of the response to a GET or a SET."""
        return self._call("RDMCommand", [
            (1, universe), (2, encode([(1, uid >> 32), (2, Fixed(uid & 0xFFFFFFFF))])), (3, sub_device), (4, pid),
            (5, data), (6, int(is_set))], lambda fields: fields)

    def _call(self, name: str, fields: Sequence[Tuple[int, Value]], read: Callable[[Fields], Read],
              seconds: float = 0.0) -> Read:
        """What `read` reads in the answer to a call."""
        def called() -> Read:
            """The same, unless something comes amid the call."""
            try:
                return self._called(name, fields, read, seconds)
            except Refused:
                raise
            except BaseException:
                self.close()
                raise

        return self._turns.alone(called)

    def _called(self, name: str, fields: Sequence[Tuple[int, Value]], read: Callable[[Fields], Read],
                seconds: float) -> Read:
        if self._is_closed:
            raise self._ended()
        self._number += 1
        seconds = seconds or CALL_SECONDS
        message = encode([(1, REQUEST), (2, self._number), (3, name), (4, encode(fields))])
        until = time.monotonic() + seconds
        try:
            self._socket.settimeout(seconds)
            self._socket.sendall(HEADER.pack(VERSION << SIZE_BITS | len(message)) + message)
            return read(self._answer(until))
        except BadMessage as fault:
            raise LineFailed(f"what listens on olad's port isn't olad: {fault}") from None
        except socket.timeout:
            raise LineFailed(f"olad didn't answer within {seconds:g} seconds") from None
        except OSError as fault:
            raise self._ended(f": {fault.strerror or fault}") from None

    def _ended(self, why: str = "") -> LineFailed:
        """What is wrong with a connection that has ended."""
        return LineFailed("the connection to olad is closed" if self._is_closed else f"olad has ended{why}")

    def _answer(self, until: float) -> Fields:
        """The answer to the last call. Raises LineFailed, BadMessage and OSError."""
        while True:
            message = decode(self._next(until))
            kind = number_in(message, 1)
            if kind == DISCONNECT:
                raise self._ended(" the connection")
            if number_in(message, 2) != self._number:
                continue
            if kind == FAILED:
                raise Refused(f"olad refused it: {text_in(message, 4)}")
            if kind != RESPONSE:
                raise BadMessage(f"an answer of kind {kind}")
            return decode(bytes_in(message, 4))

    def _next(self, until: float) -> bytes:
        """The next message."""
        header, = HEADER.unpack(self._read(HEADER.size, until))
        size = header & (1 << SIZE_BITS) - 1
        if header >> SIZE_BITS != VERSION or size > MOST_BYTES:
            raise BadMessage("a wrong header")
        return self._read(size, until)

    def _read(self, size: int, until: float) -> bytes:
        while len(self._left) < size:
            self._socket.settimeout(max(0.001, until - time.monotonic()))
            data = self._socket.recv(READ_BYTES)
            if not data:
                raise self._ended(" the connection")
            self._left += data
        found = bytes(self._left[:size])
        del self._left[:size]
        return found


def universes_in(reply: Fields) -> List[int]:
    """The numbers of universes in a list of them."""
    return [number_in(each, 1) for each in messages_in(reply, 1)]


def ports_in(reply: Fields) -> List[Port]:
    """The output ports with RDM in a list of devices."""
    found = []
    for device in messages_in(reply, 1):
        name = text_in(device, 3)
        for port in (each for each in messages_in(device, 5) if number_in(each, 8)):
            universe = number_in(port, 3) if 3 in port else None
            found.append(Port(name, text_in(port, 5), universe))
    return found


def uids_in(reply: Fields) -> List[int]:
    """The UIDs in a list of them, ascending."""
    return sorted(number_in(each, 1) << 32 | number_in(each, 2) for each in messages_in(reply, 2))
