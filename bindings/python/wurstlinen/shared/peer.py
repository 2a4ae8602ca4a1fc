"""A server's end of one connection."""
from __future__ import annotations

import contextlib
import socket
import time
from collections import deque
from typing import Deque, List, Optional, Set

from .lane import Lane
from .place import peer_of
from .words import MOST_ID, MOST_LINE_BYTES, BadRequest, Keys, Lines, is_number, line_of

READ_BYTES = 4096
# Above this, nothing more is read from a program that doesn't read, and no event is kept for it.
MOST_UNREAD_BYTES = 1 << 16
# How long a program may read nothing of what waits for it, and how long one has to begin.
STALL_SECONDS = 30.0
HELLO_SECONDS = 5.0
# How long the last words to a program that is refused may take.
FAREWELL_SECONDS = 2.0
MOST_FAULTS = 16


class Peer:
    """A program that is connected. What it does wrong ends it alone."""

    def __init__(self, connection: socket.socket) -> None:
        connection.setblocking(False)
        self.connection = connection
        self.lane: Optional[Lane] = None
        # What it asks for, and its hello, which is answered when a client of the queue is free.
        self.held: Deque[bytes] = deque()
        self.hello: Optional[Keys] = None
        # How many of its requests were refused, one after another.
        self.faults = 0
        # The events of its connection that the server waits for.
        self.watched = 0
        self.subscribed: Set[str] = set()
        # What it calls itself, and its process.
        self.name = ""
        self.process = peer_of(connection)[0]
        self.has_paused = False
        self.is_over = False
        # Nothing more is read from it, and it is over when it has read what waits for it.
        self.is_leaving = False
        self._lines = Lines(MOST_LINE_BYTES)
        self._unread = bytearray()
        self._missed = 0
        self._deadline: Optional[float] = time.monotonic() + HELLO_SECONDS

    @property
    def listens(self) -> bool:
        """Whether it is answered now: it reads what it gets, and its hello doesn't wait."""
        return not self.is_leaving and self.hello is None and len(self._unread) < MOST_UNREAD_BYTES

    @property
    def reads(self) -> bool:
        """Whether more requests are read from it now."""
        return self.listens and not self.held

    @property
    def asks(self) -> bool:
        """Whether a request of its own can be answered now."""
        return self.listens and bool(self.held)

    @property
    def writes(self) -> bool:
        """Whether something waits for it."""
        return bool(self._unread)

    def read(self) -> List[bytes]:
        """The lines that have come. Raises BadRequest for one that is too long."""
        try:
            data = self.connection.recv(READ_BYTES)
        except (BlockingIOError, InterruptedError):
            return []
        except OSError:
            data = b""
        if not data:
            self.is_over = True
            return []
        return self._lines.add(data)

    def say(self, keys: Keys) -> None:
        """Has an answer sent to it."""
        if not self._unread and self.lane is not None:
            self._deadline = time.monotonic() + STALL_SECONDS
        self._unread += line_of(keys)
        self.write()

    def tell(self, event: Keys) -> None:
        """Has an event sent to it, unless too much waits for it already."""
        if self.lane is None or self.is_leaving:
            return
        if len(self._unread) >= MOST_UNREAD_BYTES:
            self._missed += 1
            return
        if self._missed:
            missed, self._missed = self._missed, 0
            self.say({"event": "missed", "count": missed})
        self.say(event)

    def refuse(self, fault: BadRequest, request: Optional[Keys] = None) -> None:
        """Says why a request is refused. Whoever is refused too often has to leave."""
        self.faults += 1
        self.say({**id_of(request), "error": fault.name, "text": str(fault)})
        if self.faults >= MOST_FAULTS:
            self.leave(BadRequest(f"{MOST_FAULTS} requests were refused, one after another", "TooManyFaults"))

    def leave(self, fault: BadRequest, request: Optional[Keys] = None) -> None:
        """Nothing more is read from it. It gets what waits for it, and the reason."""
        if self.is_leaving:
            return
        self.is_leaving = True
        self.say({**id_of(request), "error": fault.name, "text": str(fault)})
        self._deadline = time.monotonic() + FAREWELL_SECONDS
        self.is_over = self.is_over or not self._unread

    def write(self) -> None:
        """Sends what it takes now."""
        try:
            sent = self.connection.send(self._unread)
        except (BlockingIOError, InterruptedError):
            return
        except OSError:
            self.is_over = True
            return
        del self._unread[:sent]
        if self.lane is not None and not self.is_leaving:
            self._deadline = time.monotonic() + STALL_SECONDS if self._unread else None
        self.is_over = self.is_over or (self.is_leaving and not self._unread)

    def welcome(self, lane: Lane) -> None:
        """It has a client of the queue from now on."""
        lane.owner = self
        self.lane, self.hello, self._deadline = lane, None, None

    def is_late(self, now: float) -> bool:
        """Whether its time is over: to begin, to read, or to leave."""
        return self._deadline is not None and now >= self._deadline

    def close(self) -> None:
        """Closes the connection, and gives its client of the queue back."""
        self.connection.close()
        if self.lane is not None:
            self.lane.owner = None
            self.lane = None


def id_of(request: Optional[Keys]) -> Keys:
    """The part of an answer that says which request it answers."""
    found = None if request is None else request.get("id")
    return {"id": found} if is_number(found, MOST_ID) else {}


def refuse_waiting(listener: socket.socket, fault: BadRequest) -> None:
    """Tells those that have connected, and weren't accepted, why they aren't served."""
    listener.setblocking(False)
    # The last accept fails: nobody is left, or the socket has never listened.
    with contextlib.suppress(OSError):
        while True:
            peer = Peer(listener.accept()[0])
            peer.leave(fault)
            peer.close()
