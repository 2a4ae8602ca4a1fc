"""A client's end of a connection to the server of a line."""
from __future__ import annotations

import contextlib
import json
import os
import select
import sys
import time
from collections import deque
from typing import Callable, Deque, Iterator, List, Optional, TypeVar

from .. import _faults
from .._faults import Fault
from .._turns import Turns
from ..line import LineBusy, LineFailed
from . import place
from .words import MOST_ANSWER_BYTES, MOST_NAME, VERSION, BadRequest, Keys, Lines, line_of

Made = TypeVar("Made")
READ_BYTES = 1 << 16
# A server that says nothing for this time is asked whether it is still there, and has so long to answer: a busy machine
# may let it stand still for ten seconds.
QUIET_SECONDS = 2.0
ANSWER_SECONDS = 30.0
MILLISECONDS = 1000
# SHUT_RDWR of the module socket, which a command doesn't load.
BOTH_DIRECTIONS = 2
# What a server says of itself, and of how things are.
HELLO = {"line": str, "source": str, "process": int, "depth": int, "paused": bool, "there": bool, "clients": int}
# What a server says, or does, to which the answer is to try again.
PASSING = ("Closed", "HasEnded", "NoHello", "TooManyClients", "TooManyConnections")


class NotServed(LineFailed):
    """No server runs for this line."""


class Refused(LineFailed):
    """The server refused a request, or the connection, for a reason that no exception of the queue stands for."""

    def __init__(self, name: str, text: str) -> None:
        super().__init__(f"the server of the line refused it: {text}")
        self.name = name


class HasEnded(LineFailed):
    """The server has ended the connection."""


class Connection:
    """Sends requests, and receives answers, results and events. Threads take turns.

    An exception that comes amid a request or an answer, such as an interrupt, ends the connection.
    """

    def __init__(self, line: str) -> None:
        found = place.connected(line)
        if found is None:
            raise NotServed(f"no server runs for {line}: 'wurstlinen serve --line {line}' starts one")
        self._line = line
        self._socket = found
        self._turns = Turns()
        self._lines = Lines(MOST_ANSWER_BYTES)
        self._objects: Deque[Keys] = deque()
        self._number = 0
        # Why the server has ended the connection, which is raised when all before it is taken.
        self._farewell: Optional[Refused] = None
        # What takes results and events, as they come.
        self.on_object: Callable[[Keys], None] = lambda keys: None
        try:
            self.hello = self._greeted()
        except BaseException:
            self.close()
            raise

    def _greeted(self) -> Keys:
        """The server's answer to hello. Raises LineBusy if it serves others, or ends: soon the line may be free."""
        try:
            return self.ask({"do": "hello", "version": VERSION, "name": name_of_program()}, hello_in)
        except (Refused, HasEnded, Fault) as fault:
            if (fault.name if isinstance(fault, Refused) else type(fault).__name__) not in PASSING:
                raise
            said = f"the server of {self._line} refused it: {fault}" if isinstance(fault, Fault) else str(fault)
            raise LineBusy(said, f"the server of {self._line}") from None

    def close(self) -> None:
        """Ends the connection. A call of another thread fails."""
        # Who waits for the server would go on to wait.
        with contextlib.suppress(OSError):
            self._socket.shutdown(BOTH_DIRECTIONS)
        self._socket.close()

    @property
    def is_closed(self) -> bool:
        """Whether it was closed here."""
        return self._socket.fileno() < 0

    def alone(self, work: Callable[[], Made]) -> Made:
        """Does something while no other thread sends or receives."""
        def done() -> Made:
            """What was made, unless an exception has come that isn't the server's."""
            try:
                return work()
            except (Fault, LineFailed):
                raise
            except BaseException:
                self.close()
                raise

        return self._turns.alone(done)

    def ask(self, request: Keys, read: Callable[[Keys], Made]) -> Made:
        """What `read` reads in the answer to a request. Raises the queue's faults, Refused and LineFailed."""
        def asked() -> Made:
            """The same."""
            answer = self._ask(request)
            with self.protocol():
                return read(answer)

        return self.alone(asked)

    @contextlib.contextmanager
    def protocol(self) -> Iterator[None]:
        """Ends the connection if what the server says isn't as the protocol has it. Then it raises LineFailed."""
        try:
            yield
        except (KeyError, TypeError, ValueError, RecursionError, BadRequest):
            self.close()
            raise self._lost("says what is no object of the protocol") from None

    def _ask(self, request: Keys) -> Keys:
        self._number += 1
        number = self._number
        self._send({**request, "id": number})
        until = time.monotonic() + ANSWER_SECONDS
        while True:
            found = self._next(until)
            if found is None:
                raise self._lost("doesn't answer")
            if found.get("id") == number:
                return checked(found)
            self._take(found)

    def receive(self, seconds: float) -> bool:
        """Takes what has come, and else waits so long for it. Whether something has come."""
        # Meanwhile other threads have their turns.
        if not self._objects and self._farewell is None:
            self._is_ready(time.monotonic() + seconds)
        return self.alone(self._receive)

    def _receive(self) -> bool:
        found = self._next(0.0)
        if found is None:
            return False
        self._take(found)
        while self._objects:
            self._take(self._objects.popleft())
        return True

    def wait(self) -> None:
        """Takes what comes next. Raises LineFailed if the server doesn't live any more."""
        if not self.receive(QUIET_SECONDS):
            self.ask({"do": "status"}, dict_of)

    def _take(self, keys: Keys) -> None:
        """An object that answers no request."""
        if "error" in keys:
            self._farewell = Refused(str(keys["error"]), str(keys.get("text")))
            return
        with self.protocol():
            self.on_object(keys)

    def _send(self, request: Keys) -> None:
        data = line_of(request)
        try:
            self._socket.settimeout(ANSWER_SECONDS)
            self._socket.sendall(data)
        except OSError:
            # What has come until then says why.
            while self._receive():
                pass
            raise HasEnded(f"the server of {self._line} has ended") from None

    def _next(self, until: float) -> Optional[Keys]:
        """The next object that comes before the time `until` of `time.monotonic`; None if none comes."""
        while not self._objects:
            if self._farewell is not None:
                raise self._farewell
            if not self._is_ready(until):
                return None
            try:
                self._socket.setblocking(False)
                data = self._socket.recv(READ_BYTES)
            except BlockingIOError:
                continue
            except OSError:
                data = b""
            if not data:
                raise HasEnded(f"the server of {self._line} has ended")
            self._objects.extend(self._read(data))
        return self._objects.popleft()

    def _is_ready(self, until: float) -> bool:
        # Another thread may close it at any time.
        descriptor = self._socket.fileno()
        if descriptor < 0:
            raise self._lost("isn't connected any more")
        ready = select.poll()
        ready.register(descriptor, select.POLLIN)
        return bool(ready.poll(max(0.0, until - time.monotonic()) * MILLISECONDS))

    def _read(self, data: bytes) -> List[Keys]:
        """The objects that these bytes complete."""
        with self.protocol():
            return [dict_of(json.loads(line)) for line in self._lines.add(data)]

    def _lost(self, why: str) -> LineFailed:
        return LineFailed(f"the server of {self._line} {why}")


def dict_of(value: object) -> Keys:
    """A value that is an object. Raises TypeError."""
    if not isinstance(value, dict):
        raise TypeError
    return value


def hello_in(keys: Keys) -> Keys:
    """An answer to hello. Raises KeyError and TypeError."""
    if any(type(keys[key]) is not kind for key, kind in HELLO.items()):
        raise TypeError
    return keys


def checked(answer: Keys) -> Keys:
    """An answer that is no fault. Raises the fault of the queue that it names, or Refused."""
    name = answer.get("error")
    if name is None:
        return answer
    kind = getattr(_faults, str(name), None)
    if isinstance(kind, type) and issubclass(kind, Fault):
        raise kind()
    raise Refused(str(name), str(answer.get("text")))


def name_of_program() -> str:
    """What this program is called."""
    return os.path.basename(sys.argv[0] if sys.argv else "")[:MOST_NAME]
