"""A client of a queue that a server has: the calls of `wurstlinen.Client`."""
from __future__ import annotations

import time
import weakref
from collections import deque
from types import TracebackType
from typing import Callable, Deque, Iterable, List, Optional, Set, Tuple, Type, Union, cast

from .._ask import DEFAULT_WAIT, Answer, Asker, Kept
from .._faults import OtherOutcome
from .._types import (
    BadUids, Completion, Device, Discovery, Kind, Outcome, OutcomeKind, Request, RequestClass, Uid, data_of, kind_of,
    pid_of, uid_of,
)
from ..line import Line, LineFailed
from .connection import Connection, NotServed, dict_of
from .words import (
    MOST_NUMBER, Keys, bad_uids_in, completion_of, devices_of, discovery_of, keys_of_request, number_in, uid_in)

KIND_WORDS = {Kind.FULL: "full", Kind.INCREMENTAL: "incremental"}
SLICE_SECONDS = 0.1


class ServersLine:
    """The line of a server, on which its clients make no exchanges themselves."""

    def exchange(self, frame: bytes) -> bytes:
        """Always fails."""
        raise LineFailed("the server makes the exchanges of this line")


class SharedQueue:
    """The queue of a line that a server has, as far as one of its clients has to do with it."""

    def __init__(self, line: str) -> None:
        self.connection = Connection(line)
        try:
            with self.connection.protocol():
                self._begin(self.connection.hello)
        except BaseException:
            self.connection.close()
            raise

    def _begin(self, hello: Keys) -> None:
        """Takes what the server says of itself."""
        # So that it isn't kept by this alone: who drops a client without closing it drops its connection too.
        own = weakref.ref(self)
        self.connection.on_object = lambda keys: taken_by(own(), keys)
        self.line = ServersLine()
        # What the server calls its line, the controller's UID, and how many requests may be outstanding.
        self.name = str(hello["line"])
        self.source = uid_in(hello["source"])
        self.process = int(hello["process"])
        # The number of the client that it lends to this one.
        self.number = int(hello.get("client", -1))
        self.holder = f"process {self.process} ({self.source})"
        self.depth = int(hello["depth"])
        self._is_paused = bool(hello["paused"])
        # Whether the server has its line, and why not.
        self.is_there = bool(hello["there"])
        self.reason = str(hello.get("reason", ""))
        self.outcomes: Deque[Outcome] = deque()
        self._bad_uids, self._bad_uids_run = BadUids(), 0
        self.outstanding: Set[Tuple[OutcomeKind, int]] = set()
        # What takes the frames that the server has sent, for any client, if this one has subscribed to them.
        self.on_frame: Callable[[Keys], None] = lambda keys: None
        # What is called with how many of these it didn't get, since it read too slowly.
        self.on_missed: Callable[[int], None] = lambda count: None
        # What is called with the reason why something of this client's failed to be sent.
        self.on_failure: Callable[[str], None] = lambda reason: None

    def _take(self, keys: Keys) -> None:
        """A result, or an event."""
        if "status" in keys:
            self._end(completion_of(keys), keys)
        elif "fault" in keys:
            found = discovery_of(keys)
            self._bad_uids, self._bad_uids_run = bad_uids_in(keys), found.run
            self._end(found, keys)
        elif keys.get("event") == "pause":
            self._is_paused = bool(keys["paused"])
        elif keys.get("event") == "line":
            self.is_there, self.reason = bool(keys["there"]), str(keys.get("reason", ""))
        elif keys.get("event") == "frame":
            self.on_frame(keys)
        elif keys.get("event") == "missed":
            self.on_missed(int(keys["count"]))

    def _end(self, outcome: Outcome, keys: Keys) -> None:
        self.outcomes.append(outcome)
        self.outstanding.discard((kind_of(outcome), outcome.number))
        # Whatever this raises, the outcome is there.
        if "reason" in keys:
            self.on_failure(str(keys["reason"]))

    def awaits_request(self, number: int) -> bool:
        """Whether a request is this client's, and hasn't ended. Its frames come before its result."""
        return (OutcomeKind.REQUEST, number) in self.outstanding

    def run(self, line: object = None) -> int:
        """Waits until all that is outstanding has ended, and returns how many outcomes have come.

        It returns earlier if the queue is paused, or if the server's adapter is unplugged.
        """
        before = len(self.outcomes)
        self.connection.receive(0.0)
        while self.outstanding and not self._is_paused and self.is_there:
            self.connection.wait()
        return len(self.outcomes) - before

    def _step(self, line: object) -> None:
        if not self.outcomes:
            self.connection.receive(SLICE_SECONDS)

    def _sleep(self, seconds: float) -> None:
        """Waits. Raises LineFailed when the server ends."""
        end = time.monotonic() + seconds
        while time.monotonic() < end:
            self.connection.receive(max(0.0, min(SLICE_SECONDS, end - time.monotonic())))

    def pause(self) -> None:
        """Has no run begun and no request sent until `resume`, or until this connection ends."""
        self._is_paused = self.connection.ask({"do": "pause"}, paused_in)

    def resume(self) -> None:
        """Has them sent again. Another operator may still have paused the queue."""
        self._is_paused = self.connection.ask({"do": "resume"}, paused_in)

    def is_paused(self) -> bool:
        """Whether sending is paused."""
        self.connection.receive(0.0)
        return self._is_paused

    def devices(self) -> Tuple[Device, ...]:
        """The devices that the last run without a fault found, ascending by UID."""
        return self.connection.ask({"do": "devices"}, devices_of)

    def devices_run(self) -> int:
        """The number of the run that found them; 0 before the first."""
        return self.connection.ask({"do": "devices"}, lambda keys: number_in(keys, "run", MOST_NUMBER))

    def bad_uids(self) -> BadUids:
        """The bad UIDs of this client's last discovery."""
        return self._bad_uids

    def bad_uids_run(self) -> int:
        """The number of its run; 0 before the first."""
        return self._bad_uids_run

    def subscribe(self, to: Iterable[str]) -> None:
        """Has these changes reported, and no others."""
        self.connection.ask({"do": "subscribe", "to": list(to)}, dict_of)

    def status(self) -> Keys:
        """How things are at the server."""
        return self.connection.ask({"do": "status"}, dict_of)

    def clients(self) -> List[Keys]:
        """The programs that use the server, with what they have outstanding."""
        return self.connection.ask({"do": "clients"}, lambda keys: [dict_of(each) for each in keys["clients"]])

    def is_idle(self) -> bool:
        """Whether nothing of this client is outstanding or uncollected."""
        self.connection.receive(0.0)
        return not self.outstanding and not self.outcomes


def taken_by(queue: Optional[SharedQueue], keys: Keys) -> None:
    """Has a queue take an object, if anybody still has the queue."""
    if queue is not None:
        queue._take(keys)


def paused_in(keys: Keys) -> bool:
    """Whether an answer says that sending is paused."""
    return bool(keys["paused"])


class SharedClient:
    """A client of a server's queue. It is a context manager, which ends the connection.

    Calls may be made from any thread; only one at a time may collect. Raises LineFailed when the server has ended. An
    interrupt amid a call ends the connection.
    """

    def __init__(self, line: str) -> None:
        self.queue = SharedQueue(line)
        self._kept = Kept()
        self.last_request: Optional[int] = None
        self.last_discovery: Optional[int] = None

    def __enter__(self) -> SharedClient:
        return self

    def __exit__(self, kind: Optional[Type[BaseException]], error: Optional[BaseException],
                 trace: Optional[TracebackType]) -> None:
        self.close()

    def close(self) -> None:
        """Ends the connection. What is outstanding, and wasn't sent so far, isn't sent."""
        self.queue.connection.close()

    def submit(self, request: Request) -> int:
        """Has a request accepted, and returns its number."""
        self.last_request = None
        self.last_request = self._submit(OutcomeKind.REQUEST, "request", keys_of_request(request))
        return self.last_request

    def _submit(self, kind: OutcomeKind, name: str, keys: Keys) -> int:
        """Has a call accepted, and returns its number."""
        def submitted() -> int:
            """In one step, since another thread may receive the result."""
            number = self.queue.connection.ask(keys, lambda answer: number_in(answer, name, MOST_NUMBER))
            self.queue.outstanding.add((kind, number))
            return number

        return self.queue.connection.alone(submitted)

    def get(self, target: Union[Uid, str], pid: Union[int, str], data: Union[bytes, str] = b"",
            sub_device: int = 0) -> int:
        """Submits a GET."""
        return self.submit(Request(uid_of(target), pid_of(pid), data_of(data), sub_device, RequestClass.GET))

    def set(self, target: Union[Uid, str], pid: Union[int, str], data: Union[bytes, str] = b"",
            sub_device: int = 0) -> int:
        """Submits a SET."""
        return self.submit(Request(uid_of(target), pid_of(pid), data_of(data), sub_device, RequestClass.SET))

    def ask(self, target: Union[Uid, str], pid: Union[int, str], data: Union[bytes, str] = b"", sub_device: int = 0,
            request_class: RequestClass = RequestClass.GET, *, line: Optional[Line] = None,
            wait: float = DEFAULT_WAIT) -> Answer:
        """The answer to a request, as `Client.ask` gives it. The line is the server's, whatever is given."""
        asker = Asker(self, line or self.queue.line, wait)
        asker.kept = self._kept
        return asker.ask(Request(uid_of(target), pid_of(pid), data_of(data), sub_device, request_class))

    def discover(self, kind: Kind = Kind.FULL) -> int:
        """Asks for a discovery, and returns its number."""
        self.last_discovery = None
        keys = {"do": "discover", "kind": KIND_WORDS[Kind(kind)]}
        self.last_discovery = self._submit(OutcomeKind.DISCOVERY, "discovery", keys)
        return self.last_discovery

    def oldest(self) -> Optional[OutcomeKind]:
        """The kind of its oldest outcome that has come; None if there is none."""
        # If the connection has ended, what came before is still there.
        if not self.queue.outcomes:
            self.queue.connection.receive(0.0)
        return kind_of(self.queue.outcomes[0]) if self.queue.outcomes else None

    def next_completion(self) -> Optional[Completion]:
        """Its oldest outcome, if a request's; None if it has none. Raises OtherOutcome for a discovery's."""
        return cast(Optional[Completion], self._next(OutcomeKind.REQUEST))

    def next_discovery(self) -> Optional[Discovery]:
        """Its oldest outcome, if a discovery's; None if it has none. Raises OtherOutcome for a request's."""
        return cast(Optional[Discovery], self._next(OutcomeKind.DISCOVERY))

    def next_outcome(self) -> Optional[Outcome]:
        """Its oldest outcome; None if it has none."""
        return self.queue.outcomes.popleft() if self.oldest() is not None else None

    def _next(self, kind: OutcomeKind) -> Optional[Outcome]:
        oldest = self.oldest()
        if oldest is not None and oldest != kind:
            raise OtherOutcome()
        return None if oldest is None else self.queue.outcomes.popleft()


def connect(line: str) -> SharedClient:
    """A client of the server that runs for a line, such as `enttec:/dev/ttyUSB0`. Raises NotServed, a LineFailed."""
    return SharedClient(line)


def client_of(line: str, source: Optional[int] = None) -> Optional[SharedClient]:
    """A client of a line's server, if one runs, whose controller has this UID, or any. Raises LineFailed."""
    try:
        client = connect(line)
    except NotServed:
        return None
    if source in (None, client.queue.source.number):
        return client
    client.close()
    raise LineFailed(f"{client.queue.holder} has this line: leave out --source")
