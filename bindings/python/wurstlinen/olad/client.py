"""A client of OLA's daemon: the calls of `wurstlinen.Client`, on a universe that the daemon has.

The daemon queues the requests of all its programs, and its own controller searches. Nothing of that is proved, unless
our library is in the daemon.
"""
from __future__ import annotations

import time
from collections import deque
from types import TracebackType
from typing import Callable, Deque, List, Optional, Tuple, Type, Union, cast

from .._types import (
    AckType, BadUids, Completion, Device, Discovery, Kind, Outcome, OutcomeKind, ReplyHead, Request, RequestClass,
    ResponseClass, RunFault, RunFaultKind, Status, Uid, kind_of,
)
from .._turns import Turns
from ..line import LineFailed
from .rpc import PORT, Daemon
from .wire import Fields, bytes_in, number_in

PREFIX = "ola:"
MOST_UNIVERSE = 0xFFFFFFFF
MOST_PORT = 0xFFFF
# OLA's response codes, and what the same is called here. A UID that OLA doesn't know isn't asked.
STATUSES = (
    Status.COMPLETED, Status.WAS_BROADCAST, Status.FAILED_TO_SEND, Status.TIMEOUT, Status.INVALID_RESPONSE,
    Status.TIMEOUT, Status.CHECKSUM, Status.TRANSACTION_MISMATCH, Status.SUB_DEVICE_MISMATCH,
    Status.SOURCE_MISMATCH, Status.DEST_MISMATCH, Status.WRONG_SUB_START, Status.TOO_SHORT, Status.LENGTH_MISMATCH,
    Status.PARAM_LENGTH_MISMATCH, Status.INVALID_CLASS, Status.CLASS_MISMATCH, Status.INVALID_RESPONSE_TYPE,
    Status.FAILED_TO_SEND, Status.INVALID_RESPONSE,
)
ACKS = (AckType.ACK, AckType.TIMER, AckType.NACK)
CLASSES = (ResponseClass.GET, ResponseClass.SET, ResponseClass.DISCOVERY)


def universe_of(text: str) -> Tuple[int, int]:
    """The universe and olad's port in `ola:UNIVERSE` or `ola:UNIVERSE:PORT`. Raises ValueError."""
    universe, colon, port = text[len(PREFIX):].partition(":")
    if not is_number(universe, MOST_UNIVERSE) or (colon and not is_number(port, MOST_PORT)):
        raise ValueError(f"'{text}' names no universe of olad, such as ola:1")
    return int(universe), int(port) if colon else PORT


def is_number(text: str, most: int) -> bool:
    """Whether a text is a decimal number up to this one."""
    return text.isascii() and text.isdigit() and len(text) <= len(str(most)) and int(text) <= most


class Call:
    """What was submitted. Its outcome is there once it has ended."""

    def __init__(self, number: int, work: Union[Request, Kind]) -> None:
        self.number = number
        self.work = work
        self.outcome: Optional[Outcome] = None

    def failed(self) -> Outcome:
        """Its outcome if olad fails."""
        if isinstance(self.work, Request):
            return Completion(self.number, Status.FAILED_TO_SEND, None, b"")
        return Discovery(self.number, self.number + 1, RunFault(RunFaultKind.LINE_FAILED), ())


class OlaQueue:
    """What olad has to do for one client. The calls are made one after another, by `run`."""

    holder = "olad"
    # Its controller doesn't say which UID it has.
    source: Optional[Uid] = None

    def __init__(self, daemon: Daemon, universe: int) -> None:
        self.daemon = daemon
        self.universe = universe
        self._turns = Turns()
        # What isn't collected so far, oldest first.
        self.calls: Deque[Call] = deque()
        # What is called with the reason why olad failed.
        self.on_failure: Callable[[str], None] = lambda reason: None

    def run(self, line: object = None) -> int:
        """Has all done that was submitted, and returns how many outcomes that has.

        An exception that comes meanwhile, such as an interrupt, fails the call that is under way. Threads take turns.
        """
        return self._turns.alone(self._run)

    def _run(self) -> int:
        waiting = [call for call in tuple(self.calls) if call.outcome is None]
        for call in waiting:
            try:
                call.outcome = self._done(call)
            finally:
                call.outcome = call.outcome or call.failed()
        return len(waiting)

    def _step(self, line: object) -> int:
        return self.run()

    def _done(self, call: Call) -> Outcome:
        """The outcome of a call that is made now."""
        try:
            if isinstance(call.work, Request):
                return self._requested(call.number, call.work)
            return self._discovered(call.number, call.work)
        except (LineFailed, ValueError) as fault:
            self.on_failure(str(fault))
            return call.failed()

    def _requested(self, number: int, request: Request) -> Completion:
        reply = self.daemon.request(self.universe, request.target.number, request.sub_device, request.pid,
                                    request.data, request.request_class == RequestClass.SET)
        return completion_of(number, reply)

    def _discovered(self, number: int, kind: Kind) -> Discovery:
        found = self.daemon.discover(self.universe, kind == Kind.FULL)
        return Discovery(number, number + 1, None, tuple(Device(Uid.from_number(uid)) for uid in found))

    def _sleep(self, seconds: float) -> None:
        time.sleep(seconds)

    def bad_uids(self) -> BadUids:
        """None: olad writes them to its log."""
        return BadUids()

    def bad_uids_run(self) -> int:
        """The number of their run: olad's aren't known."""
        return 0


def completion_of(number: int, reply: Fields) -> Completion:
    """How a request ended, as olad says it. Raises ValueError."""
    code = number_in(reply, 1)
    if code >= len(STATUSES):
        raise ValueError(f"olad answered with code {code}")
    if STATUSES[code] != Status.COMPLETED:
        return Completion(number, STATUSES[code], None, b"")
    kind, response = number_in(reply, 2), number_in(reply, 6)
    if kind >= len(ACKS) or response >= len(CLASSES):
        raise ValueError(f"olad answered with response type {kind} and class {response}")
    head = ReplyHead(ACKS[kind], CLASSES[response], number_in(reply, 5), number_in(reply, 7))
    return Completion(number, Status.COMPLETED, head, bytes_in(reply, 4))


class OlaClient:
    """A client of olad. It is a context manager, which ends the connection."""

    def __init__(self, text: str) -> None:
        universe, port = universe_of(text)
        daemon = Daemon(port)
        try:
            known = daemon.universes()
            if universe not in known:
                names = ", ".join(map(str, known)) or "none"
                raise LineFailed(f"olad has no universe {universe}; it has {names}")
        except BaseException:
            daemon.close()
            raise
        self.queue = OlaQueue(daemon, universe)
        self._numbers: List[int] = [0, 0]

    def __enter__(self) -> OlaClient:
        return self

    def __exit__(self, kind: Optional[Type[BaseException]], error: Optional[BaseException],
                 trace: Optional[TracebackType]) -> None:
        self.close()

    def close(self) -> None:
        """Ends the connection."""
        self.queue.daemon.close()

    def submit(self, request: Request) -> int:
        """Has a request wait for `run`, and returns its number."""
        return self._wait(0, request)

    def discover(self, kind: Kind = Kind.FULL) -> int:
        """The same of a discovery."""
        return self._wait(1, Kind(kind))

    def _wait(self, which: int, work: Union[Request, Kind]) -> int:
        number = self._numbers[which]
        self._numbers[which] += 1
        self.queue.calls.append(Call(number, work))
        return number

    def oldest(self) -> Optional[OutcomeKind]:
        """The kind of its oldest outcome; None if there is none."""
        outcome = self.queue.calls[0].outcome if self.queue.calls else None
        return None if outcome is None else kind_of(outcome)

    def next_outcome(self) -> Optional[Outcome]:
        """Its oldest outcome; None if it has none."""
        return None if self.oldest() is None else self.queue.calls.popleft().outcome

    def next_discovery(self) -> Optional[Discovery]:
        """The same, if it is a discovery's."""
        return cast(Discovery, self.next_outcome()) if self.oldest() == OutcomeKind.DISCOVERY else None
