"""Asks devices, and waits for those that need time.

A device that needs time answers ACK_TIMER, and queues its answer. E1.20, queued message: the controller waits as long
as the device says, and then takes messages until none is left. Here all of that goes through a client of the queue. A
GET whose answer may lack its first parts is made again.
"""
from __future__ import annotations

import time
from typing import Any, Callable, Dict, List, NamedTuple, NoReturn, Optional, Protocol, Tuple, Type, Union

from ._types import (
    AckType, Completion, Outcome, ReplyHead, Request, RequestClass, ResponseClass, Status, Uid, data_of, pid_of, uid_of)
from .line import Line

QUEUED_MESSAGE = 0x0020
STATUS_MESSAGES = 0x0030
STATUS_ID_DESCRIPTION = 0x0031
FIRST_MANUFACTURERS_PID = 0x8000
ALL_SUB_DEVICES = 0xFFFF
ROOT_DEVICE = 0
# E1.20, status types. With ERROR, a device without messages reports nothing but errors.
GET_LAST_MESSAGE = b"\x01"
ERROR = b"\x04"

DEFAULT_WAIT = 10.0
TENTHS = 10.0
LEAST_DELAY = 0.1
# How often it is looked for an outcome while another thread has the line.
GLANCE = 0.01
# What a device that never ends its messages, or loses them, can cost.
MOST_MESSAGES = 256
MOST_LOSSES = 5
MOST_EXCHANGES = 1000
# How often a GET is made again whose answer may lack its first parts.
MOST_REPEATS = 5
FETCH_SECONDS = 5.0
# What of that may be after the end of the wait.
LAST_FETCH_SECONDS = 2.0


class AnyQueue(Protocol):
    """What an asker needs of a client's queue, in this process or at a server."""

    def _step(self, line: Line) -> object:
        """Has frames sent until there is none to send now. If another process sends them, it waits a moment."""
        ...

    def _sleep(self, seconds: float) -> None:
        """Waits, unless the queue ends."""
        ...


class AnyClient(Protocol):
    """What an asker needs of a client."""

    @property
    def queue(self) -> AnyQueue:
        """The queue that it is a client of."""
        ...

    def submit(self, request: Request) -> int:
        """Accepts a request, and returns its number."""
        ...

    def next_outcome(self) -> Optional[Outcome]:
        """Its oldest outcome; None if it has none."""
        ...


class Unanswered(Exception):
    """There is no answer."""

    WHY = ""

    def __init__(self, queued: Tuple[Completion, ...] = (), earlier: Tuple[Outcome, ...] = ()) -> None:
        super().__init__(self.WHY)
        # What was collected, as an Answer has it.
        self.queued = queued
        self.earlier = earlier


class Unserved(Unanswered):
    """The request has no result in time: the queue is paused, or its line has too much to do. It is still queued.

    A server sends it later, unless its client has gone by then.
    """

    WHY = "the request has no result so far: the queue is paused, or its line has too much to do"


class Incomplete(Unanswered):
    """A GET was made six times, and each answer may lack its first parts.

    Before each of them, another GET of the same broke off, or more than 1,024 others had.
    """

    WHY = "no whole answer came: other GETs of the same, or over 1,024 others, break off again and again"


class Answer(NamedTuple):
    """How a request ended, after a wait if the device asked for one."""

    # The device's answer. It is still the ACK_TIMER if the answer didn't come in time.
    completion: Completion
    # The other messages that the device had queued, oldest first.
    queued: Tuple[Completion, ...] = ()
    # The client's outcomes from before this request, oldest first.
    earlier: Tuple[Outcome, ...] = ()

    @property
    def is_late(self) -> bool:
        """Whether the answer didn't come in time."""
        return delay_of(self.completion) is not None

    @property
    def values(self) -> Optional[Dict[str, Any]]:
        """What an acknowledged answer says, by the fields that `wurstlinen.parameters` knows; None if it says nothing.

        A manufacturer's own parameter has none, and neither has data that doesn't fit.
        """
        from .parameters import STANDARD, decode
        head = self.completion.head
        if head is None or head.ack != AckType.ACK:
            return None
        is_set = head.response_class == ResponseClass.SET
        return decode(STANDARD.numbered(head.pid), is_set, self.completion.data).values


class Kept:
    """What was collected and isn't handed out yet, oldest first. It is one list, which is emptied in one step."""

    def __init__(self) -> None:
        self.outcomes: List[Outcome] = []
        # Those of them that are messages which a device had queued.
        self._messages: List[Outcome] = []

    def collect(self, client: AnyClient) -> Optional[Outcome]:
        """The client's next outcome. It is kept in the same step."""
        before = len(self.outcomes)
        self.outcomes.extend(filter(None, (client.next_outcome(),)))
        return self.outcomes[-1] if len(self.outcomes) > before else None

    def mark(self, message: Completion) -> None:
        """One of them is a message that a device had queued."""
        self._messages.append(message)

    def drop(self, outcome: Outcome) -> None:
        """One of them isn't handed out."""
        self.outcomes[:] = [each for each in self.outcomes if each is not outcome]

    def forget(self) -> None:
        """Forgets which of those were messages that are handed out by now."""
        self._messages[:] = [each for each in self._messages if is_in(each, self.outcomes)]

    def queued(self, but: Optional[Completion] = None) -> Tuple[Completion, ...]:
        """The messages of devices, except for the answer itself."""
        return tuple(each for each in self.outcomes
                     if isinstance(each, Completion) and each is not but and is_in(each, self._messages))

    def earlier(self, but: Optional[Completion] = None) -> Tuple[Outcome, ...]:
        """All other outcomes."""
        return tuple(each for each in self.outcomes if each is not but and not is_in(each, self._messages))


def is_in(outcome: Outcome, outcomes: List[Outcome]) -> bool:
    """Whether an outcome is one of these. Others may be equal."""
    return any(each is outcome for each in outcomes)


class Asker:
    """Asks devices over a client that has no other requests outstanding.

    It waits at most `wait` seconds for each answer; what a device has queued may take 2 seconds more. `on_wait` is
    called before each wait, with the seconds that the device asked for. If the queue is closed meanwhile, Closed is
    raised; at once, unless the caller has a `sleep` of its own.
    """

    def __init__(self, client: AnyClient, line: Line, wait: float = DEFAULT_WAIT, *,
                 clock: Callable[[], float] = time.monotonic, sleep: Optional[Callable[[float], None]] = None,
                 on_wait: Optional[Callable[[float], None]] = None) -> None:
        self.client = client
        self.line = line
        self.wait = wait
        self.clock = clock
        self.sleep = sleep or client.queue._sleep
        self.on_wait = on_wait
        # The newest message of each device, which GET_LAST_MESSAGE repeats.
        self.newest: Dict[Uid, Tuple[Optional[ReplyHead], bytes]] = {}
        # What isn't handed out, because of an exception.
        self.kept = Kept()

    def ask(self, request: Request) -> Answer:
        """The answer to a request, with all its parts.

        Faults of the queue, and exceptions of the line other than LineFailed, pass through, and the next answer has
        what was collected until then. Raises Unserved or Incomplete, which have it themselves.
        """
        return Asking(self, request).answer()

    def get(self, target: Union[Uid, str], pid: Union[int, str], data: Union[bytes, str] = b"",
            sub_device: int = 0) -> Answer:
        """The answer to a GET."""
        return self.ask(Request(uid_of(target), pid_of(pid), data_of(data), sub_device, RequestClass.GET))

    def set(self, target: Union[Uid, str], pid: Union[int, str], data: Union[bytes, str] = b"",
            sub_device: int = 0) -> Answer:
        """The answer to a SET."""
        return self.ask(Request(uid_of(target), pid_of(pid), data_of(data), sub_device, RequestClass.SET))


class Asking:
    """One request, and what is done for its answer."""

    def __init__(self, asker: Asker, request: Request) -> None:
        self._asker = asker
        self._request = request
        self._deadline = asker.clock() + asker.wait
        self._exchanges = 0
        # A queued message that isn't ready is asked for again.
        self._has_queue = request.pid != QUEUED_MESSAGE
        self._kept = asker.kept
        self._kept.forget()
        # How the request has ended, each time that it was asked.
        self._ends: List[Completion] = []
        # The newest answer among the messages of a device.
        self._found: Optional[Completion] = None

    def answer(self) -> Answer:
        """Asks, waits, and fetches the answer.

        After every second wait without an answer, a GET is asked again. A SET isn't, since it may do something.
        """
        completion = self._asked()
        said = delay_of(completion)
        delay = said or 0.0
        waits = 0
        while said is not None and self._pause(delay, said):
            found = self._fetch() if self._has_queue else None
            if found is not None:
                return self._answered(found)
            waits += 1
            delay = max(2 * delay, LEAST_DELAY)
            if self._request.request_class == RequestClass.GET and (waits % 2 == 0 or not self._has_queue):
                completion = self._asked()
                said = delay_of(completion)
                delay = max(said or 0.0, LEAST_DELAY)
        return self._answered(completion)

    def _answered(self, completion: Completion) -> Answer:
        """The answer, with all else that is kept."""
        for each in self._ends:
            if each is not completion:
                self._kept.drop(each)
        answer = Answer(completion, self._kept.queued(completion), self._kept.earlier(completion))
        # In one step, so that all of it is handed out now or later.
        return (answer, self._kept.outcomes.clear())[0]  # type: ignore[func-returns-value]

    def _asked(self) -> Completion:
        """How the request itself ends, once its answer can't lack its first parts."""
        request = self._request
        for _ in range(1 + MOST_REPEATS):
            completion = self._exchange(request)
            if not completion.may_be_incomplete:
                self._ends.append(completion)
                return completion
            self._kept.drop(completion)
            request = repeated(self._request)
        self._give_up(Incomplete)

    def _give_up(self, why: Type[Unanswered]) -> NoReturn:
        """Raises the exception, with all that is kept."""
        fault = why(self._kept.queued(), self._kept.earlier())
        raise (fault, self._kept.outcomes.clear())[0]  # type: ignore[func-returns-value]

    def _pause(self, delay: float, said: float) -> bool:
        """Waits, but not beyond the deadline. False if there is nothing left to wait or to ask with."""
        left = self._deadline - self._asker.clock()
        if left <= 0 or self._exchanges >= MOST_EXCHANGES:
            return False
        if self._asker.on_wait is not None:
            self._asker.on_wait(said)
        self._asker.sleep(min(delay, left))
        return True

    def _fetch(self) -> Optional[Completion]:
        """Takes messages until none is left. The newest answer counts, since older ones may be to older requests.

        None if no answer is among them. If the line fails, that counts, and an answer from before is kept.
        """
        self._found = None
        failed = self._take_messages()
        return self._found if failed is None else failed

    def _take_messages(self) -> Optional[Completion]:
        """Takes those messages. Returns how the request for one ended, if the line failed."""
        now = self._asker.clock()
        until = min(now + FETCH_SECONDS, max(now + LAST_FETCH_SECONDS, self._deadline))
        losses = 0
        is_lost = False
        for _ in range(MOST_MESSAGES):
            message = self._message(GET_LAST_MESSAGE if is_lost else ERROR)
            if message.status == Status.FAILED_TO_SEND:
                return message
            self._keep(message)
            # Of a message that may lack its first parts, all of it is asked for.
            was_lost, is_lost = is_lost, message.head is None or message.may_be_incomplete
            losses += message.head is None
            if not is_lost and not was_lost and self._is_end(message):
                break
            if not is_lost:
                self._sort(message, was_lost)
            if losses >= MOST_LOSSES or self._exchanges >= MOST_EXCHANGES or self._asker.clock() > until:
                break
        return None

    def _message(self, status_type: bytes) -> Completion:
        """The reply to a GET of QUEUED_MESSAGE."""
        return self._exchange(Request(self._request.target, QUEUED_MESSAGE, status_type))

    def _is_end(self, message: Completion) -> bool:
        """Whether the device has no more messages now. Status messages, which it sends then, are kept."""
        head = head_of(message)
        if head.pid == QUEUED_MESSAGE:
            self._has_queue = head.ack != AckType.NACK
            return True
        if head.ack == AckType.TIMER:
            self._kept.drop(message)
            return True
        return head.pid == STATUS_MESSAGES

    def _keep(self, message: Completion) -> None:
        """Keeps a message as one that is handed out, unless it only says that there is none, or may lack parts."""
        head = message.head
        is_none = head is not None and head.pid in (QUEUED_MESSAGE, STATUS_MESSAGES) and not is_report(message)
        if head is None or message.may_be_incomplete or is_none:
            self._kept.drop(message)
        else:
            self._kept.mark(message)

    def _sort(self, message: Completion, is_repeated: bool) -> None:
        """Notes a message, as the newest answer if it is one.

        If a reply was lost, the device was asked to repeat it. The repeated message is an answer only if it is known
        not to be an older one.
        """
        if is_repeated and head_of(message).pid in (STATUS_MESSAGES, QUEUED_MESSAGE):
            return
        before = self._asker.newest.get(self._request.target)
        newest = (message.head, message.data)
        if is_repeated and newest == before:
            self._kept.drop(message)
            return
        self._asker.newest[self._request.target] = newest
        if self._is_answer(message) and not (is_repeated and before is None):
            self._found = message

    def _is_answer(self, message: Completion) -> bool:
        """Whether a message answers the request, as far as it shows."""
        request, head = self._request, head_of(message)
        sub_devices = (ALL_SUB_DEVICES, ROOT_DEVICE) if request.sub_device == ALL_SUB_DEVICES else (request.sub_device,)
        return (head.pid == request.pid and head.sub_device in sub_devices
                and head.response_class == request.request_class + 1
                and (head.ack == AckType.NACK or not is_echoed(request) or message.data.startswith(request.data)))

    def _exchange(self, request: Request) -> Completion:
        """How a request ends, once the line is free for it."""
        number = self._asker.client.submit(request)
        self._exchanges += 1
        until = self._asker.clock() + max(self._asker.wait, GLANCE)
        while True:
            self._asker.client.queue._step(self._asker.line)
            completion = self._collected(number)
            if completion is not None:
                return completion
            if self._asker.clock() >= until:
                self._give_up(Unserved)
            self._asker.sleep(GLANCE)

    def _collected(self, number: int) -> Optional[Completion]:
        """The outcome of the request of this number; None if it isn't there yet."""
        while True:
            outcome = self._kept.collect(self._asker.client)
            if outcome is None or (isinstance(outcome, Completion) and outcome.number == number):
                return outcome


def repeated(request: Request) -> Request:
    """A request for the same answer once more, also if the device took it out of its messages."""
    return request._replace(data=GET_LAST_MESSAGE) if request.pid in (QUEUED_MESSAGE, STATUS_MESSAGES) else request


def is_echoed(request: Request) -> bool:
    """Whether the answer begins with the request's data: the standards' GETs by a number return that number first."""
    return (request.request_class == RequestClass.GET and request.pid < FIRST_MANUFACTURERS_PID
            and request.pid not in (QUEUED_MESSAGE, STATUS_MESSAGES, STATUS_ID_DESCRIPTION))


def is_report(message: Completion) -> bool:
    """Whether a message has status messages."""
    head = head_of(message)
    return head.pid == STATUS_MESSAGES and head.ack == AckType.ACK and message.data != b""


def head_of(message: Completion) -> ReplyHead:
    """The head of a message that came."""
    assert message.head is not None
    return message.head


def delay_of(completion: Completion) -> Optional[float]:
    """The seconds that a device asks for; None if it doesn't. A time of another size counts as none."""
    if completion.head is None or completion.head.ack != AckType.TIMER:
        return None
    return int.from_bytes(completion.data, "big") / TENTHS if len(completion.data) == 2 else 0.0
