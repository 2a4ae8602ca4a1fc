"""The queue of requests and discoveries on one line."""

import ctypes
import time
from collections import defaultdict
from typing import Callable, DefaultDict, List, Optional, Tuple, Union, cast

from ._ask import DEFAULT_WAIT, Answer, Asker, Kept
from ._collecting import NO_NUMBER, Collecting, CollectingDiscovery, CollectingRequest
from ._faults import Closed, OtherOutcome, check, given
from ._forms import bad_uids_of, devices_of, form_of_request
from ._held import Held, Unreturned
from ._library import Call, Calls, DeviceForm, Setup, buffer_of, room_for
from ._types import (
    DEFAULT_BUDGET, MOST_DEVICES, MOST_FRAME_BYTES, MOST_PLACES, BadUids, Completion, Device, Discovery, Kind,
    Outcome, OutcomeKind, Request, RequestClass, Search, Uid, data_of, kind_of, pid_of, uid_of, whole)
from .line import Line, LineFailed

NO_CLIENT = 255
# A close ends a wait within this time.
SLICE_SECONDS = 0.1


class Queue(Held):
    """What controllers and sessions have in common: requests and discoveries of up to sixteen clients on one RDM line.

    Calls may be made from any thread: each has its turn on this object. It is a context manager, which disposes of it.

    An exception, such as an interrupt, may come at any place. What it keeps from being returned is returned by a later
    call of the same kind: a client, an outcome, a page or a log.
    """

    def __init__(self) -> None:
        super().__init__()
        # Whether an exception has come between a frame and the report of its reply, which may be awaited for ever.
        self._is_left = False
        # What isn't returned so far: clients by their places, and outcomes by the client's number.
        self._joined: DefaultDict[int, Unreturned[Client]] = defaultdict(Unreturned)
        self._collected: DefaultDict[int, Unreturned[Outcome]] = defaultdict(Unreturned)
        # Whether what waits for the queue has to end.
        self._is_ending = False

    def join(self, places: int) -> "Client":
        """A client that may have this many requests outstanding."""
        kept = self._joined[whole(places, 8, "places")]
        return kept.first_or(lambda: self._join(kept, places))

    def _join(self, kept: "Unreturned[Client]", places: int) -> bool:
        number, client = ctypes.c_uint8(NO_CLIENT), Client(self, NO_CLIENT)

        def joined() -> Optional[Client]:
            client.number = number.value
            return client if client.number != NO_CLIENT else None

        return kept.keep(lambda: check(self._made(self._calls.join, places, number)), joined)

    def pause(self) -> None:
        """Begins no run and sends no request until `resume`."""
        check(self._made(self._calls.pause))

    def resume(self) -> None:
        """Begins runs and sends requests again."""
        check(self._made(self._calls.resume))

    def close(self) -> None:
        """Refuses all later joins, submits and discovers, sends nothing more, and ends what waits."""
        check(self._made(self._calls.close))
        self._is_ending = True

    def dispose(self) -> None:
        """Frees its memory, and ends what waits. Later calls raise NotOpen."""
        super().dispose()
        self._is_ending = True

    def take(self) -> Optional[bytes]:
        """The next frame for the line; None while a reply is awaited, or if there is nothing to send."""
        taken: List[bytes] = []
        try:
            self._turns.alone(lambda: self._take(taken))
            return taken[0] if taken else None
        except BaseException:
            self._leave(taken)
            raise

    def _take(self, taken: List[bytes]) -> None:
        """Takes a frame, if there is one."""
        frame, length = room_for(MOST_FRAME_BYTES), ctypes.c_size_t()
        try:
            if given(self._calls.take(self._handle, frame, MOST_FRAME_BYTES, length)):
                self._is_left = False
                taken.append(bytes(frame[:length.value]))
        except BaseException:
            # The library has written the length of a frame that isn't known here.
            self._is_left = self._is_left or length.value > 0
            raise

    def _leave(self, taken: List[bytes]) -> None:
        """An exception has come behind what was taken."""
        if taken:
            self._turns.alone(lambda: setattr(self, "_is_left", True))

    def deliver(self, reply: bytes) -> None:
        """Takes the line's reply to the last frame; no bytes are silence."""
        check(self._made(self._calls.deliver, *buffer_of(reply)))

    def fail(self) -> None:
        """Reports that the line failed at the last frame."""
        check(self._made(self._calls.fail))

    def run(self, line: Line) -> int:
        """Sends frames on the line until there is none, and returns how many.

        An exception of the line other than LineFailed passes through, as an interrupt does; its reply may then still be
        awaited. If neither `deliver` nor `fail` is called until the next call, that reports the exchange as failed, and
        goes on.
        """
        exchanges = 0
        while self._exchange(line):
            exchanges += 1
        return exchanges

    def _step(self, line: Line) -> int:
        return self.run(line)

    def _exchange(self, line: Line) -> bool:
        """Sends one frame, and reports what came. False: there is none."""
        taken: List[bytes] = []
        try:
            self._turns.alone(lambda: self._begin(taken))
            if taken:
                self._report(line, taken[0])
        except BaseException:
            self._leave(taken)
            raise
        return bool(taken)

    def _begin(self, taken: List[bytes]) -> None:
        """Takes a frame. One that an exception has left is reported as failed before."""
        if self._is_left and self.awaits():
            self.fail()
        self._take(taken)

    def _report(self, line: Line, frame: bytes) -> None:
        """Sends a frame, and delivers the reply or reports the failure."""
        try:
            reply = line.exchange(frame)
        except LineFailed:
            self.fail()
        else:
            self.deliver(reply)

    def _sleep(self, seconds: float) -> None:
        """Waits. Raises Closed or NotOpen when the queue is closed or disposed of."""
        end = time.monotonic() + seconds
        while not self._is_ending and time.monotonic() < end:
            time.sleep(max(0.0, min(SLICE_SECONDS, end - time.monotonic())))
        if self._is_ending and self.is_closed():
            raise Closed()

    def devices(self) -> Tuple[Device, ...]:
        """The devices that the last run without fault found, ascending by UID."""
        forms, count = (DeviceForm * MOST_DEVICES)(), ctypes.c_size_t()
        check(self._made(self._calls.devices, forms, MOST_DEVICES, count))
        return devices_of(forms, count.value)

    def devices_run(self) -> int:
        """The number of the run that found them; 0 before the first."""
        return self._number_of_run(self._calls.devices_run)

    def _number_of_run(self, call: Call) -> int:
        run = ctypes.c_uint64()
        check(self._made(call, run))
        return run.value

    def bad_uids(self) -> BadUids:
        """The bad UIDs of the run that began last, open or ended; none before the first run."""
        return bad_uids_of(self)

    def bad_uids_run(self) -> int:
        """The number of that run; 0 before the first."""
        return self._number_of_run(self._calls.bad_uids_run)

    def _asks(self, call: Call) -> bool:
        answer = ctypes.c_bool()
        check(self._made(call, answer))
        return answer.value

    def is_idle(self) -> bool:
        """Whether nothing waits, is under way or is uncollected."""
        return self._asks(self._calls.is_idle) and not any(tuple(self._collected.values()))

    def is_paused(self) -> bool:
        """Whether sending is paused."""
        return self._asks(self._calls.is_paused)

    def is_closed(self) -> bool:
        """Whether the queue is closed."""
        return self._asks(self._calls.is_closed)

    def awaits(self) -> bool:
        """Whether a reply is awaited."""
        return self._asks(self._calls.awaits)


class Controller(Queue):
    """A queue without a log, which can run for years."""

    _calls = Calls("wurst_controller_")

    def __init__(self, source: Union[Uid, str], places: int = MOST_PLACES, *, budget: int = DEFAULT_BUDGET,
                 search: Search = Search.QUICK) -> None:
        super().__init__()
        check(self._calls.open(self._handle, setup_of(source, places, budget, search)))


def setup_of(source: Union[Uid, str], places: int, budget: int, search: Search) -> Setup:
    return Setup(uid_of(source).number, whole(budget, 64, "budget"), int(search), whole(places, 16, "places"))


class Client:
    """A client of a controller or a session. It is made by their `join`."""

    def __init__(self, queue: Queue, number: int) -> None:
        self.queue = queue
        self.number = number
        self._kept = Kept()
        # The library writes them.
        self._last_request = ctypes.c_uint64(NO_NUMBER)
        self._last_discovery = ctypes.c_uint64(NO_NUMBER)

    @property
    def last_request(self) -> Optional[int]:
        """The number of the request that it submitted last, even if an exception kept it from being returned.

        None if that wasn't accepted.
        """
        return None if self._last_request.value == NO_NUMBER else self._last_request.value

    @property
    def last_discovery(self) -> Optional[int]:
        """The same of a discovery."""
        return None if self._last_discovery.value == NO_NUMBER else self._last_discovery.value

    def submit(self, request: Request) -> int:
        """Accepts a request, and returns its number."""
        form = form_of_request(request)
        number = self._last_request = ctypes.c_uint64(NO_NUMBER)
        calls = self.queue._calls
        check(self.queue._made(calls.submit, self.number, form, *buffer_of(request.data), number))
        return number.value

    def get(self, target: Union[Uid, str], pid: Union[int, str], data: Union[bytes, str] = b"",
            sub_device: int = 0) -> int:
        """Submits a GET."""
        return self.submit(Request(uid_of(target), pid_of(pid), data_of(data), sub_device, RequestClass.GET))

    def set(self, target: Union[Uid, str], pid: Union[int, str], data: Union[bytes, str] = b"",
            sub_device: int = 0) -> int:
        """Submits a SET."""
        return self.submit(Request(uid_of(target), pid_of(pid), data_of(data), sub_device, RequestClass.SET))

    def ask(self, target: Union[Uid, str], pid: Union[int, str], data: Union[bytes, str] = b"", sub_device: int = 0,
            request_class: RequestClass = RequestClass.GET, *, line: Line, wait: float = DEFAULT_WAIT) -> Answer:
        """The answer to a request on this line, for which it waits at most `wait` seconds if the device needs time.

        Outcomes of the client's earlier requests are collected too, and returned with it. Raises Unserved, which has
        them then; if anything else is raised, the next answer has them.
        """
        asker = Asker(self, line, wait)
        asker.kept = self._kept
        return asker.ask(Request(uid_of(target), pid_of(pid), data_of(data), sub_device, request_class))

    def discover(self, kind: Kind = Kind.FULL) -> int:
        """Asks for a discovery, and returns its number."""
        number = self._last_discovery = ctypes.c_uint64(NO_NUMBER)
        check(self.queue._made(self.queue._calls.discover, self.number, int(kind), number))
        return number.value

    def oldest(self) -> Optional[OutcomeKind]:
        """The kind of its oldest outcome; None if it has none."""
        kept, kind = self.queue._collected[self.number].first(), ctypes.c_uint32()
        if kept is not None:
            return kind_of(kept)
        status = self.queue._made(self.queue._calls.oldest, self.number, kind)
        return OutcomeKind(kind.value) if given(status) else None

    def next_completion(self) -> Optional[Completion]:
        """Collects its oldest outcome, if a request's; None if it has none. Raises OtherOutcome for a discovery's."""
        return cast(Optional[Completion], self._next(CollectingRequest, OutcomeKind.REQUEST))

    def next_discovery(self) -> Optional[Discovery]:
        """Collects its oldest outcome, if a discovery's; None if it has none. Raises OtherOutcome for a request's."""
        return cast(Optional[Discovery], self._next(CollectingDiscovery, OutcomeKind.DISCOVERY))

    def next_outcome(self) -> Optional[Outcome]:
        """Collects its oldest outcome; None if it has none. Only one thread at a time may collect for a client."""
        kind = self.oldest()
        if kind is None:
            return None
        return self.next_completion() if kind == OutcomeKind.REQUEST else self.next_discovery()

    def _next(self, collecting: Callable[[], Collecting], kind: OutcomeKind) -> Optional[Outcome]:
        """Its oldest outcome, which has to be of this kind."""
        kept = self.queue._collected[self.number]
        first = kept.first()
        if first is not None and kind_of(first) != kind:
            raise OtherOutcome()
        try:
            return kept.first_or(lambda: self._collect(kept, collecting()))
        except IndexError:
            return None

    def _collect(self, kept: "Unreturned[Outcome]", collecting: Collecting) -> bool:
        """Collects an outcome, and keeps it until it is returned. Whether there was one."""
        queue = self.queue
        return kept.keep(lambda: check(queue._turns.alone(lambda: collecting.collect(queue, self.number))),
                         collecting.outcome)
