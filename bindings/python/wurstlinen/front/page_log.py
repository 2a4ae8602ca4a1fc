"""The exchanges of a log as columns, from which a picture is drawn.

The proved program has read the log before, and has refused what isn't one. It says which runs the log has, and what
each of their exchanges heard. So what is refused here is a log that has changed since, or that only the program
understands.
"""
from __future__ import annotations

import json
import sys
from array import array
from collections import Counter
from dataclasses import dataclass, field
from typing import Any, BinaryIO, Callable, Dict, Iterator, List, Optional, Sequence, Set, Tuple

from .files import MOST_LINE
from .page_details import Details
from .page_findings import Run
from .page_frames import NO_UID, Answer, Asked, Came, answer_to, command_in

MOST_CLIENTS = 16
# As many as a session can store. A page of so many exchanges takes minutes, and some 500 MB of memory.
MOST_ENTRIES = 1_000_000
# What the program's letters mean. After a branch other bytes are a collision.
HEARD = {"a": Came.ACKNOWLEDGED, "f": Came.FAILED, "o": Came.ONE, "s": Came.SILENCE}
OTHER_BYTES = "n"


class NoLog(Exception):
    """A line that isn't a log's, or a log that is too long for a page."""

    def __init__(self, line: int) -> None:
        is_last = line > MOST_ENTRIES
        super().__init__(f"more than {MOST_ENTRIES} entries" if is_last else f"line {line} isn't an entry of a log")


class OtherLog(Exception):
    """A log with other exchanges than those that the program has read."""

    def __init__(self) -> None:
        super().__init__("it has other exchanges than were explained")


@dataclass
class Columns:
    """What is drawn of each exchange."""

    asked: bytearray = field(default_factory=bytearray)
    came: bytearray = field(default_factory=bytearray)
    # The first and the last UID that was asked, and the one that a branch's answer spells, with six bytes each.
    low: bytearray = field(default_factory=bytearray)
    high: bytearray = field(default_factory=bytearray)
    spelled: bytearray = field(default_factory=bytearray)
    # A bit for each client: those that it is for, and those that wait for an outcome.
    served: "array[int]" = field(default_factory=lambda: array("H"))
    waiting: "array[int]" = field(default_factory=lambda: array("H"))

    def data(self) -> bytes:
        """All columns, one after another, with numbers in the order of small machines."""
        served, waiting = array("H", self.served), array("H", self.waiting)
        if sys.byteorder == "big":
            served.byteswap()
            waiting.byteswap()
        return b"".join([self.low, self.high, self.spelled, served.tobytes(), waiting.tobytes(), self.asked, self.came])


@dataclass
class Log:
    """What was read of a log."""

    columns: Columns = field(default_factory=Columns)
    # Where the exchanges of runs are, in order.
    places: "array[int]" = field(default_factory=lambda: array("I"))
    details: Details = field(default_factory=Details)
    # How many answers each device sent.
    senders: "Counter[int]" = field(default_factory=Counter)
    clients: Set[int] = field(default_factory=set)

    def __len__(self) -> int:
        return len(self.columns.asked)


# A frame that waits for its answer: what it is for, its text as the log has it, its clients' bits, and whether it is a
# run's.
Sent = Tuple[str, str, int, bool]


class Reader:
    """Reads a log with these runs, entry by entry."""

    def __init__(self, runs: Sequence[Run]) -> None:
        self.log = Log()
        self._runs = runs
        # Which of them has the next exchange.
        self._next = 0
        self._forget(False)
        self._steps: Dict[str, Callable[[Dict[str, Any]], None]] = {
            "opening": self._opening, "join": self._join, "accept": self._accept, "ask": self._ask, "send": self._send,
            "came": self._came, "finish": self._finish, "answer": self._answer, "refuse": ignore, "collect": ignore,
            "pause": ignore, "resume": ignore, "close": ignore}

    def _forget(self, is_session: bool) -> None:
        """The log of another session, or of a discovery, begins."""
        self._is_session = is_session
        # The number of the run in progress, and whether the log has its end.
        self._run: Optional[int] = None
        self._is_over = False
        self._sent: Optional[Sent] = None
        # The number of the last discovery that was answered.
        self._answered: Optional[int] = None
        # The clients' bits of the run in progress, and the clients of requests and discoveries without an outcome.
        self._run_clients = 0
        self._requests: Dict[int, int] = {}
        self._asks: Dict[int, int] = {}
        # How many of them each client has, and a bit for each that has some.
        self._outstanding = [0] * MOST_CLIENTS
        self._waiting = 0

    def take(self, entry: Dict[str, Any]) -> None:
        """The next entry. Raises ValueError, TypeError or KeyError if it isn't one."""
        if "operation" in entry:
            self._exchange(entry)
            return
        if not self._is_session or self._begins_log(entry):
            self._forget(True)
        self._steps[entry["entry"]](entry)

    def _begins_log(self, entry: Dict[str, Any]) -> bool:
        """Whether an entry asks for a discovery that was answered: it is another session's."""
        return (entry["entry"] == "ask" and self._answered is not None
                and number_in(entry, "number") <= self._answered)

    def _opening(self, entry: Dict[str, Any]) -> None:
        self._forget("discover" not in entry)
        self.log.clients.update(range(min(len(entry.get("places", ())), MOST_CLIENTS)))

    def _join(self, entry: Dict[str, Any]) -> None:
        self._client(entry)

    def _client(self, entry: Dict[str, Any]) -> int:
        client = number_in(entry, "client")
        if client >= MOST_CLIENTS:
            raise ValueError
        self.log.clients.add(client)
        return client

    def _accept(self, entry: Dict[str, Any]) -> None:
        self._begin(self._requests, entry)

    def _ask(self, entry: Dict[str, Any]) -> None:
        self._begin(self._asks, entry)

    def _begin(self, calls: Dict[int, int], entry: Dict[str, Any]) -> None:
        client = calls[number_in(entry, "number")] = self._client(entry)
        self._outstanding[client] += 1
        self._waiting |= 1 << client

    def _finish(self, entry: Dict[str, Any]) -> None:
        self._end_call(self._requests, entry)

    def _answer(self, entry: Dict[str, Any]) -> None:
        self._end_call(self._asks, entry)
        self._answered = number_in(entry, "number")
        self._is_over = self._is_over or self._run == number_in(entry, "run")

    def _end_call(self, calls: Dict[int, int], entry: Dict[str, Any]) -> None:
        # A log may begin after the call.
        client = calls.pop(number_in(entry, "number"), None)
        if client is not None:
            self._outstanding[client] -= 1
            if not self._outstanding[client]:
                self._waiting &= ~(1 << client)

    def _send(self, entry: Dict[str, Any]) -> None:
        if "run" in entry:
            number = number_in(entry, "run")
            if self._run != number or self._is_over:
                self._begin_run(number)
            clients = [client for client in range(MOST_CLIENTS) if self._run_clients >> client & 1]
            self._sent = for_clients(clients), entry["frame"], self._run_clients, True
            return
        number = number_in(entry, "request")
        client = self._requests.get(number)
        name = f"request {number}" + for_clients([] if client is None else [client])
        self._sent = name, entry["frame"], 0 if client is None else 1 << client, False

    def _begin_run(self, number: int) -> None:
        # Runs of a session have ascending numbers, so this one may be another session's.
        if self._run is not None and number <= self._run:
            self._forget(True)
        self._run, self._is_over = number, False
        self._run_clients = bits(self._asks.values())

    def _came(self, entry: Dict[str, Any]) -> None:
        if self._sent is not None:
            (name, frame, clients, is_of_run), self._sent = self._sent, None
            if is_of_run:
                self._add_of_run(name, frame, clients, entry)
            else:
                self._add(name, frame, clients, entry, None)

    def _exchange(self, entry: Dict[str, Any]) -> None:
        """An exchange of a discovery's log."""
        if self._is_session:
            self._forget(False)
        number = number_in(entry, "number")
        self._add(f"exchange {number}", entry["frame"], 0, entry, self._heard())

    def _add_of_run(self, name: str, frame: str, clients: int, entry: Dict[str, Any]) -> None:
        """The next exchange of a session's run."""
        heard = self._heard()
        run = self._runs[self._next]
        self._add(f"{run.name}, exchange {len(self.log.places) - 1 - run.place}{name}", frame, clients, entry, heard)

    def _heard(self) -> str:
        """What the next exchange of a run heard, by the program. Raises OtherLog."""
        at = len(self.log.places)
        while self._next < len(self._runs) and at >= end_of(self._runs[self._next]):
            self._next += 1
        if self._next == len(self._runs):
            raise OtherLog
        self.log.places.append(len(self.log))
        run = self._runs[self._next]
        return run.heard[at - run.place]

    def _add(self, name: str, frame: str, clients: int, entry: Dict[str, Any], heard: Optional[str]) -> None:
        """The next exchange, whose answer an entry has, and which the program read as this letter, if it is a run's."""
        reply = None if "failed" in entry else bytes.fromhex(entry["reply"])
        sent = bytes.fromhex(frame)
        command = command_in(sent)
        answer = answer_to(command, sent, reply)
        if heard is not None:
            answer = answer._replace(came=heard_as(heard, command.asked, answer))
        columns = self.log.columns
        columns.asked.append(command.asked)
        columns.came.append(answer.came)
        columns.low += command.low
        columns.high += command.high
        columns.spelled += answer.uid if answer.came is Came.ONE else NO_UID
        columns.served.append(clients)
        columns.waiting.append(self._waiting)
        if answer.came is not Came.ONE and answer.uid != NO_UID:
            self.log.senders[int.from_bytes(answer.uid, "big")] += 1
        self.log.details.add(name, frame, None if reply is None else entry["reply"], command.text, answer.text)


def end_of(run: Run) -> int:
    """The place after a run's last exchange."""
    return run.place + len(run.heard)


def ignore(entry: Dict[str, Any]) -> None:
    """An entry of which nothing is drawn."""


def number_in(entry: Dict[str, Any], key: str) -> int:
    """A number of an entry. Raises ValueError or KeyError."""
    number = entry[key]
    if type(number) is not int or number < 0:
        raise ValueError(key)
    return number


def bits(clients: Any) -> int:
    """A bit for each of these clients."""
    found = 0
    for client in clients:
        found |= 1 << client
    return found


def for_clients(clients: List[int]) -> str:
    """Whom an exchange is for."""
    names = ", ".join(map(str, clients))
    return f", for client{'s' if len(clients) > 1 else ''} {names}" if clients else ""


def lines_of(file: BinaryIO) -> Iterator[bytes]:
    """The lines of a log. Raises NoLog for one that is too long, and after the most entries that are drawn."""
    number = 0
    while True:
        line = file.readline(MOST_LINE)
        if not line:
            return
        number += 1
        if len(line) == MOST_LINE or number > MOST_ENTRIES:
            raise NoLog(number)
        yield line


def heard_as(heard: str, asked: Asked, answer: Answer) -> Came:
    """How an answer is drawn that the program read as this letter."""
    if heard != OTHER_BYTES:
        return HEARD[heard]
    if asked is Asked.BRANCH:
        return Came.COLLISION
    return Came.DAMAGED if answer.came is Came.DAMAGED else Came.OTHER_RESPONSE


def read_log(file: BinaryIO, runs: Sequence[Run]) -> Log:
    """Reads a log with these runs. Raises NoLog, OtherLog and OSError."""
    reader = Reader(runs)
    for number, line in enumerate(lines_of(file), 1):
        try:
            reader.take(json.loads(line.decode()))
        except (ValueError, TypeError, KeyError, AttributeError, RecursionError):
            raise NoLog(number) from None
    if len(reader.log.places) != sum(len(run.heard) for run in runs):
        raise OtherLog
    return reader.log
