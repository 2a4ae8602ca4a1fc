"""What threads share: a board with what pages show, and hands that ask fixtures, none of which holds up the others."""
from __future__ import annotations

import contextlib
import os
import threading
import time
from concurrent.futures import Future
from typing import Any, Callable, Dict, Iterator, List, NamedTuple, Optional, Set, TypeVar

from .. import Fault
from .._standard_streams import warn
from ..front.output import FAILED, LINE_FAILED, Failure, Output
from ..front.work import Work, shared_work
from ..line import LineFailed
from ..shared.client import SharedClient

COUNT = 3
# How long a fixture that needs time may take.
WAIT_SECONDS = 10.0
# How long the threads have to end.
END_SECONDS = 2.0
Made = TypeVar("Made")
# What commands print for people isn't printed.
NOWHERE = open(os.devnull, "w", encoding="utf-8")
SILENT = Output(False, NOWHERE, NOWHERE)
# How long changes are gathered, and after how long without one a page gets a sign that all is well.
GATHERING_SECONDS = 0.03
BEAT_SECONDS = 5.0
Parts = Dict[str, Any]


class Board:
    """Parts, which are values of JSON, by their names. Threads put them and follow them."""

    def __init__(self) -> None:
        self._parts: Parts = {}
        self._changed = threading.Condition()
        # For each page, the names of the parts that have changed since it got them.
        self._followers: List[Set[str]] = []
        self._has_ended = False

    def put(self, name: str, value: Any) -> None:
        """A part has this value now. None takes it away."""
        with self._changed:
            if self._parts.get(name) == value:
                return
            self._parts[name] = value
            if value is None:
                del self._parts[name]
            for changed in self._followers:
                changed.add(name)
            self._changed.notify_all()

    def end(self) -> None:
        """Nobody follows it any more."""
        with self._changed:
            self._has_ended = True
            self._changed.notify_all()

    def follow(self, **own: Any) -> Iterator[Parts]:
        """All parts and these, then what changes; nothing if nothing did for a while. Who is slow gets the newest."""
        changed: Set[str] = set()
        with self._changed:
            self._followers.append(changed)
            found = {**self._parts, **own}
        try:
            while not self._has_ended:
                yield found
                with self._changed:
                    is_new = self._changed.wait_for(lambda: changed or self._has_ended, BEAT_SECONDS)
                # What belongs together comes together.
                time.sleep(GATHERING_SECONDS if is_new else 0)
                with self._changed:
                    found = {name: self._parts.get(name) for name in changed}
                    changed.clear()
        finally:
            with self._changed:
                self._followers = [each for each in self._followers if each is not changed]


class Task(NamedTuple):
    """Something to do on the line, for a fixture or for something else of which one is done at a time."""

    key: str
    name: str
    work: Callable[[Work], Any]
    is_urgent: bool
    end: "Future[Any]"


class Hands:
    """Does tasks: urgent ones first, and never two for one key at a time. `connect` makes a client of the server, or
    raises LineFailed."""

    def __init__(self, connect: Callable[[], SharedClient]) -> None:
        self._connect = connect
        self._waiting: List[Task] = []
        self._busy: Set[str] = set()
        self._has_changed = threading.Condition()
        self._has_ended = False
        self._clients: Dict[int, SharedClient] = {}
        self._threads = [threading.Thread(target=self._run, args=(number,), daemon=True) for number in range(COUNT)]
        for thread in self._threads:
            thread.start()

    def end(self) -> None:
        """Ends the connections. What waits isn't done."""
        with self._has_changed:
            self._has_ended = True
            self._has_changed.notify_all()
        for client in list(self._clients.values()):
            client.close()
        for thread in self._threads:
            thread.join(END_SECONDS)

    @property
    def numbers(self) -> Set[int]:
        """The numbers of the clients that these are."""
        return {client.queue.number for client in list(self._clients.values())}

    def do(self, key: str, work: Callable[[Work], Made], is_urgent: bool = True, name: str = "") -> "Future[Made]":
        """Has something done, and returns what will become of it: what it returns, or Failure. With a name, what waits
        for the key under that name already isn't done once more."""
        with self._has_changed:
            for task in self._waiting:
                if name and (task.key, task.name) == (key, name):
                    return task.end
            end: "Future[Made]" = Future()
            self._waiting.append(Task(key, name, work, is_urgent, end))
            self._waiting.sort(key=lambda each: not each.is_urgent)
            self._has_changed.notify_all()
        return end

    def _next(self) -> Optional[Task]:
        """The next task that can be done; None at the end."""
        with self._has_changed:
            while not self._has_ended:
                for task in self._waiting:
                    if task.key not in self._busy:
                        self._waiting.remove(task)
                        self._busy.add(task.key)
                        return task
                self._has_changed.wait()
            return None

    def _run(self, number: int) -> None:
        work: Optional[Work] = None
        while (task := self._next()) is not None:
            try:
                work = self._alive(number, work)
                task.end.set_result(task.work(work))
            except Exception as fault:  # Only this task has a fault, whatever it is.
                # Unless it is an answer, none can be trusted any more.
                work = work if isinstance(fault, Failure) else None
                task.end.set_exception(failure_of(fault))
            with self._has_changed:
                self._busy.discard(task.key)
                self._has_changed.notify_all()

    def _alive(self, number: int, work: Optional[Work]) -> Work:
        """The same, or another if the server has ended the connection while it was idle. Raises LineFailed."""
        with contextlib.suppress(Fault, LineFailed):
            if work is not None and self._clients[number].queue.status():
                return work
        if number in self._clients:
            self._clients.pop(number).close()
        client = self._clients[number] = self._connect()
        return shared_work(client, SILENT, None, None, WAIT_SECONDS)


def failure_of(fault: Exception) -> Failure:
    """What pages say of a fault. One of their program's own goes to standard error, too."""
    if isinstance(fault, Failure):
        return fault
    if isinstance(fault, (Fault, LineFailed)):
        return Failure(FAILED, str(fault), reason=LINE_FAILED)
    text = f"the page has a fault: {fault!r}"
    warn(text)
    return Failure(FAILED, text, reason="fault")
