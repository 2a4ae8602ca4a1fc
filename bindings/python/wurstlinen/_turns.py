"""A lock that no exception leaves held, and that each thread gets that waits for it."""
from __future__ import annotations

import contextlib
import threading
from typing import Any, Callable, List, Optional, TypeVar

Result = TypeVar("Result")

WITHOUT_LIMIT = -1.0
# How often what another thread does is ended again, until it has ended.
AGAIN_SECONDS = 0.02


class Turns:
    """Threads take turns. An exception, such as an interrupt, may come at any place: it ends the turn of its thread.

    A `with` isn't enough for that: one that comes behind its last statement leaves the lock held. Nor is a lock alone
    enough for turns: a thread that takes it again at once gets it before one that waits has woken up.
    """

    def __init__(self) -> None:
        # A signal's handler may take a turn within one of its own thread. Who is next waits for the turn alone.
        self._next: Any = threading.RLock()
        self._turn: Any = threading.RLock()

    def alone(self, work: Callable[[], Result], end_others: Optional[Callable[[], object]] = None) -> Result:
        """Does something when it is this thread's turn.

        `end_others` ends what another thread does in its turn. It is called again and again until that is over.
        """
        next_held: List[Any] = []
        held: List[Any] = []
        try:
            try:
                # Who is next waits for a thread that has the turn, so that thread can't wait to be next.
                if not self._turn._is_owned():
                    wait_for(self._next, next_held, end_others)
                wait_for(self._turn, held, end_others)
                end(self._next, next_held)
                return work()
            finally:
                end(self._next, next_held)
                end(self._turn, held)
        finally:
            # If an exception came just before the other ones.
            end(self._next, next_held)
            end(self._turn, held)


def wait_for(lock: Any, held: List[Any], end_others: Optional[Callable[[], object]]) -> None:
    """Waits for a lock, and notes that it is held."""
    seconds = WITHOUT_LIMIT if end_others is None else AGAIN_SECONDS
    while not held:
        # In one step, so that an interrupt can't come between having the lock and its being known.
        held.extend(filter(None, map(lock.acquire, (True,), (seconds,))))
        if not held and end_others is not None:
            end_others()


def end(lock: Any, held: List[Any]) -> None:
    """Releases a lock that is held."""
    if held:
        with contextlib.suppress(RuntimeError):
            lock.release()
        held.clear()
