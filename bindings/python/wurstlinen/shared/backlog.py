"""What programs have asked for, and the proved queue doesn't have so far.

The queue can't take anything back. So it gets only what is sent next, and the rest can be dropped with its program.
"""
from __future__ import annotations

import itertools
from typing import Dict, Iterator, List, Sequence, Tuple, Union

from .. import Completion, Discovery, Full, Kind, OutcomeKind, Request, RunFault, RunFaultKind, Status
from .._types import Outcome
from .lane import Call, Lane

# What a connection may have outstanding.
DEPTH = 16
MOST_DISCOVERIES = 4
MOST = {OutcomeKind.REQUEST: DEPTH, OutcomeKind.DISCOVERY: MOST_DISCOVERIES}
# How many requests of all programs the queue has: one under way, and the next, for which the line needn't wait.
MOST_AHEAD = 2


class Backlog:
    """The calls of all programs, oldest first."""

    def __init__(self, lanes: Sequence[Lane]) -> None:
        self._lanes = lanes
        self._held: List[Call] = []
        self._numbers = {kind: itertools.count() for kind in OutcomeKind}

    @property
    def outstanding(self) -> int:
        """How many requests and discoveries haven't ended."""
        return len(self._held) + sum(lane.in_queue for lane in self._lanes)

    def outstanding_of(self, lane: Lane) -> int:
        """How many of a program's requests and discoveries haven't ended."""
        return sum(call.lane is lane for call in self._held) + lane.in_queue

    def accept(self, lane: Lane, what: Union[Request, Kind]) -> int:
        """Accepts a call, and returns its number. Raises Full."""
        kind = Call(lane, 0, what).kind
        held = sum(call.lane is lane and call.kind == kind for call in self._held)
        if held + len(lane.numbers(kind)) >= MOST[kind]:
            raise Full()
        call = Call(lane, next(self._numbers[kind]), what)
        self._held.append(call)
        return call.number

    def hand_on(self) -> Iterator[Call]:
        """Hands on to the queue what it can do now: discoveries, which come first there, and few requests.

        Raises the library's faults. What isn't handed on then is still held.
        """
        ahead = sum(len(lane.numbers(OutcomeKind.REQUEST)) for lane in self._lanes)
        for call in tuple(self._held):
            if call.kind == OutcomeKind.REQUEST and ahead >= MOST_AHEAD:
                continue
            call.lane.submit(call)
            self._held.remove(call)
            ahead += call.kind == OutcomeKind.REQUEST
            yield call

    def drop(self, lane: Lane) -> None:
        """Forgets what is held of a program that has gone."""
        self._held = [call for call in self._held if call.lane is not lane]

    def fail(self) -> Iterator[Tuple[Lane, Outcome]]:
        """Ends all that is held, since the server ends."""
        while self._held:
            call = self._held.pop(0)
            yield call.lane, unsent(call)

    def numbers(self) -> Dict[int, int]:
        """The programs' numbers of the requests that the queue has, by the queue's."""
        return {theirs: number for lane in self._lanes for theirs, number in lane.numbers(OutcomeKind.REQUEST).items()}


def unsent(call: Call) -> Outcome:
    """How a call ends of which nothing was sent."""
    if call.kind == OutcomeKind.REQUEST:
        return Completion(call.number, Status.FAILED_TO_SEND, None, b"")
    return Discovery(call.number, 0, RunFault(RunFaultKind.ABORTED), ())
