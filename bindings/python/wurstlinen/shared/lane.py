"""A client of the queue, which connections borrow one after another: a queue has sixteen for life."""
from __future__ import annotations

from typing import TYPE_CHECKING, Dict, Iterator, NamedTuple, Optional, Union

from .. import Client, Completion, Discovery, Kind, OutcomeKind, Request
from .._types import Outcome, kind_of

if TYPE_CHECKING:
    from .peer import Peer

# What a client of the queue could have outstanding.
PLACES = 255


class Call(NamedTuple):
    """A request or a discovery of a program, with the number by which the program knows it."""

    lane: Lane
    number: int
    what: Union[Request, Kind]

    @property
    def kind(self) -> OutcomeKind:
        """Which of both it is."""
        return OutcomeKind.REQUEST if isinstance(self.what, Request) else OutcomeKind.DISCOVERY


class Lane:
    """A client of the queue. It isn't lent again before all that it has in the queue has ended."""

    def __init__(self, client: Client) -> None:
        self.owner: Optional[Peer] = None
        self._client = client
        # What the queue has of it, by the queue's own numbers: the program's.
        self._numbers: Dict[OutcomeKind, Dict[int, int]] = {kind: {} for kind in OutcomeKind}

    @property
    def number(self) -> int:
        """The number of the client."""
        return self._client.number

    @property
    def in_queue(self) -> int:
        """How many of its requests and discoveries the queue has."""
        return sum(map(len, self._numbers.values()))

    @property
    def is_free(self) -> bool:
        """Whether it can be lent."""
        return self.owner is None and not self.in_queue

    def numbers(self, kind: OutcomeKind) -> Dict[int, int]:
        """The program's numbers of those of a kind, by the queue's."""
        return self._numbers[kind]

    def submit(self, call: Call) -> None:
        """Hands a call on to the queue. Raises the library's faults."""
        what = call.what
        number = self._client.submit(what) if isinstance(what, Request) else self._client.discover(what)
        self._numbers[call.kind][number] = call.number

    def collected(self) -> Iterator[Outcome]:
        """Its outcomes that are there now, with the program's numbers."""
        while self.in_queue:
            outcome = self._client.next_outcome()
            if outcome is None:
                return
            number = self._numbers[kind_of(outcome)].pop(outcome.number, None)
            if number is not None:
                yield numbered(outcome, number)


def numbered(outcome: Outcome, number: int) -> Outcome:
    """An outcome with another number."""
    if isinstance(outcome, Completion):
        return outcome._replace(number=number)
    assert isinstance(outcome, Discovery)
    return outcome._replace(number=number)
