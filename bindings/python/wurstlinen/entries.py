"""Entries of a session's log: one class for each kind of entry."""

import enum
from dataclasses import dataclass
from typing import Dict, Optional, Type, Union

from ._faults import Closed, Fault, Full, NoPlaces, OutOfMemory, TooManyClients, UnknownClient
from ._forms import run_fault
from ._library import EntryForm
from ._types import Kind, Request, RequestClass, RunFault, Status, Uid


class CallKind(enum.IntEnum):
    """What a refused call was."""

    JOIN = 0
    SUBMIT = 1
    DISCOVER = 2


@dataclass(frozen=True)
class Join:
    """A client joined."""

    client: int
    places: int


@dataclass(frozen=True)
class Refuse:
    """A call was refused, for the first cause that applied: an exception's class.

    `client` is the caller, and None for a join. `places` are a join's, `request` is a submit's, `kind` a discover's.
    """

    call: CallKind
    cause: Type[Fault]
    client: Optional[int] = None
    places: Optional[int] = None
    request: Optional[Request] = None
    kind: Optional[Kind] = None


@dataclass(frozen=True)
class Accept:
    """A client's request was accepted."""

    client: int
    number: int
    request: Request


@dataclass(frozen=True)
class Ask:
    """A client's discovery was accepted."""

    client: int
    number: int
    kind: Kind


@dataclass(frozen=True)
class Send:
    """A frame was taken, of the request with this number or of a discovery run."""

    number: Optional[int]
    run: Optional[int]
    frame: bytes


@dataclass(frozen=True)
class Came:
    """The line's reply to the last frame; b"" is silence, and None says that the line failed."""

    reply: Optional[bytes]


@dataclass(frozen=True)
class Finish:
    """A request ended. `length` is the number of bytes of its data."""

    number: int
    status: Status
    length: int


@dataclass(frozen=True)
class Answer:
    """A discovery was answered by a run; the run is 0 if none was begun for it."""

    number: int
    run: int
    fault: Optional[RunFault]


@dataclass(frozen=True)
class Collect:
    """A client collected its oldest outcome."""

    client: int


@dataclass(frozen=True)
class Pause:
    """Sending was paused."""


@dataclass(frozen=True)
class Resume:
    """Sending was resumed."""


@dataclass(frozen=True)
class Close:
    """The queue was closed."""


Entry = Union[Join, Refuse, Accept, Ask, Send, Came, Finish, Answer, Collect, Pause, Resume, Close]

# The causes of refused joins by their numbers, and those of submits and discovers.
_JOIN_CAUSES: Dict[int, Type[Fault]] = {1: Closed, 2: TooManyClients, 3: NoPlaces, 4: OutOfMemory}
_CAUSES: Dict[int, Type[Fault]] = {1: Closed, 2: UnknownClient, 3: Full}


def _request_in(form: EntryForm, data: bytes) -> Request:
    return Request(Uid.from_number(form.target), form.pid, data, form.sub_device, RequestClass(form.command_class))


def _refuse_in(form: EntryForm, data: bytes) -> Refuse:
    call = CallKind(form.call)
    if call == CallKind.JOIN:
        return Refuse(call, _JOIN_CAUSES[form.cause], places=form.places)
    if call == CallKind.SUBMIT:
        return Refuse(call, _CAUSES[form.cause], form.client, request=_request_in(form, data))
    return Refuse(call, _CAUSES[form.cause], form.client, kind=Kind(form.discovery))


def _send_in(form: EntryForm, data: bytes) -> Send:
    is_run = form.owner == 1
    return Send(None if is_run else form.number, form.run if is_run else None, data)


# How an entry of each kind is read from its form and its bytes.
_READERS = (
    lambda form, data: Join(form.client, form.places),
    _refuse_in,
    lambda form, data: Accept(form.client, form.number, _request_in(form, data)),
    lambda form, data: Ask(form.client, form.number, Kind(form.discovery)),
    _send_in,
    lambda form, data: Came(None if form.has_failed else data),
    lambda form, data: Finish(form.number, Status(form.status), form.joined),
    lambda form, data: Answer(form.number, form.run, run_fault(form.fault, form.corrupt)),
    lambda form, data: Collect(form.client),
    lambda form, data: Pause(),
    lambda form, data: Resume(),
    lambda form, data: Close(),
)


def entry_in(form: EntryForm, data: bytes) -> Entry:
    """The entry that a form and its bytes spell."""
    return _READERS[form.kind](form, data)
