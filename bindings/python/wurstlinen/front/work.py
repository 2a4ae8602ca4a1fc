"""A line with the proved queue on it, and what commands do with it."""
from __future__ import annotations

import argparse
import contextlib
import os
import time
from functools import partial
from typing import TYPE_CHECKING, Iterator, Optional, Set, Tuple, Union, cast

from .. import (
    AckType, BadUids, Completion, Device, Discovery, Fault, Kind, Request, RequestClass, ResponseClass, RunFaultKind,
    Search, Status, Uid, commands,
)
from .._ask import Asker, Incomplete, Unserved
from .._bad_uids import bad_uids_of_run
from ..commands import RUN_FAULTS, source_of
from ..line import LineFailed
from ..lines import OpenLine, open_line
from ..lines.waiting import when_free
from ..parameters import Misfit, Parameter, Reading, decode, described
from .naming import is_manufacturers, known_or_raw, nack_of, raw_parameter, table_of
from .opening import failures_of_lines, served
from .output import BAD_ARGUMENTS, FAILED, LINE_FAILED, LINE_VARIABLE, REFUSED, Failure, Output
from .watched import Watched, WatchedLine

if TYPE_CHECKING:
    from .._queue import Client
    from ..olad.client import OlaClient
    from ..shared.client import SharedClient
    from .discovery_log import Sink

# More than one command has outstanding.
PLACES = 4
PARAMETER_DESCRIPTION = 0x0051
GLANCE_SECONDS = 0.01


class Work:
    """What a command does on its line, by a queue of its own, by a server's or by olad's."""

    def __init__(self, line: Watched, source: Uid, client: Union[Client, SharedClient, OlaClient], wait: float,
                 output: Output) -> None:
        self.line = line
        self.output = output
        # The devices that asked for time.
        self.slow: Set[Uid] = set()
        # The UID whose branch was answered again and again, so that the last discovery is incomplete.
        self.unmuted: Optional[Uid] = None
        # The bad UIDs of the last discovery.
        self.bad = BadUids()
        # Whether the last discovery went on as far as it could, beside a device that breaks the rules or over 1,024.
        self.has_searched = False
        self._source = source
        self._client = client
        self._asked: Optional[Uid] = None
        self._asker = Asker(client, line, wait, on_wait=self._waits)

    def _waits(self, seconds: float) -> None:
        assert self._asked is not None
        if self._asked not in self.slow:
            self.output.note(f"{self._asked} asks for {seconds:g} s")
        self.slow.add(self._asked)

    def ask(self, uid: Uid, pid: int, data: bytes = b"", sub_device: int = 0, is_set: bool = False) -> Completion:
        """The acknowledgement of a request. Raises Failure if there is none."""
        self._asked = uid
        request_class = RequestClass.SET if is_set else RequestClass.GET
        try:
            answer = self._asker.ask(Request(uid, pid, data, sub_device, request_class))
        except Unserved:
            raise self._unserved("request") from None
        except Incomplete as fault:
            raise Failure(FAILED, f"{uid}: {fault}", uid=str(uid), reason="incomplete") from None
        for message in answer.queued:
            self._report(uid, message)
        if answer.is_late:
            raise Failure(FAILED, f"{uid} didn't answer within {self._asker.wait:g} s, since it needs more time",
                          uid=str(uid), reason="late")
        return self._acknowledged(uid, answer.completion, is_set)

    def _unserved(self, what: str) -> Failure:
        """Why the server hasn't done something in time."""
        reason = self.line.absence or "the line has too much to do"
        return Failure(FAILED, f"the {what} has no result so far, and {self.line.later}: {reason}", reason="unserved")

    def _acknowledged(self, uid: Uid, completion: Completion, is_set: bool) -> Completion:
        """A completion that is an acknowledgement. Raises Failure for any other."""
        if completion.status == Status.WAS_BROADCAST:
            return completion
        if completion.status == Status.FAILED_TO_SEND:
            raise Failure(FAILED, str(self.line.failure or "the line failed"), reason=LINE_FAILED)
        if completion.head is None:
            reason = "incomplete" if self.line.has_broken_off else completion.status.name.lower()
            raise Failure(FAILED, f"{uid}: {self._reason(completion.status, is_set)}", uid=str(uid), reason=reason)
        if completion.head.ack == AckType.NACK:
            name = nack_of(completion.data)
            raise Failure(REFUSED, f"{uid} refused it: {name.replace('_', ' ')} (NACK 0x{completion.data.hex()})",
                          uid=str(uid), reason="nack", nack=name)
        return completion

    def _reason(self, status: Status, is_set: bool) -> str:
        """Why nothing came back, or not all. No answer to a SET has parts."""
        if status == Status.TIMEOUT:
            return "no answer" if is_set else self.line.silence
        return f"no valid answer ({status.name.lower().replace('_', ' ')})"

    def _report(self, uid: Uid, message: Completion) -> None:
        """Prints a message that the device had queued."""
        assert message.head is not None
        nack = nack_of(message.data) if message.head.ack == AckType.NACK else None
        self.output.queued(str(uid), *self.message(uid, message), nack)

    @staticmethod
    def message(uid: Uid, message: Completion) -> Tuple[Parameter, Reading]:
        """What a message of a device says, whose parameter only the message names."""
        assert message.head is not None
        parameter = known_or_raw(uid.manufacturer, message.head.pid)
        return parameter, decode(parameter, message.head.response_class == ResponseClass.SET, message.data)

    def read(self, uid: Uid, parameter: Parameter, data: bytes = b"", sub_device: int = 0) -> Reading:
        """What a GET returns. Raises Failure."""
        return decode(parameter, False, self.ask(uid, parameter.number, data, sub_device).data)

    def described(self, uid: Uid, pid: int) -> Parameter:
        """The parameter of this number: as it is known, or as the device describes it, or else as bytes."""
        parameter = table_of(uid.manufacturer, pid).numbered(pid)
        if parameter is not None or not is_manufacturers(pid) or uid.is_broadcast:
            return parameter or raw_parameter(pid)
        try:
            found = described(self.ask(uid, PARAMETER_DESCRIPTION, pid.to_bytes(2, "big")).data)
            return found if found.number == pid else raw_parameter(pid)
        except Misfit:
            return raw_parameter(pid)
        except Failure as failure:
            if failure.status != REFUSED:
                raise
            return raw_parameter(pid)

    def discover(self, sink: Optional[Sink] = None) -> Tuple[Tuple[Device, ...], Optional[str]]:
        """The devices on the line, and why the run is incomplete; None if it isn't. A sink gets the run's log."""
        found = self.search(sink)
        self.unmuted = None if found.fault is None else found.fault.uid
        self.bad = bad_uids_of_run(self._client.queue, found.run)
        self.has_searched = found.fault is None or found.fault.kind in (RunFaultKind.CORRUPT, RunFaultKind.TOO_MANY)
        if found.fault is None:
            return found.devices, None
        reason = str(self.line.failure or RUN_FAULTS[found.fault.kind].format(uid=found.fault.uid))
        return found.devices, reason

    def search(self, sink: Optional[Sink] = None) -> Discovery:
        """The end of a full discovery. Raises Failure if a server doesn't begin it in time."""
        # Most commands don't search.
        from .discovery_log import DiscoveryLog
        self.line.begin(None if sink is None else partial(DiscoveryLog, self._source, sink))
        try:
            self._client.discover(Kind.FULL)
            return self._discovered()
        finally:
            self.line.end()

    def _discovered(self) -> Discovery:
        """The end of the discovery, which may take long. Only one without a frame in time is given up."""
        frames, until = -1, 0.0
        while True:
            self._client.queue._step(self.line)
            found = self._client.next_discovery()
            if found is not None:
                return found
            if frames != self.line.frames:
                frames, until = self.line.frames, time.monotonic() + self._asker.wait
            elif time.monotonic() >= until:
                raise self._unserved("discovery")
            self._client.queue._sleep(GLANCE_SECONDS)


@contextlib.contextmanager
def open_work(chosen: argparse.Namespace, output: Output) -> Iterator[Work]:
    """Opens the line for the duration of a `with`. Raises Failure."""
    text = chosen.line or os.environ.get(LINE_VARIABLE, "")
    if not text:
        raise Failure(BAD_ARGUMENTS, f"which line? --line LINE or {LINE_VARIABLE} says it", reason="line")
    def open_any() -> Tuple[Union[SharedClient, OlaClient, None], Optional[OpenLine]]:
        """A client of who has the line, or else the line."""
        client = served(text, chosen.source, output)
        return client, None if client is not None else open_line(text)

    with failures_of_lines():
        shared, line = when_free(open_any, chosen.wait_line, output.note)
    if shared is not None:
        with shared, failures_of_server():
            yield shared_work(shared, output, chosen.frames, vars(chosen).get("log"), chosen.wait)
    elif line is not None:
        # Who uses a server's queue doesn't load the library.
        from .._queue import Controller
        with line:
            watched = WatchedLine(line, output, chosen.frames)
            source = Uid.from_number(source_of(chosen, line))
            with Controller(source, PLACES, search=Search.QUICK) as controller:
                yield Work(watched, source, controller.join(PLACES), chosen.wait, output)


def shared_work(client: Union[SharedClient, OlaClient], output: Output, frames: Optional[str], log: Optional[str],
                wait: float = commands.DEFAULT_WAIT) -> Work:
    """What a command does by a server, or by olad. Raises Failure."""
    # A command doesn't load what others need.
    if client.queue.source is None:
        from .ola_line import OlaLine
        line = OlaLine(client.queue, output, frames, log)
        return Work(line, Uid.from_number(commands.SOURCE), client, wait, output)
    from .shared_line import SharedLine
    shared = cast("SharedClient", client)
    return Work(SharedLine(shared.queue, output, frames), client.queue.source, client, wait, output)


@contextlib.contextmanager
def failures_of_server() -> Iterator[None]:
    """Raises Failure if the server of the line ends, or refuses something."""
    try:
        yield
    except (Fault, LineFailed) as fault:
        raise Failure(FAILED, str(fault), reason=LINE_FAILED) from None
