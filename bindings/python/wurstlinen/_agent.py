"""A single discovery run."""

import ctypes
import enum
from typing import Iterable, Optional, Tuple, Union

from ._faults import check, given
from ._forms import bad_uids_of, devices_of, run_fault
from ._held import Held
from ._library import Calls, DeviceForm, StartForm, buffer_of, room_for
from ._types import (
    DEFAULT_BUDGET, MOST_DEVICES, MOST_FRAME_BYTES, BadUids, Device, Kind, RunFault, Search, Uid, uid_of, whole)
from .line import Line, LineFailed


class Operation(enum.IntEnum):
    """The operations of a run."""

    UNMUTE = 0
    MUTE = 1
    BRANCH = 2


class DiscoveryAgent(Held):
    """A single discovery run, on a line of the caller's own.

    Calls may be made from any thread: each has its turn on this object. It is a context manager, which disposes of it.
    """

    _calls = Calls("wurst_agent_")

    def __init__(self, source: Union[Uid, str], kind: Kind = Kind.FULL, known: Iterable[Union[Uid, str]] = (), *,
                 budget: int = DEFAULT_BUDGET, search: Search = Search.QUICK, first_tn: int = 0) -> None:
        super().__init__()
        numbers = [uid_of(uid).number for uid in known]
        start = StartForm(uid_of(source).number, whole(budget, 64, "budget"), int(kind), int(search),
                          whole(first_tn, 8, "transaction number"))
        array = (ctypes.c_uint64 * (len(numbers) + 1))(*numbers)
        check(self._calls.start(self._handle, start, array, len(numbers)))

    def next(self) -> Optional[Tuple[Operation, bytes]]:
        """The run's next operation, and its frame; None: the run has ended. Another call returns the same."""
        operation, frame, length = ctypes.c_uint32(), room_for(MOST_FRAME_BYTES), ctypes.c_size_t()
        status = self._made(self._calls.next, operation, frame, MOST_FRAME_BYTES, length)
        return (Operation(operation.value), bytes(frame[:length.value])) if given(status) else None

    def hear(self, reply: bytes) -> None:
        """Takes the line's reply; no bytes are silence."""
        buffer, length = buffer_of(reply)
        check(self._made(self._calls.hear, buffer, length))

    def fail(self) -> None:
        """Reports that the line failed, which ends the run."""
        check(self._made(self._calls.fail))

    def stop(self) -> None:
        """Ends the run with the fault ABORTED."""
        check(self._made(self._calls.stop))

    def devices(self) -> Tuple[Device, ...]:
        """The devices found so far, ascending by UID."""
        forms, count = (DeviceForm * MOST_DEVICES)(), ctypes.c_size_t()
        check(self._made(self._calls.devices, forms, MOST_DEVICES, count))
        return devices_of(forms, count.value)

    def bad_uids(self) -> BadUids:
        """The bad UIDs so far."""
        return bad_uids_of(self)

    def fault(self) -> Optional[RunFault]:
        """Why the run ended early; None if it didn't. Raises NotEnded before the end."""
        fault, corrupt = ctypes.c_uint32(), ctypes.c_uint64()
        check(self._made(self._calls.fault, fault, corrupt))
        return run_fault(fault.value, corrupt.value)

    def frames(self) -> int:
        """How many exchanges the run has made."""
        frames = ctypes.c_uint64()
        check(self._made(self._calls.frames, frames))
        return frames.value

    def run(self, line: Line) -> Tuple[Device, ...]:
        """Makes the whole run on the line, and returns the devices found. `fault` says whether it ended early."""
        while True:
            asked = self.next()
            if asked is None:
                return self.devices()
            try:
                reply = line.exchange(asked[1])
            except LineFailed:
                self.fail()
            else:
                self.hear(reply)
