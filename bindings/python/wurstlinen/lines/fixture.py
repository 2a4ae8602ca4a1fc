"""A simulated fixture: what a responder of E1.20 does with each command, and how some break the rules."""
from __future__ import annotations

from collections import deque
from dataclasses import dataclass
from typing import Deque, Dict, Optional, Tuple

from .numbers import (
    MOST_DATA_BYTES, MOST_QUEUED_MESSAGES, ROOT_DEVICE, CommandClass, NackReason, Pid, ResponseType, StatusType,
)
from .packets import Packet, encode_branch_reply
from .uids import is_broadcast
from .parameters import Parameters, Refused
from .scene import DeviceKeys, Lie

UNMUTES_TO_OBEY = 3
# No exchange follows this one.
NEVER = -2
EXTRA_BYTES = b"\x55\xaa\x00\xff"
SHORT_BYTES = 12
TENTHS = 10.0


@dataclass(frozen=True)
class Queued:
    """An answer that is ready at a time of the rig's clock."""

    ready: float
    response: Packet


class Fixture:
    """A device of a rig."""

    def __init__(self, keys: DeviceKeys) -> None:
        self.uid = keys.uid
        self.is_muted = False
        self._keys = keys
        self._lies = keys.fixture.lies
        self._reply = self._own_branch_reply()
        self._branches = 0
        # How many consecutive unmutes came, and the exchange of the last one.
        self._unmutes = 0
        self._unmuted_at = NEVER
        # If two parameters have the same PID, the first one answers.
        self._listed = {pid: parts for pid, parts in reversed(keys.params)}
        self._positions: Dict[int, int] = {}
        queue_pids = () if keys.fixture.timer is None else (Pid.QUEUED_MESSAGE, Pid.STATUS_MESSAGES)
        self._parameters = Parameters(keys.fixture, (*self._listed, *queue_pids))
        # The GET that is answered in parts, the exchange of its last part, and what is left of its answer.
        self._parted: Optional[Tuple[int, int, bytes]] = None
        self._parted_at = NEVER
        self._rest = b""
        self._queue: Deque[Queued] = deque()
        self._last_message: Optional[Packet] = None

    def is_present(self, exchange: int) -> bool:
        """Whether it is on the line at this exchange."""
        keys = self._keys
        return keys.arrives <= exchange and (keys.leaves is None or exchange < keys.leaves)

    @property
    def stays(self) -> bool:
        """Whether it never leaves."""
        return self._keys.leaves is None

    def branch_reply(self, low: int, high: int) -> bytes:
        """What it sends after a branch of this range while it is unmuted; no bytes if it doesn't answer."""
        if not low <= self.uid <= high and Lie.ANSWERS_ALL not in self._lies or Lie.HIDES in self._lies:
            return b""
        self._branches += 1
        if Lie.EVERY_OTHER in self._lies and self._branches % 2:
            return b""
        return self._reply

    def respond(self, command: Packet, exchange: int, now: float) -> bytes:
        """What it sends after a command for it that isn't a branch; no bytes if it doesn't answer."""
        if exchange != self._parted_at + 1 or self._parted != _identity(command):
            self._parted = None
        # A broadcast GET has no effect: nobody answers it, so an answer in parts doesn't go on either.
        is_done = command.command_class == CommandClass.SET or not is_broadcast(command.destination)
        if command.command_class == CommandClass.DISCOVERY:
            response = self._discovered(command, exchange)
        elif command.command_class in (CommandClass.GET, CommandClass.SET) and is_done:
            response = self._requested(command, exchange, now)
        else:
            response = None
        if response is None or is_broadcast(command.destination):
            return b""
        ready = sum(queued.ready <= now for queued in self._queue)
        return response._replace(message_count=ready).encode()

    def _own_branch_reply(self) -> bytes:
        spelled = self._keys.fixture.spells
        reply = encode_branch_reply(self.uid if spelled is None else spelled, self._keys.preamble)
        if Lie.WRONG_SUM in self._lies:
            # Bits of the sum that are encoded in this byte.
            reply = reply[:-1] + bytes([reply[-1] ^ 0x2A])
        if Lie.CUTS_SHORT in self._lies:
            reply = reply[:SHORT_BYTES]
        return reply + (EXTRA_BYTES if Lie.ADDS_BYTES in self._lies else b"")

    def _discovered(self, command: Packet, exchange: int) -> Optional[Packet]:
        """E1.20, discovery mute and un-mute: neither has data, and one with data is no such command."""
        if command.data:
            return None
        if command.pid == Pid.DISC_MUTE:
            if Lie.IGNORES_MUTES in self._lies:
                return None
            self.is_muted = Lie.STAYS_UNMUTED not in self._lies
        elif command.pid == Pid.DISC_UN_MUTE:
            self._unmutes = self._unmutes + 1 if exchange == self._unmuted_at + 1 else 1
            self._unmuted_at = exchange
            if Lie.UNMUTES_LATE not in self._lies or self._unmutes >= UNMUTES_TO_OBEY:
                self.is_muted = False
        else:
            return None
        binding = self._keys.binding
        data = self._keys.control.to_bytes(2, "big") + (b"" if binding is None else binding.to_bytes(6, "big"))
        return command.answer(self.uid, ResponseType.ACK, data)

    def _requested(self, command: Packet, exchange: int, now: float) -> Packet:
        """The answer to a GET or a SET."""
        try:
            return self._accepted(command, exchange, now)
        except Refused as refused:
            return self._nack(command, refused.reason)

    def _accepted(self, command: Packet, exchange: int, now: float) -> Packet:
        keys = self._keys.fixture
        if keys.nack is not None:
            return self._nack(command, keys.nack)
        if command.pid in self._listed:
            return self._listed_part(command, self._listed[command.pid])
        if command.sub_device != ROOT_DEVICE:
            raise Refused(NackReason.SUB_DEVICE_OUT_OF_RANGE)
        if keys.timer is not None and command.pid in (Pid.QUEUED_MESSAGE, Pid.STATUS_MESSAGES):
            return self._message(command, now)
        if self._parted is not None:
            return self._part(command, exchange)
        is_get = command.command_class == CommandClass.GET
        handle = self._parameters.get if is_get else self._parameters.set
        self._rest = handle(command.pid, command.data)
        if keys.timer is not None:
            return self._postpone(command, keys.timer, now)
        return self._part(command, exchange) if is_get else command.answer(self.uid, ResponseType.ACK, self._rest)

    def _nack(self, command: Packet, reason: int) -> Packet:
        return command.answer(self.uid, ResponseType.NACK_REASON, reason.to_bytes(2, "big"))

    def _listed_part(self, command: Packet, parts: Tuple[bytes, ...]) -> Packet:
        """A parameter of the file answers as docs/FORMATS.md says: part after part, whatever comes in between."""
        if command.command_class == CommandClass.SET:
            return command.answer(self.uid, ResponseType.ACK, b"")
        position = self._positions.get(command.pid, 0)
        self._positions[command.pid] = (position + 1) % len(parts)
        is_last = position + 1 == len(parts)
        kind = ResponseType.ACK if is_last else ResponseType.ACK_OVERFLOW
        return command.answer(self.uid, kind, parts[position])

    def _part(self, command: Packet, exchange: int) -> Packet:
        """The next part of an answer. After any exchange between two GETs, the answer starts again."""
        size = self._keys.fixture.part
        part, self._rest = self._rest[:size], self._rest[size:]
        self._parted = _identity(command) if self._rest else None
        self._parted_at = exchange
        kind = ResponseType.ACK_OVERFLOW if self._rest else ResponseType.ACK
        return command.answer(self.uid, kind, part)

    def _postpone(self, command: Packet, tenths: int, now: float) -> Packet:
        """E1.20, acknowledge timer: the answer is a queued message later."""
        if len(self._queue) >= MOST_QUEUED_MESSAGES:
            raise Refused(NackReason.BUFFER_FULL)
        answer = command.answer(self.uid, ResponseType.ACK, self._rest[:MOST_DATA_BYTES])
        self._queue.append(Queued(now + tenths / TENTHS, answer))
        return command.answer(self.uid, ResponseType.ACK_TIMER, tenths.to_bytes(2, "big"))

    def _message(self, command: Packet, now: float) -> Packet:
        """E1.20, queued message: the oldest that is ready, or else an empty list of status messages."""
        if command.command_class != CommandClass.GET:
            raise Refused(NackReason.UNSUPPORTED_COMMAND_CLASS)
        if len(command.data) != 1:
            raise Refused(NackReason.FORMAT_ERROR)
        is_queue = command.pid == Pid.QUEUED_MESSAGE
        status = command.data[0]
        if not (StatusType.GET_LAST_MESSAGE if is_queue else StatusType.NONE) <= status <= StatusType.ERROR:
            raise Refused(NackReason.DATA_OUT_OF_RANGE)
        if is_queue and status != StatusType.GET_LAST_MESSAGE:
            self._last_message = self._next_message(now)
        if not is_queue or self._last_message is None:
            return command.answer(self.uid, ResponseType.ACK, b"")._replace(pid=Pid.STATUS_MESSAGES)
        return self._last_message._replace(destination=command.source, transaction=command.transaction)

    def _next_message(self, now: float) -> Optional[Packet]:
        """Takes the oldest message that is ready out of the queue."""
        ready = next((queued for queued in self._queue if queued.ready <= now), None)
        if ready is None:
            return None
        self._queue.remove(ready)
        return ready.response


def _identity(command: Packet) -> Tuple[int, int, bytes]:
    return command.command_class, command.pid, command.data
