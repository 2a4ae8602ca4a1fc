"""What the tests of asking share: a clock, devices with scripted answers, and a stand-in for the queue."""
from __future__ import annotations

import time
from collections import deque
from typing import Callable, Deque, List, Optional, Set, Tuple

from common import SOURCE
from wurstlinen import AckType, Completion, ReplyHead, Request, RequestClass, ResponseClass, Status, Uid
from wurstlinen.line import Line, LineFailed
from wurstlinen.lines.numbers import CommandClass, Pid, ResponseType
from wurstlinen.lines.packets import Packet, decode_packet

DEVICE = Uid.from_number(0x123400000001)
OTHER_DEVICE = Uid.from_number(0x123400000002)
# The type, the PID and the data of a response, and its class if that isn't the command's.
Said = Tuple[ResponseType, int, bytes, CommandClass]
EMPTY: Said = (ResponseType.ACK, Pid.STATUS_MESSAGES, b"", CommandClass.GET)
UNKNOWN_PID = b"\x00\x00"


class Clock:
    """A clock that only moves when somebody sleeps."""

    def __init__(self) -> None:
        self.now = 100.0
        self.naps: List[float] = []

    def time(self) -> float:
        """The time."""
        return self.now

    def sleep(self, seconds: float) -> None:
        """Lets time pass."""
        assert seconds >= 0
        self.naps.append(seconds)
        self.now += seconds


def timer(pid: int, tenths: int, command_class: CommandClass = CommandClass.GET) -> Said:
    """An ACK_TIMER."""
    return ResponseType.ACK_TIMER, pid, tenths.to_bytes(2, "big"), command_class


def ack(pid: int, data: bytes = b"", command_class: CommandClass = CommandClass.GET) -> Said:
    """An ACK."""
    return ResponseType.ACK, pid, data, command_class


def nack(pid: int, reason: bytes = UNKNOWN_PID, command_class: CommandClass = CommandClass.GET) -> Said:
    """A NACK_REASON."""
    return ResponseType.NACK_REASON, pid, reason, command_class


class Device:
    """A line with one device, which says what a function says. None is silence."""

    def __init__(self, answer: Callable[[Packet], Optional[Said]]) -> None:
        self._answer = answer
        self.commands: List[Packet] = []

    def exchange(self, frame: bytes) -> bytes:
        """The device's reply."""
        command = decode_packet(frame)
        assert command is not None
        self.commands.append(command)
        said = self._answer(command)
        if said is None:
            return b""
        kind, pid, data, command_class = said
        return Packet(command.source, command.destination, command.transaction, kind, 0, command.sub_device,
                      command_class + 1, pid, data).encode()

    @property
    def asked(self) -> List[Tuple[int, bytes]]:
        """The PIDs and data of the commands."""
        return [(command.pid, command.data) for command in self.commands]


class Queueing:
    """A device's answers: ACK_TIMER to all but queued messages, which it hands out one after another.

    A message is what is said, or a number: so many exchanges of queued messages are lost on the way back.
    """

    def __init__(self, tenths: int, *messages: Said) -> None:
        self.tenths = tenths
        self.messages: Deque[Said] = deque(messages)
        self.last: Said = EMPTY
        # Which of its replies to QUEUED_MESSAGE are lost, and which of those commands don't reach it.
        self.lost_replies: List[int] = []
        self.lost_commands: List[int] = []
        self._handed = -1

    def __call__(self, command: Packet) -> Optional[Said]:
        if command.pid != Pid.QUEUED_MESSAGE:
            return timer(command.pid, self.tenths, CommandClass(command.command_class))
        self._handed += 1
        if self._handed in self.lost_commands:
            return None
        if command.data != b"\x01":
            self.last = self.messages.popleft() if self.messages else EMPTY
        return None if self._handed in self.lost_replies else self.last


class StandInQueue:
    """The queue's calls that asking needs, for requests of one client."""

    def __init__(self) -> None:
        self._is_paused = False
        self.waiting: Deque[Tuple[int, Request]] = deque()
        self.ended: Deque[Completion] = deque()
        # The GETs that broke off, by device, sub-device and PID.
        self.broken: Set[Tuple[Uid, int, int]] = set()
        self.requests = 0

    def pause(self) -> None:
        """Sends nothing more."""
        self._is_paused = True

    def _sleep(self, seconds: float) -> None:
        """Waits as the queue does."""
        time.sleep(seconds)

    def _step(self, line: Line) -> int:
        """Makes the exchanges of all requests."""
        while self.waiting and not self._is_paused:
            number, request = self.waiting.popleft()
            self.ended.append(self._flagged(request, self._done(number, request, line)))
        return 0

    def _flagged(self, request: Request, done: Completion) -> Completion:
        """Says whether an answer may lack its first parts."""
        key = request.target, request.sub_device, request.pid
        if request.request_class == RequestClass.SET or done.status == Status.WAS_BROADCAST:
            return done
        if done.head is None:
            self.broken.add(key)
        elif done.head.ack == AckType.ACK and key in self.broken:
            self.broken.remove(key)
            return done._replace(may_be_incomplete=True)
        return done

    def _done(self, number: int, request: Request, line: Line) -> Completion:
        """How a request ends, without parts."""
        command_class = CommandClass.SET if request.request_class else CommandClass.GET
        frame = Packet(request.target.number, SOURCE, number % 256, 1, 0, request.sub_device, command_class,
                       request.pid, request.data).encode()
        try:
            reply = line.exchange(frame)
        except LineFailed:
            return Completion(number, Status.FAILED_TO_SEND, None, b"")
        if request.target.is_broadcast:
            return Completion(number, Status.WAS_BROADCAST, None, b"")
        response = decode_packet(reply)
        if response is None:
            return Completion(number, Status.CHECKSUM if reply else Status.TIMEOUT, None, b"")
        is_set = response.command_class == CommandClass.SET_RESPONSE
        head = ReplyHead(AckType(response.port_or_type), ResponseClass.SET if is_set else ResponseClass.GET,
                         response.pid, response.sub_device)
        return Completion(number, Status.COMPLETED, head, response.data)


class StandInClient:
    """A client of that queue."""

    def __init__(self) -> None:
        self.queue = StandInQueue()

    def submit(self, request: Request) -> int:
        """Accepts a request, and returns its number."""
        number = self.queue.requests
        self.queue.requests += 1
        self.queue.waiting.append((number, request))
        return number

    def next_outcome(self) -> Optional[Completion]:
        """Collects the oldest outcome."""
        return self.queue.ended.popleft() if self.queue.ended else None
