"""A small controller for these tests only: a binary search over branches, and GETs.

It follows the same rules as the proved one, but shares no code with it: five tries for each branch and each mute, and
the lower half of a range first.
"""
from __future__ import annotations

from dataclasses import dataclass, field
from typing import Dict, List, Optional, Set, Tuple

from wurstlinen.line import Line, LineFailed
from wurstlinen.lines.numbers import CommandClass, Pid, ResponseType
from wurstlinen.lines.packets import Packet, decode_branch_reply, decode_packet
from wurstlinen.lines.uids import ALL_DEVICES, is_broadcast

SOURCE = 0x7A7000000100
TRIES = 5
UNMUTES = 3
PORT = 1


class Corrupt(Exception):
    """The branch of this UID was answered, but nobody acknowledged a mute of it."""

    def __init__(self, uid: int) -> None:
        super().__init__(f"{uid:012x}")
        self.uid = uid


@dataclass
class Answer:
    """The end of a request: data with a response type, or None if nothing came that answers it."""

    kind: Optional[ResponseType]
    data: bytes = b""
    pid: int = 0
    message_count: int = 0


TIMEOUT = Answer(None)


@dataclass
class Controller:
    """Searches a line, and asks devices."""

    line: Line
    source: int = SOURCE
    frames: int = 0
    # The devices found, with the data of their acknowledgements.
    found: Dict[int, bytes] = field(default_factory=dict)

    def discover(self) -> Set[int]:
        """The UIDs of all devices on the line."""
        self.found = {}
        for _ in range(UNMUTES):
            self._send(ALL_DEVICES, CommandClass.DISCOVERY, Pid.DISC_UN_MUTE)
        ranges: List[Tuple[int, int]] = [(0, ALL_DEVICES)]
        while ranges:
            low, high = ranges.pop()
            reply = self._branch(low, high)
            if not reply:
                continue
            spelled = decode_branch_reply(reply)
            if self._finds(spelled, low, high) or low == high != spelled and self._finds(low, low, high):
                ranges.append((low, high))
            elif low == high:
                raise Corrupt(low)
            else:
                middle = (low + high) // 2
                ranges += [(middle + 1, high), (low, middle)]
        return set(self.found)

    def get(self, uid: int, pid: int, data: bytes = b"") -> Answer:
        """The answer to a GET, joined from its parts."""
        return self._request(uid, CommandClass.GET, pid, data)

    def set(self, uid: int, pid: int, data: bytes = b"") -> Answer:
        """The answer to a SET."""
        return self._request(uid, CommandClass.SET, pid, data)

    def _request(self, uid: int, command_class: CommandClass, pid: int, data: bytes) -> Answer:
        joined = b""
        while True:
            response = self._response(uid, command_class, pid, data)
            if response is None:
                return TIMEOUT
            joined += response.data
            if response.port_or_type != ResponseType.ACK_OVERFLOW:
                return Answer(ResponseType(response.port_or_type), joined, response.pid, response.message_count)

    def _finds(self, uid: Optional[int], low: int, high: int) -> bool:
        """Mutes a device that isn't found yet, and says whether it is now."""
        if uid is None or not low <= uid <= high or uid in self.found or is_broadcast(uid):
            return False
        for _ in range(TRIES):
            acknowledgement = self._response(uid, CommandClass.DISCOVERY, Pid.DISC_MUTE)
            if acknowledgement is not None:
                self.found[uid] = acknowledgement.data
                return True
        return False

    def _branch(self, low: int, high: int) -> bytes:
        data = low.to_bytes(6, "big") + high.to_bytes(6, "big")
        for _ in range(TRIES):
            reply = self._send(ALL_DEVICES, CommandClass.DISCOVERY, Pid.DISC_UNIQUE_BRANCH, data)
            if reply:
                return reply
        return b""

    def _response(self, uid: int, command_class: CommandClass, pid: int, data: bytes = b"") -> Optional[Packet]:
        """The response to a command for one device, if what came answers it."""
        reply = decode_packet(self._send(uid, command_class, pid, data))
        if reply is None or reply.transaction != (self.frames - 1) % 256 or reply.source != uid:
            return None
        if reply.destination != self.source:
            return None
        is_answer = pid == Pid.QUEUED_MESSAGE or (reply.command_class == command_class + 1 and reply.pid == pid)
        return reply if is_answer else None

    def _send(self, uid: int, command_class: CommandClass, pid: int, data: bytes = b"") -> bytes:
        command = Packet(uid, self.source, self.frames % 256, PORT, 0, 0, command_class, pid, data)
        self.frames += 1
        return self.line.exchange(command.encode())


def discover(line: Line) -> Set[int]:
    """The UIDs of all devices on a line."""
    return Controller(line).discover()


__all__ = ["Answer", "Controller", "Corrupt", "LineFailed", "TIMEOUT", "discover"]
