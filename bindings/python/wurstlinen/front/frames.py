"""Frames and their replies, decoded."""
from __future__ import annotations

from typing import Any, Dict, Iterator, NamedTuple, Optional, Set, Tuple

from ..lines.numbers import CommandClass, Pid, ResponseType
from ..lines.packets import Packet, decode_branch_reply, decode_packet, is_branch_frame
from ..lines.uids import uid_text
from ..parameters import STANDARD, Misfit, decode
from ..parameters.decoding import lines_of, values_of
from ..parameters.names import NACK_REASONS
from .naming import known_or_raw, nack_of
from .output import reading_keys

RESPONSES = (CommandClass.GET_RESPONSE, CommandClass.SET_RESPONSE)
UID_BYTES = 6
NACK_BYTES = 2
TENTHS = 10
SILENCE = "silence"
LINE_FAILED = "the line failed"
BYTES_IN_ROW = 32


class Reply(NamedTuple):
    """What came after a frame, None for a line that failed, and the response that it is. A last part has all data."""

    data: Optional[bytes]
    response: Optional[Packet]
    parts: int = 1
    # Whether it may be a rest: an earlier GET of the same broke off, and none was whole since.
    may_be_incomplete: bool = False


class Parts:
    """Joins the answers that devices send in parts (E1.20, ACK_OVERFLOW)."""

    def __init__(self) -> None:
        self._of: Tuple[int, ...] = ()
        self._data = b""
        self._count = 0
        # What the last part belongs to, and the GETs that broke off: a device, its sub-device and a PID.
        self._asked: Optional[Tuple[int, ...]] = None
        self._broken: Set[Tuple[int, ...]] = set()

    def joined(self, frame: bytes, reply: Optional[bytes]) -> Reply:
        """What came after a frame, and whether that may be a rest. The last part of an answer has the data of all."""
        found = self._joined(frame, reply)
        command, response = decode_packet(frame), found.response
        asked = key_of(command)
        before, self._asked = self._asked, None
        if before is not None and before != asked:
            self._broken.add(before)
        if command is None or asked is None:
            return found
        if (response is None or response.source != command.destination
                or command.pid not in (response.pid, Pid.QUEUED_MESSAGE)):
            self._broken.add(asked)
        elif response.port_or_type == ResponseType.ACK_OVERFLOW:
            self._asked = asked
        elif response.port_or_type != ResponseType.ACK:
            if before == asked:
                self._broken.add(asked)
        elif asked in self._broken:
            self._broken.remove(asked)
            return found._replace(may_be_incomplete=True)
        return found

    def _joined(self, frame: bytes, reply: Optional[bytes]) -> Reply:
        """What came after a frame. Only parts that followed each other are joined.

        After a reply that was lost or damaged, the answer broke off: whatever comes next begins another one.
        """
        response = None if is_branch_frame(frame) else decode_packet(reply or b"")
        last, data, count = self._of, self._data, self._count
        self._of, self._data, self._count = (), b"", 0
        if response is None:
            return Reply(reply, None)
        of = response.source, response.pid, response.sub_device, response.command_class
        before, count = (data, count) if of == last else (b"", 0)
        if response.port_or_type == ResponseType.ACK_OVERFLOW:
            self._of, self._data, self._count = of, before + response.data, count + 1
        elif response.port_or_type == ResponseType.ACK and count:
            return Reply(reply, response._replace(data=before + response.data), count + 1)
        return Reply(reply, response)


def key_of(command: Optional[Packet]) -> Optional[Tuple[int, ...]]:
    """What a command asks for, if it is a GET of one device."""
    if command is None or command.command_class != CommandClass.GET:
        return None
    return command.destination, command.sub_device, command.pid


def exchange_text(number: int, frame: bytes, reply: Reply, seconds: Optional[float] = None) -> str:
    """A frame and its reply, on one line, with its time if that is known."""
    time = "" if seconds is None else f"{seconds:.6f}  "
    return f"{number:04d}  {time}{command_of(frame)}  -> {answer_text(frame, reply)}"


def bytes_of(frame: bytes, reply: Optional[bytes]) -> Iterator[str]:
    """The bytes of a frame and of its reply, in rows."""
    for mark, data in ((">", frame), ("<", reply or b"")):
        for at in range(0, len(data), BYTES_IN_ROW):
            yield f"      {mark} {data[at:at + BYTES_IN_ROW].hex(' ')}"


def answer_text(frame: bytes, reply: Reply) -> str:
    """What a frame's reply says."""
    if reply.data is None:
        return LINE_FAILED
    if is_branch_frame(frame):
        return branch_text(reply.data)
    command = decode_packet(frame)
    text = bytes_text(reply.data, reply.response, None if command is None else command.pid) if reply.data else SILENCE
    text += "" if reply.parts == 1 else f" ({reply.parts} parts)"
    return text + (" (may lack its first parts)" if reply.may_be_incomplete else "")


def answer_keys(frame: bytes, reply: Reply) -> Dict[str, Any]:
    """The same for JSON: the text, and what a device returned, or why it refused."""
    response = reply.response
    keys: Dict[str, Any] = {"text": answer_text(frame, reply)}
    if is_branch_frame(frame):
        found = decode_branch_reply(reply.data or b"")
        return keys if found is None else {**keys, "uid": uid_text(found)}
    if response is None:
        return keys
    keys["uid"] = uid_text(response.source)
    keys.update({"may_be_incomplete": True} if reply.may_be_incomplete else {})
    if response.port_or_type == ResponseType.NACK_REASON:
        return {**keys, "nack": nack_of(response.data)}
    if response.port_or_type == ResponseType.ACK and response.command_class in RESPONSES:
        parameter = known_or_raw(response.source >> 32, response.pid)
        is_set = response.command_class == CommandClass.SET_RESPONSE
        keys.update(reading_keys(keys["uid"], parameter, decode(parameter, is_set, response.data)))
    return keys


def command_of(frame: bytes) -> str:
    """A frame."""
    command = decode_packet(frame)
    return f"0x{frame.hex()}" if command is None else command_text(command)


def command_text(command: Packet) -> str:
    """A command."""
    target = uid_text(command.destination)
    if command.is_branch:
        low, high = (int.from_bytes(each, "big") for each in (command.data[:UID_BYTES], command.data[UID_BYTES:]))
        return f"BRANCH {uid_text(low)}-{uid_text(high)}"
    if command.command_class == CommandClass.DISCOVERY:
        return f"{'MUTE' if command.pid == Pid.DISC_MUTE else 'UNMUTE'} {target}"
    kind = "SET" if command.command_class == CommandClass.SET else "GET"
    sub_device = f"/{command.sub_device}" if command.sub_device else ""
    return f"{kind} {target}{sub_device} {STANDARD.name(command.pid)}{data_text(command)}"


def data_text(command: Packet) -> str:
    """The data of a GET or a SET."""
    if not command.data:
        return ""
    parameter = STANDARD.numbered(command.pid)
    is_set = command.command_class == CommandClass.SET
    message = None if parameter is None else parameter.set if is_set else parameter.get
    try:
        if message is not None:
            return f" {'; '.join(lines_of(message.request, values_of(message.request, command.data)))}"
    except Misfit:
        pass
    return f" 0x{command.data.hex()}"


def branch_text(reply: bytes) -> str:
    """What came after a branch."""
    return spelled_text(reply, decode_branch_reply(reply)) if reply else SILENCE


def spelled_text(reply: bytes, found: Optional[int]) -> str:
    """The bytes that came after a branch, which spell this UID, or none."""
    return f"collision, {len(reply)} bytes" if found is None else uid_text(found)


def bytes_text(reply: bytes, response: Optional[Packet], pid: Optional[int]) -> str:
    """The bytes that came after a command for this parameter, which are this response, or none."""
    if response is None:
        return f"damaged, 0x{reply.hex()}"
    number = int.from_bytes(response.data, "big")
    if response.port_or_type == ResponseType.NACK_REASON:
        known = NACK_REASONS.get(number) if len(response.data) == NACK_BYTES else None
        return f"NACK {known or f'0x{response.data.hex()}'}"
    if response.port_or_type == ResponseType.ACK_TIMER:
        return f"ACK_TIMER {number / TENTHS:g} s"
    if response.port_or_type == ResponseType.ACK_OVERFLOW:
        return f"ACK_OVERFLOW, {len(response.data)} bytes"
    if response.port_or_type != ResponseType.ACK:
        return f"response type 0x{response.port_or_type:02x}, 0x{response.data.hex()}"
    return f"ACK{acknowledged_text(response, pid not in (None, response.pid))}"


def acknowledged_text(response: Packet, is_other: bool) -> str:
    """The data of an acknowledgement, and its parameter if that is another than the command's."""
    if not response.data:
        return f" {STANDARD.name(response.pid)}" if is_other else ""
    if response.command_class == CommandClass.DISCOVERY_RESPONSE:
        return f" 0x{response.data.hex()}"
    is_set = response.command_class == CommandClass.SET_RESPONSE
    reading = decode(STANDARD.numbered(response.pid), is_set, response.data)
    return f" {STANDARD.name(response.pid)} {'; '.join(reading.lines)}"
