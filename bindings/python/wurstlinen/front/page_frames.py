"""What the exchanges of a log say, for a picture: what was asked, what came, and both as text.

Transaction numbers don't matter here, so what was decoded once is known for the same frame with another number.
"""
from __future__ import annotations

import enum
import functools
from typing import Dict, NamedTuple, Optional

from ..lines.numbers import CommandClass, Pid, ResponseType
from ..lines.packets import CHECKSUM_BYTES, LEAST_PACKET_BYTES, Packet, decode_branch_reply, decode_packet
from . import frames

UID_BYTES = 6
BRANCH_DATA_BYTES = 12
TRANSACTION_AT = 15
MOST_KNOWN = 1 << 16
NO_UID = bytes(UID_BYTES)


class Asked(enum.IntEnum):
    """What a frame asks."""

    BRANCH = 0
    MUTE = 1
    UNMUTE = 2
    GET = 3
    SET = 4
    OTHER = 5


class Came(enum.IntEnum):
    """What came back."""

    SILENCE = 0
    ONE = 1
    COLLISION = 2
    ACKNOWLEDGED = 3
    OTHER_RESPONSE = 4
    DAMAGED = 5
    FAILED = 6


class Command(NamedTuple):
    """A frame: what it asks, from the first to the last UID, its text, and what decides how an answer is read."""

    asked: Asked
    low: bytes
    high: bytes
    text: str
    is_branch: bool = False
    packet: Optional[Packet] = None


class Answer(NamedTuple):
    """What came, its text, and the UID that it spells or that sent it."""

    came: Came
    text: str
    uid: bytes = NO_UID


FAILED = Answer(Came.FAILED, frames.LINE_FAILED)
SILENCE = Answer(Came.SILENCE, frames.SILENCE)
ACKNOWLEDGED = (ResponseType.ACK, ResponseType.ACK_OVERFLOW)
# E1.20, discovery mute: a control field, and maybe a binding UID.
MUTE_DATA_BYTES = (2, 8)
ALL_SUB_DEVICES = 0xFFFF
CLASSES: Dict[int, Asked] = {CommandClass.GET: Asked.GET, CommandClass.SET: Asked.SET}
DISCOVERY_PIDS: Dict[int, Asked] = {Pid.DISC_MUTE: Asked.MUTE, Pid.DISC_UN_MUTE: Asked.UNMUTE}


def command_in(frame: bytes) -> Command:
    """What a frame is."""
    return _command(unnumbered(frame))


def answer_to(command: Command, frame: bytes, reply: Optional[bytes]) -> Answer:
    """What came after a command with this frame. None is a line that failed."""
    if reply is None:
        return FAILED
    if not reply:
        return SILENCE
    if command.is_branch:
        return _branch_answer(reply)
    answer = _answer(command.packet, unnumbered(reply))
    # What answers another transaction number answers another frame.
    if answer.came is Came.ACKNOWLEDGED and frame[TRANSACTION_AT] != reply[TRANSACTION_AT]:
        return answer._replace(came=Came.OTHER_RESPONSE)
    return answer


def unnumbered(data: bytes) -> bytes:
    """A packet with the transaction number 0, and all other bytes as they are."""
    if len(data) < LEAST_PACKET_BYTES or len(data) != data[2] + CHECKSUM_BYTES:
        return data
    total = sum(data) - data[-2] - data[-1]
    if total & 0xFFFF != data[-2] << 8 | data[-1]:
        return data
    total = total - data[TRANSACTION_AT] & 0xFFFF
    return b"%b\x00%b%c%c" % (data[:TRANSACTION_AT], data[TRANSACTION_AT + 1:-CHECKSUM_BYTES], total >> 8, total & 0xFF)


@functools.lru_cache(maxsize=MOST_KNOWN)
def _command(frame: bytes) -> Command:
    packet = decode_packet(frame)
    if packet is None:
        return Command(Asked.OTHER, NO_UID, NO_UID, frames.command_of(frame))
    text = frames.command_text(packet)
    if packet.is_branch and len(packet.data) == BRANCH_DATA_BYTES:
        return Command(Asked.BRANCH, packet.data[:UID_BYTES], packet.data[UID_BYTES:], text, True)
    asked = CLASSES.get(packet.command_class, Asked.OTHER)
    if packet.command_class == CommandClass.DISCOVERY:
        asked = DISCOVERY_PIDS.get(packet.pid, Asked.OTHER)
    target = packet.destination.to_bytes(UID_BYTES, "big")
    return Command(asked, target, target, text, packet.is_branch, packet)


@functools.lru_cache(maxsize=MOST_KNOWN)
def _branch_answer(reply: bytes) -> Answer:
    found = decode_branch_reply(reply)
    text = frames.spelled_text(reply, found)
    if found is None:
        return Answer(Came.COLLISION, text)
    return Answer(Came.ONE, text, found.to_bytes(UID_BYTES, "big"))


@functools.lru_cache(maxsize=MOST_KNOWN)
def _answer(command: Optional[Packet], reply: bytes) -> Answer:
    response = decode_packet(reply)
    text = frames.bytes_text(reply, response, None if command is None else command.pid)
    if response is None:
        return Answer(Came.DAMAGED, text)
    came = Came.ACKNOWLEDGED if command is not None and acknowledges(command, response) else Came.OTHER_RESPONSE
    return Answer(came, text, response.source.to_bytes(UID_BYTES, "big"))


def acknowledges(command: Packet, response: Packet) -> bool:
    """Whether a response acknowledges a command, but for its transaction number, by the rules of the proved program."""
    if response.port_or_type not in ACKNOWLEDGED:
        return False
    if (response.source, response.destination) != (command.destination, command.source):
        return False
    if command.command_class == CommandClass.DISCOVERY:
        is_ack = response.port_or_type == ResponseType.ACK and len(response.data) in MUTE_DATA_BYTES
        return is_ack and (response.command_class, response.pid) == (CommandClass.DISCOVERY_RESPONSE, command.pid)
    if command.pid == Pid.QUEUED_MESSAGE:
        return response.command_class in frames.RESPONSES
    is_of_sub_device = command.sub_device in (response.sub_device, ALL_SUB_DEVICES)
    return is_of_sub_device and (response.command_class, response.pid) == (command.command_class + 1, command.pid)
