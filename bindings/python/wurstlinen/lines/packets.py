"""E1.20's packets and branch replies as bytes, written only for rigs and lines, without any proved code."""
from __future__ import annotations

from typing import NamedTuple, Optional

from .numbers import CommandClass, Pid, ResponseType
from .uids import ALL_DEVICES, is_broadcast

START_CODE = 0xCC
SUB_START_CODE = 0x01
HEADER_BYTES = 24
CHECKSUM_BYTES = 2
LEAST_PACKET_BYTES = HEADER_BYTES + CHECKSUM_BYTES
BRANCH_PREAMBLE = 0xFE
BRANCH_SEPARATOR = 0xAA
MOST_PREAMBLE_BYTES = 7
ENCODED_BYTES = 16


class Packet(NamedTuple):
    """A command or a response. UIDs are numbers: the manufacturer times 2^32, plus the device."""

    destination: int
    source: int
    transaction: int
    # The port id of a command, or the response type of a response.
    port_or_type: int
    message_count: int
    sub_device: int
    command_class: int
    pid: int
    data: bytes = b""

    def encode(self) -> bytes:
        """E1.20, packet format."""
        head = bytes([START_CODE, SUB_START_CODE, HEADER_BYTES + len(self.data)])
        uids = self.destination.to_bytes(6, "big") + self.source.to_bytes(6, "big")
        numbers = bytes([self.transaction, self.port_or_type, self.message_count])
        block = self.sub_device.to_bytes(2, "big") + bytes([self.command_class]) + self.pid.to_bytes(2, "big")
        packet = head + uids + numbers + block + bytes([len(self.data)]) + self.data
        return packet + checksum(packet)

    def answer(self, uid: int, kind: ResponseType, data: bytes) -> Packet:
        """The answer of the device `uid` to this command, without queued messages."""
        return Packet(self.source, uid, self.transaction, kind, 0, self.sub_device, self.command_class + 1, self.pid,
                      data)

    @property
    def is_branch(self) -> bool:
        """Whether this is a discovery unique branch."""
        return self.command_class == CommandClass.DISCOVERY and self.pid == Pid.DISC_UNIQUE_BRANCH


def checksum(packet: bytes) -> bytes:
    """E1.20, packet format: the sum of all bytes before it, modulo 65,536."""
    return (sum(packet) % 0x10000).to_bytes(CHECKSUM_BYTES, "big")


def decode_packet(data: bytes) -> Optional[Packet]:
    """The packet that these bytes are, or None. Bytes after its checksum are ignored."""
    if len(data) < LEAST_PACKET_BYTES or data[0] != START_CODE or data[1] != SUB_START_CODE:
        return None
    length = data[2]
    if length != HEADER_BYTES + data[23] or len(data) < length + CHECKSUM_BYTES:
        return None
    if checksum(data[:length]) != data[length:length + CHECKSUM_BYTES]:
        return None
    return Packet(int.from_bytes(data[3:9], "big"), int.from_bytes(data[9:15], "big"), data[15], data[16], data[17],
                  int.from_bytes(data[18:20], "big"), data[20], int.from_bytes(data[21:23], "big"),
                  bytes(data[HEADER_BYTES:length]))


def is_whole_packet(data: bytes) -> bool:
    """Whether there are as many bytes as the packet's own length says. The checksum isn't checked."""
    return len(data) >= LEAST_PACKET_BYTES and data[0] == START_CODE and len(data) == data[2] + CHECKSUM_BYTES


def is_branch_frame(frame: bytes) -> bool:
    """Whether a controller's frame is a discovery unique branch."""
    return (len(frame) >= HEADER_BYTES and frame[20] == CommandClass.DISCOVERY
            and int.from_bytes(frame[21:23], "big") == Pid.DISC_UNIQUE_BRANCH)


def is_broadcast_frame(frame: bytes) -> bool:
    """Whether a controller's frame is for all devices, or for all of a manufacturer."""
    return is_broadcast(int.from_bytes(frame[3:9], "big"))


def is_answer(reply: bytes, frame: bytes) -> bool:
    """Whether a whole packet comes from the device that a frame is for, with the frame's transaction number."""
    return reply[9:16] == frame[3:9] + frame[15:16]


def encode_branch_reply(uid: int, preamble: int = MOST_PREAMBLE_BYTES) -> bytes:
    """E1.20, discovery unique branch response."""
    encoded = _doubled(uid.to_bytes(6, "big"))
    return bytes([BRANCH_PREAMBLE] * preamble + [BRANCH_SEPARATOR]) + encoded + _doubled(checksum(encoded))


def decode_branch_reply(data: bytes) -> Optional[int]:
    """The UID that a reply to a branch spells, or None."""
    start = data.find(BRANCH_SEPARATOR)
    if not 0 <= start <= MOST_PREAMBLE_BYTES or data[:start].strip(bytes([BRANCH_PREAMBLE])):
        return None
    encoded = data[start + 1:start + 1 + ENCODED_BYTES]
    if len(encoded) < ENCODED_BYTES or _halved(encoded[12:]) != checksum(encoded[:12]):
        return None
    return int.from_bytes(_halved(encoded[:12]), "big")


def addresses(destination: int, uid: int) -> bool:
    """Whether a packet with this destination is for the device `uid`."""
    if is_broadcast(destination):
        return destination == ALL_DEVICES or destination >> 32 == uid >> 32
    return destination == uid


def _doubled(data: bytes) -> bytes:
    return bytes(coded for byte in data for coded in (byte | 0xAA, byte | 0x55))


def _halved(data: bytes) -> bytes:
    return bytes(first & second for first, second in zip(data[::2], data[1::2]))
