"""Readers and writers of packets, and what packets say."""

import ctypes
import enum
from dataclasses import dataclass
from typing import Optional

from ._faults import check, given
from ._forms import form_of_device, form_of_request, uid_if
from ._library import LIBRARY, Call, CommandForm, MuteAckForm, ResponseForm, buffer_of, room_for
from ._types import (
    MOST_FRAME_BYTES, MOST_PARAMETER_BYTES, AckType, Device, Request, RequestClass, ResponseClass, Uid, whole)


class CommandKind(enum.IntEnum):
    UNMUTE = 0
    BRANCH = 1
    MUTE = 2
    REQUEST = 3


class BranchReplyKind(enum.IntEnum):
    SILENT = 0
    ONE = 1
    COLLISION = 2


@dataclass(frozen=True)
class Response:
    """A device's response."""

    source: Uid
    dest: Uid
    tn: int
    ack: AckType
    response_class: ResponseClass
    pid: int
    data: bytes = b""
    sub_device: int = 0
    count: int = 0


@dataclass(frozen=True)
class MuteAck:
    """What a device says when it acknowledges a mute."""

    control: int
    binding: Optional[Uid] = None


@dataclass(frozen=True)
class BranchReply:
    """What came after a branch. Only ONE has a `uid`."""

    kind: BranchReplyKind
    uid: Optional[Uid] = None


@dataclass(frozen=True)
class Command:
    """A controller's command. `target` is a mute's, `lo` and `hi` are a branch's."""

    kind: CommandKind
    source: Uid
    tn: int
    target: Optional[Uid] = None
    lo: Optional[Uid] = None
    hi: Optional[Uid] = None
    request: Optional[Request] = None


def _frame(call: Call, *arguments: object, room: int = MOST_FRAME_BYTES) -> bytes:
    frame, length = room_for(room), ctypes.c_size_t()
    check(call(*arguments, frame, room, length))
    return bytes(frame[:length.value])


def encode_request(request: Request, source: Uid, tn: int) -> bytes:
    """The packet of a request."""
    data, length = buffer_of(request.data)
    return _frame(LIBRARY.wurst_request_write, form_of_request(request), data, length, source.number,
                  whole(tn, 8, "transaction number"))


def encode_unmute(source: Uid, tn: int) -> bytes:
    """The packet that unmutes all devices."""
    return _frame(LIBRARY.wurst_unmute_write, source.number, whole(tn, 8, "transaction number"))


def encode_mute(uid: Uid, source: Uid, tn: int) -> bytes:
    """The packet that mutes a device."""
    return _frame(LIBRARY.wurst_mute_write, uid.number, source.number, whole(tn, 8, "transaction number"))


def encode_branch(lo: Uid, hi: Uid, source: Uid, tn: int) -> bytes:
    """The packet that asks each unmuted device from `lo` to `hi` for its UID."""
    return _frame(LIBRARY.wurst_branch_write, lo.number, hi.number, source.number,
                  whole(tn, 8, "transaction number"))


def encode_response(response: Response) -> bytes:
    """The packet of a response."""
    data, length = buffer_of(response.data)
    form = ResponseForm(
        response.source.number, response.dest.number, 0, int(response.ack), int(response.response_class),
        whole(response.sub_device, 16, "sub-device"), whole(response.pid, 16, "PID"),
        whole(response.tn, 8, "transaction number"), whole(response.count, 8, "message count"))
    return _frame(LIBRARY.wurst_response_write, form, data, length)


def encode_mute_ack(device: Device, source: Uid, tn: int) -> bytes:
    """The packet by which a device acknowledges the mute that `source` sent with `tn`."""
    return _frame(LIBRARY.wurst_mute_ack_write, form_of_device(device), source.number,
                  whole(tn, 8, "transaction number"))


def write_branch_reply(uid: Uid, preamble: int = 7) -> bytes:
    """A device's reply to a branch, after 0 to 7 preamble bytes."""
    return _frame(LIBRARY.wurst_branch_reply_write, uid.number, whole(preamble, 8, "preamble"), room=24)


def decode_response(data: bytes) -> Response:
    """The response that the bytes begin with. Raises a PacketFault."""
    buffer, length = buffer_of(data)
    form, param = ResponseForm(), room_for(MOST_PARAMETER_BYTES)
    check(LIBRARY.wurst_response_read(buffer, length, form, param, MOST_PARAMETER_BYTES))
    return Response(Uid.from_number(form.source), Uid.from_number(form.dest), form.tn, AckType(form.ack),
                    ResponseClass(form.response_class), form.pid, bytes(param[:form.len]), form.sub_device, form.count)


def read_branch_reply(data: bytes) -> BranchReply:
    """What came after a branch."""
    buffer, length = buffer_of(data)
    kind, uid = ctypes.c_uint32(), ctypes.c_uint64()
    check(LIBRARY.wurst_branch_reply_read(buffer, length, kind, uid))
    return BranchReply(BranchReplyKind(kind.value), uid_if(kind.value == BranchReplyKind.ONE, uid.value))


def read_mute_ack(uid: Uid, source: Uid, tn: int, data: bytes) -> Optional[MuteAck]:
    """The acknowledgement of the mute of `uid` that `source` sent with `tn`; None if the bytes aren't one."""
    buffer, length = buffer_of(data)
    form = MuteAckForm()
    if not given(LIBRARY.wurst_mute_ack_read(uid.number, source.number, whole(tn, 8, "transaction number"), buffer,
                                             length, form)):
        return None
    return MuteAck(form.control, uid_if(form.has_binding, form.binding))


def read_command(data: bytes) -> Optional[Command]:
    """The controller's command that the bytes are; None if they aren't one."""
    buffer, length = buffer_of(data)
    form, param = CommandForm(), room_for(MOST_PARAMETER_BYTES)
    if not given(LIBRARY.wurst_command_read(buffer, length, form, param, MOST_PARAMETER_BYTES)):
        return None
    kind = CommandKind(form.kind)
    command = Command(kind, Uid.from_number(form.source), form.tn)
    if kind == CommandKind.BRANCH:
        return Command(kind, command.source, command.tn, lo=Uid.from_number(form.lo), hi=Uid.from_number(form.hi))
    if kind == CommandKind.MUTE:
        return Command(kind, command.source, command.tn, target=Uid.from_number(form.target))
    if kind == CommandKind.REQUEST:
        request = Request(Uid.from_number(form.target), form.pid, bytes(param[:form.len]), form.sub_device,
                          RequestClass(form.command_class))
        return Command(kind, command.source, command.tn, request.target, request=request)
    return command
