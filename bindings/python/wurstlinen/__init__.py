"""Wurstlinen: a controller for RDM (ANSI E1.20), over the C library libwurstlinen.

    import wurstlinen

    with wurstlinen.Controller(wurstlinen.Uid.parse("7a70:00000001")) as controller:
        client = controller.join(4)
        client.discover()
        controller.run(line)              # line has a method exchange(frame: bytes) -> bytes
        for device in client.next_discovery().devices:
            print(device.uid)
"""

import importlib as _importlib
from typing import TYPE_CHECKING as _TYPE_CHECKING, Any as _Any, List as _List

from ._faults import (
    AlreadyOpen, BadClass, BadKind, BadPreamble, BadRange, BadResponseType, BadSearch, BadUid, BroadcastUid,
    BufferTooSmall, Closed, DataTooLong, Fault, Full, HasEnded, InvalidClass, InvalidResponseType, LengthMismatch,
    LogFull, NoBudget, NoEntry, NoPlaces, NotAsked, NotEnded, NotIdle, NotOpen, NotText,
    OtherOutcome, OutOfMemory, PacketFault, ParamLengthMismatch, ReplyTooLong, TooManyClients, TooManyDevices,
    TooManyEntries, TooManyPlaces, TooShort, UidDigit, UidFault, UidLength, UidSeparator, UnknownClient,
    WrongChecksum, WrongStart, WrongSubStart)
from ._types import (
    DEFAULT_BUDGET, MOST_BAD_UIDS, MOST_CLIENTS, MOST_DEVICES, MOST_ENTRIES, MOST_FRAME_BYTES, MOST_JOINED_BYTES,
    MOST_PARAMETER_BYTES, MOST_PLACES, AckType, BadUids, Completion, Device, Discovery, Kind, OutcomeKind, ReplyHead,
    Request, RequestClass, ResponseClass, RunFault, RunFaultKind, Search, Status, Uid)
from .line import Line, LineBusy, LineFailed

if _TYPE_CHECKING:
    from . import entries
    from ._agent import DiscoveryAgent, Operation
    from ._ask import Answer, Asker, Incomplete, Unanswered, Unserved
    from ._library import LibraryNotFound, VersionDiffers
    from ._queue import Client, Controller
    from ._session import Log, Page, Session
    from ._wire import (
        BranchReply, BranchReplyKind, Command, CommandKind, MuteAck, Response, decode_response, encode_branch,
        encode_mute, encode_mute_ack, encode_request, encode_response, encode_unmute, read_branch_reply, read_command,
        read_mute_ack, write_branch_reply)
    from .shared.client import SharedClient, connect
    from .shared.connection import NotServed

__version__ = "0.1.0"

# What is loaded when a name of it is first used: a command uses few of them, and mustn't wait for the others.
_MODULES = {
    "_agent": ("DiscoveryAgent", "Operation"),
    "_ask": ("Answer", "Asker", "Incomplete", "Unanswered", "Unserved"),
    "_library": ("LibraryNotFound", "VersionDiffers"),
    "_queue": ("Client", "Controller"),
    "_session": ("Log", "Page", "Session"),
    "_wire": (
        "BranchReply", "BranchReplyKind", "Command", "CommandKind", "MuteAck", "Response", "decode_response",
        "encode_branch", "encode_mute", "encode_mute_ack", "encode_request", "encode_response", "encode_unmute",
        "read_branch_reply", "read_command", "read_mute_ack", "write_branch_reply"),
    "shared.client": ("SharedClient", "connect"),
    "shared.connection": ("NotServed",),
}
_MODULE_OF = {name: module for module, names in _MODULES.items() for name in names}

__all__ = [
    "AckType", "AlreadyOpen", "Answer", "Asker", "BadClass", "BadKind", "BadPreamble", "BadRange", "BadResponseType",
    "BadSearch", "BadUid", "BadUids", "BranchReply", "BranchReplyKind", "BroadcastUid", "BufferTooSmall", "Client",
    "Closed", "Command", "CommandKind", "Completion", "Controller", "DEFAULT_BUDGET", "DataTooLong", "Device",
    "Discovery", "DiscoveryAgent", "Fault", "Full", "HasEnded", "Incomplete", "InvalidClass", "InvalidResponseType",
    "Kind", "LengthMismatch", "LibraryNotFound", "Line", "LineBusy", "LineFailed", "Log", "LogFull", "MOST_BAD_UIDS",
    "MOST_CLIENTS", "MOST_DEVICES", "MOST_ENTRIES", "MOST_FRAME_BYTES", "MOST_JOINED_BYTES", "MOST_PARAMETER_BYTES",
    "MOST_PLACES", "MuteAck", "NoBudget", "NoEntry", "NoPlaces", "NotAsked", "NotEnded", "NotIdle", "NotOpen",
    "NotServed", "NotText", "Operation", "OtherOutcome", "OutOfMemory", "OutcomeKind", "PacketFault", "Page",
    "ParamLengthMismatch", "ReplyHead", "ReplyTooLong", "Request", "RequestClass", "Response", "ResponseClass",
    "RunFault", "RunFaultKind", "Search", "Session", "SharedClient", "Status", "TooManyClients", "TooManyDevices",
    "TooManyEntries", "TooManyPlaces", "TooShort", "Uid", "UidDigit", "UidFault", "UidLength", "UidSeparator",
    "Unanswered", "UnknownClient", "Unserved", "VersionDiffers", "WrongChecksum", "WrongStart", "WrongSubStart",
    "connect", "decode_response", "encode_branch", "encode_mute", "encode_mute_ack", "encode_request",
    "encode_response", "encode_unmute", "entries", "line", "read_branch_reply", "read_command", "read_mute_ack",
    "write_branch_reply",
]


def __getattr__(name: str) -> _Any:
    """Loads the module of a name when the name is first used."""
    if name == "entries":
        return _importlib.import_module(".entries", __name__)
    if name not in _MODULE_OF:
        raise AttributeError(f"module {__name__!r} has no attribute {name!r}")
    found = globals()[name] = getattr(_importlib.import_module(f".{_MODULE_OF[name]}", __name__), name)
    return found


def __dir__() -> _List[str]:
    """The names, loaded or not."""
    return __all__
