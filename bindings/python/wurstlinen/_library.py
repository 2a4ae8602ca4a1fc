"""Finds libwurstlinen, and declares its calls for ctypes."""

import ctypes
import os
import sysconfig
from ctypes import POINTER, c_bool, c_size_t, c_uint8, c_uint16, c_uint32, c_uint64, c_void_p
from typing import Callable, List, Tuple

# A call of the library. It returns a status, unless it disposes of something.
Call = Callable[..., int]
VERSION = 1000
NAME = "libwurstlinen.so.0"


class LibraryNotFound(ImportError):
    """The shared library wasn't found."""


class VersionDiffers(ImportError):
    """The shared library has another version than this package."""


class Handle(ctypes.Structure):
    _fields_ = [("at", c_void_p), ("is_open", c_bool), ("kind", c_uint32)]


class Setup(ctypes.Structure):
    _fields_ = [("source", c_uint64), ("budget", c_uint64), ("search", c_uint32), ("places", c_uint16)]


class RequestForm(ctypes.Structure):
    _fields_ = [("target", c_uint64), ("command_class", c_uint32), ("sub_device", c_uint16), ("pid", c_uint16)]


class CompletionForm(ctypes.Structure):
    _fields_ = [("number", c_uint64), ("len", c_size_t), ("status", c_uint32), ("ack", c_uint32),
                ("response_class", c_uint32), ("sub_device", c_uint16), ("pid", c_uint16), ("has_head", c_bool),
                ("may_be_incomplete", c_bool)]


class EndForm(ctypes.Structure):
    _fields_ = [("number", c_uint64), ("run", c_uint64), ("corrupt", c_uint64), ("count", c_size_t),
                ("fault", c_uint32)]


class DeviceForm(ctypes.Structure):
    _fields_ = [("uid", c_uint64), ("binding", c_uint64), ("control", c_uint16), ("has_binding", c_bool)]


class EntryForm(ctypes.Structure):
    _fields_ = [("number", c_uint64), ("run", c_uint64), ("corrupt", c_uint64), ("target", c_uint64), ("len", c_size_t),
                ("joined", c_size_t), ("kind", c_uint32), ("call", c_uint32), ("owner", c_uint32),
                ("discovery", c_uint32), ("status", c_uint32), ("fault", c_uint32), ("command_class", c_uint32),
                ("sub_device", c_uint16), ("pid", c_uint16), ("client", c_uint8), ("places", c_uint8),
                ("cause", c_uint8), ("has_client", c_bool), ("has_failed", c_bool)]


class ResponseForm(ctypes.Structure):
    _fields_ = [("source", c_uint64), ("dest", c_uint64), ("len", c_size_t), ("ack", c_uint32),
                ("response_class", c_uint32), ("sub_device", c_uint16), ("pid", c_uint16), ("tn", c_uint8),
                ("count", c_uint8)]


class CommandForm(ctypes.Structure):
    _fields_ = [("source", c_uint64), ("target", c_uint64), ("lo", c_uint64), ("hi", c_uint64), ("len", c_size_t),
                ("kind", c_uint32), ("command_class", c_uint32), ("sub_device", c_uint16), ("pid", c_uint16),
                ("tn", c_uint8)]


class MuteAckForm(ctypes.Structure):
    _fields_ = [("binding", c_uint64), ("control", c_uint16), ("has_binding", c_bool)]


class StartForm(ctypes.Structure):
    _fields_ = [("source", c_uint64), ("budget", c_uint64), ("kind", c_uint32), ("search", c_uint32),
                ("tn", c_uint8)]


_BYTES = POINTER(c_uint8)
_LENGTH = POINTER(c_size_t)
_HANDLE = POINTER(Handle)

# The calls that controllers and sessions have in common.
_QUEUE = {
    "dispose": [_HANDLE],
    "join": [_HANDLE, c_uint8, POINTER(c_uint8)],
    "submit": [_HANDLE, c_uint8, POINTER(RequestForm), _BYTES, c_size_t, POINTER(c_uint64)],
    "discover": [_HANDLE, c_uint8, c_uint32, POINTER(c_uint64)],
    "pause": [_HANDLE],
    "resume": [_HANDLE],
    "close": [_HANDLE],
    "take": [_HANDLE, _BYTES, c_size_t, _LENGTH],
    "deliver": [_HANDLE, _BYTES, c_size_t],
    "fail": [_HANDLE],
    "oldest": [_HANDLE, c_uint8, POINTER(c_uint32)],
    "next_completion": [_HANDLE, c_uint8, POINTER(CompletionForm), _BYTES, c_size_t],
    "next_discovery": [_HANDLE, c_uint8, POINTER(EndForm), POINTER(DeviceForm), c_size_t],
    "devices": [_HANDLE, POINTER(DeviceForm), c_size_t, _LENGTH],
    "devices_run": [_HANDLE, POINTER(c_uint64)],
    "bad_uids": [_HANDLE, POINTER(c_uint64), c_size_t, _LENGTH, POINTER(c_bool)],
    "bad_uids_run": [_HANDLE, POINTER(c_uint64)],
    "is_idle": [_HANDLE, POINTER(c_bool)],
    "is_paused": [_HANDLE, POINTER(c_bool)],
    "is_closed": [_HANDLE, POINTER(c_bool)],
    "awaits": [_HANDLE, POINTER(c_bool)],
}

# Each call, with the types of its arguments. All except _dispose return a status.
CALLS = {
    "wurst_version": [],
    "wurst_controller_open": [_HANDLE, POINTER(Setup)],
    **{"wurst_controller_" + name: types for name, types in _QUEUE.items()},
    "wurst_session_open": [_HANDLE, POINTER(Setup), c_size_t],
    "wurst_session_open_without_log": [_HANDLE, POINTER(Setup)],
    **{"wurst_session_" + name: types for name, types in _QUEUE.items()},
    "wurst_session_free_entries": [_HANDLE, _LENGTH],
    "wurst_session_entry_count": [_HANDLE, _LENGTH],
    "wurst_session_entry": [_HANDLE, c_size_t, POINTER(EntryForm), _BYTES, c_size_t],
    "wurst_session_rotate": [_HANDLE, c_size_t, _HANDLE],
    "wurst_session_drain": [_HANDLE, c_size_t, _HANDLE, POINTER(c_uint64)],
    "wurst_log_dispose": [_HANDLE],
    "wurst_log_entry_count": [_HANDLE, _LENGTH],
    "wurst_log_entry": [_HANDLE, c_size_t, POINTER(EntryForm), _BYTES, c_size_t],
    "wurst_uid_read": [_BYTES, c_size_t, POINTER(c_uint64)],
    "wurst_uid_write": [c_uint64, _BYTES, c_size_t],
    "wurst_branch_reply_read": [_BYTES, c_size_t, POINTER(c_uint32), POINTER(c_uint64)],
    "wurst_branch_reply_write": [c_uint64, c_uint8, _BYTES, c_size_t, _LENGTH],
    "wurst_request_write": [POINTER(RequestForm), _BYTES, c_size_t, c_uint64, c_uint8, _BYTES, c_size_t, _LENGTH],
    "wurst_unmute_write": [c_uint64, c_uint8, _BYTES, c_size_t, _LENGTH],
    "wurst_mute_write": [c_uint64, c_uint64, c_uint8, _BYTES, c_size_t, _LENGTH],
    "wurst_branch_write": [c_uint64, c_uint64, c_uint64, c_uint8, _BYTES, c_size_t, _LENGTH],
    "wurst_response_read": [_BYTES, c_size_t, POINTER(ResponseForm), _BYTES, c_size_t],
    "wurst_response_write": [POINTER(ResponseForm), _BYTES, c_size_t, _BYTES, c_size_t, _LENGTH],
    "wurst_mute_ack_read": [c_uint64, c_uint64, c_uint8, _BYTES, c_size_t, POINTER(MuteAckForm)],
    "wurst_mute_ack_write": [POINTER(DeviceForm), c_uint64, c_uint8, _BYTES, c_size_t, _LENGTH],
    "wurst_command_read": [_BYTES, c_size_t, POINTER(CommandForm), _BYTES, c_size_t],
    "wurst_agent_start": [_HANDLE, POINTER(StartForm), POINTER(c_uint64), c_size_t],
    "wurst_agent_dispose": [_HANDLE],
    "wurst_agent_next": [_HANDLE, POINTER(c_uint32), _BYTES, c_size_t, _LENGTH],
    "wurst_agent_hear": [_HANDLE, _BYTES, c_size_t],
    "wurst_agent_fail": [_HANDLE],
    "wurst_agent_stop": [_HANDLE],
    "wurst_agent_devices": [_HANDLE, POINTER(DeviceForm), c_size_t, _LENGTH],
    "wurst_agent_bad_uids": [_HANDLE, POINTER(c_uint64), c_size_t, _LENGTH, POINTER(c_bool)],
    "wurst_agent_fault": [_HANDLE, POINTER(c_uint32), POINTER(c_uint64)],
    "wurst_agent_frames": [_HANDLE, POINTER(c_uint64)],
}


def _places() -> List[str]:
    """Where the library may be: where the environment says, or else beside the package, in PREFIX/lib, or below it in
    the folder that Debian has for libraries.
    """
    named = os.environ.get("WURSTLINEN_LIBRARY")
    if named:
        return [named]
    here = os.path.dirname(os.path.abspath(__file__))
    # The package is in PREFIX/lib/python3/site-packages/wurstlinen.
    lib = os.path.dirname(os.path.dirname(os.path.dirname(here)))
    folders = [here, lib, os.path.join(lib, sysconfig.get_config_var("MULTIARCH") or "")]
    return [os.path.join(folder, NAME) for folder in dict.fromkeys(folder.rstrip("/") for folder in folders)]


def _load() -> ctypes.CDLL:
    places = _places()
    for place in places:
        if os.path.exists(place):
            try:
                # A name without a slash would be searched for elsewhere.
                return ctypes.CDLL(os.path.abspath(place))
            except OSError as why:
                raise LibraryNotFound(f"{place} can't be loaded: {why}") from None
    raise LibraryNotFound(f"{NAME} is not at {' or '.join(places)}; './wurstlinen --install-library PREFIX' in the "
                          "repository makes it, and WURSTLINEN_LIBRARY may name another file")


def _declared(library: ctypes.CDLL) -> ctypes.CDLL:
    for name, arguments in CALLS.items():
        try:
            call = getattr(library, name)
        except AttributeError:
            raise VersionDiffers(f"the library has no call {name}") from None
        call.argtypes = arguments
        call.restype = None if name.endswith("_dispose") else c_uint32
    found = library.wurst_version()
    if found != VERSION:
        raise VersionDiffers(f"the library's version is {found}, and this package's is {VERSION}")
    return library


class _Library:
    """The library, which is loaded when its first call is looked up, since lines don't need it."""

    def __getattr__(self, name: str) -> Call:
        if name not in CALLS:
            raise AttributeError(name)
        loaded = _declared(_load())
        self.__dict__.update((each, getattr(loaded, each)) for each in CALLS)
        call: Call = self.__dict__[name]
        return call


LIBRARY = _Library()


class Calls:
    """The calls on one kind of handle, by their names without the prefix."""

    def __init__(self, prefix: str) -> None:
        self._prefix = prefix

    def __getattr__(self, name: str) -> Call:
        call: Call = getattr(LIBRARY, self._prefix + name)
        setattr(self, name, call)
        return call


def buffer_of(data: bytes) -> Tuple["ctypes.Array[c_uint8]", int]:
    """Bytes for a call, never null, and how many there are."""
    # One byte more, so that an empty buffer has an address.
    return (c_uint8 * (len(data) + 1)).from_buffer_copy(bytes(data) + b"\0"), len(data)


def room_for(count: int) -> "ctypes.Array[c_uint8]":
    """A buffer for this many bytes."""
    return (c_uint8 * max(count, 1))()
