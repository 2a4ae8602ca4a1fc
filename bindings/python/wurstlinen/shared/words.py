"""The protocol's objects, one on a line: requests of clients, and what becomes of them.

Everything that isn't as bindings/python/SERVER.md says is BadRequest, and changes nothing.
"""
from __future__ import annotations

import json
import re
from typing import Any, Dict, Iterable, List, Mapping, Optional, Tuple, Union

from .. import (
    MOST_PARAMETER_BYTES, AckType, BadUids, Completion, Device, Discovery, Kind, ReplyHead, Request, RequestClass,
    ResponseClass, RunFault, RunFaultKind, Status, Uid,
)
from ..lines.uids import UID_TEXT, parse_uid

VERSION = 1
MOST_LINE_BYTES = 4096
# A result with 65,535 bytes of data is the longest answer.
MOST_ANSWER_BYTES = 1 << 18
MOST_ID = 2 ** 53
MOST_NUMBER = 2 ** 64 - 1
MOST_NAME = 64
Keys = Dict[str, Any]

REQUEST_CLASSES = {"get": RequestClass.GET, "set": RequestClass.SET}
RESPONSE_CLASSES = {ResponseClass.DISCOVERY: "discovery", ResponseClass.GET: "get", ResponseClass.SET: "set"}
CLASSES_OF_RESPONSES = {name: number for number, name in RESPONSE_CLASSES.items()}
KINDS = {"full": Kind.FULL, "incremental": Kind.INCREMENTAL}
# What a client can subscribe to.
DEVICES, FRAMES = "devices", "frames"
PID = "[0-9a-fA-F]{4}"
HEX = "(?:[0-9a-fA-F]{2})*"


class BadRequest(Exception):
    """A line isn't a request of the protocol. `name` says what kind of fault it is."""

    def __init__(self, text: str, name: str = "BadRequest") -> None:
        super().__init__(text)
        self.name = name


def line_of(keys: Keys) -> bytes:
    """An object as its line."""
    return json.dumps(keys, separators=(",", ":")).encode() + b"\n"


def object_of(line: bytes) -> Keys:
    """The object of a line. Raises BadRequest."""
    try:
        found = json.loads(line)
    except (ValueError, RecursionError):
        raise BadRequest("the line isn't JSON") from None
    if not isinstance(found, dict):
        raise BadRequest("the line isn't a JSON object")
    return found


def check_keys(keys: Keys, known: Iterable[str]) -> None:
    """Raises BadRequest for a key that a request of this kind doesn't have."""
    for key in keys:
        if key not in ("do", "id", *known):
            raise BadRequest(f"there is no key {shortened(key)} here")


def shortened(word: object) -> str:
    """A client's word in a message."""
    text = type(word).__name__ if isinstance(word, (dict, list)) else str(word)
    return repr(text if len(text) <= MOST_NAME else f"{text[:MOST_NAME]}..")


def is_number(value: object, most: int) -> bool:
    """Whether it is a whole number. JSON's true and false are numbers to Python."""
    return isinstance(value, int) and not isinstance(value, bool) and 0 <= value <= most


def number_in(keys: Keys, key: str, most: int, absent: Optional[int] = None) -> int:
    """A whole number of a request. Raises BadRequest."""
    value = keys.get(key, absent)
    if not is_number(value, most):
        raise BadRequest(f"{key} isn't a whole number from 0 to {most}")
    return int(value)


def text_in(keys: Keys, key: str, form: str, what: str, absent: Optional[str] = None) -> str:
    """A text of a request. Raises BadRequest."""
    value = keys.get(key, absent)
    if not isinstance(value, str) or not re.fullmatch(form, value):
        raise BadRequest(f"{key} isn't {what}")
    return value


def choice_in(keys: Keys, key: str, choices: Iterable[str], absent: Optional[str] = None) -> str:
    """One of these words. Raises BadRequest."""
    value = keys.get(key, absent)
    if value not in list(choices):
        raise BadRequest(f"{key} isn't one of {', '.join(choices)}")
    return str(value)


def uid_in(text: str) -> Uid:
    """The UID that a text spells, without the C library. Raises ValueError."""
    return Uid.from_number(parse_uid(text))


def request_in(keys: Keys) -> Request:
    """The request of a `get` or a `set`. Raises BadRequest."""
    check_keys(keys, ("uid", "pid", "data", "sub"))
    uid = text_in(keys, "uid", UID_TEXT, "a UID such as 1234:00000001")
    pid = text_in(keys, "pid", PID, "four hexadecimal digits")
    data = text_in(keys, "data", HEX, "bytes in hexadecimal", "")
    if len(data) > 2 * MOST_PARAMETER_BYTES:
        raise BadRequest(f"data has more than {MOST_PARAMETER_BYTES} bytes")
    return Request(uid_in(uid), int(pid, 16), bytes.fromhex(data), number_in(keys, "sub", 0xFFFF, 0),
                   REQUEST_CLASSES[keys["do"]])


def keys_of_request(request: Request) -> Keys:
    """The same as a client writes it."""
    return {"do": request.request_class.name.lower(), "uid": str(request.target), "pid": f"{request.pid:04x}",
            "data": request.data.hex(), "sub": request.sub_device}


def keys_of_completion(completion: Completion) -> Keys:
    """How a request ended."""
    keys: Keys = {"request": completion.number, "status": int(completion.status)}
    head = completion.head
    if head is not None:
        keys.update(ack=int(head.ack), response=RESPONSE_CLASSES[head.response_class], pid=f"{head.pid:04x}",
                    sub=head.sub_device, data=completion.data.hex())
    return {**keys, "may_be_incomplete": True} if completion.may_be_incomplete else keys


def completion_of(keys: Keys) -> Completion:
    """The same, read by a client."""
    head = None
    if "ack" in keys:
        head = ReplyHead(AckType(keys["ack"]), CLASSES_OF_RESPONSES[keys["response"]], int(keys["pid"], 16),
                         number_in(keys, "sub", 0xFFFF))
    return Completion(number_in(keys, "request", MOST_NUMBER), Status(keys["status"]), head,
                      bytes.fromhex(keys.get("data", "")), bool(keys.get("may_be_incomplete", False)))


def keys_of_device(device: Device) -> Keys:
    """A device, as a discovery found it."""
    keys: Keys = {"uid": str(device.uid), "control": f"{device.control:04x}"}
    return keys if device.binding is None else {**keys, "binding": str(device.binding)}


def device_of(keys: Mapping[str, str]) -> Device:
    """The same, read by a client."""
    # What isn't an object has no such key.
    uid, binding = keys["uid"], keys.get("binding")
    return Device(uid_in(uid), int(keys["control"], 16), None if binding is None else uid_in(binding))


def keys_of_discovery(found: Discovery) -> Keys:
    """How a discovery ended."""
    keys: Keys = {"discovery": found.number, "run": found.run, "fault": 0}
    if found.fault is not None:
        keys["fault"] = int(found.fault.kind)
        keys.update({} if found.fault.uid is None else {"uid": str(found.fault.uid)})
    return {**keys, "devices": [keys_of_device(device) for device in found.devices]}


def discovery_of(keys: Keys) -> Discovery:
    """The same, read by a client."""
    fault = None
    if keys["fault"]:
        uid = keys.get("uid")
        fault = RunFault(RunFaultKind(keys["fault"]), None if uid is None else uid_in(uid))
    return Discovery(number_in(keys, "discovery", MOST_NUMBER), number_in(keys, "run", MOST_NUMBER), fault,
                     devices_of(keys))


def keys_of_bad_uids(bad: BadUids) -> Keys:
    """The bad UIDs of its run, if there are any."""
    keys: Keys = {"bad": list(map(str, bad.uids))} if bad.uids else {}
    return {**keys, "more_bad": True} if bad.has_more else keys


def bad_uids_in(keys: Keys) -> BadUids:
    """The same, read by a client."""
    return BadUids(tuple(map(uid_in, keys.get("bad", []))), bool(keys.get("more_bad", False)))


def devices_of(keys: Keys) -> Tuple[Device, ...]:
    """The devices of an answer."""
    return tuple(map(device_of, keys["devices"]))


def outcome_keys(outcome: Union[Completion, Discovery]) -> Keys:
    """How a call ended."""
    return keys_of_completion(outcome) if isinstance(outcome, Completion) else keys_of_discovery(outcome)


class Lines:
    """Splits what comes from a socket into lines that aren't longer than this."""

    def __init__(self, most: int) -> None:
        self._most = most
        self._left = bytearray()

    def add(self, data: bytes) -> List[bytes]:
        """The lines that these bytes complete. Raises BadRequest for one that is too long."""
        self._left += data
        *lines, rest = bytes(self._left).split(b"\n")
        self._left[:] = rest
        for line in (*lines, rest):
            if len(line) > self._most:
                raise BadRequest(f"a line has more than {self._most} bytes", "LineTooLong")
        return lines
