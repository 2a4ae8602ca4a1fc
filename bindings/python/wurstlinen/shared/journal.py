"""The log of a server's session: read as it grows, drained, and written to a file as text (docs/FORMATS.md)."""
from __future__ import annotations

import json
from typing import Any, Callable, Dict, List, Optional

from .. import DEFAULT_BUDGET, MOST_PLACES, OutOfMemory, Search, Session, Uid
from .._types import Request, RunFaultKind
from ..entries import (
    Accept, Answer, Ask, Came, Close, Collect, Entry, Finish, Join, Pause, Refuse, Resume, Send,
)

# How many entries the session stores, and at which number it is drained.
CAPACITY = 4096
FULL_ENOUGH = CAPACITY // 4


class Journal:
    """Reads each entry of a session once, if somebody wants it. One thread has it."""

    def __init__(self, session: Session) -> None:
        self._session = session
        # How many of the entries that the session stores were read or left out.
        self._read = 0

    def new(self) -> List[Entry]:
        """The entries since the last call."""
        found = list(self._session.entries(self._read))
        self._read += len(found)
        return found

    def skip(self) -> None:
        """Leaves out what nobody wants."""
        self._read = self._session.entry_count()

    def drain(self) -> List[Entry]:
        """Makes place for new entries if there are many, and returns those that have come meanwhile."""
        if self._session.entry_count() < FULL_ENOUGH:
            return []
        try:
            page = self._session.drain(CAPACITY)
        except OutOfMemory:
            # There is place for a while.
            return []
        with page:
            before, self._read = self._read, 0
            return [entry for number, entry in enumerate(page) if number >= before]


def opening_keys(source: Uid, search: Search) -> Dict[str, Any]:
    """What a new session's log begins with."""
    return {"entry": "opening", "source": str(source), "budget": DEFAULT_BUDGET, "search": search.name.lower(),
            "greatest": MOST_PLACES, "places": [], "paused": False, "closed": False, "devices": [], "devices_run": 0,
            "next_request": 0, "next_ask": 0, "next_run": 1, "next_tn": 0, "number": 0}


def entry_keys(entry: Entry, microseconds: int) -> Dict[str, Any]:
    """An entry of this time as its line in a log has it."""
    return {"entry": type(entry).__name__.lower(), **FORMS[type(entry)](entry), "microseconds": microseconds}


def entry_line(keys: Dict[str, Any]) -> bytes:
    """That line."""
    return json.dumps(keys, separators=(",", ":")).encode() + b"\n"


def _call_of_request(request: Request) -> Dict[str, Any]:
    return {request.request_class.name.lower(): str(request.target), "pid": f"{request.pid:04x}",
            "sub": request.sub_device, "param": request.data.hex()}


def _refuse(entry: Refuse) -> Dict[str, Any]:
    causes = JOIN_CAUSES if entry.client is None else CALL_CAUSES
    keys: Dict[str, Any] = {} if entry.client is None else {"client": entry.client}
    if entry.request is not None:
        keys.update(_call_of_request(entry.request))
    elif entry.kind is not None:
        keys["discover"] = entry.kind.name.lower()
    else:
        keys["places"] = entry.places
    return {**keys, "cause": causes.index(entry.cause.__name__) + 1}


def _send(entry: Send) -> Dict[str, Any]:
    owner = {"request": entry.number} if entry.run is None else {"run": entry.run}
    return {**owner, "frame": entry.frame.hex()}


def _came(entry: Came) -> Dict[str, Any]:
    return {"failed": True} if entry.reply is None else {"reply": entry.reply.hex()}


def _answer(entry: Answer) -> Dict[str, Any]:
    keys: Dict[str, Any] = {"number": entry.number, "run": entry.run}
    if entry.fault is not None:
        keys["fault"] = int(entry.fault.kind)
        if entry.fault.kind == RunFaultKind.CORRUPT:
            keys["uid"] = str(entry.fault.uid)
    return keys


JOIN_CAUSES = ("Closed", "TooManyClients", "NoPlaces", "OutOfMemory")
CALL_CAUSES = ("Closed", "UnknownClient", "Full")
FORMS: Dict[Any, Callable[[Any], Dict[str, Any]]] = {
    Join: lambda entry: {"client": entry.client, "places": entry.places},
    Refuse: _refuse,
    Accept: lambda entry: {"client": entry.client, "number": entry.number, **_call_of_request(entry.request)},
    Ask: lambda entry: {"client": entry.client, "number": entry.number, "discover": entry.kind.name.lower()},
    Send: _send,
    Came: _came,
    Finish: lambda entry: {"number": entry.number, "status": int(entry.status), "length": entry.length},
    Answer: _answer,
    Collect: lambda entry: {"client": entry.client},
    Pause: lambda entry: {},
    Resume: lambda entry: {},
    Close: lambda entry: {},
}


class Exchange:
    """A frame with its owner, whose reply is awaited."""

    def __init__(self) -> None:
        self._sent: Optional[Send] = None
        # Whose requests these are that haven't ended.
        self._clients: Dict[int, int] = {}

    def keys(self, entry: Entry, microseconds: int) -> Optional[Dict[str, Any]]:
        """What a subscriber of frames gets, once the reply of a frame has come, at this time."""
        if isinstance(entry, Send):
            self._sent = entry
        elif isinstance(entry, Accept):
            self._clients[entry.number] = entry.client
        elif isinstance(entry, Finish):
            self._clients.pop(entry.number, None)
        if not isinstance(entry, Came) or self._sent is None:
            return None
        sent, self._sent = self._sent, None
        client = None if sent.number is None else self._clients.get(sent.number)
        return {"event": "frame", **_send(sent), **({} if client is None else {"client": client}), **_came(entry),
                "microseconds": microseconds}
