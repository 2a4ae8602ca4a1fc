"""What browsers get: the page's files for everybody, and what it shows and does for who has a token.

A token comes in the header Authorization, which no other site's page can send: neither forms nor links have it, and
browsers keep no cookie. It is in the part of the address behind the #, which browsers send to nobody.
"""
from __future__ import annotations

import contextlib
import hashlib
import hmac
import inspect
import json
import os
import pkgutil
import secrets
import socket
import threading
from dataclasses import dataclass, field
from typing import Callable, Mapping, Optional, Tuple
from urllib.parse import urlsplit

from .. import Fault, Uid
from ..front.files import PRIVATE_MODE, file_of
from ..shared.client import SharedClient
from ..shared.listening import made_folder
from ..shared.words import BadRequest, Keys, object_of
from .details import Details
from .door import MOST_STREAMS, Door, Handler, Refusal
from .hands import Board, Hands, failure_of
from .plans import Plans
from .rig import Rig
from .watcher import Discoveries, Watcher

SCRIPT, STYLE, PAGE = "text/javascript; charset=utf-8", "text/css; charset=utf-8", "text/html; charset=utf-8"
FILES = {"/": ("page.html", PAGE), "/page.css": ("page.css", STYLE),
         **{f"/{name}.js": (f"{name}.js", SCRIPT)
            for name in ("app", "server", "dom", "fixtures", "fixture", "slots", "file", "discovery", "line")}}
API, PICTURE, EVENTS = "/api/", "/picture/", "/api/events"
# The page that explains a discovery runs its own scripts, as if it came from nowhere.
PICTURE_HEADERS = {"Content-Security-Policy": "sandbox allow-scripts; frame-ancestors 'self'"}
LOOPBACK = "127.0.0.1"
TOKEN_BYTES = 16
USES, LOOKS = "uses", "looks"
# What JSON has for types of parameters that aren't texts there, and what is said of anything else.
FORMS: Mapping[str, Tuple[type, str]] = {"bool": (bool, "is neither true nor false"),
                                         "Sequence[str]": (list, "isn't a list")}


@dataclass(frozen=True)
class Tokens:
    """Both tokens. They are the same as long as the user is logged in, so that pages survive a restart."""

    using: str = field(default_factory=lambda: secrets.token_urlsafe(TOKEN_BYTES))

    @property
    def looking(self) -> str:
        """The token for looking, from which nobody can tell the other one."""
        return hashlib.sha256(self.using.encode()).hexdigest()[:2 * TOKEN_BYTES]

    def role(self, handler: Handler) -> Optional[str]:
        """What whoever asks may do; None: nothing."""
        said = handler.headers.get("Authorization") or ""
        return next((role for role, token in ((USES, self.using), (LOOKS, self.looking))
                     if hmac.compare_digest(said.encode(), f"Bearer {token}".encode())), None)


def kept(line: str, wants_new: bool) -> Tokens:
    """The tokens of a line's page, in a file of the user's own. Raises BadPlace and OSError."""
    path = made_folder(None) / f"web-{hashlib.sha256(os.fsencode(line)).hexdigest()[:TOKEN_BYTES]}.token"
    with contextlib.suppress(OSError, ValueError):
        found = "" if wants_new else path.read_text(encoding="ascii")
        if len(found) >= TOKEN_BYTES:
            return Tokens(found)
    new = Tokens()
    with file_of(str(path), new_mode=PRIVATE_MODE) as written:
        written.write(new.using)
    return new


class Pages:
    """Answers requests. What is asked for under /api/ is done by the call of that name, whose parameters are keys.
    `connect` makes a client of the line's server, and `connect_or_start` starts one if that of `first` has ended."""

    def __init__(self, door: Door, tokens: Tokens, connect: Callable[[], SharedClient],
                 connect_or_start: Callable[[], SharedClient], first: SharedClient) -> None:
        self.door, self.tokens, self.board = door, tokens, Board()
        self.rig = rig = Rig(self.board, Hands(connect))
        self.discoveries = Discoveries(self.board, rig)
        self.plans = plans = Plans(self.board, rig)
        self.watcher = Watcher(self.board, connect_or_start, first, rig, self.discoveries)
        details = Details(self.board, rig)
        self.calls: Mapping[str, Callable[..., object]] = {
            "change": rig.set, "undo": rig.undo, "identify": rig.identify, "forget": rig.forget, "show": details.read,
            "set": details.set, "discover": self.discoveries.begin, "pause": self.watcher.pause,
            "save": plans.save, "load": plans.load, "unload": plans.unload, "apply": plans.apply}
        door.answer, door.admits = self.answer, lambda handler: tokens.role(handler) is not None

    def serve(self) -> None:
        """Serves what comes through the door, until that is shut."""
        threading.Thread(target=self.plans.follow, daemon=True).start()
        self.watcher.start()
        try:
            self.door.serve_forever()
        finally:
            self.board.end()
            self.watcher.end()
            self.rig.hands.end()

    def answer(self, handler: Handler, body: bytes) -> None:
        """Answers a request. Raises Refusal."""
        check_host(handler)
        path = urlsplit(handler.path).path
        if handler.command == "GET" and path in FILES:
            name, kind = FILES[path]
            handler.reply(200, pkgutil.get_data(__package__, name) or b"", kind)
        elif handler.command == "GET" and path.startswith(PICTURE):
            picture = self.discoveries.picture(path[len(PICTURE):])
            handler.reply(200, picture.encode(), PAGE, PICTURE_HEADERS)
        elif path.startswith(API):
            self._api(handler, path, body)
        else:
            raise Refusal(404, "there is nothing here")

    def _api(self, handler: Handler, path: str, body: bytes) -> None:
        check_origin(handler)
        role = self.tokens.role(handler)
        if role is None:
            raise Refusal(401, "this link isn't valid any more: ask whoever started the page for the new one")
        if (handler.command, path) == ("GET", EVENTS):
            self._events(handler, role)
            return
        call = self.calls.get(path[len(API):])
        if handler.command != "POST" or call is None:
            raise Refusal(404, "there is nothing here")
        if role == LOOKS:
            raise Refusal(403, "this address is view only")
        try:
            answer = call(**arguments_of(call, object_of(body))) or {}
        except BadRequest as fault:
            raise Refusal(400, str(fault)) from None
        except Exception as fault:  # Whatever it is, who asks hears of it.
            answer = {"error": str(failure_of(fault))}
        handler.reply(200, json.dumps(answer).encode(), "application/json")

    def _events(self, handler: Handler, role: str) -> None:
        """All that the page shows, and each change. A page that doesn't read loses its connection, and nothing else."""
        if not handler.server.streams.acquire(blocking=False):
            raise Refusal(503, f"{MOST_STREAMS} pages are open, and there are no more places")
        try:
            handler.begin(200, {"Content-Type": "text/event-stream"})
            for parts in self.board.follow(role=role):
                # JSON has no newlines.
                text = json.dumps(parts, separators=(",", ":"), default=float)
                handler.wfile.write(f"data: {text}\n\n".encode())
        finally:
            handler.server.streams.release()


def check_host(handler: Handler) -> None:
    """Raises Refusal if the request is for a name that isn't this machine's: another site's name may lead here."""
    address, port = handler.connection.getsockname()[:2]
    # What other machines on the network may call this one.
    name = socket.gethostname().lower()
    names = [address, "localhost"] if address == LOOPBACK else [address, name, f"{name}.local"]
    if (handler.headers.get("Host") or "").lower() not in [f"{each}:{port}" for each in names]:
        raise Refusal(421, f"this page is at http://{address}:{port}")


def check_origin(handler: Handler) -> None:
    """Raises Refusal if another site's page asks."""
    origin = handler.headers.get("Origin")
    if origin not in (None, f"http://{handler.headers.get('Host')}") \
            or handler.headers.get("Sec-Fetch-Site") not in (None, "same-origin", "none"):
        raise Refusal(403, "another site's page asks, and isn't answered")


def arguments_of(call: Callable[..., object], keys: Keys) -> Keys:
    """What a request says for the parameters of a call, as they are declared. Raises BadRequest."""
    found = {}
    for name, each in inspect.signature(call).parameters.items():
        value = keys.get(name, each.default)
        kind, fault = FORMS.get(each.annotation, (str, "isn't a text"))
        if not isinstance(value, kind):
            raise BadRequest(f"{name} {fault}")
        try:
            found[name] = Uid.parse(str(value)) if each.annotation == "Uid" else value
        except Fault as wrong:
            raise BadRequest(f"{name}: {wrong}") from None
    return found
