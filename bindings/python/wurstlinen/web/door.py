"""An HTTP server of the standard library, with limits on connections, sizes and times, for networks with anybody.

`http.server` has none: here the oldest connection without a request makes place for a new one, a request has to come
within seconds, and nothing larger than the page needs is read. aiohttp limits sizes alone, so it would save little.
"""
from __future__ import annotations

import contextlib
import io
import math
import re
import socket
import socketserver
import threading
import time
from http.server import BaseHTTPRequestHandler
from typing import Any, Callable, Dict, Mapping, Tuple

MOST_CONNECTIONS = 100
MOST_STREAMS = 32
MOST_HEAD_BYTES = 16_384
MOST_BODY_BYTES = 1_100_000
# How long a request may take to come, a connection be idle, and a reader take for what it gets.
REQUEST_SECONDS = 10.0
HEADERS = {
    "Content-Security-Policy": "default-src 'none'; script-src 'self'; style-src 'self'; connect-src 'self'; "
                               "frame-src 'self'; img-src data:; base-uri 'none'; form-action 'none'; "
                               "frame-ancestors 'none'",
    "X-Content-Type-Options": "nosniff", "Referrer-Policy": "no-referrer", "Cache-Control": "no-store",
    "Cross-Origin-Resource-Policy": "same-origin", "Cross-Origin-Opener-Policy": "same-origin"}


class Refusal(Exception):
    """A request isn't answered, with this status, for this reason."""


class Stream(io.BufferedReader):
    """What comes by a connection. A request's head may take only so much."""

    left = MOST_HEAD_BYTES

    def readline(self, most: Any = -1) -> bytes:
        """A line."""
        line = super().readline(self.left + 1)
        self.left -= len(line)
        if self.left < 0:
            raise ConnectionAbortedError("the head of the request is too long")
        return line


class Handler(BaseHTTPRequestHandler):
    """A connection, which has one request. `Door.answer` answers it."""

    timeout = REQUEST_SECONDS
    server: Door
    rfile: Stream
    server_version, sys_version = "wurstlinen", ""

    def setup(self) -> None:
        super().setup()
        self.rfile = Stream(self.rfile.detach())

    def do_GET(self) -> None:
        """Answers a request, perhaps with a body."""
        try:
            body = self._body()
            self.server.connections[self.connection] = math.inf
            self.server.answer(self, body)
        except Refusal as refusal:
            status, text = refusal.args
            self.reply(status, text.encode(), "text/plain; charset=utf-8")

    do_POST = do_GET

    def _body(self) -> bytes:
        """The body of the request. Raises Refusal before it is read if it is too long."""
        text = self.headers.get("Content-Length", "0")
        if not re.fullmatch("[0-9]{1,20}", text) or self.headers.get("Transfer-Encoding") is not None:
            raise Refusal(411, "the request has to say how long it is")
        if int(text) > MOST_BODY_BYTES:
            raise Refusal(413, f"the request has more than {MOST_BODY_BYTES} bytes")
        if int(text) and not self.server.admits(self):
            raise Refusal(413, "nothing is read from somebody without a token")
        return self.rfile.read(int(text))

    def reply(self, status: int, body: bytes, kind: str, headers: Mapping[str, str] = {}) -> None:
        """Sends an answer."""
        self.begin(status, {**headers, "Content-Type": kind, "Content-Length": str(len(body))})
        self.wfile.write(body)

    def begin(self, status: int, headers: Mapping[str, str]) -> None:
        """Sends what comes before the body of an answer, which ends with the connection."""
        self.send_response(status)
        for name, value in {**HEADERS, **headers}.items():
            self.send_header(name, value)
        self.end_headers()

    def log_message(self, format: str, *words: Any) -> None:
        """Nothing is printed about requests."""


class Door(socketserver.ThreadingTCPServer):
    """The server. A thread answers each connection: `answer` answers a request, or raises Refusal. `admits` says
    whether a request's body is read."""

    allow_reuse_address = True
    daemon_threads = True
    request_queue_size = 128

    def __init__(self, address: Tuple[str, int]) -> None:
        self.answer: Callable[[Handler, bytes], None]
        self.admits: Callable[[Handler], bool]
        # The connections, the oldest first, and since when their request is awaited; if it has come, for ever later.
        # Threads change it in single steps.
        self.connections: Dict[socket.socket, float] = {}
        self.streams = threading.BoundedSemaphore(MOST_STREAMS)
        super().__init__(address, Handler)

    def _end_idle(self, since: float, most: int) -> None:
        """Ends connections without a request, which ends their threads: the oldest since then, so many at most."""
        for connection in [each for each, began in list(self.connections.items()) if began <= since][:most]:
            self.connections.pop(connection, None)
            with contextlib.suppress(OSError):
                connection.shutdown(socket.SHUT_RDWR)

    def verify_request(self, request: Any, client_address: Any) -> bool:
        """Whether a connection is answered: if there are too many, in place of the oldest idle one."""
        self._end_idle(time.monotonic(), max(0, len(self.connections) + 1 - MOST_CONNECTIONS))
        if len(self.connections) >= MOST_CONNECTIONS:
            return False
        self.connections[request] = time.monotonic()
        return True

    def shutdown_request(self, request: Any) -> None:
        """Ends a connection."""
        self.connections.pop(request, None)
        super().shutdown_request(request)

    def handle_error(self, request: Any, client_address: Any) -> None:
        """A connection has ended, or there is no memory for a thread now."""

    def service_actions(self) -> None:
        """Ends connections whose request is late."""
        self._end_idle(time.monotonic() - REQUEST_SECONDS, MOST_CONNECTIONS)
