"""The command web: serves the page until a signal comes, by the line's server, which it starts if none runs."""
from __future__ import annotations

import argparse
import contextlib
import importlib.util
import json
import math
import os
import shutil
import signal
import socket
import struct
import subprocess
import sys
import threading
import time
from fcntl import ioctl
from typing import List, Optional

from .._endings import end_by
from ..front.opening import OLA, failures_of_lines
from ..front.output import BAD_ARGUMENTS, DONE, FAILED, Failure, Output
from ..line import LineFailed
from ..lines.waiting import when_free
from ..shared.client import SharedClient, connect
from ..shared.connection import NotServed
from ..shared.place import canonical
from ..tool.places import PACKAGE
from .door import Door
from .pages import LOOPBACK, Pages, Tokens, kept

# Linux's number for asking an interface for its IPv4 address.
SIOCGIFADDR = 0x8915
# A server that was started for the page ends when nobody has used it for so long.
IDLE_SECONDS = 2
# How long a server that has ended may take to come back, before another is started.
PATIENCE_SECONDS = 3.0


class ServerOfLine:
    """Connects to the server of a line, and starts one if none runs. One thread calls it at a time."""

    def __init__(self, line: str) -> None:
        self.line = line
        self._child: Optional[subprocess.Popen[str]] = None
        # When one is started, if none runs. The first one doesn't come back.
        self._start_at = -math.inf

    def connect(self) -> SharedClient:
        """A client. If no server has run for a while, one is started, and serves other programs too."""
        try:
            client = connect(self.line)
        except NotServed:
            self._start_at = min(self._start_at, time.monotonic() + PATIENCE_SECONDS)
            if time.monotonic() < self._start_at:
                raise LineFailed("the server of the line has ended; another is started soon") from None
            self._start()
            client = connect(self.line)
        self._start_at = math.inf
        return client

    def _start(self) -> None:
        """Starts a server, which others may use longer. Raises LineFailed, and ValueError for what names no line."""
        words = ["serve", "--json", "--line", self.line, "--idle", str(IDLE_SECONDS)]
        path = os.pathsep.join(filter(None, (os.path.dirname(PACKAGE), os.environ.get("PYTHONPATH"))))
        if self._child is not None:
            # The last one that was started has ended.
            self._child.wait()
        # An interrupt from the keyboard ends the page alone.
        self._child = subprocess.Popen([sys.executable, "-m", "wurstlinen.tool", *words], stdin=subprocess.DEVNULL,
                                       stdout=subprocess.PIPE, text=True, start_new_session=True,
                                       env={**os.environ, "PYTHONPATH": path})
        assert self._child.stdout is not None
        with self._child.stdout as printed:
            said = printed.readline()
        try:
            error = json.loads(said).get("error")
        except ValueError:
            raise LineFailed("the server of the line can't be started") from None
        if error is not None:
            raise (ValueError if self._child.wait() == BAD_ARGUMENTS else LineFailed)(error["text"])


def run_web(chosen: argparse.Namespace, output: Output) -> int:
    """Serves the page of a line until a signal comes."""
    if chosen.line.startswith(OLA):
        raise Failure(BAD_ARGUMENTS, f"olad has the line {chosen.line}, and the page needs a line that 'wurstlinen "
                                     "serve' can have", reason="line")
    with failures_of_lines():
        line = canonical(chosen.line)
        tokens = kept(line, chosen.new_tokens)
        server = ServerOfLine(line)
        first = when_free(server.connect, chosen.wait_line, output.note)
    with first, opened(chosen) as door:
        # The signal's handler runs in the thread that serves, which can't wait for itself.
        end_by(lambda number, frame: threading.Thread(target=door.shutdown, daemon=True).start(),
               signal.SIGINT, signal.SIGTERM, signal.SIGHUP)
        tell(line, door, tokens, chosen, output)
        Pages(door, tokens, lambda: connect(line), server.connect, first).serve()
    return DONE


def opened(chosen: argparse.Namespace) -> Door:
    """The door. Raises Failure."""
    try:
        return Door(("" if chosen.allow_network else LOOPBACK, chosen.port))
    except OSError as fault:
        raise Failure(FAILED, f"port {chosen.port}: {fault.strerror}; --port N takes another", reason="port") from None


def tell(line: str, door: Door, tokens: Tokens, chosen: argparse.Namespace, output: Output) -> None:
    """Prints the addresses, and the first one as a QR code if that is for a phone."""
    hosts = addresses() if chosen.allow_network else [LOOPBACK]
    using, looking = ([f"http://{host}:{door.server_address[1]}/#{token}" for host in hosts]
                      for token in (tokens.using, tokens.looking))
    output.result([f"{line} is at", *(f"  {each}" for each in using), "view only at",
                   *(f"  {each}" for each in looking)], line=line, addresses=using, looking=looking)
    if chosen.allow_network and not output.is_json and sys.stdout.isatty():
        show_code(using[0])


def addresses() -> List[str]:
    """This machine's IPv4 addresses in its networks; its own alone if it is in none."""
    found = []
    with socket.socket(socket.AF_INET, socket.SOCK_DGRAM) as asking:
        for _, name in socket.if_nameindex():
            # One without an address is passed over.
            with contextlib.suppress(OSError):
                answer = ioctl(asking, SIOCGIFADDR, struct.pack("256s", name.encode()))
                found.append(socket.inet_ntoa(answer[20:24]))
    return [each for each in found if not each.startswith("127.")] or [LOOPBACK]


def show_code(address: str) -> None:
    """Shows an address as a QR code, if Debian's qrencode or python3-qrcode is there."""
    if shutil.which("qrencode") is not None:
        # By its standard input, since arguments are for all users to see.
        subprocess.run(["qrencode", "-t", "ANSIUTF8"], input=address.encode(), check=False)
    elif importlib.util.find_spec("qrcode") is not None:
        code = importlib.import_module("qrcode").QRCode(border=2)
        code.add_data(address)
        code.print_ascii(invert=True)
    else:
        print("with the package qrencode or python3-qrcode, this would be a QR code too", flush=True)
