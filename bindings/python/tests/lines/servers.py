"""What the tests of servers share: a server in this process or in one of its own, and programs that speak to it."""
from __future__ import annotations

import contextlib
import json
import os
import signal
import socket
import subprocess
import sys
import threading
from pathlib import Path
from typing import Any, Callable, Dict, Iterator, List, Optional
from unittest import mock

from common import PACKAGE, folder
from wurstlinen import Search, Session
from wurstlinen.lines import OpenLine
from wurstlinen.shared import place
from wurstlinen.shared import server as servers
from wurstlinen.shared.journal import CAPACITY
from wurstlinen.shared.listening import Place
from wurstlinen.shared.server import Facts, Server
from wurstlinen.shared.worker import Worker

SOURCE = "7ff0:00000001"
HELLO = {"do": "hello", "version": 1}
# Only a test that fails waits so long.
SECONDS = 60.0
TOOL = [sys.executable, "-m", "wurstlinen.tool"]


class Here:
    """A server in this process, for a line that `make` makes, and makes again if it is gone."""

    def __init__(self, make: Callable[[], OpenLine], name: str = "rig:/it", users: Optional[frozenset[int]] = None,
                 idle: Optional[float] = None) -> None:
        self.name = name
        self.place = Place(name)
        self.session = Session(SOURCE, CAPACITY, search=Search.QUICK)
        self.line = make()
        self.server = Server(self.place, self.session, Facts(name, SOURCE, users, idle))
        self.worker = Worker(self.session, self.line, make, self.server.wake)
        self.place.listen()
        self.failure: Optional[BaseException] = None
        self.thread = threading.Thread(target=self._run, daemon=True)
        self.thread.start()

    def _run(self) -> None:
        try:
            self.server.run(self.worker)
        except BaseException as fault:
            self.failure = fault
        finally:
            self.place.close()

    def end(self) -> None:
        """Ends it."""
        self.server.end()
        self.thread.join(SECONDS)
        assert not self.thread.is_alive(), "the server doesn't end"
        self.session.dispose()


@contextlib.contextmanager
def runtime() -> Iterator[Path]:
    """A runtime folder of this test alone."""
    with folder() as made:
        made.chmod(0o700)
        with mock.patch.dict(os.environ, {place.RUNTIME_VARIABLE: str(made)}):
            yield made


@contextlib.contextmanager
def here(make: Callable[[], OpenLine], **keys: Any) -> Iterator[Here]:
    """A server in this process for the duration of a `with`."""
    # A line that doesn't answer is closed at the end.
    with runtime(), mock.patch.object(servers, "ENDING_SECONDS", 0.3):
        server = Here(make, **keys)
        try:
            yield server
        finally:
            server.end()


class Program:
    """A program that speaks the protocol by hand."""

    def __init__(self, path: object, says: Optional[Dict[str, Any]] = HELLO) -> None:
        self.socket = socket.socket(socket.AF_UNIX)
        # This waits for the server, which a socket with a time limit doesn't.
        self.socket.connect(str(path))
        self.socket.settimeout(SECONDS)
        self.file = self.socket.makefile("rb")
        if says is not None:
            self.hello = self.ask(says)

    def __enter__(self) -> Program:
        return self

    def __exit__(self, *why: object) -> None:
        self.close()

    def close(self) -> None:
        """Ends the connection."""
        self.file.close()
        self.socket.close()

    def write(self, data: bytes) -> None:
        """Sends bytes."""
        self.socket.sendall(data)

    def say(self, keys: Any) -> None:
        """Sends an object."""
        self.write(json.dumps(keys).encode() + b"\n")

    def read(self) -> Optional[Dict[str, Any]]:
        """The next object; None at the end."""
        try:
            line = self.file.readline()
        except ConnectionResetError:
            return None
        found: Optional[Dict[str, Any]] = json.loads(line) if line else None
        return found

    def next(self, *keys: str) -> Dict[str, Any]:
        """The next object with one of these keys."""
        while True:
            found = self.read()
            assert found is not None, "the server has ended the connection"
            if any(key in found for key in keys):
                return found

    def ask(self, keys: Any) -> Dict[str, Any]:
        """The answer to a request."""
        self.say(keys)
        found = self.read()
        assert found is not None, "the server has ended the connection"
        return found

    def rest(self) -> List[Dict[str, Any]]:
        """All that comes until the server ends the connection."""
        return list(iter(self.read, None))


def environment(made: Path) -> Dict[str, str]:
    """The environment of a command with this runtime folder."""
    return {**os.environ, "PYTHONPATH": str(PACKAGE), "PYTHONDONTWRITEBYTECODE": "1",
            place.RUNTIME_VARIABLE: str(made)}


def command(made: Path, *words: str, **keys: Any) -> "subprocess.CompletedProcess[str]":
    """A command that has ended."""
    return subprocess.run([*TOOL, *words], env=environment(made), check=False, capture_output=True, text=True,
                          timeout=SECONDS, **keys)


class Process(subprocess.Popen):  # type: ignore[type-arg]
    """A server in a process of its own, where its socket is, and at its end what it said on standard error."""

    socket = ""
    said = ""


@contextlib.contextmanager
def serve(made: Path, *words: str) -> Iterator[Process]:
    """The command serve, for the duration of a `with`, once it serves."""
    process = Process([*TOOL, "serve", "--json", *words], env=environment(made), stdout=subprocess.PIPE,
                      stderr=subprocess.PIPE, text=True)
    try:
        assert process.stdout is not None and process.stderr is not None
        line = process.stdout.readline()
        assert "socket" in line, line + process.stderr.read()
        process.socket = json.loads(line)["socket"]
        yield process
    finally:
        if process.poll() is None:
            process.send_signal(signal.SIGTERM)
        try:
            process.said = process.communicate(timeout=SECONDS)[1]
        except subprocess.TimeoutExpired:
            process.kill()
            process.communicate()
            raise
