"""What the log shows of the port: which one it is, and that its clients call side by side."""
from __future__ import annotations

import json
from typing import Any, Dict, Iterator, Sequence

from ..checker.case import FILE_NAME, LOG_NAME, Case, Expected, LogForm, arguments_of
from .commands import file_case

Entry = Dict[str, Any]

# A client with a queue depth of 1 waits for the worker after each of its requests. Meanwhile the other client begins,
# even with one processor: whoever finds nothing to collect yields. So many requests take longer than a thread needs to
# begin on a busy machine.
MANY = 3_000
ENTRIES = 100_000
# The most that there may be: a client that waits on a busy machine makes turns meanwhile.
TURNS = 1_000_000_000
TIMEOUT = 3


def cases() -> Iterator[Case]:
    """With each port: one client whose two requests fit into its queue, and two clients that make many requests."""
    for port, collects in (("locked", collects_last), ("rings", collects_at_once)):
        yield case_of(f"{port}: when an outcome is collected", port, collects, clients=1, places=2, requests=2)
        yield case_of(f"{port}: clients side by side", port, are_side_by_side, clients=2, places=1, requests=MANY)


def case_of(name: str, port: str, form: LogForm, clients: int, places: int, requests: int) -> Case:
    """So many clients make requests to a device that isn't there, and the log has the form."""
    call = {"get": "1234:00000001", "pid": "0060"}
    client = {"places": places, "calls": [call] * requests}
    scene = {"source": "7a70:00000100"}
    session = json.dumps({"scene": scene, "clients": [client] * clients, "log": ENTRIES, "turns": TURNS})
    out = "".join(f"client {c} request {k}: {TIMEOUT}\n" for c in range(clients) for k in range(requests))
    command = arguments_of("run", "--port", port, "--log", LOG_NAME, FILE_NAME)
    return file_case(name, (command,), session, Expected(out=out.encode(), log_form=form))


def collects_last(log: bytes) -> bool:
    """With a mutex a client collects by itself, and it makes its two calls first."""
    return kinds_of(log) == ["accept", "accept", "collect", "collect"]


def collects_at_once(log: bytes) -> bool:
    """With ring buffers the worker collects for the client as soon as a request is finished, and then takes a call."""
    return kinds_of(log) == ["accept", "collect", "accept", "collect"]


def are_side_by_side(log: bytes) -> bool:
    """Whether each of two clients had a request accepted before the last one of the other."""
    callers = [entry["client"] for entry in entries_of(log) if entry["entry"] == "accept"]
    if callers.count(0) != MANY or callers.count(1) != MANY:
        return False
    firsts = [callers.index(client) for client in range(2)]
    lasts = [len(callers) - 1 - callers[::-1].index(client) for client in range(2)]
    return max(firsts) < min(lasts)


def kinds_of(log: bytes) -> Sequence[str]:
    """Which entries accept a call and which ones collect an outcome, in order."""
    return [entry["entry"] for entry in entries_of(log) if entry["entry"] in ("accept", "collect")]


def entries_of(log: bytes) -> Sequence[Entry]:
    """The entries of a log."""
    return [json.loads(line) for line in log.splitlines()]
