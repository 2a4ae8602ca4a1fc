"""Long sessions of sixteen clients with a log, in which replies are lost as in the soaks of docs/TRIALS.md.

The threads make their calls in any order, so only the form of what is printed is compared. The log is then explained,
as each log that a case writes.
"""
from __future__ import annotations

import json
from typing import Dict, Iterator, List

from ..checker.case import Case, Expected, File
from ..checker.forms import is_session
from .commands import BOTH
from .logs import OPTION, is_written

CLIENTS, CALLS = 16, 250
# One call in this many is a discovery, and of this many replies the last one is lost.
CALLS_OF_DISCOVERY, REPLIES_OF_LOSS = 25, 50
MOST_EXCHANGES = 100_000
UIDS = ("1234:00000001", "1234:00000002", "9abc:00000003")
# One request in eight asks for a parameter in three parts.
SHORT, LONG, REQUESTS_OF_LONG = "0060", "8001", 8
ENTRIES = 1_000_000


def cases() -> Iterator[Case]:
    """A session over each port. The two lose other replies."""
    for command in BOTH:
        yield Case(
            name=f"{CLIENTS * CALLS} calls, with losses",
            commands=((*command, *OPTION),),
            expected=Expected(status=None, form=is_whole, log_form=is_written),
            files=(File(json.dumps(session()).encode()),),
        )


def is_whole(out: bytes, status: int) -> bool:
    """The outcome of each call."""
    return is_session(out, status, CLIENTS * CALLS)


def session() -> Dict[str, object]:
    """A session file."""
    params = [{"pid": SHORT, "parts": ["0102"]}, {"pid": LONG, "parts": ["03", "04", "05"]}]
    scene = {
        "source": "7a70:00000100",
        "devices": [{"uid": uid, "params": params} for uid in UIDS],
        "losses": list(range(REPLIES_OF_LOSS - 1, MOST_EXCHANGES, REPLIES_OF_LOSS)),
    }
    clients = [{"places": 8, "calls": calls(client)} for client in range(CLIENTS)]
    return {"scene": scene, "log": ENTRIES, "clients": clients}


def calls(client: int) -> List[Dict[str, str]]:
    """What a client asks for."""
    return [call(client + number) for number in range(CALLS)]


def call(number: int) -> Dict[str, str]:
    """A discovery, or a request of one device."""
    if number % CALLS_OF_DISCOVERY == 0:
        return {"discover": "incremental" if number % 2 else "full"}
    return {"get": UIDS[number % len(UIDS)], "pid": SHORT if number % REQUESTS_OF_LONG else LONG}
