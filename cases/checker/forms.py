"""The forms that what is printed may have: a fault alone, or a whole answer."""
from __future__ import annotations

import re
from typing import Dict, Iterator, Optional, Tuple

FAULTS: Dict[bytes, int] = {f"fault: {name}\n".encode(): status for name, status in (
    ("hex", 1), ("uid", 1), ("file", 1), ("json", 1), ("discovery command", 1), ("scene", 1), ("log", 1), ("turns", 1),
    ("memory", 1), ("command line", 2))}

# The statuses of explain: no rule was broken, or one was.
FOLLOWED, BROKEN = 0, 3

NUMBER = "(?:0|[1-9][0-9]*)"
UID = "[0-9a-f]{4}:[0-9a-f]{8}"
RUN_FAULT = f"fault (?:1 {UID}|[2-5])"
REPLY = re.compile(f"(?:silent|collision|{UID}|fefefefefefefeaa[0-9a-f]{{32}})\n")
# The control field is left out if it is 0 and there is no binding UID.
DEVICE = f"(?:{UID})(?: (?!0000)[0-9a-f]{{4}}| [0-9a-f]{{4}} {UID})?\n"
DISCOVERY = re.compile(f"(?:{DEVICE})*frames {NUMBER}\n")
FAILED_DISCOVERY = re.compile(f"{RUN_FAULT}\nframes {NUMBER}\n")
STATUS = "(?:[1-9]|1[0-8])"
REQUEST = f"(request) ({NUMBER}): (?:0 (?:00|01|02) (?:-|(?:[0-9a-f]{{2}})+)|{STATUS})"
ASK = f"(discovery) ({NUMBER}): (?:ok(?: {UID})*|{RUN_FAULT})"
OUTCOME = re.compile(f"client ({NUMBER}) (?:{REQUEST}|{ASK})")

# Whose outcome a line has: the client, whether it is a discovery's, and its number among the client's of that kind.
Position = Tuple[int, bool, int]


def is_fault(text: bytes, status: int) -> bool:
    """One of the faults, alone, with its status."""
    return FAULTS.get(text) == status


def is_reply(text: bytes, status: int) -> bool:
    """The whole answer of decode or of encode."""
    return status == 0 and REPLY.fullmatch(decoded(text)) is not None


def is_discovery(text: bytes, status: int) -> bool:
    """The whole answer of a discovery: its devices, ascending, or a fault, and then how many frames it sent."""
    lines = decoded(text)
    if FAILED_DISCOVERY.fullmatch(lines):
        return status == 1
    if status != 0 or not DISCOVERY.fullmatch(lines):
        return False
    uids = [line[:13] for line in lines.splitlines()[:-1]]
    return all(uid < later for uid, later in zip(uids, uids[1:]))


def is_session(text: bytes, status: int, calls: int) -> bool:
    """The whole answer of a session with this many calls: each client's requests in order, then its discoveries."""
    lines = decoded(text)
    positions = list(positions_of(lines))
    if status != 0 or not lines.endswith("\n") or len(positions) != calls:
        return False
    return all(follows(last, position) for last, position in zip([None, *positions], positions))


def is_findings(text: bytes, status: int) -> bool:
    """The whole answer of explain, which refused no line."""
    return status in (FOLLOWED, BROKEN) and text.endswith(b"\n") and not text.startswith(b"fault")


def positions_of(lines: str) -> Iterator[Optional[Position]]:
    """Whose outcome each line has; none for one that has no outcome."""
    for line in lines[:-1].split("\n"):
        match = OUTCOME.fullmatch(line)
        if match:
            yield int(match[1]), match[4] is not None, int(match[3] or match[5])
        else:
            yield None


def follows(last: Optional[Position], position: Optional[Position]) -> bool:
    """Whether a position comes right after another one."""
    if position is None:
        return False
    client, is_ask, number = position
    if last is None:
        return number == 0
    if last[:2] == (client, is_ask):
        return number == last[2] + 1
    return number == 0 and (last[0] < client or (last[0] == client and is_ask))


def decoded(text: bytes) -> str:
    """The text; what isn't UTF-8 fits no form."""
    return text.decode(errors="replace")


def fault_or_discovery(text: bytes, status: int) -> bool:
    """A fault, or the whole answer of a discovery."""
    return is_fault(text, status) or is_discovery(text, status)


def fault_or_answer(text: bytes, status: int) -> bool:
    """A fault, or the whole answer of any command but run."""
    return fault_or_discovery(text, status) or is_reply(text, status)


def fault_or_three_outcomes(text: bytes, status: int) -> bool:
    """A fault, or the whole answer of a session with three calls."""
    return is_fault(text, status) or is_session(text, status, 3)
