"""Logs that are cut off, and logs in which a bit is flipped: explain refuses the damaged line, or reads to the end."""
from __future__ import annotations

from functools import partial
from pathlib import Path
from typing import Iterator

from ..checker.case import Case, Expected, prints
from ..checker.forms import is_findings
from ..checker.tables import read_table
from .damage import with_byte
from .log_lines import timed
from .runs import explained

LOGS = Path(__file__).resolve().parent.parent / "logs.txt"
# The cases with these logs, and how far two cuts, and two flipped bits, are apart.
STEPS = {
    "a discovery": (14, 7),
    "requests with parts, data and sub-devices": (41, 25),
    "a discovery of a session": (39, 25),
}


def cases() -> Iterator[Case]:
    """All damaged logs."""
    for case in read_table(LOGS).cases:
        if case.name in STEPS and case.expected.log is not None:
            log = case.expected.log.contents or b""
            for name, text in ((case.name, log), (f"{case.name}, with times", with_times(log))):
                yield from cut_off(name, text, STEPS[case.name][0])
                yield from flipped(name, text, STEPS[case.name][1])


def with_times(log: bytes) -> bytes:
    """A log whose lines but the opening have times."""
    opening, *lines = log.decode().splitlines(True)
    return "".join([opening, *(timed(line, str(10 ** 15 + number)) for number, line in enumerate(lines))]).encode()


def cut_off(name: str, log: bytes, step: int) -> Iterator[Case]:
    """The beginnings of a log. The last line is refused unless it is whole."""
    ends = {at for at in range(1, len(log)) if log[:at].endswith(b"\n")}
    for length in sorted(ends.union(range(0, len(log), step))):
        is_whole = length == 0 or length in ends
        refused = prints(f"fault: line {line_at(log, length)}\n")
        expected = Expected(status=None, form=is_findings) if is_whole else refused
        yield explained(f"the first {length} bytes of the log of {name}", log[:length], expected)


def flipped(name: str, log: bytes, step: int) -> Iterator[Case]:
    """Each bit in turn, of bytes of a log."""
    for number, at in enumerate(range(0, len(log), step)):
        file = with_byte(log, at, log[at] ^ 1 << number % 8)
        expected = Expected(status=None, form=partial(is_refused_or_findings, line_at(log, at)))
        yield explained(f"bit {number % 8} of byte {at} of the log of {name} is flipped", file, expected)


def line_at(log: bytes, at: int) -> int:
    """The line with this byte, from 1."""
    return log.count(b"\n", 0, at) + 1


def is_refused_or_findings(line: int, text: bytes, status: int) -> bool:
    """Whether this line is refused, or none is."""
    return (text, status) == (f"fault: line {line}\n".encode(), 1) or is_findings(text, status)
