"""The command trace: the frames of a log, decoded."""
from __future__ import annotations

import argparse
import io
import json
import sys
from typing import Any, Dict, Iterator, Optional, TextIO, Tuple

from .files import MOST_LINE
from .frames import Parts, answer_keys, bytes_of, command_of, exchange_text
from .main import AS_BYTES
from .output import BAD_ARGUMENTS, DONE, Failure, Output

STANDARD_STREAM = "-"
MOST_TIME = 1 << 63
MICROSECONDS = 1_000_000
# A frame, the line's reply (None if the line failed), and when that came, if the log has it.
Exchange = Tuple[bytes, Optional[bytes], Optional[int]]


def run_trace(chosen: argparse.Namespace, output: Output) -> int:
    """Prints the exchanges of a log, as they are read."""
    if chosen.file == STANDARD_STREAM:
        return trace(chosen.file, sys.stdin or io.StringIO(), output, chosen.frames == AS_BYTES)
    try:
        file = open(chosen.file, encoding="utf-8", errors="replace")
    except OSError as fault:
        raise Failure(BAD_ARGUMENTS, f"{chosen.file}: {fault.strerror}", reason="file") from None
    with file:
        return trace(chosen.file, file, output, chosen.frames == AS_BYTES)


def trace(name: str, file: TextIO, output: Output, shows_bytes: bool) -> int:
    """Prints the exchanges of an open log."""
    parts = Parts()
    first: Optional[int] = None
    for number, (frame, reply, time) in enumerate(exchanges(name, file)):
        first = time if first is None else first
        since = None if first is None or time is None else (time - first) / MICROSECONDS
        answer = parts.joined(frame, reply)
        keys: Dict[str, Any] = {"number": number, "text": command_of(frame), "frame": frame.hex(),
                                "answer": answer_keys(frame, answer)}
        keys["failed" if reply is None else "reply"] = True if reply is None else reply.hex()
        keys.update({} if time is None else {"microseconds": time})
        output.result([exchange_text(number, frame, answer, since), *(bytes_of(frame, reply) if shows_bytes else ())],
                      **keys)
    return DONE


def exchanges(name: str, file: TextIO) -> Iterator[Exchange]:
    """The exchanges of a session's log, or of a discovery's. A frame without a reply at the end is left out."""
    frame: Optional[bytes] = None
    for number, line in enumerate(iter(lambda: file.readline(MOST_LINE), ""), 1):
        try:
            entry = entry_of(line)
            if "frame" in entry:
                frame = bytes.fromhex(entry["frame"])
            if frame is not None and ("reply" in entry or "failed" in entry):
                yield frame, bytes.fromhex(entry["reply"]) if "reply" in entry else None, time_of(entry)
                frame = None
        except (ValueError, TypeError, RecursionError):
            raise Failure(BAD_ARGUMENTS, f"{name}: line {number} isn't an entry of a log", reason="file") from None


def time_of(entry: Dict[str, Any]) -> Optional[int]:
    """When an entry was written, in microseconds, if it says so. Raises ValueError."""
    time = entry.get("microseconds")
    if time is not None and (type(time) is not int or not 0 <= time < MOST_TIME):
        raise ValueError("no time")
    return time


def entry_of(line: str) -> Dict[str, Any]:
    """The entry of a line. Raises ValueError and RecursionError, also for a line that is longer than any entry's."""
    found = json.loads(line) if len(line) < MOST_LINE else None
    if not isinstance(found, dict):
        raise ValueError("no entry")
    return found
