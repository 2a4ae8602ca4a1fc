"""The proved program on a line that this process serves, such as a USB adapter."""
from __future__ import annotations

import os
import subprocess
import sys
from contextlib import ExitStack, suppress
from typing import BinaryIO, Dict, List, Optional, Sequence, Tuple

from .._standard_streams import warn
from .._times import now
from ..commands import SOURCE
from ..front.files import file_of
from ..front.opening import opened
from ..front.output import Output
from ..front.watched import WatchedLine
from ..lines import OpenLine, open_line, serve_text
from ..lines.uids import uid_text
from .reporting import Report, end, relay, streams

KINDS = ("enttec", "text", "exec", "rig")


class TimedLine(WatchedLine):
    """A watched line that keeps when each exchange ended."""

    def __init__(self, line: OpenLine, output: Output, shown: Optional[str]) -> None:
        super().__init__(line, output, shown)
        self.times: List[int] = []

    def _record(self, frame: bytes, reply: Optional[bytes], microseconds: Optional[int]) -> None:
        self.times.append(now())


def is_served(text: Optional[str]) -> bool:
    """Whether a value of --line names a kind of line that is served here, and no stream of a far end."""
    return text is not None and text.partition(":")[0] in KINDS and ":" in text


def serve(program: str, words: Sequence[str], text: str, frames: Optional[str], wait_line: float,
          is_json: bool = False, log: Optional[str] = None) -> int:
    """Runs the program with these words on a line, and returns its status. A discovery's log gets times."""
    output, is_discovery = Output(is_json), words[0] == "discover"
    shows_progress = is_discovery and frames is None and sys.stderr.isatty() and not is_json
    report = Report(output, shows_progress) if is_discovery or is_json else None
    with opened(open_line, text, wait_line, output) as line, ExitStack() as stack:
        words = [words[0], *source_words(words, line), *words[1:]]
        watched = TimedLine(line, output, frames)
        watched.found = set() if shows_progress else None
        child, theirs, ours = begun(program, words, stack, {} if report is None else streams())
        stack.callback(end, child)
        wait = relay(child, report)
        stack.callback(output.end_progress)
        serve_text(watched, theirs, ours)
        output.end_progress()
        status = child.wait()
        wait()
    if is_discovery and log:
        add_times(log, watched.times)
    status = status if status >= 0 else 128 - status
    if report is not None:
        report.end(status, watched.ending, watched.failure)
    elif watched.failure is not None:
        warn(str(watched.failure))
    return status


def add_times(name: str, times: Sequence[int]) -> None:
    """Gives the exchanges of a log their times, if the program has written all of them to a file."""
    # Without times, it is a log too.
    with suppress(OSError, ValueError):
        if not os.path.isfile(name):
            return
        with open(name, encoding="ascii") as file:
            opening, *lines = file
        if len(lines) == len(times):
            with file_of(name) as new:
                new.write("".join([opening, *(f'{line.rstrip()[:-1]},"microseconds":{time}}}\n'
                                              for line, time in zip(lines, times))]))


def begun(program: str, words: Sequence[str], stack: ExitStack,
          shown: Dict[str, int]) -> Tuple["subprocess.Popen[str]", BinaryIO, BinaryIO]:
    """The program, which has been started, with the streams of its frames and of their replies."""
    from_program, to_line = os.pipe()
    theirs = stack.enter_context(os.fdopen(from_program, "rb", 0))
    replies, to_program = os.pipe()
    ours = stack.enter_context(os.fdopen(to_program, "wb", 0))
    try:
        lines = ["--line", f"/dev/fd/{to_line}", "--replies", f"/dev/fd/{replies}"]
        child = subprocess.Popen([program, words[0], *lines, *words[1:]], pass_fds=(to_line, replies),
                                 encoding="utf-8", errors="backslashreplace", stdout=shown.get("stdout"),
                                 stderr=shown.get("stderr"))
    finally:
        os.close(to_line)
        os.close(replies)
    return child, theirs, ours


def source_words(words: Sequence[str], line: OpenLine) -> List[str]:
    """The controller's UID, which a discovery needs: the one that the line should have."""
    is_given = any(word.partition("=")[0] == "--source" for word in words)
    if words[0] != "discover" or is_given:
        return []
    return ["--source", uid_text(SOURCE if line.source is None else line.source)]

