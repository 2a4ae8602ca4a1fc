"""The command explain with --page: what the proved program finds, and a page that shows it.

The program's output, its errors and its status are the command's. The page has only what the program has found.
"""
from __future__ import annotations

import os
import subprocess
import sys
from typing import BinaryIO, Mapping, Optional, Sequence, Tuple

from ..front.csv_files import LABEL, read
from ..front.files import file_of
from ..front.output import BAD_ARGUMENTS, FAILED, Failure, Output
from ..front.page import page_of
from ..front.page_findings import Findings, NoFindings, findings_in
from ..front.page_log import NoLog, OtherLog
from .places import NO_PROGRAM
from .reporting import end

FOLLOWED = 0
BROKEN = 3
JSON = "--json"
# Where a file is, how long it is, and when it was changed.
State = Tuple[int, int, int, int, int]


class NoPage(Exception):
    """The program has ended with this status, so there is nothing to show."""

    def __init__(self, status: int) -> None:
        super().__init__()
        self.status = status


class NoOutput(Exception):
    """Standard output can't be written."""

    def __init__(self, fault: OSError) -> None:
        super().__init__()
        self.fault = fault


def explain(program: str, words: Sequence[str], page: str, files: Sequence[str], names: Optional[str] = None) -> int:
    """Runs the program with these words; `files` are read, the log first. Raises Failure and OSError.

    The page has the labels of the file `names`.
    """
    try:
        check(page, files)
        labels = {} if names is None else {row.uid.number: row.values.get(LABEL, "")
                                           for row in read(names, Output(False)).rows}
        with file_of(page) as made:
            before = state_of(files[0]) if files else None
            status, findings = explained(program, words)
            made.write(drawn(files[0], before, findings, labels))
    except NoPage as end:
        return end.status
    except NoOutput as end:
        raise end.fault from None
    except OSError as fault:
        raise Failure(FAILED, f"{page}: {fault.strerror}", reason="file") from None
    return status


def check(page: str, files: Sequence[str]) -> None:
    """Raises Failure if a page would replace what is read, or the log can be read only once."""
    if page == "-":
        raise Failure(BAD_ARGUMENTS, "the page needs a file: --page FILE", reason="file")
    for name in files:
        if os.path.exists(name) and os.path.exists(page) and os.path.samefile(name, page):
            raise Failure(BAD_ARGUMENTS, f"the page would replace {name}", reason="file")
    for name in files[:1]:
        if os.path.exists(name) and not os.path.isfile(name) and not os.path.isdir(name):
            raise Failure(BAD_ARGUMENTS, f"{name} is no file on a disk, and --page has to read it twice", reason="file")


def explained(program: str, words: Sequence[str]) -> Tuple[int, Findings]:
    """The program's status, and what it finds in a log, which is printed here too. Raises NoPage and NoOutput."""
    wanted = words if JSON in words else [*words[:1], JSON, *words[1:]]
    status, printed = called(program, wanted)
    try:
        findings = findings_in(printed)
    except NoFindings:
        # A fault before the log is read, and after arguments that the program doesn't take.
        show(printed)
        raise NoPage(status if status not in (FOLLOWED, BROKEN) else FAILED) from None
    show(printed if JSON in words else "".join(f"{line}\n" for line in findings.lines()).encode())
    if status not in (FOLLOWED, BROKEN):
        raise NoPage(status)
    return status, findings


def called(program: str, words: Sequence[str]) -> Tuple[int, bytes]:
    """The program's status, and what it prints. Raises NoPage."""
    try:
        child = subprocess.Popen(["wurstlinen", *words], executable=program, stdout=subprocess.PIPE)
    except OSError as fault:
        Output(False).note(f"{program}: {fault.strerror}")
        raise NoPage(NO_PROGRAM) from None
    try:
        assert child.stdout is not None
        with child.stdout as output:
            printed = output.read()
        status = child.wait()
    finally:
        end(child)
    if status < 0:
        Output(False).note(f"the program was ended by signal {-status}")
        raise NoPage(128 - status)
    return status, printed


def show(text: bytes) -> None:
    """Prints a text. Raises NoOutput."""
    try:
        sys.stdout.buffer.write(text)
        sys.stdout.buffer.flush()
    except OSError as fault:
        raise NoOutput(fault) from None


def drawn(name: str, before: Optional[State], findings: Findings, labels: Mapping[int, str]) -> str:
    """The page of a log that is still as it was. Raises Failure."""
    try:
        with open(name, "rb") as file:
            text = page_of(name, file, findings, labels)
            is_same = before == state_in(file) == state_of(name)
    except (NoLog, OtherLog) as fault:
        raise Failure(FAILED, f"{name}: {fault}, so no page is written", reason="file") from None
    except OSError as fault:
        raise Failure(FAILED, f"{name}: {fault.strerror}, so no page is written", reason="file") from None
    if not is_same:
        raise Failure(FAILED, f"{name} has changed since it was explained, so no page is written", reason="file")
    return text


def state_of(name: str) -> Optional[State]:
    """The state of a file; None if it isn't there."""
    try:
        return state(os.stat(name))
    except OSError:
        return None


def state_in(file: BinaryIO) -> State:
    """The state of an open file."""
    return state(os.fstat(file.fileno()))


def state(found: os.stat_result) -> State:
    """What tells whether a file has changed."""
    return found.st_dev, found.st_ino, found.st_size, found.st_mtime_ns, found.st_ctime_ns
