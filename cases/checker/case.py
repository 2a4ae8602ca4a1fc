"""What a case is: how the program is called, and what it has to print."""
from __future__ import annotations

import enum
import sys
from dataclasses import dataclass
from pathlib import Path
from typing import Callable, Dict, Optional, Tuple

Arguments = Tuple[bytes, ...]

# Whether a text is a whole answer of a certain form, with its status.
Form = Callable[[bytes, int], bool]

# Whether a log is of a certain form.
LogForm = Callable[[bytes], bool]

FILE_NAME = "file.json"
LOG_NAME = "log"
# The files that explain reads.
EXPLAINED_NAME = "run.log"
RIG_NAME = "rig.json"
PROGRAM_NAME = "wurstlinen"
OTHER_PROGRAM_NAME = "rdm_port"


class Output(enum.Enum):
    """Where standard output goes."""

    READ = "read"
    FULL = "full"
    CLOSED = "closed"
    UNREAD = "unread"


@dataclass(frozen=True)
class File:
    """A file in the folder in which the program runs."""

    contents: bytes
    path: str = FILE_NAME
    is_readable: bool = True


class Streams(enum.Enum):
    """What the streams of a line are, and which of two FIFOs its far end opens first."""

    FILES = "files"
    OUT_FIRST = "fifos, out first"
    REPLIES_FIRST = "fifos, replies first"
    PIPES = "pipes"
    TERMINAL = "terminal"


@dataclass(frozen=True)
class FarEnd:
    """The far end of a line: it writes a script of replies, or else those of fixtures or of another rig."""

    streams: Streams
    replies: Optional[Tuple[bytes, ...]] = None
    fixtures: Tuple[int, ...] = ()
    # Makes a rig, which returns the reply to each frame.
    rig: Optional[Callable[[], Callable[[bytes], bytes]]] = None
    # It answers so many frames, and then goes away.
    most: int = sys.maxsize


@dataclass(frozen=True)
class Log:
    """What the file of a log holds; None if there is no such file."""

    contents: Optional[bytes]


@dataclass(frozen=True)
class Expected:
    """What the program has to print, and its status. What is None isn't compared."""

    status: Optional[int] = 0
    out: Optional[bytes] = None
    err: Optional[bytes] = None
    # Standard error has this text somewhere.
    err_has: Optional[bytes] = None
    # Standard error ends with this text.
    err_ends: Optional[bytes] = None
    # Standard error is one line, and begins with this text.
    err_begins: Optional[bytes] = None
    form: Optional[Form] = None
    # The lines that go to a line's far end.
    sent: Optional[Tuple[bytes, ...]] = None
    # The log, which is in the file LOG_NAME.
    log: Optional[Log] = None
    log_form: Optional[LogForm] = None


@dataclass(frozen=True)
class Case:
    """Some commands that all have to print the same."""

    name: str
    commands: Tuple[Arguments, ...]
    expected: Expected
    files: Tuple[File, ...] = ()
    # The folder in which the program runs, instead of a new one with the files.
    folder: Optional[Path] = None
    program: str = PROGRAM_NAME
    output: Output = Output.READ
    times: int = 1
    far_end: Optional[FarEnd] = None


@dataclass(frozen=True)
class Answer:
    """What the program printed, and its status."""

    status: int
    out: bytes
    err: bytes
    sent: Tuple[bytes, ...] = ()
    log: Log = Log(None)


@dataclass(frozen=True)
class Subject:
    """The cases of one table, or of one kind of generated input."""

    name: str
    cases: Tuple[Case, ...]


def arguments_of(*texts: str) -> Arguments:
    """The arguments, as the program gets them."""
    return tuple(text.encode() for text in texts)


def prints(text: str) -> Expected:
    """The program prints this text, with the status that the formats give it."""
    statuses: Dict[str, int] = {"fault: command line\n": 2}
    is_fault = text.startswith("fault")
    return Expected(status=statuses.get(text, 1 if is_fault else 0), out=text.encode())
