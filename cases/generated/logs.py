"""The examples with a log, which is then explained, as each log that a case writes."""
from __future__ import annotations

from dataclasses import replace
from pathlib import Path
from typing import Iterator

from ..checker.case import LOG_NAME, Case, File
from ..checker.tables import read_table
from . import neighbours

EXAMPLES = Path(__file__).resolve().parent.parent / "examples.txt"
OPTION = (b"--log", LOG_NAME.encode())
# The threads of a session write different logs.
TIMES_OF_SESSIONS = 10


def cases() -> Iterator[Case]:
    """Each discovery and session of the examples that begins."""
    for case in (*read_table(EXAMPLES).cases, *neighbours.cases()):
        if case.folder is not None and not (case.expected.out or b"").startswith(b"fault: "):
            files = [case.folder / name.decode() for name in case.commands[0] if name.endswith(b".json")]
            yield replace(
                case,
                commands=tuple((*command, *OPTION) for command in case.commands),
                expected=replace(case.expected, log_form=is_written),
                files=tuple(File(file.read_bytes(), file.name) for file in files),
                folder=None,
                times=TIMES_OF_SESSIONS if case.commands[0][0] == b"run" else 1,
            )


def is_written(log: bytes) -> bool:
    """Whether there are lines in a log."""
    return log.endswith(b"\n")
