"""The commands that read hostile files, and what they print."""
from __future__ import annotations

from typing import Tuple, Union

from ..checker.case import FILE_NAME, Arguments, Case, Expected, File, arguments_of, prints
from .objects import Change, scene_text, session_text

# A full run, an incremental one, and a quick one.
DISCOVER = arguments_of("discover", FILE_NAME)
INCREMENTAL = arguments_of("discover", "--incremental", FILE_NAME)
QUICK = arguments_of("discover", "--quick", FILE_NAME)

# A session over each port.
LOCKED = arguments_of("run", FILE_NAME)
RINGS = arguments_of("run", "--port", "rings", FILE_NAME)
BOTH = (LOCKED, RINGS)

# Faults of files.
NO_FILE = "fault: file\n"
NO_JSON = "fault: json\n"
NO_SCENE = "fault: scene\n"
COMMAND = "fault: discovery command\n"

Contents = Union[str, bytes]


def file_case(name: str, commands: Tuple[Arguments, ...], contents: Contents, expected: Union[str, Expected]) -> Case:
    """The commands print this of a file with these contents."""
    return Case(
        name=name,
        commands=commands,
        expected=prints(expected) if isinstance(expected, str) else expected,
        files=(File(contents if isinstance(contents, bytes) else contents.encode()),),
    )


def discover_case(name: str, contents: Contents, expected: Union[str, Expected]) -> Case:
    """A full run prints this of a file with these contents."""
    return file_case(name, (DISCOVER,), contents, expected)


def run_case(name: str, contents: Contents, expected: Union[str, Expected]) -> Case:
    """A session prints this of a file with these contents, over both ports."""
    return file_case(name, BOTH, contents, expected)


def scene_case(change: Change, expected: str) -> Case:
    """An incremental run of the changed scene prints this."""
    return file_case(f"a scene: {change}", (INCREMENTAL,), scene_text(change), expected)


def session_case(change: Change, expected: str) -> Case:
    """The changed session prints this, over both ports."""
    return run_case(f"a session: {change}", session_text(change), expected)


def locked_case(change: Change, expected: str) -> Case:
    """The changed session prints this with a mutex."""
    return file_case(f"a session: {change}", (LOCKED,), session_text(change), expected)
