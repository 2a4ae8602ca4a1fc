"""What standard error says of keys that no object has. A remark is one line, whatever the key is."""
from __future__ import annotations

from typing import Iterator

from ..checker.case import Case, Expected
from .commands import LOCKED, discover_case, file_case
from .objects import FULL_SCENE, SESSION, Change, Edit, scene_text, session_text

# Keys that no object has, as they are written in a file, and as they are shown.
KEYS = {
    "name": "name", "Source": "Source", "": '""', "source ": '"source "', "a.b": '"a.b"',
    "\\n\\r\\t": '"\\n\\r\\t"', '\\"source\\"': '"\\"source\\""', "\u00e9": '"\u00e9"',
}
# The objects of a session, each with its path.
OBJECTS = {
    "session": "", "scene": "scene.", "device": "scene.devices[0].", "parameter": "scene.devices[0].params[0].",
    "client": "clients[0].", "discovery": "clients[0].calls[0].", "get": "clients[0].calls[1].",
    "set": "clients[0].calls[2].",
}
# A letter, how often a key has it, and how many bytes the key has.
LONG_KEYS = (("z", 41, 41), ("z", 100_000, 100_000), ("\u00e9", 21, 42))

WITH_COLLISIONS = '{"source":"7a70:00000100","collisions":[{"uid":"1234:00000001"},{"bytes":"ff"},"or"]}'


def cases() -> Iterator[Case]:
    """All files with and without unknown keys."""
    for level, path in OBJECTS.items():
        for key, shown in KEYS.items():
            change = Change(level, key, Edit.ADDS, "[{}]")
            expected = remark(SESSION, f"{path}{shown}: this key isn't known")
            yield file_case(f"a session: {change}", (LOCKED,), session_text(change), expected)
    for letter, times, length in LONG_KEYS:
        text = f'{{"source":"7a70:00000100","{letter * times}":0}}'
        expected = remark("frames 8\n", f"the file: a key of {length} bytes isn't known")
        yield discover_case(f"a key of {length} bytes", text, expected)
    yield from without_remark()


def without_remark() -> Iterator[Case]:
    """A scene and a session with each key that there is, and all kinds of collisions."""
    yield discover_case("a scene with each key", scene_text(), without_error(FULL_SCENE))
    yield file_case("a session with each key", (LOCKED,), session_text(), without_error(SESSION))
    yield discover_case("a scene with each kind of collision", WITH_COLLISIONS, without_error("frames 8\n"))


def remark(out: str, front: str) -> Expected:
    """This is printed, and a remark of one line that begins like this."""
    return Expected(out=out.encode(), err_begins=f"wurstlinen: {front}".encode())


def without_error(out: str) -> Expected:
    """This is printed, and nothing on standard error."""
    return Expected(out=out.encode(), err=b"")
