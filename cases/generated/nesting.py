"""Lists and objects in one another: 127 are read, and 128 are no JSON."""
from __future__ import annotations

from typing import Iterator, Tuple

from ..checker.case import Case
from .commands import NO_JSON, NO_SCENE, discover_case, run_case
from .objects import FULL_SCENE, SESSION, Change, Edit, scene_text, session_text

# How a list or an object begins, what the innermost one has, and how they end.
Nest = Tuple[str, str, str]

LISTS: Nest = ("[", "", "]")
OBJECTS: Nest = ('{"x":', "0", "}")
BOTH: Nest = ('{"x":[', "", "]}")
OPEN_LISTS: Nest = ("[", "", "")
CLIENTS: Nest = ('{"clients":[', "", "]}")

# How deep an unknown key's value may be. The device is in a list of the scene, and its parameter in a list of the
# device; the scene is in the session, the client in a list of the session, and a call in a list of the client.
SCENES = (
    ("scene", LISTS, 126), ("device", LISTS, 124), ("parameter", LISTS, 122), ("scene", OBJECTS, 126),
    ("scene", BOTH, 63),
)
SESSIONS = (("session", 126), ("scene", 125), ("client", 124), ("get", 122))

# Files that are this deep. One that is a list is no scene. Very deep ones have no ends, or all of them.
FILES = (
    (LISTS, 1, NO_SCENE), (LISTS, 127, NO_SCENE), (LISTS, 128, NO_JSON), (LISTS, 100_000, NO_JSON),
    (OPEN_LISTS, 1, NO_JSON), (OPEN_LISTS, 127, NO_JSON), (OPEN_LISTS, 100_000, NO_JSON),
    (OPEN_LISTS, 1_048_576, NO_JSON), (OBJECTS, 100_000, NO_JSON), (CLIENTS, 50_000, NO_JSON),
)


def cases() -> Iterator[Case]:
    """All nested files."""
    for level, nest, depth in SCENES:
        for more, due in ((0, FULL_SCENE), (1, NO_JSON)):
            text = scene_text(unknown(level, nest, depth + more))
            yield discover_case(f"a key of a {level} with {depth + more} times {nest[0]}", text, due)
    for level, depth in SESSIONS:
        for more, due in ((0, SESSION), (1, NO_JSON)):
            text = session_text(unknown(level, LISTS, depth + more))
            yield run_case(f"a key of a session's {level} with {depth + more} times [", text, due)
    for nest, depth, due in FILES:
        text = nested(nest, depth)
        name = f"{depth} times {nest[0]}, then {nest[2] or 'the end'}"
        yield discover_case(f"a scene file with {name}", text, due)
        yield run_case(f"a session file with {name}", text, due)


def unknown(level: str, nest: Nest, depth: int) -> Change:
    """An unknown key in this object, whose value is this deep."""
    return Change(level, "name", Edit.ADDS, nested(nest, depth))


def nested(nest: Nest, depth: int) -> str:
    """This many of them, one in another."""
    return nest[0] * depth + nest[1] + nest[2] * depth
