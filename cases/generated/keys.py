"""Keys that are missing, that appear twice, that have a value of another kind, and that no object has.

What is printed then is worked out from docs/FORMATS.md.
"""
from __future__ import annotations

import itertools
from typing import Iterator, Tuple

from ..checker.case import Case
from .commands import COMMAND, NO_JSON, NO_SCENE
from .commands import discover_case, locked_case, run_case, scene_case, session_case
from .objects import SAME, SCENE, SESSION, Change, Edit

# A key, with its object and the kind of its value.
Key = Tuple[str, str, str]


def keys_of(rows: str) -> Tuple[Key, ...]:
    """The keys of rows of text: each row has an object, and its keys with the kinds of their values."""
    split = (row.split() for row in rows.strip().splitlines())
    return tuple((level, *key.split(":")) for level, *keys in split for key in keys)


OF_SCENE = keys_of("""
    scene source:text devices:list collisions:list losses:list fails:list known:list budget:number
    device uid:text preamble:number params:list control:text binding:text from:number until:number
    parameter pid:text parts:list
""")
# The other keys of a session.
OF_SESSION = keys_of("""
    session scene:object clients:list ring:number search:text log:number turns:number
    client places:number calls:list
    discovery discover:text
    get get:text pid:text sub:number param:text
    set set:text pid:text sub:number param:text
""")
# The lists, each with the kind of its elements.
LISTS = keys_of("""
    scene devices:object collisions:text losses:number fails:number known:text
    device params:object
    parameter parts:text
    session clients:object
    client calls:object
""")

# Keys without which a file is no scene, or no session.
NEEDED = {
    "scene source", "device uid", "parameter pid", "parameter parts", "session scene", "session clients",
    "client places", "client calls", "discovery discover", "get get", "get pid", "set set", "set pid",
}
# What is printed of a scene without another key, unless it is the same as with it. The known device is muted first,
# five times if it isn't there. Without losses the first mute is acknowledged; without known devices a branch's reply is
# lost, and another one finds the device.
SCENE_WITHOUT = {
    "scene devices": "frames 13\n",
    "scene losses": "1234:00000001 0002 1234:00000005\nframes 9\n",
    "scene known": "1234:00000001 0002 1234:00000005\nframes 11\n",
    "device control": "1234:00000001 0000 1234:00000005\nframes 10\n",
    "device binding": "1234:00000001 0002\nframes 10\n",
}
# The same of a session. Without a device both requests are Timeout, and a device without parameters refuses both.
SESSION_WITHOUT = {
    "scene devices": "client 0 request 0: 3\nclient 0 request 1: 3\nclient 0 discovery 0: ok\n",
    "device params": (
        "client 0 request 0: 0 02 0000\nclient 0 request 1: 0 02 0000\nclient 0 discovery 0: ok 1234:00000001\n"
    ),
}
# Both kinds of files: how one is made, its own keys, and what is printed of it as it is.
FILES = ((scene_case, OF_SCENE, SCENE), (session_case, OF_SESSION, SESSION))

# Values, by the kind of key for which they are right. None of the texts and objects is right for any key.
VALUES = {
    "none": ("null", "true", "false", "-1", "-0", "5.0", "0.5", "1e2", "1e308", "18446744073709551616",
             "-9223372036854775809", '"x"', '"7"', "[[]]", "{}"),
    "number": ("7",),
    "list": ("[]",),
}
# Values that JSON doesn't have, the numbers that are too large for it among them.
NO_VALUES = (
    "", "1e400", "-1e400", "1e99999999999999999999", "01", "+1", ".5", "1.", "1e", "0x10", "NaN", "Infinity", "nul",
    "True", "'x'", '"x', '"\\x"', '"\\ud800"', '"\n"', "[1,]", '{"x":1,}', "1 2",
)

# Values that are right for no key.
WRONG = ("null", "-1", "[[{}]]")

# Keys that no object has, as they are written in a file, and values for them.
UNKNOWN = ("", "name", "Source", "source ", "\\u0000", '\\"source\\"', "\U0010ffff", "calls[0]")
UNKNOWN_VALUES = ("null", "18446744073709551616", '""', '{"":[{"uid":-0}]}')

# Keys that mean something in other objects only, by what is printed then. A call with the key `discovery` is no call.
ELSEWHERE = {
    SESSION: ("session discovery", "session source", "client discovery", "client ring", "scene discovery",
              "scene clients", "device discovery", "discovery pid", "discovery sub", "discovery param"),
    COMMAND: ("discovery discovery", "get discovery", "set discovery"),
}


def cases() -> Iterator[Case]:
    """All files with such keys."""
    yield scene_case(SAME, SCENE)
    yield session_case(SAME, SESSION)
    yield from missing()
    yield from repeated()
    yield from of_another_kind()
    yield from elements_of_another_kind()
    yield from no_json()
    yield from files_of_another_kind()
    yield from unknown()
    yield from of_other_objects()


def missing() -> Iterator[Case]:
    """Each key is missing in turn."""
    for case_of, keys, same, without in ((scene_case, OF_SCENE, SCENE, SCENE_WITHOUT),
                                         (session_case, OF_SCENE + OF_SESSION, SESSION, SESSION_WITHOUT)):
        for level, key, _ in keys:
            name = f"{level} {key}"
            yield case_of(Change(level, key, Edit.OMITS), NO_SCENE if name in NEEDED else without.get(name, same))


def repeated() -> Iterator[Case]:
    """Each key appears twice: the last one counts."""
    for value, (case_of, keys, same) in itertools.product(WRONG, FILES):
        for level, key, _ in keys:
            yield case_of(Change(level, key, Edit.BEGINS, value), same)
            yield case_of(Change(level, key, Edit.ENDS, value), NO_SCENE)


def of_another_kind() -> Iterator[Case]:
    """Each key has each value that isn't of its kind."""
    for case_of, keys, _ in FILES:
        yield from (case_of(change, NO_SCENE) for change in changes(keys))


def changes(keys: Tuple[Key, ...]) -> Iterator[Change]:
    """Each key with each value that isn't of its kind."""
    for level, key, kind in keys:
        for right, values in VALUES.items():
            yield from (Change(level, key, Edit.HAS, value) for value in values if right != kind)


def elements_of_another_kind() -> Iterator[Case]:
    """Each list has one element, which isn't of its kind."""
    for change in changes(LISTS):
        yield session_case(Change(change.level, change.key, Edit.HAS, f"[{change.value}]"), NO_SCENE)


def no_json() -> Iterator[Case]:
    """Each key has each value that JSON doesn't have."""
    for value, (case_of, keys, _) in itertools.product(NO_VALUES, FILES):
        for level, key, _ in keys:
            yield case_of(Change(level, key, Edit.HAS, value), NO_JSON)


def files_of_another_kind() -> Iterator[Case]:
    """A file that is one value: none is an object with the keys of a scene or of a session."""
    for values, due in (*((values, NO_SCENE) for values in VALUES.values()), (NO_VALUES, NO_JSON)):
        for value in values:
            yield discover_case(f"a scene file that is {value!r}", value, due)
            yield run_case(f"a session file that is {value!r}", value, due)


def unknown() -> Iterator[Case]:
    """A key that no object has is left out, whatever its value is."""
    for key in UNKNOWN:
        for value in UNKNOWN_VALUES:
            for level in ("scene", "device", "parameter"):
                yield scene_case(Change(level, key, Edit.ADDS, value), SCENE)
            for level in ("scene", "device", "parameter", "session", "client", "discovery", "get", "set"):
                yield locked_case(Change(level, key, Edit.ADDS, value), SESSION)


def of_other_objects() -> Iterator[Case]:
    """A key that means something in other objects only, and keys that are written with escapes."""
    for due, keys in ELSEWHERE.items():
        for key, value in itertools.product(keys, ("null", "[{}]")):
            yield session_case(Change(*key.split(), Edit.ADDS, value), due)
    escaped = (
        ('{"\\u0073ource":"7a70:00000100"}', "frames 8\n"),
        ('{"source":"\\u0037a70:00000100"}', "frames 8\n"),
        ('{"source":null,"\\u0073ource":"7a70:00000100"}', "frames 8\n"),
        ('{"source":"7a70:00000100","\\u0073ource":null}', NO_SCENE),
    )
    for text, due in escaped:
        yield discover_case(f"the file {text}", text, due)
    command = '{"clients":[{"calls":[{"\\u0064iscovery":0}]}]}'
    yield run_case(f"the file {command}", command, COMMAND)
