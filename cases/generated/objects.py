"""Scene and session files in which one key is changed, and what is printed if none is."""
from __future__ import annotations

import enum
from dataclasses import dataclass
from typing import List, Sequence, Tuple

# A key, and the text of its value.
Field = Tuple[str, str]


class Edit(enum.Enum):
    """What is changed about a key."""

    KEEPS = "nothing"
    OMITS = "it is missing"
    HAS = "it has this value"
    BEGINS = "it appears twice, and has this value first"
    ENDS = "it appears twice, and has this value last"
    ADDS = "it is one more key, with this value"


@dataclass(frozen=True)
class Change:
    """A key of an object, and what is changed about it."""

    level: str
    key: str
    edit: Edit
    value: str = ""

    def __str__(self) -> str:
        value = self.value if len(self.value) <= 60 else f"{self.value[:60]}.."
        return f"{self.level} {self.key}, {self.edit.value}: {value}".rstrip(": ")


SAME = Change("scene", "", Edit.KEEPS)

# What an incremental run prints of the scene: three unmutes, a mute that is lost and one that is acknowledged, and five
# branches without reply.
SCENE = "1234:00000001 0002 1234:00000005\nframes 10\n"

# What a full run prints: three unmutes, a branch whose reply is lost, another one, a mute, and five branches.
FULL_SCENE = "1234:00000001 0002 1234:00000005\nframes 11\n"

# What is printed of the session: the GET's two parts, the SET's answer without data, and the device.
SESSION = "client 0 request 0: 0 00 0102\nclient 0 request 1: 0 00 -\nclient 0 discovery 0: ok 1234:00000001\n"

# How many calls the session's client makes.
CALLS = 3


def scene_text(change: Change = SAME) -> str:
    """A scene of one device, with each key that there is."""
    parameter = object_text("parameter", [("pid", '"0060"'), ("parts", '["01","02"]')], change)
    device = object_text("device", [
        ("uid", '"1234:00000001"'), ("preamble", "3"), ("params", f"[{parameter}]"), ("control", '"0002"'),
        ("binding", '"1234:00000005"'), ("from", "0"), ("until", "1000"),
    ], change)
    return object_text("scene", [
        ("source", '"7a70:00000100"'), ("devices", f"[{device}]"), ("collisions", '["or"]'), ("losses", "[3]"),
        ("fails", "[900]"), ("known", '["1234:00000001"]'), ("budget", "400"),
    ], change)


def session_text(change: Change = SAME) -> str:
    """A session over that scene, with each key that there is: one client discovers, and makes a GET and a SET.

    A run goes before requests, so the exchanges come in this order, whichever thread comes first.
    """
    client = object_text("client", [("places", "2"), ("calls", calls_text(change))], change)
    return object_text("session", [
        ("scene", scene_text(change)), ("clients", f"[{client}]"), ("ring", "2"), ("search", '"quick"'),
        ("log", "1000"), ("turns", "100000000"),
    ], change)


def calls_text(change: Change) -> str:
    """The client's calls."""
    options = [("pid", '"0060"'), ("sub", "1"), ("param", '"07"')]
    calls = [
        object_text("discovery", [("discover", '"full"')], change),
        object_text("get", [("get", '"1234:00000001"'), *options], change),
        object_text("set", [("set", '"1234:00000001"'), *options], change),
    ]
    return f"[{','.join(calls)}]"


def object_text(level: str, fields: Sequence[Field], change: Change) -> str:
    """An object of these fields, changed if it is of the change's level."""
    if change.level == level:
        fields = changed(fields, change)
    return "{" + ",".join(f'"{key}":{value}' for key, value in fields) + "}"


def changed(fields: Sequence[Field], change: Change) -> List[Field]:
    """The fields with the change."""
    result: List[Field] = []
    for field in fields:
        result += edited(field, change) if field[0] == change.key else [field]
    if change.edit is Edit.ADDS:
        result.append((change.key, change.value))
    return result


def edited(field: Field, change: Change) -> List[Field]:
    """A field with the edit: once or twice or not at all."""
    other = (field[0], change.value)
    edits = {Edit.OMITS: [], Edit.HAS: [other], Edit.BEGINS: [other, field], Edit.ENDS: [field, other]}
    return edits.get(change.edit, [field])
