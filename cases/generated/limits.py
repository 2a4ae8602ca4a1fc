"""Values at the limits of each key, and beyond them."""
from __future__ import annotations

from typing import Iterator

from ..checker.case import EXPLAINED_NAME, RIG_NAME, Case, File, arguments_of, prints
from .arguments import NO_COMMAND
from .commands import NO_JSON, NO_SCENE, discover_case, scene_case, session_case
from .objects import FULL_SCENE, SCENE, SESSION, Change, Edit, scene_text

NO_RUN = "the log has no exchange of a discovery"
# Values of a scene that are out of range: the object, the key and the value.
BEYOND = r"""
scene source ""
scene source "7a70:ffffffff"
scene source "FFFF:FFFFFFFF"
scene source "7a70:0000010"
scene source "7a70:000001000"
scene source "7a70-00000100"
scene source "7a70:0000010g"
scene source "7a70:+0000100"
scene source " 7a7:00000100"
scene source "7a70:0000\u0000100"
scene source "7a70:000000\u00e9"
scene collisions ["OR"]
scene collisions ["or","xor"]
scene collisions [{"bytes":""}]
scene collisions [{"bytes":"f"}]
scene collisions [{"uid":"1234-00000001"}]
scene collisions [{"uid":"1234:00000001","bytes":"ff"}]
scene losses [3,-1]
scene fails [900,18446744073709551616]
scene known ["7a70:ffffffff"]
scene budget 0
scene budget 1000000001
scene budget 18446744073709551615
device uid "1234:ffffffff"
device uid "1234:0000000"
device preamble 8
device preamble 256
device preamble 263
device preamble 4294967299
device control ""
device control "002"
device control "00020"
device control "0x02"
device control "+002"
device binding "ffff:ffffffff"
device binding ""
device from 1000
device from 1000000001
device from 18446744073709551615
device until 0
device until 1000000001
device until 18446744073709551615
parameter pid "60"
parameter pid "00060"
parameter parts []
parameter parts ["0"]
parameter parts ["01","0g"]
"""

# Values of a session that are out of range.
BEYOND_SESSION = r"""
session clients []
session ring 0
session ring 256
session ring 258
session search ""
session search "Quick"
session log 1000001
session log 18446744073709551615
session turns 0
session turns 1000000001
client places 0
client places 256
client places 258
client calls [7]
client calls [{}]
client calls [{"got":"1234:00000001"}]
discovery discover ""
discovery discover "all"
discovery discover "full "
get get "1234-00000001"
get get ""
get pid "006"
get sub 65536
get sub 4294967297
get param "0"
set set "1234:0000000g"
set pid ""
set sub 65537
set param "0g"
scene budget 0
device preamble 8
device until 0
"""

# A call with two of the keys that say what it is.
TWO_KEYS = """
discovery get "1234:00000001"
discovery set null
get set "1234:00000001"
get discover "full"
set get null
set discover 7
"""

# Values of a scene that are right, and what is printed. A device that comes late isn't found; one that is unknown is
# found after five mutes of the known one; a budget of nine frames is one too few.
WITHIN = (
    ('scene source "0000:00000000"', SCENE),
    ('scene source "FFFF:FFFFFFFE"', SCENE),
    ("scene losses [18446744073709551615]", "1234:00000001 0002 1234:00000005\nframes 9\n"),
    ("scene losses [3,3,0,3]", SCENE),
    ("scene fails [18446744073709551615]", SCENE),
    ("scene fails [0]", "fault 4\nframes 1\n"),
    ("scene budget 10", SCENE),
    ("scene budget 9", "fault 3\nframes 9\n"),
    ("scene budget 1000000000", SCENE),
    ("device preamble 0", SCENE),
    ("device preamble 7", SCENE),
    ('device control "00fF"', "1234:00000001 00ff 1234:00000005\nframes 10\n"),
    ("device from 999", "frames 13\n"),
    ("device until 1000000000", SCENE),
    ('device uid "1234:00000002"', "1234:00000002 0002 1234:00000005\nframes 15\n"),
)

# Values of a session that are right. One turn is too few for three calls.
WITHIN_SESSION = (
    ("session ring 1", SESSION),
    ("session ring 255", SESSION),
    ('session search "steady"', SESSION),
    ("session log 0", "fault: log\n"),
    ("session log 1000000", SESSION),
    ("session turns 1", "fault: turns\n"),
    ("session turns 1000000000", SESSION),
    ("client places 1", SESSION),
    ("client places 255", SESSION),
    ("client calls []", ""),
    ('discovery discover "incremental"', SESSION),
    ("get sub 65535", SESSION),
    ('set param ""', SESSION),
)


def cases() -> Iterator[Case]:
    """All files with such values."""
    for row in BEYOND.strip().split("\n"):
        yield scene_case(change(row), NO_SCENE)
    for row in BEYOND_SESSION.strip().split("\n"):
        yield session_case(change(row), NO_SCENE)
    for row in TWO_KEYS.strip().split("\n"):
        yield session_case(change(row, Edit.ADDS), NO_SCENE)
    for row, due in WITHIN:
        yield scene_case(change(row), due)
    for row, due in WITHIN_SESSION:
        yield session_case(change(row), due)
    yield from longest()
    yield from very_long()
    yield from most_present()


def change(row: str, edit: Edit = Edit.HAS) -> Change:
    """The change that a row says."""
    level, key, value = row.split(" ", 2)
    return Change(level, key, edit, value)


def listed(element: str, count: int) -> str:
    """A list with this element so many times."""
    return f"[{','.join([element] * count)}]"


def longest() -> Iterator[Case]:
    """The greatest number of elements, or of bytes of a text; there may not be one more."""
    known, part, client = '"1234:00000001"', '"07"', '{"places":255,"calls":[]}'
    for more in (0, 1):
        due = NO_SCENE if more else SCENE
        yield scene_case(Change("scene", "known", Edit.HAS, listed(known, 1024 + more)), due)
        collision = f'[{{"bytes":"{"ff" * (257 + more)}"}}]'
        yield scene_case(Change("scene", "collisions", Edit.HAS, collision), due)
        yield scene_case(Change("parameter", "parts", Edit.HAS, listed(part, 512 + more)), due)
        yield scene_case(Change("parameter", "parts", Edit.HAS, f'["{"07" * (231 + more)}"]'), due)
        due = NO_SCENE if more else ""
        yield session_case(Change("session", "clients", Edit.HAS, listed(client, 16 + more)), due)
        due = NO_SCENE if more else SESSION
        for call in ("get", "set"):
            yield session_case(Change(call, "param", Edit.HAS, f'"{"07" * (231 + more)}"'), due)


def most_present() -> Iterator[Case]:
    """The greatest number of devices of explain, by arguments, by the scene, and by both; there may not be one more."""
    uids = [f"5000:{number:08x}" for number in range(1025)]
    unjudged = f"{NO_RUN}\n" + "".join(f"{uid} can't be judged: {NO_RUN}\n" for uid in uids[:1024])
    rows = (
        (uids[:1024], [], unjudged),
        (uids[:1025], [], NO_COMMAND),
        ([], uids[:1024], unjudged),
        (uids[:1024], uids[:1024], unjudged),
        (uids[1024:], uids[:1024], NO_SCENE),
        (uids[1:], uids[:1], NO_SCENE),
    )
    for given, staying, due in rows:
        devices = ",".join(f'{{"uid":"{uid}"}}' for uid in staying)
        rig = f'{{"source":"7a70:00000100","devices":[{devices}]}}'
        words = [word for uid in given for word in ("--present", uid)]
        yield Case(
            name=f"{len(given)} devices by arguments, and {len(staying)} by a scene: {due.splitlines()[0]}",
            commands=(arguments_of("explain", EXPLAINED_NAME, "--rig", RIG_NAME, *words),),
            expected=prints(due),
            files=(File(b"", EXPLAINED_NAME), File(rig.encode(), RIG_NAME)),
        )


def very_long() -> Iterator[Case]:
    """Lists that may be of any length, two devices with one UID, and numbers of many digits."""
    device = '{"uid":"1234:00000001"}'
    lists = (
        ("losses", "3", 100_000, FULL_SCENE),
        ("collisions", '"or"', 10_000, FULL_SCENE),
        ("devices", device, 2, NO_SCENE),
        ("devices", device, 1025, NO_SCENE),
    )
    for key, element, count, due in lists:
        text = scene_text(Change("scene", key, Edit.HAS, listed(element, count)))
        yield discover_case(f"a scene with {count} {key}", text, due)
    # A double takes numbers of 308 digits, and any number near 0.
    numbers = (
        ("9" * 20, FULL_SCENE),
        ("9" * 300, FULL_SCENE),
        ("9" * 400, NO_JSON),
        ("9" * 100_000, NO_JSON),
        (f"0.{'0' * 100_000}1", FULL_SCENE),
    )
    for number, due in numbers:
        text = scene_text(Change("scene", "name", Edit.ADDS, number))
        yield discover_case(f"an unknown key with a number of {len(number)} characters", text, due)
