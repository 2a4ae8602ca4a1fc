"""Files in which bytes are cut off, replaced, flipped, left out or added."""
from __future__ import annotations

from typing import Iterator

from ..checker.case import Case, Expected
from ..checker.forms import fault_or_discovery, fault_or_three_outcomes
from .commands import BOTH, DISCOVER, INCREMENTAL, LOCKED, NO_JSON, QUICK
from .commands import discover_case, file_case, run_case
from .numbers import Random
from .objects import Change, Edit, scene_text, session_text

SCENE = scene_text().encode()
SESSION = session_text().encode()

# A session with few turns of its own is answered by whichever thread comes first, so this one has the default.
SESSION_OF_ANY_TURNS = session_text(Change("session", "turns", Edit.OMITS)).encode()

# Bytes that JSON never has, not even in a text: a control character, and two that aren't UTF-8 alone.
NO_JSON_BYTES = (0x00, 0x80, 0xFF)

# Bytes that JSON is made of, and others.
BYTES = b'{}[]",:0123456789eE+-.\\ truefalsn\x00\x1f\x80\xff'

RUNS = {"full": DISCOVER, "incremental": INCREMENTAL, "quick": QUICK}

ANY_DISCOVERY = Expected(status=None, form=fault_or_discovery)
ANY_SESSION = Expected(status=None, form=fault_or_three_outcomes)


def cases() -> Iterator[Case]:
    """All damaged files."""
    yield from cut_off()
    yield from replaced()
    yield from flipped()
    for seed in range(600):
        yield from any_discoveries(f"changed bytes of a scene, seed {seed}", spoilt(SCENE, Random(seed)))
    for seed in range(300):
        name = f"changed bytes of a session, seed {seed}"
        yield any_session(name, spoilt(SESSION_OF_ANY_TURNS, Random(seed)))
    for seed in range(60):
        yield any_session(f"other digits of a session, seed {seed}", with_other_digits(Random(seed)))
    for seed in range(300):
        file = random_bytes(Random(seed))
        yield from any_discoveries(f"a random file, seed {seed}", file)
        yield any_session(f"a random file as a session, seed {seed}", file)


def cut_off() -> Iterator[Case]:
    """A prefix of an object is no JSON."""
    for length in range(len(SCENE)):
        yield discover_case(f"the first {length} bytes of a scene", SCENE[:length], NO_JSON)
    for length in range(len(SESSION)):
        yield run_case(f"the first {length} bytes of a session", SESSION[:length], NO_JSON)


def replaced() -> Iterator[Case]:
    """A byte that JSON never has, in place of each byte."""
    for byte in NO_JSON_BYTES:
        for at in range(len(SCENE)):
            yield discover_case(f"byte {at} of a scene is {byte:02x}", with_byte(SCENE, at, byte), NO_JSON)
        for at in range(len(SESSION)):
            yield run_case(f"byte {at} of a session is {byte:02x}", with_byte(SESSION, at, byte), NO_JSON)


def flipped() -> Iterator[Case]:
    """Each bit of a scene, and one bit of each byte of a session: bit 0 of the first, bit 1 of the second, ..."""
    for at, byte in enumerate(SCENE):
        for bit in range(8):
            file = with_byte(SCENE, at, byte ^ 1 << bit)
            yield file_case(f"bit {bit} of byte {at} of a scene is flipped", (QUICK,), file, ANY_DISCOVERY)
    for at, byte in enumerate(SESSION_OF_ANY_TURNS):
        file = with_byte(SESSION_OF_ANY_TURNS, at, byte ^ 1 << at % 8)
        yield file_case(f"a bit of byte {at} of a session is flipped", (LOCKED,), file, ANY_SESSION)


def any_discoveries(name: str, file: bytes) -> Iterator[Case]:
    """Each kind of run answers the file by a fault, or by a whole answer."""
    for run, arguments in RUNS.items():
        yield file_case(f"{name}, {run} run", (arguments,), file, ANY_DISCOVERY)


def any_session(name: str, file: bytes) -> Case:
    """Both ports answer the file by the same fault, or by the same whole answer."""
    return file_case(name, BOTH, file, ANY_SESSION)


def with_byte(file: bytes, at: int, byte: int) -> bytes:
    """The file with another byte at this place."""
    return file[:at] + bytes([byte]) + file[at + 1 :]


def spoilt(file: bytes, random: Random) -> bytes:
    """The file with one to four changes."""
    spoilt_file = bytearray(file)
    for _ in range(random.below(4) + 1):
        at = random.below(len(spoilt_file))
        byte = BYTES[random.below(len(BYTES))]
        strike(spoilt_file, at, byte, random.below(9))
    return bytes(spoilt_file)


def strike(file: bytearray, at: int, byte: int, kind: int) -> None:
    """Flips bits of a byte, replaces it, leaves it out, adds one before it, or ends the file there."""
    if at >= len(file):
        return
    if kind < 2:
        file[at] ^= byte & 0x1F
    elif kind < 4:
        file[at] = byte
    elif kind < 6:
        del file[at]
    elif kind < 8:
        file.insert(at, byte)
    else:
        del file[at:]


def with_other_digits(random: Random) -> bytes:
    """The session with other digits in places: it is JSON, and in most cases a session."""
    file = bytearray(SESSION_OF_ANY_TURNS)
    for at, byte in enumerate(file):
        if byte in b"0123456789" and random.below(20) == 0:
            file[at] = b"123456789"[random.below(9)]
    return bytes(file)


def random_bytes(random: Random) -> bytes:
    """Bytes without any order."""
    return bytes(BYTES[random.below(len(BYTES))] for _ in range(random.below(60)))
