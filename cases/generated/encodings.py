"""Files that aren't UTF-8, empty ones, and ones of the greatest length."""
from __future__ import annotations

from typing import Iterator

from ..checker.case import Case
from .commands import NO_FILE, NO_JSON, NO_SCENE, discover_case, run_case
from .objects import FULL_SCENE, SESSION, Change, Edit, scene_text, session_text

# Bytes that aren't UTF-8: single ones, bytes after too few others, overlong ones, surrogates, and beyond the greatest.
NO_TEXTS = (
    b"\x80", b"\xbf", b"\xff", b"\xfe", b"\xc3", b"\xe2\x82", b"\xf0\x9f\x98", b"\xc0\x80", b"\xe0\x80\xaf",
    b"\xed\xa0\x80", b"\xf4\x90\x80\x80", b"\xf8\x88\x80\x80\x80",
)

# Where they are, at the tilde, doesn't matter: in an unknown key or its value, between values, before or after all.
TEMPLATES = (
    b'{"source":"7a70:00000100","~":0}',
    b'{"source":"7a70:00000100","x":"~"}',
    b'{"source":"7a70:00000100"~}',
    b'~{"source":"7a70:00000100"}',
    b'{"source":"7a70:00000100"}~',
    b"~",
)

# Bytes that are UTF-8, but that JSON doesn't allow between values: a byte order mark, a no-break space, a vertical tab
# and a null.
NO_BLANKS = (b"\xef\xbb\xbf", b"\xc2\xa0", b"\x0b", b"\x00")

LONGEST = 1_048_576


def cases() -> Iterator[Case]:
    """All such files."""
    yield from no_text()
    yield from no_blanks()
    for text in ("", " ", "\n", "\ufeff"):
        yield discover_case(f"a scene file that is {text!r}", text, NO_JSON)
        yield run_case(f"a session file that is {text!r}", text, NO_JSON)
    yield from longest()
    text = scene_text(Change("scene", "name", Edit.ADDS, f'"{"x" * 1_000_000}"'))
    yield discover_case("an unknown key with a text of a million bytes", text, FULL_SCENE)


def no_text() -> Iterator[Case]:
    """Each of the bytes that are no text in each template."""
    for template in TEMPLATES:
        for text in NO_TEXTS:
            file = template.replace(b"~", text)
            yield discover_case(f"the scene file {file!r}", file, NO_JSON)
            yield run_case(f"the session file {file!r}", file, NO_JSON)


def no_blanks() -> Iterator[Case]:
    """Bytes that are no blanks, and those that are."""
    for text in NO_BLANKS:
        for template in (b'~{"source":"7a70:00000100"}', b'{"source":"7a70:00000100"}~'):
            file = template.replace(b"~", text)
            yield discover_case(f"no blanks in the file {file!r}", file, NO_JSON)
    blanks = b'~{~"source"~:~"7a70:00000100"~}~'.replace(b"~", b" \t\r\n")
    yield discover_case("blanks between all", blanks, "frames 8\n")


def longest() -> Iterator[Case]:
    """A file that is too long is reported before anything that is wrong in it."""
    for length in (LONGEST - 1, LONGEST, LONGEST + 1, 2 * LONGEST + 1):
        is_read = length <= LONGEST
        due_of_scene, due_of_session = (FULL_SCENE, SESSION) if is_read else (NO_FILE, NO_FILE)
        yield discover_case(f"a scene file of {length} bytes", scene_text().ljust(length), due_of_scene)
        yield run_case(f"a session file of {length} bytes", session_text().ljust(length), due_of_session)
    for text, due in (("[", NO_JSON), ("[]", NO_SCENE), ("", NO_JSON)):
        yield discover_case(f"{LONGEST} bytes that begin with {text!r}", text.ljust(LONGEST), due)
        yield discover_case(f"{LONGEST + 1} bytes that begin with {text!r}", text.ljust(LONGEST + 1), NO_FILE)
