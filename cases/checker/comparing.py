"""Compares what the program printed with what it has to print."""
from __future__ import annotations

import re
from typing import Iterator, List, Optional

from .case import Answer, Expected

MOST_SHOWN = 600
ONE_LINE = re.compile(rb"[^\x00-\x1f]*\n")


def differences(expected: Expected, answer: Answer, first: Optional[Answer]) -> List[str]:
    """What is wrong with an answer. The first answer is that of the same case's command before it, if there is one."""
    return [
        *differences_of_status(expected, answer),
        *differences_of_output(expected, answer),
        *differences_of_error(expected, answer),
        *differences_of_sent(expected, answer),
        *differences_of_log(expected, answer),
        *differences_of_two(first, answer),
    ]


def differences_of_status(expected: Expected, answer: Answer) -> Iterator[str]:
    """The status is the one that is expected."""
    if expected.status not in (None, answer.status):
        yield f"status: wanted {expected.status}, got {answer.status}"


def differences_of_output(expected: Expected, answer: Answer) -> Iterator[str]:
    """Standard output has the text, or a whole answer of the form."""
    if expected.out not in (None, answer.out):
        yield from wanted_and_got("standard output", expected.out, answer.out)
    if expected.form is not None and not expected.form(answer.out, answer.status):
        name = getattr(expected.form, "__name__", "another form")
        yield f"standard output: wanted {name}, got {shown(answer.out)} with status {answer.status}"


def differences_of_error(expected: Expected, answer: Answer) -> Iterator[str]:
    """Standard error has the text, or contains it, or ends with it, or is one line that begins with it."""
    if expected.err not in (None, answer.err):
        yield from wanted_and_got("standard error", expected.err, answer.err)
    if expected.err_has is not None and expected.err_has not in answer.err:
        yield f"standard error: wanted a text with {shown(expected.err_has)}, got {shown(answer.err)}"
    if expected.err_ends is not None and not answer.err.endswith(expected.err_ends):
        yield f"standard error: wanted a text that ends with {shown(expected.err_ends)}, got {shown(answer.err)}"
    if expected.err_begins is not None and not is_line(expected.err_begins, answer.err):
        yield f"standard error: wanted one line with {shown(expected.err_begins)} first, got {shown(answer.err)}"


def differences_of_sent(expected: Expected, answer: Answer) -> Iterator[str]:
    """The frames that went to the far end are those that are expected."""
    if expected.sent not in (None, answer.sent):
        yield from wanted_and_got("sent", b"\n".join(expected.sent or ()), b"\n".join(answer.sent))


def differences_of_log(expected: Expected, answer: Answer) -> Iterator[str]:
    """The log is the one that is expected, or has the form, or there is none."""
    if expected.log not in (None, answer.log):
        yield from wanted_and_got("log", expected.log and expected.log.contents, answer.log.contents)
    if expected.log_form is not None and not expected.log_form(answer.log.contents or b""):
        name = getattr(expected.log_form, "__name__", "another form")
        yield f"log: wanted {name}, got {shown_or_nothing(answer.log.contents)}"


def differences_of_two(first: Optional[Answer], answer: Answer) -> Iterator[str]:
    """All commands of a case print the same."""
    if first is not None and (first.out, first.status) != (answer.out, answer.status):
        yield f"the command before it printed {shown(first.out)} with status {first.status}"
        yield f"and this one {shown(answer.out)} with status {answer.status}"


def is_line(front: bytes, text: bytes) -> bool:
    """Whether a text is one line, without control characters, that begins with the front."""
    return text.startswith(front) and ONE_LINE.fullmatch(text) is not None


def wanted_and_got(stream: str, wanted: Optional[bytes], got: Optional[bytes]) -> Iterator[str]:
    """Both texts, one under the other."""
    yield f"{stream}: wanted {shown_or_nothing(wanted)}"
    yield f"{' ' * len(stream)}  got    {shown_or_nothing(got)}"


def shown_or_nothing(text: Optional[bytes]) -> str:
    """A text in quotes, if there is one."""
    return "nothing" if text is None else shown(text)


def shown(text: bytes) -> str:
    """A text in quotes, cut if it is very long."""
    whole = repr(text.decode(errors="backslashreplace"))
    return whole if len(whole) <= MOST_SHOWN else f"{whole[:MOST_SHOWN]}... ({len(text)} bytes)"
