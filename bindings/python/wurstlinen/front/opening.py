"""Opening a line for a command: by the server that runs for it, or else the line itself."""
from __future__ import annotations

import contextlib
from typing import TYPE_CHECKING, Callable, Iterator, Optional, Union

from ..line import LineFailed
from ..lines import OpenLine
from ..lines.waiting import when_free
from ..shared import place
from .output import BAD_ARGUMENTS, FAILED, Failure, Output

if TYPE_CHECKING:
    from ..olad.client import OlaClient
    from ..shared.client import SharedClient

# A universe of olad.
OLA = "ola:"


@contextlib.contextmanager
def failures_of_lines() -> Iterator[None]:
    """Raises Failure for what the opening of a line raises."""
    try:
        yield
    except ValueError as fault:
        raise Failure(BAD_ARGUMENTS, str(fault), reason="line") from None
    except LineFailed as fault:
        raise Failure(FAILED, str(fault), reason="line") from None
    except OSError as fault:
        raise Failure(FAILED, f"{fault.filename}: {fault.strerror}", reason="line") from None


def opened(open_line: Callable[[str], OpenLine], text: str, seconds: float, output: Output) -> OpenLine:
    """Opens a line, and waits so long for whoever has it. Raises Failure."""
    with failures_of_lines():
        return when_free(lambda: open_line(text), seconds, output.note)


def served(text: str, source: Optional[int], output: Output) -> Union[SharedClient, OlaClient, None]:
    """A client of olad, if it has the line, or of the server that runs for it, if one does. Raises LineFailed.

    A place that isn't safe is reported, and means that there is none.
    """
    if text.startswith(OLA):
        from ..olad.client import OlaClient
        if source is not None:
            raise LineFailed("olad is the controller of its lines: leave out --source")
        return OlaClient(text)
    try:
        if not place.may_be_served(text):
            return None
        # A command without a server doesn't load it.
        from ..shared.client import client_of
        return client_of(text, source)
    except place.BadPlace as fault:
        output.note(str(fault))
        return None
