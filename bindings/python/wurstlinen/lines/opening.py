"""Lines by their text, as the option `--line` has it."""
from __future__ import annotations

import os
import stat
from typing import List, Optional

from .base import OpenLine

FORMS = "enttec:DEVICE, text:FRAMES[,REPLIES], exec:COMMAND, rig:FILE or ola:UNIVERSE"


def open_line(text: str, seconds: Optional[float] = None) -> OpenLine:
    """The line that a text names.

    - `enttec:/dev/ttyUSB0`: a USB Pro on this device;
    - `text:FRAMES,REPLIES`: a far end behind two files, or behind one for both directions;
    - `exec:COMMAND`: a far end on the standard streams of a command, whose words are split as a shell does;
    - `rig:FILE`: simulated fixtures;
    - `/dev/ttyUSB0`: the same as `enttec:/dev/ttyUSB0`, if it is a device.

    An exchange with a far end fails after so many `seconds`; None is no limit, and other lines have their own.

    A line that can't be opened is `LineFailed`, a text of no such form or a wrong file `ValueError`, and a file that
    can't be read `OSError`.
    """
    kind, _, rest = ("enttec", "", text) if is_device(text) else text.partition(":")
    if not rest:
        raise ValueError(f"'{text}' names no line; a line is {FORMS}")
    # Only the module of this kind is loaded.
    if kind == "enttec":
        from .enttec import EnttecPro
        return EnttecPro(rest)
    if kind == "rig":
        from .keys import SceneFault
        from .rig import Rig
        try:
            return Rig(rest)
        except SceneFault as fault:
            raise SceneFault(f"{rest}: {fault}") from fault
    if kind in ("text", "exec"):
        from .text import TextLine
        if kind == "exec":
            return TextLine.run(_words(rest), seconds)
        frames, _, replies = rest.partition(",")
        return TextLine.open(frames, replies or None, seconds)
    if kind == "ola":
        raise ValueError(f"olad has {text}, and shares it itself; this needs another line")
    raise ValueError(f"'{kind}' is no kind of line; a line is {FORMS}")


def is_device(text: str) -> bool:
    """Whether a text is the name of a device, such as a terminal; perhaps of one that isn't plugged in."""
    try:
        return text.startswith("/dev/tty") or stat.S_ISCHR(os.stat(text).st_mode)
    except (OSError, ValueError):
        return False


def _words(command: str) -> List[str]:
    """The words of a command."""
    import shlex
    try:
        words = shlex.split(command)
    except ValueError as error:
        raise ValueError(f"'{command}' can't be split into words: {error}") from error
    if not words:
        raise ValueError(f"'exec:' without a command names no line; a line is {FORMS}")
    return words
