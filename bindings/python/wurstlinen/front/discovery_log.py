"""The log of a discovery, as the proved program's `discover --log` writes it, and what the program says about it."""
from __future__ import annotations

import contextlib
import json
from typing import Callable, Dict, Iterator, Optional, Sequence, Tuple

from .. import DEFAULT_BUDGET, Uid
from .._times import now
from ..lines.numbers import Pid
from ..lines.packets import decode_packet
from .output import FAILED, Failure

# What takes a line of a log, with its end.
Sink = Callable[[str], None]
OPERATIONS = {Pid.DISC_UNIQUE_BRANCH: "branch", Pid.DISC_MUTE: "mute", Pid.DISC_UN_MUTE: "unmute"}


class DiscoveryLog:
    """The log of one full discovery by the quick search."""

    def __init__(self, source: Uid, sink: Sink) -> None:
        self._sink = sink
        self._number = 0
        self._write(entry="opening", source=str(source), budget=DEFAULT_BUDGET, search="quick", discover="full",
                    known=[])

    def add(self, frame: bytes, reply: Optional[bytes], microseconds: Optional[int] = None) -> None:
        """An exchange, whose reply came at this time, or now. None is a line that failed."""
        command = decode_packet(frame)
        assert command is not None
        came: Dict[str, object] = {"failed": True} if reply is None else {"reply": reply.hex()}
        self._write(number=self._number, operation=OPERATIONS[Pid(command.pid)], frame=frame.hex(), **came,
                    microseconds=microseconds or now())
        self._number += 1

    def _write(self, **keys: object) -> None:
        self._sink(json.dumps(keys, separators=(",", ":")) + "\n")


@contextlib.contextmanager
def sink_of(name: Optional[str]) -> Iterator[Optional[Sink]]:
    """What writes lines to a file for the duration of a `with`; None without a name. Raises Failure.

    Each line is written at once, so that there is a log of a discovery that was interrupted.
    """
    if name is None:
        yield None
        return
    try:
        file = open(name, "wb", buffering=0)
    except OSError as fault:
        raise Failure(FAILED, f"{name}: {fault.strerror}", reason="file") from None
    with file:
        def write(line: str) -> None:
            """Writes a line."""
            data = line.encode()
            try:
                while data:
                    data = data[file.write(data) or 0:]
            except OSError as fault:
                raise Failure(FAILED, f"{name}: {fault.strerror}", reason="file") from None
        yield write


def explained(program: str, lines: Sequence[str], uids: Sequence[Uid]) -> Dict[Uid, str]:
    """What the proved program says of devices that were on the line, by a discovery's log. Raises OSError."""
    printed = explanation(program, lines, uids)[1].decode(errors="replace").splitlines()
    said = {uid: text for uid, _, text in (line.partition(" ") for line in printed)}
    return {uid: said[str(uid)] for uid in uids if said.get(str(uid))}


def explanation(program: str, lines: Sequence[str], uids: Sequence[Uid], *options: str) -> Tuple[int, bytes]:
    """The proved program's status, and all that it prints about that. Raises OSError."""
    import subprocess
    import tempfile
    with tempfile.NamedTemporaryFile("w", prefix="wurstlinen.", suffix=".log") as log:
        log.writelines(lines)
        log.flush()
        words = [word for uid in uids for word in ("--present", str(uid))]
        done = subprocess.run(["wurstlinen", "explain", log.name, *options, *words], executable=program, check=False,
                              stdout=subprocess.PIPE, stderr=subprocess.DEVNULL)
    return done.returncode, done.stdout
