"""A stand-in for the proved program: only `discover` and `run`, with `--line FRAMES --replies REPLIES [.. --log LOG]`.

Both search, and the log has the frames with their replies.
"""
from __future__ import annotations

import json
import sys
from pathlib import Path
from typing import BinaryIO

# Without `common`, since the program begins hundreds of times.
sys.path.insert(0, str(Path(__file__).resolve().parents[2]))
from search import discover  # noqa: E402
from wurstlinen.line import Line  # noqa: E402
from wurstlinen.lines import TextLine  # noqa: E402
from wurstlinen.lines.uids import uid_text  # noqa: E402


class Logged:
    """A line whose exchanges are written to a file, each at once."""

    def __init__(self, line: Line, log: BinaryIO) -> None:
        self._line = line
        self._log = log

    def exchange(self, frame: bytes) -> bytes:
        """The reply to a frame."""
        reply = self._line.exchange(frame)
        self._log.write(json.dumps({"frame": frame.hex(), "reply": reply.hex()}).encode() + b"\n")
        return reply


def program_in(folder: Path) -> str:
    """The stand-in as a program of its own, which is compiled once."""
    path = folder / "program"
    path.write_text(f"#!/bin/sh\nunset PYTHONDONTWRITEBYTECODE\nPYTHONPYCACHEPREFIX={folder / 'compiled'} "
                    f"exec {sys.executable} -S {Path(__file__).resolve()} \"$@\"\n")
    path.chmod(0o755)
    return str(path)


def main() -> int:
    """Prints what a search finds on the line."""
    words = sys.argv[1:]
    if words[:1] not in (["discover"], ["run"]) or words[1:2] != ["--line"] or words[3:4] != ["--replies"]:
        return 2
    log = words[words.index("--log") + 1] if "--log" in words else "/dev/null"
    with TextLine.open(words[2], words[4]) as line, open(log, "wb", buffering=0) as file:
        file.write(b'{"entry":"opening"}\n')
        for uid in sorted(discover(Logged(line, file))):
            print(uid_text(uid))
    return 0


if __name__ == "__main__":
    sys.exit(main())
