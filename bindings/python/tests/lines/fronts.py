"""What the tests of the front share: a command in this process, and a rig that several commands have as their line."""
from __future__ import annotations

import contextlib
import io
import json
from pathlib import Path
from typing import Any, Dict, List, Optional, Tuple
from unittest import mock

from common import ROOT, TestCase, folder
from wurstlinen.front import main, work
from wurstlinen.lines import Rig
from wurstlinen.lines.numbers import ResponseType
from wurstlinen.lines.packets import decode_packet
from wurstlinen.lines.uids import uid_text

FIVE = ROOT / "bindings/examples/five_fixtures.json"
LEFT = "1234:00000001"
SLOW = "9abc:00000002"


def called(*arguments: str, text: str = "") -> Tuple[int, str, str]:
    """The status of a command, its standard output, and its standard error."""
    out, errors = io.StringIO(), io.StringIO()
    stdin = io.TextIOWrapper(io.BytesIO(text.encode()))
    with contextlib.redirect_stdout(out), contextlib.redirect_stderr(errors), mock.patch("sys.stdin", stdin):
        try:
            status = main(arguments)
        except SystemExit as end:
            status = int(end.code or 0)
    return status, out.getvalue(), errors.getvalue()


class OneRig(TestCase):
    """Tests whose commands all have one rig as their line, so that it remembers what was set."""

    def setUp(self) -> None:
        self.use(FIVE)

    def use(self, file: Path) -> None:
        """The rig of a file becomes the line."""
        self.frames: List[bytes] = []
        # What one device answers for some parameters, in the place of the rig; None is silence.
        self.answers: Dict[int, Optional[Tuple[ResponseType, bytes]]] = {}
        self.rig = Rig(file)
        test = self

        class Recorded:
            source = self.rig.source

            def exchange(self, frame: bytes) -> bytes:
                test.frames.append(frame)
                return test.answer(frame)

            def __enter__(self) -> Any:
                return self

            def __exit__(self, *why: Any) -> None:
                pass
        patch = mock.patch.object(work, "open_line", lambda text: Recorded())
        patch.start()
        self.addCleanup(patch.stop)

    def answer(self, frame: bytes) -> bytes:
        """What comes back after a frame."""
        command = decode_packet(frame)
        if command is None or uid_text(command.destination) != LEFT or command.pid not in self.answers:
            return self.rig.exchange(frame)
        answer = self.answers[command.pid]
        return b"" if answer is None else command.answer(command.destination, *answer).encode()

    def scene(self, *devices: Dict[str, Any], **keys: Any) -> None:
        """The same for these devices."""
        with folder() as place:
            file = place / "rig.json"
            file.write_text(json.dumps({"source": "7ff0:00000001", "devices": list(devices), **keys}))
            self.use(file)

    def run_command(self, *arguments: str, text: str = "") -> Tuple[int, str, str]:
        """A command on that rig."""
        return called(*arguments, "--line", "rig:it", text=text)

    def sets(self) -> int:
        """How many SETs were sent."""
        return sum(frame[20] == 0x30 for frame in self.frames)
