"""What the commands print: lines for people, or JSON."""
from __future__ import annotations

import contextlib
import json
import sys
from threading import RLock
from typing import Any, Iterable, Iterator, Optional, Sequence, TextIO

from ..parameters import Parameter, Reading

DONE = 0
FAILED = 1
BAD_ARGUMENTS = 2
REFUSED = 3
INTERRUPTED = 130
LINE_VARIABLE = "WURSTLINEN_LINE"
LINE_FAILED = "failed_to_send"


class Failure(Exception):
    """Why a command failed, and the status that it ends with. The keys are for JSON."""

    def __init__(self, status: int, text: str, **keys: Any) -> None:
        super().__init__(text)
        self.status = status
        self.keys = keys

    @property
    def is_of_line(self) -> bool:
        """Whether the line failed, so that nobody can be asked any more."""
        return self.keys.get("reason") == LINE_FAILED


class Output:
    """Results go to standard output; all else goes to standard error, and with JSON to standard output too."""

    def __init__(self, is_json: bool, out: Optional[TextIO] = None, errors: Optional[TextIO] = None) -> None:
        self.is_json = is_json
        self._out = sys.stdout if out is None else out
        self._errors = sys.stderr if errors is None else errors
        self._progress = ""
        self._lock = RLock()

    @property
    def is_seen(self) -> bool:
        """Whether a person sees remarks as they come."""
        return not self.is_json and self._errors.isatty()

    def progress(self, text: str) -> None:
        """How far a command is: on a terminal, until something else is printed."""
        if not self.is_seen:
            return
        # The work goes on, even if nobody can see it.
        with self._lock, contextlib.suppress(OSError):
            shown, self._progress = self._progress, text
            print(f"\r{text.ljust(len(shown))}", end="", file=self._errors, flush=True)

    def end_progress(self) -> None:
        """Deletes that line."""
        with self._lock, contextlib.suppress(OSError):
            if self._progress:
                self.progress("")
                print("\r", end="", file=self._errors, flush=True)

    def result(self, lines: Iterable[str], **keys: Any) -> None:
        """A result: lines for people, or keys for JSON."""
        self.end_progress()
        for line in [json.dumps(keys, default=float)] if self.is_json else lines:
            print(line, file=self._out, flush=True)

    def reading(self, uid: str, parameter: Parameter, reading: Reading) -> None:
        """What a device returned."""
        keys = reading_keys(uid, parameter, reading)
        self.result(reading.lines, **keys)
        if reading.misfit:
            self.note(f"{uid}: {reading.misfit}")

    def message(self, uid: str, parameter: Parameter, reading: Reading) -> None:
        """What a device returned for another parameter than it was asked for."""
        self.result([f"{parameter.name}: {'; '.join(reading.lines) or 'nothing'}"],
                    **reading_keys(uid, parameter, reading))

    def queued(self, uid: str, parameter: Parameter, reading: Reading, nack: Optional[str]) -> None:
        """A message that a device had queued."""
        if self.is_json:
            keys = {"nack": nack} if nack else reading_keys(uid, parameter, reading)
            self.result([], queued={"uid": uid, "parameter": parameter.name, **keys})
            return
        values = f"refused, {nack}" if nack else "; ".join(reading.lines) or "done"
        self.note(f"{uid} had queued {parameter.name}: {values}")

    def note(self, text: str) -> None:
        """A remark for people."""
        self.end_progress()
        if not self.is_json:
            self._remark(f"wurstlinen: {text}\n")

    def _remark(self, text: str) -> None:
        """Standard error is only for people, so results don't depend on it."""
        with contextlib.suppress(OSError):
            print(text, end="", file=self._errors, flush=True)

    def remark(self, line: str, is_result: bool = False) -> None:
        """A line of another program's, from another thread."""
        with self._lock:
            self.end_progress()
            if is_result:
                print(line, end="", file=self._out, flush=True)
            else:
                self._remark(line)

    def failure(self, failure: Failure) -> None:
        """Why something failed."""
        if self.is_json:
            self.result([], error={"text": str(failure), **failure.keys})
        else:
            self.note(str(failure))

    def frame(self, line: str) -> None:
        """A frame with its reply, for those who want to see them."""
        self.end_progress()
        self._remark(f"{line}\n")


def aligned(rows: Sequence[Sequence[str]]) -> Iterator[str]:
    """Rows as lines whose columns are aligned."""
    widths = [max(map(len, column)) for column in zip(*rows)]
    for row in rows:
        yield "  ".join(cell.ljust(width) for cell, width in zip(row, widths)).rstrip()


def reading_keys(uid: str, parameter: Parameter, reading: Reading) -> dict[str, Any]:
    """What a device returned, for JSON."""
    keys: dict[str, Any] = {"uid": uid, "parameter": parameter.name, "pid": f"0x{parameter.number:04x}"}
    if reading.values is None:
        return {**keys, "raw": f"0x{reading.data.hex()}", "misfit": reading.misfit}
    return {**keys, "values": reading.values}
