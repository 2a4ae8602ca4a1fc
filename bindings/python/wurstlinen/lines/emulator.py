"""An emulator of the USB Pro, on a pseudo terminal: an adapter without hardware, with any line behind it.

It behaves as OLA 0.10.9 expects of the adapter, which is all that this project knows about it.
"""
from __future__ import annotations

import contextlib
import io
import os
import select
import threading
import time
import tty
import weakref
from dataclasses import dataclass
from types import TracebackType
from typing import List, Optional, Tuple, Type

from ..line import Line, LineFailed
from .ends import SLOT_SECONDS, seconds_on_wire
from .enttec import FIRST_FIRMWARE_WITHOUT_BRANCH_ENDS
from .messages import Label, Message, MessageReader
from .packets import is_branch_frame, is_broadcast_frame, is_whole_packet

READ_BYTES = 4096
PIECE_SECONDS = 0.0005
SECONDS_TO_END = 5.0
GOOD_STATUS = 0
BREAK_TIME = 9
MARK_TIME = 1
RATE = 40


@dataclass(frozen=True)
class Widget:
    """How an adapter behaves."""

    firmware: Tuple[int, int] = (2, 4)
    serial: int = 0x01020304
    # Whether label 12 follows the reply to a branch; None: as OLA expects for this firmware.
    ends_branches: Optional[bool] = None
    # Whether it also follows good responses, which OLA doesn't expect of any firmware.
    ends_responses: bool = False
    # How many seconds later that label comes.
    end_delay: float = 0.0
    # Whether an exchange takes as long as its bytes take on a line.
    takes_time: bool = False
    # The most bytes that it writes at once; None: all answers to a message at once.
    piece: Optional[int] = None
    # What it sends before each of its messages.
    noise: bytes = b""
    # The status byte of what it received.
    status: int = GOOD_STATUS
    # After this many RDM messages it is silent, or disappears in the middle of its answer.
    hangs_after: Optional[int] = None
    leaves_after: Optional[int] = None
    # Its answers to labels 77 and 78, if it gives any.
    manufacturer: Optional[int] = None
    device: Optional[int] = None

    @property
    def branch_has_end(self) -> bool:
        """Whether label 12 follows the reply to a branch."""
        if self.ends_branches is None:
            return self.firmware < FIRST_FIRMWARE_WITHOUT_BRANCH_ENDS
        return self.ends_branches


class Emulator:
    """An adapter on a pseudo terminal, for the duration of a `with`.

    `line` and `widget` may be replaced while no exchange is made.
    """

    def __init__(self, line: Line, widget: Widget = Widget()) -> None:
        self.line = line
        self.widget = widget
        # How many RDM messages have come.
        self.messages = 0
        self._reader = MessageReader()
        self._files = _Files()
        self.path = os.ttyname(self._files.other.fileno())
        self._is_gone = False
        # The exception of the line that ended the adapter, if one did.
        self.failure: Optional[BaseException] = None
        self._ended = threading.Event()
        # The thread doesn't keep the emulator, which may be left without an end by an exception.
        arguments = self._files, self._ended, weakref.ref(self)
        self._thread = threading.Thread(target=_serve, args=arguments, name="emulator", daemon=True)
        # One that nobody uses any more is closed.
        weakref.finalize(self, self._files.release, self._thread)

    def __enter__(self) -> Emulator:
        self._thread.start()
        return self

    def __exit__(self, kind: Optional[Type[BaseException]], error: Optional[BaseException],
                 trace: Optional[TracebackType]) -> None:
        self._files.wake()
        # A line that hangs mustn't delay the end.
        self._thread.join(SECONDS_TO_END)

    def wait(self) -> None:
        """Waits until the adapter has disappeared, or its line has raised something else than `LineFailed`."""
        self._ended.wait()

    def _serve(self) -> bool:
        """Answers the messages that have come. False: the adapter has disappeared."""
        try:
            for message in self._reader.feed(self._files.read()):
                self._answer(message)
        except BaseException as failure:  # A line may raise anything, and nobody else would report it.
            self.failure = failure
            return False
        return not self._is_gone

    def _answer(self, message: Message) -> None:
        if self._is_gone or self._hangs():
            return
        if message.label in (Label.SEND_RDM, Label.SEND_BRANCH):
            self._exchange(message)
        else:
            self._write([Message(message.label, answer) for answer in self._facts(message.label)])

    def _facts(self, label: int) -> List[bytes]:
        """What it reports about itself, if anything; a plain USB Pro leaves labels 77 and 78 unanswered."""
        widget = self.widget
        if label == Label.SERIAL_NUMBER:
            return [widget.serial.to_bytes(4, "little")]
        if label == Label.PARAMETERS:
            return [bytes([widget.firmware[1], widget.firmware[0], BREAK_TIME, MARK_TIME, RATE])]
        if label == Label.MANUFACTURER and widget.manufacturer is not None:
            return [widget.manufacturer.to_bytes(2, "little") + b"Maker"]
        if label == Label.DEVICE and widget.device is not None:
            return [widget.device.to_bytes(2, "little") + b"Model"]
        return []

    def _hangs(self) -> bool:
        return self.widget.hangs_after is not None and self.messages >= self.widget.hangs_after

    def _exchange(self, message: Message) -> None:
        """Sends the frame to the line, and its reply to the driver; nothing if the line failed."""
        self.messages += 1
        try:
            reply = self.line.exchange(message.data)
        except LineFailed:
            return
        if self.widget.takes_time:
            time.sleep(_seconds_of_exchange(message.data, reply))
        answers = [Message(Label.RECEIVED, bytes([self.widget.status]) + reply)] if reply else []
        if self.widget.leaves_after is not None and self.messages > self.widget.leaves_after:
            self._leave(answers)
        elif message.label == Label.SEND_BRANCH and reply:
            self._write_reply(answers, self.widget.branch_has_end)
        elif self.widget.status == GOOD_STATUS and is_whole_packet(reply):
            self._write_reply(answers, self.widget.ends_responses)
        else:
            self._write([*answers, Message(Label.RDM_END)])

    def _write_reply(self, answers: List[Message], has_end: bool) -> None:
        if not has_end:
            self._write(answers)
        elif self.widget.end_delay:
            self._write(answers)
            time.sleep(self.widget.end_delay)
            self._write([Message(Label.RDM_END)])
        else:
            self._write([*answers, Message(Label.RDM_END)])

    def _write(self, messages: List[Message]) -> None:
        data = b"".join(self.widget.noise + message.encode() for message in messages)
        size = self.widget.piece or len(data)
        for start in range(0, len(data), size or 1):
            self._files.write(data[start:start + size])
            if self.widget.piece:
                time.sleep(PIECE_SECONDS)

    def _leave(self, answers: List[Message]) -> None:
        """Disappears in the middle of its answer."""
        data = b"".join(message.encode() for message in answers) or Message(Label.RDM_END).encode()
        self._files.write(data[:len(data) // 2])
        self._is_gone = True


class _Files:
    """Both ends of a pseudo terminal, and a pipe that ends the waits for it."""

    def __init__(self) -> None:
        # In one step, which no interrupt divides. Each closes itself when nobody has it.
        files = list(map(io.FileIO, (*os.openpty(), *os.pipe()), ("rb", "rb", "rb", "wb")))
        self.own, self.other, self._wake, self._waker = files
        # Until a driver has configured the terminal, it mustn't echo what is written to it.
        tty.setraw(self.other.fileno())
        # A driver that doesn't read mustn't hold up the end.
        os.set_blocking(self.own.fileno(), False)

    def wait(self, event: int) -> bool:
        """Waits for the emulator's end of the terminal. False: the `with` ends."""
        if self._waker.closed:
            return False
        ready = select.poll()
        ready.register(self.own, event)
        ready.register(self._wake, select.POLLIN)
        return self._wake.fileno() not in dict(ready.poll())

    def read(self) -> bytes:
        """What the driver has written."""
        return self.own.read(READ_BYTES) or b""

    def write(self, data: bytes) -> None:
        """Writes to the driver, as long as the `with` doesn't end."""
        while data and self.wait(select.POLLOUT):
            with contextlib.suppress(BlockingIOError):
                data = data[os.write(self.own.fileno(), data):]

    def wake(self) -> None:
        """Ends the waits, now and later."""
        self._waker.close()

    def close(self) -> None:
        """Closes all that is open."""
        for file in (self._waker, self.other, self.own, self._wake):
            file.close()

    def release(self, thread: threading.Thread) -> None:
        """Closes all, or has it closed by the thread that serves it."""
        self.wake()
        if thread.ident is None:
            self.close()


def _serve(files: _Files, ended: threading.Event, emulator: "weakref.ref[Emulator]") -> None:
    """Answers messages until the `with` ends, or the adapter disappears."""
    try:
        while files.wait(select.POLLIN):
            served = emulator()
            if served is None or not served._serve():
                break
            del served
    finally:
        files.close()
        ended.set()


def _seconds_of_exchange(frame: bytes, reply: bytes) -> float:
    """How long a frame and its reply, or the wait for one, are on the wire."""
    has_answer = not reply and (is_branch_frame(frame) or not is_broadcast_frame(frame))
    return seconds_on_wire(frame, has_answer) + len(reply) * SLOT_SECONDS
