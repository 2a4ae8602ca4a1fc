"""Lines as text (docs/FORMATS.md, "A line as text"): both the controller's end and the far end."""
from __future__ import annotations

import contextlib
import errno
import io
import os
import shlex
import stat
import subprocess
import sys
import time
import tty
from typing import BinaryIO, List, Optional, Sequence, Tuple, cast

from .._turns import Turns
from ..line import MOST_REPLY_BYTES, Line, LineFailed
from .alarm import Alarm, Ended
from .base import OpenLine
from .packets import decode_branch_reply, decode_packet, is_answer, is_branch_frame, is_broadcast_frame
from .streams import LineReader, TooLate, has_unread, wait_to_write

LEAST_FRAME_BYTES = 26
MOST_FRAME_BYTES = 257
FAILED = b"failed"
HEX_DIGITS = frozenset(b"0123456789abcdefABCDEF")
SECONDS_TO_END = 2.0
# How long a program has to end if an exchange is ended too.
SOON_SECONDS = 0.2
# How often a FIFO without a reader is tried again.
AGAIN_SECONDS = 0.01
# How long a reply is awaited behind one that belongs to an earlier frame.
LATE_SECONDS = 0.1


class TextLine(OpenLine):
    """A line whose far end is another program, connected by text.

    Frames are written to one stream, and replies are read from the other; both are binary. If `seconds` is given, an
    exchange that takes longer fails. Calls may be made from any thread: each waits for the one before it, except that
    `close` ends an exchange of another thread, which then fails.

    A line of text doesn't say which frame it answers, so it is known by its order alone. As long as the far end owes
    the line for an earlier frame, exchanges send nothing and fail.
    """

    def __init__(self, frames: BinaryIO, replies: BinaryIO, seconds: Optional[float] = None) -> None:
        self._frames = frames
        self._replies = replies
        self._alarm = Alarm()
        self._reader = LineReader(replies, self._alarm)
        self._seconds = seconds
        self._turns = Turns()
        # What the stream took of the last frame, and how many lines had been read before. The frame's own is owed until
        # that number changes.
        self._written: List[int] = []
        self._read_before = 0
        self._program: Optional[subprocess.Popen[bytes]] = None
        self._seconds_to_end = SECONDS_TO_END

    @classmethod
    def open(cls, frames: str, replies: Optional[str] = None, seconds: Optional[float] = None) -> TextLine:
        """A line over two files, FIFOs or terminal devices, which the far end may open in any order.

        Without `replies` both directions are the same file. Nothing is created or truncated.
        """
        try:
            if replies is None:
                reader = _opened(frames, os.O_RDWR)
                writer = io.FileIO(os.dup(reader.fileno()), "wb")
            else:
                writer, reader = _opened_both(frames, replies)
        except OSError as error:
            raise LineFailed(f"{error.filename} can't be opened: {error.strerror}") from error
        return cls(io.BufferedWriter(writer), cast(BinaryIO, reader), seconds)

    @classmethod
    def run(cls, command: Sequence[str], seconds: Optional[float] = None) -> TextLine:
        """A line over the standard streams of a command, which is started here and ended by `close`."""
        if not command:
            raise ValueError("a command has at least one word")
        program = None
        try:
            program = subprocess.Popen(command, bufsize=0, stdin=subprocess.PIPE, stdout=subprocess.PIPE)
            return cls._with(program, seconds)
        except BaseException as error:
            if program is not None:
                _end(program, 0.0)
            elif isinstance(error, OSError):
                raise LineFailed(f"{shlex.join(command)} can't be started: {error.strerror}") from error
            raise

    @classmethod
    def _with(cls, program: subprocess.Popen[bytes], seconds: Optional[float]) -> TextLine:
        """A line over the streams of a program, which never block."""
        assert isinstance(program.stdin, io.RawIOBase) and program.stdout is not None
        for stream in (program.stdin, program.stdout):
            os.set_blocking(stream.fileno(), False)
        line = cls(io.BufferedWriter(program.stdin), cast(BinaryIO, program.stdout), seconds)
        # The line alone has them, so that a line that is left behind closes them.
        program.stdin = program.stdout = None
        line._program = program
        return line

    @property
    def is_there(self) -> bool:
        """Whether the far end may answer. A command that has ended has to be started again."""
        return self._program is None or self._program.poll() is None

    def exchange(self, frame: bytes) -> bytes:
        """Writes the frame's line, and reads the line that answers it."""
        return self._turns.alone(lambda: self._exchange(frame))

    def _exchange(self, frame: bytes) -> bytes:
        which = "an earlier frame "
        try:
            self._catch_up()
            which = ""
            return self._ask(frame)
        except TooLate:
            raise LineFailed(f"the far end didn't answer {which}within {self._seconds:g} seconds") from None
        except Ended:
            raise LineFailed("the line was closed") from None
        except (OSError, ValueError) as error:
            raise LineFailed(f"the far end can't be reached: {error}") from error

    def _end(self) -> Optional[float]:
        """When an exchange that begins now has to be done."""
        return None if self._seconds is None else time.monotonic() + self._seconds

    def _is_owed(self) -> bool:
        """Whether the line for an earlier frame is still to come."""
        return bool(self._written) and self._reader.lines_read == self._read_before

    def _catch_up(self) -> None:
        """Drops the line that answers an earlier frame, once it has come, and those that answer none."""
        if self._is_owed():
            # An interrupt may have left some of its frame in the stream's buffer.
            end = self._end()
            self._flush(end)
            self._read(end)
        self._reader.drop()

    def _ask(self, frame: bytes) -> bytes:
        """The reply to a frame. A line that can't be its reply is dropped if another one follows soon."""
        text = frame.hex().encode() + b"\n"
        end = self._end()
        wait_to_write(self._frames, end, self._alarm)
        self._written.clear()
        self._read_before = self._reader.lines_read
        # In one step, so that an interrupt can't come between the stream's taking it and its being known.
        self._written.extend(map(self._frames.write, (text,)))
        self._flush(end)
        reply = parse_hex(self._read(end))
        while reply is not None and _is_late(reply, frame) and self._reader.is_pipe:
            now = time.monotonic()
            if end is not None and now >= end + LATE_SECONDS:
                break
            try:
                reply = parse_hex(self._read(now + LATE_SECONDS))
            except TooLate:
                break
        if reply is None:
            raise LineFailed("the far end's exchange failed")
        return reply

    def _flush(self, end: Optional[float]) -> None:
        """Writes what is left in the stream's buffer."""
        while True:
            wait_to_write(self._frames, end, self._alarm)
            try:
                self._frames.flush()
                return
            except BlockingIOError:
                continue

    def _read(self, end: Optional[float]) -> bytes:
        """The next line."""
        text = self._reader.read(end)
        if text is None:
            # A far end that has ended owes nothing. The next one may answer a frame that this one didn't read.
            if not has_unread(self._frames):
                self._written.clear()
            raise LineFailed("the far end ended")
        return text

    def close(self) -> None:
        """Closes both streams, and ends the command if there is one."""
        self._turns.alone(self._close, self._interrupt)

    def _interrupt(self) -> None:
        """Ends what another thread waits for. A command that doesn't answer won't end by itself."""
        self._seconds_to_end = SOON_SECONDS
        self._alarm.ring()

    def _close(self) -> None:
        for stream in (self._frames, self._replies):
            with contextlib.suppress(OSError):
                stream.close()
        if self._program is not None:
            _end(self._program, self._seconds_to_end)


def serve_text(line: Line, frames: Optional[BinaryIO] = None, replies: Optional[BinaryIO] = None) -> int:
    """Serves the far end of a line as text until frames end, on the standard streams unless others are given.

    Each line of text gets one line: the reply, or `failed` if the exchange failed or the text isn't a frame. Returns
    how many frames it served. Exceptions of the line other than `LineFailed` pass through.
    """
    frames = frames or sys.stdin.buffer
    replies = replies or sys.stdout.buffer
    reader = LineReader(frames)
    served = 0
    while True:
        text = _read(reader)
        if text is None or not _write(replies, _answer(line, text)):
            return served
        served += 1


def parse_hex(text: bytes) -> Optional[bytes]:
    """The bytes of a line in hexadecimal, at most 257; None for any other line."""
    if len(text) % 2 or len(text) > 2 * MOST_REPLY_BYTES or not HEX_DIGITS.issuperset(text):
        return None
    return bytes.fromhex(text.decode())


def _opened(path: str, flags: int) -> io.FileIO:
    """Opens a file that never blocks; a terminal device becomes raw, so that it doesn't echo what is written to it."""
    if flags & os.O_RDWR and stat.S_ISFIFO(os.stat(path).st_mode):
        raise OSError(errno.EINVAL, "a FIFO goes one way, so the replies need another", path)
    flags |= os.O_NOCTTY | os.O_CLOEXEC | os.O_NONBLOCK
    file = io.FileIO(path, "wb" if flags & os.O_WRONLY else "rb", opener=lambda name, _: os.open(name, flags))
    if file.isatty():
        tty.setraw(file.fileno())
    return file


def _opened_both(frames: str, replies: str) -> Tuple[io.FileIO, io.FileIO]:
    """Opens both files. A FIFO for the frames waits until the far end has opened it."""
    # A file that doesn't exist is reported before anything waits.
    is_fifo = stat.S_ISFIFO(os.stat(frames).st_mode)
    # A far end that waits for this one can go on, whichever it opens first.
    reader = _opened(replies, os.O_RDONLY)
    while True:
        try:
            return _opened(frames, os.O_WRONLY), reader
        except OSError as error:
            if error.errno != errno.ENXIO or not is_fifo:
                raise
        time.sleep(AGAIN_SECONDS)


def _is_late(reply: bytes, frame: bytes) -> bool:
    """Whether a reply can only belong to another frame than this one."""
    if not reply:
        return False
    if is_branch_frame(frame):
        return decode_packet(reply) is not None
    if is_broadcast_frame(frame):
        return True
    return not is_answer(reply, frame) and (decode_packet(reply) or decode_branch_reply(reply)) is not None


def _read(reader: LineReader) -> Optional[bytes]:
    """The next line; None if there is none, or if the stream fails."""
    try:
        return reader.read()
    except OSError:
        return None


def _write(replies: BinaryIO, answer: bytes) -> bool:
    """Writes a line, and says whether the stream took it."""
    try:
        replies.write(answer + b"\n")
        replies.flush()
    except OSError:
        return False
    return True


def _answer(line: Line, text: bytes) -> bytes:
    frame = parse_hex(text)
    if frame is None or not LEAST_FRAME_BYTES <= len(frame) <= MOST_FRAME_BYTES:
        return FAILED
    try:
        return line.exchange(frame)[:MOST_REPLY_BYTES].hex().encode()
    except LineFailed:
        return FAILED


def _end(program: subprocess.Popen[bytes], seconds: float) -> None:
    """Waits for a command whose input has ended; kills it if it goes on."""
    try:
        program.wait(seconds)
    except subprocess.TimeoutExpired:
        program.kill()
        program.wait()
