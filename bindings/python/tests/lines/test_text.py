"""Lines as text, from both ends."""
from __future__ import annotations

import contextlib
import io
import os
import select
import sys
import threading
import time
from typing import BinaryIO, Callable, List, Optional, Set, Tuple
from unittest import mock

from common import ListLine, TestCase, folder, random_scene, uids_of
from search import Controller
from wurstlinen.line import LineFailed
from wurstlinen.lines import Rig, TextLine, open_line, serve_text
from wurstlinen.lines.packets import Packet
from wurstlinen.lines.streams import LineReader

LAMP = 0x123400000001
FRAME = bytes(range(26))
ANSWERS: Tuple[Tuple[bytes, bytes], ...] = (
    (b"\n", b""),
    (b"\r\n", b""),
    (b"0aFf\n", b"\x0a\xff"),
    (b"cc\r\n", b"\xcc"),
    (b"ab" * 257 + b"\n", b"\xab" * 257),
    (b"ab" * 257 + b"\r\n", b"\xab" * 257),
)
FAILURES = (
    b"failed\n", b"0\n", b"0g\n", b" 00\n", b"00 \n", b"0x00\n", b"00\r\r\n", b"0\x00\n", b"\xff\xff\n",
    b"ab" * 258 + b"\n", b"ab" * 257 + b"a\n", b"a" * 515 + b"\r\n", b"ab" * 1_000_000 + b"\n", "1²".encode() + b"\n",
)


class FullStream(io.RawIOBase):
    """A stream that accepts no bytes."""

    def writable(self) -> bool:
        return True

    def write(self, data: object) -> int:
        raise OSError(28, "No space left on device")


class TextLines(TestCase):
    def test_writes_a_frame_and_reads_an_answer(self) -> None:
        for text, reply in ANSWERS:
            frames = io.BytesIO()
            self.assertEqual(TextLine(frames, io.BytesIO(text)).exchange(FRAME), reply)
            self.assertEqual(frames.getvalue(), FRAME.hex().encode() + b"\n")

    def test_a_failure_takes_one_line(self) -> None:
        for text in FAILURES:
            line = TextLine(io.BytesIO(), io.BytesIO(text + b"0102\n"))
            with self.assertRaises(LineFailed, msg=text[:20]):
                line.exchange(FRAME)
            self.assertEqual(line.exchange(FRAME), b"\x01\x02", text[:20])

    def test_the_end_fails(self) -> None:
        for text in (b"", b"01", b"failed", b"ab" * 300):
            with self.assertRaises(LineFailed):
                TextLine(io.BytesIO(), io.BytesIO(text)).exchange(FRAME)

    def test_errors_of_streams_fail(self) -> None:
        answers = io.BytesIO(b"01\n")
        full = TextLine(FullStream(), answers)  # type: ignore[arg-type]
        with self.assertRaises(LineFailed):
            full.exchange(FRAME)
        self.assertEqual(answers.tell(), 0)
        closed = io.BytesIO()
        closed.close()
        with self.assertRaises(LineFailed):
            TextLine(closed, io.BytesIO(b"01\n")).exchange(FRAME)


class Pipes:
    """A line over two pipes, whose far end is written by hand."""

    def __init__(self, seconds: Optional[float] = None) -> None:
        frames, far_frames = os.pipe()
        far_replies, replies = os.pipe()
        self.frames, self.replies = os.fdopen(frames, "rb", buffering=0), os.fdopen(replies, "wb", buffering=0)
        self.line = TextLine(os.fdopen(far_frames, "wb"), os.fdopen(far_replies, "rb"), seconds)
        self._far_ends: List[threading.Thread] = []

    def __enter__(self) -> Pipes:
        return self

    def __exit__(self, *why: object) -> None:
        if not self._far_ends:
            # This ends an exchange, also if a close doesn't.
            self.frames.close()
            self.replies.close()
        self.line.close()
        # A far end that is still reading would read from whatever gets the number of its file next.
        for far_end in self._far_ends:
            far_end.join()
        self.frames.close()
        self.replies.close()

    def start(self, serve: Callable[..., None], *arguments: object) -> None:
        """Runs a far end in a thread, until it is done or the line is closed."""
        def run() -> None:
            with contextlib.suppress(BrokenPipeError):
                serve(*arguments)

        far_end = threading.Thread(target=run, daemon=True)
        far_end.start()
        self._far_ends.append(far_end)

    def answers(self, *answers: bytes) -> None:
        """Writes the next of these after each frame."""
        def answer() -> None:
            for text in answers:
                if not self.frames.read(1000):
                    return
                self.replies.write(text)

        self.start(answer)


def get(transaction: int) -> bytes:
    """A GET of one device."""
    return Packet(LAMP, 1, transaction, 1, 0, 0, 0x20, 0x0082).encode()


def response(transaction: int) -> bytes:
    """The response to it."""
    return Packet(1, LAMP, transaction, 0, 0, 0, 0x21, 0x0082, b"Lamp").encode()


def line_of(reply: bytes) -> bytes:
    """A reply as text."""
    return reply.hex().encode() + b"\n"


def fill(pipe: int) -> int:
    """Fills a pipe, and returns with how many bytes."""
    os.set_blocking(pipe, False)
    filled = 0
    try:
        while True:
            filled += os.write(pipe, bytes(4096))
    except BlockingIOError:
        os.set_blocking(pipe, True)
    return filled


class Limits(TestCase):
    """Far ends that are too slow, write too much, or write a line too many."""

    def test_a_far_end_that_does_not_answer(self) -> None:
        for text in (b"", b"0102", b"ab" * 5000):
            with Pipes(0.3) as pipes:
                pipes.answers(text)
                began = time.monotonic()
                with self.assertRaisesRegex(LineFailed, "didn't answer within 0.3 seconds"):
                    pipes.line.exchange(FRAME)
                self.assertLess(time.monotonic() - began, 5)

    def test_a_late_answer_is_not_the_next_ones(self) -> None:
        for late in (0.0, 0.2):
            with Pipes(0.5) as pipes:
                pipes.answers(b"")
                with self.assertRaises(LineFailed):
                    pipes.line.exchange(FRAME)
                threading.Timer(late, pipes.replies.write, [b"01\n"]).start()
                time.sleep(0.1)
                pipes.answers(b"02\n")
                self.assertEqual(pipes.line.exchange(FRAME), b"\x02")

    def test_no_device_answers_a_broadcast(self) -> None:
        everyone = Packet(0xFFFFFFFFFFFF, 1, 3, 1, 0, 0, 0x30, 0x0082, b"Lamp").encode()
        with Pipes(5.0) as pipes:
            pipes.answers(line_of(response(2)) + b"0102\n\n")
            self.assertEqual(pipes.line.exchange(everyone), b"")

    def test_nothing_is_sent_while_an_answer_is_owed(self) -> None:
        """Whenever it comes, it is the earlier frame's, so it is never given up."""
        with Pipes(0.01) as pipes:
            with self.assertRaisesRegex(LineFailed, "didn't answer within 0.01 seconds"):
                pipes.line.exchange(FRAME)
            for _ in range(40):
                with self.assertRaisesRegex(LineFailed, "didn't answer an earlier frame within 0.01 seconds"):
                    pipes.line.exchange(bytes(26))
            self.assertEqual(pipes.frames.read(1000), line_of(FRAME))
            pipes.line._seconds = 5.0
            pipes.replies.write(b"01\n")
            pipes.answers(b"02\n")
            self.assertEqual(pipes.line.exchange(FRAME), b"\x02")

    def test_a_far_end_that_stands_still_once(self) -> None:
        """Replies that are late by several exchanges shift none: each is the right one, or the exchange fails."""
        with Pipes(0.02) as pipes:
            pipes.start(self.echo, pipes, 0.3)
            sent = right = 0
            while right < 100:
                frame = bytes(25) + bytes([sent % 256])
                sent += 1
                try:
                    self.assertEqual(pipes.line.exchange(frame), frame)
                    right += 1
                except LineFailed:
                    pass
            self.assertGreater(sent, right)

    def test_discoveries_behind_a_far_end_that_stands_still_once(self) -> None:
        made = random_scene(5, 0, 0.0)
        with Pipes(5.0) as pipes:
            stands = threading.Event()
            pipes.start(self.serve_slowly, pipes, Rig(made), stands)
            self.assertEqual(self.discover(pipes.line), uids_of(made))
            pipes.line._seconds = 0.05
            stands.set()
            ends: List[Optional[Set[int]]] = []
            while ends[-3:] != [uids_of(made)] * 3:
                ends.append(self.discover(pipes.line))
                self.assertIn(ends[-1], (None, uids_of(made)))
            self.assertIn(None, ends)

    def discover(self, line: TextLine) -> Optional[Set[int]]:
        """What a discovery finds; None if an exchange failed."""
        try:
            return Controller(line).discover()
        except LineFailed:
            return None

    def serve_slowly(self, pipes: Pipes, rig: Rig, stands: threading.Event) -> None:
        """The far end of a rig, which stops once for a second on request."""
        with open(pipes.frames.fileno(), "rb", closefd=False) as frames:
            for text in frames:
                if stands.is_set():
                    time.sleep(1.0)
                    stands.clear()
                time.sleep(0.003)
                pipes.replies.write(line_of(rig.exchange(bytes.fromhex(text.decode()))))

    def echo(self, pipes: Pipes, seconds: float) -> None:
        """A far end that answers each frame by itself, a little later, and begins after so many seconds."""
        time.sleep(seconds)
        with open(pipes.frames.fileno(), "rb", closefd=False) as frames:
            for text in frames:
                time.sleep(0.003)
                pipes.replies.write(text)

    def test_a_far_end_that_is_started_again(self) -> None:
        """A frame that the first one read is never answered, and one that it didn't read is answered by the next."""
        for is_read in (True, False):
            with folder() as directory:
                names = [str(directory / name) for name in ("frames", "replies")]
                for name in names:
                    os.mkfifo(name)
                ends = [os.open(name, os.O_RDWR) for name in names]
                with TextLine.open(*names, seconds=5.0) as line:
                    self.end_within_an_exchange(line, ends, is_read)
                    thread = threading.Thread(target=self.serve_again, args=names)
                    thread.start()
                    self.assertEqual(self.first_reply(line, bytes(25) + b"\x07"), bytes(25) + b"\x07")
                thread.join()

    def end_within_an_exchange(self, line: TextLine, ends: List[int], is_read: bool) -> None:
        """Closes these ends of a line while it waits for a reply, after or without reading the frame."""
        def end() -> None:
            wait = select.poll()
            wait.register(ends[0], select.POLLIN)
            wait.poll()
            if is_read:
                os.read(ends[0], 1000)
            for each in ends[::-1]:
                os.close(each)

        thread = threading.Thread(target=end)
        thread.start()
        with self.assertRaisesRegex(LineFailed, "the far end ended"):
            line.exchange(FRAME)
        thread.join()

    def first_reply(self, line: TextLine, frame: bytes) -> bytes:
        """The reply to a frame as soon as somebody is there to answer it."""
        while True:
            try:
                return line.exchange(frame)
            except LineFailed:
                time.sleep(0.01)

    def serve_again(self, frames: str, replies: str) -> None:
        """A far end that answers each frame by itself until there are no more."""
        with open(frames, "rb") as reader, open(replies, "wb", buffering=0) as writer:
            for text in reader:
                writer.write(text)

    def test_the_answer_of_an_interrupted_exchange_is_dropped(self) -> None:
        with Pipes() as pipes:
            with mock.patch("wurstlinen.lines.streams.LineReader.read", side_effect=KeyboardInterrupt):
                with self.assertRaises(KeyboardInterrupt):
                    pipes.line.exchange(FRAME)
            pipes.answers(b"01\n", b"02\n")
            self.assertEqual(pipes.line.exchange(FRAME), b"\x02")

    def test_a_frame_that_an_interrupt_kept_from_being_sent(self) -> None:
        with Pipes(5.0) as pipes:
            with mock.patch.object(pipes.line, "_frames", mock.Mock(wraps=pipes.line._frames)) as frames:
                frames.flush.side_effect = KeyboardInterrupt
                with self.assertRaises(KeyboardInterrupt):
                    pipes.line.exchange(FRAME)
            pipes.answers(b"01\n", b"02\n")
            self.assertEqual(pipes.line.exchange(FRAME), b"\x02")

    def test_an_interrupt_before_a_frame_is_written(self) -> None:
        """Nothing was sent, so no line is owed."""
        class Interrupted(bytes):
            def hex(self, *arguments: object) -> str:
                raise KeyboardInterrupt

        with Pipes(0.3) as pipes:
            with self.assertRaises(KeyboardInterrupt):
                pipes.line.exchange(Interrupted(FRAME))
            pipes.answers(b"01\n")
            self.assertEqual(pipes.line.exchange(FRAME), b"\x01")

    def test_an_interrupt_after_a_line_was_read(self) -> None:
        with Pipes(0.3) as pipes:
            real = LineReader.read

            def read(reader: LineReader, end: Optional[float] = None) -> Optional[bytes]:
                real(reader, end)
                raise KeyboardInterrupt

            pipes.answers(b"01\n", b"02\n")
            with mock.patch.object(LineReader, "read", read), self.assertRaises(KeyboardInterrupt):
                pipes.line.exchange(FRAME)
            self.assertEqual(pipes.line.exchange(FRAME), b"\x02")

    def test_a_far_end_that_does_not_read(self) -> None:
        with Pipes(0.001) as pipes:
            filled = fill(pipes.line._frames.fileno())
            for _ in range(300):
                with self.assertRaises(LineFailed):
                    pipes.line.exchange(bytes(257))
            # None of these frames was sent, so no line is owed.
            self.assertEqual(len(pipes.frames.read(2 * filled)), filled)
            pipes.line._seconds = 5.0
            pipes.answers(b"01\n")
            self.assertEqual(pipes.line.exchange(FRAME), b"\x01")

    def test_a_line_too_many(self) -> None:
        """It shifts no reply for longer than one exchange, whenever it comes."""
        for extra in (b"\n", line_of(response(9)), b"failed\n"):
            with Pipes() as pipes:
                pipes.answers(line_of(response(0)) + extra, *(line_of(response(number)) for number in range(1, 6)))
                self.assertEqual(pipes.line.exchange(get(0)), response(0))
                time.sleep(0.05)
                for number in range(1, 6):
                    self.assertEqual(pipes.line.exchange(get(number)), response(number), extra)

    def test_a_line_too_many_that_comes_after_the_next_frame(self) -> None:
        with Pipes() as pipes:
            pipes.answers(line_of(response(9)) + line_of(response(0)), line_of(response(1)))
            self.assertEqual(pipes.line.exchange(get(0)), response(0))
            self.assertEqual(pipes.line.exchange(get(1)), response(1))
        # An empty line can't be told from silence at once.
        with Pipes() as pipes:
            pipes.start(self.answer_slowly, pipes)
            replies = [pipes.line.exchange(get(number)) for number in range(6)]
            self.assertEqual(replies[0], b"")
            self.assertEqual(replies[2:], [response(number) for number in range(2, 6)])

    def answer_slowly(self, pipes: Pipes) -> None:
        """A far end whose every answer comes after the next frame, if it is one line ahead."""
        pipes.replies.write(b"")
        for number in range(6):
            pipes.frames.read(1000)
            if not number:
                pipes.replies.write(b"\n")
            time.sleep(0.02)
            pipes.replies.write(line_of(response(number)))

    def test_lines_too_many_without_an_end(self) -> None:
        """They hold no exchange for longer than its limit."""
        for pause in (0.0, 0.02):
            with Pipes(0.3) as pipes:
                has_ended = threading.Event()
                pipes.start(self.flood, pipes, pause, has_ended)
                self.assertEqual(pipes.line.exchange(get(0)), response(9))
                self.assertFalse(has_ended.is_set())

    def flood(self, pipes: Pipes, pause: float, has_ended: threading.Event) -> None:
        """A far end that answers a frame by another one's response, again and again for some seconds."""
        pipes.frames.read(1000)
        end = time.monotonic() + 4.0
        while time.monotonic() < end:
            pipes.replies.write(line_of(response(9)))
            time.sleep(pause)
        has_ended.set()

    def test_a_device_that_answers_wrongly_is_heard(self) -> None:
        with Pipes() as pipes:
            pipes.answers(line_of(response(9)), line_of(response(1)))
            self.assertEqual(pipes.line.exchange(get(0)), response(9))
            self.assertEqual(pipes.line.exchange(get(1)), response(1))

    def test_a_line_without_an_end_is_not_read_for_ever(self) -> None:
        with open("/dev/zero", "rb") as zero:
            line = TextLine(io.BytesIO(), zero)
            for _ in range(2):
                with self.assertRaisesRegex(LineFailed, "more than 4194304 bytes"):
                    line.exchange(FRAME)
            self.assertLess(len(line._reader._left), 10_000)

    def test_two_threads(self) -> None:
        with Pipes() as pipes:
            pipes.answers(*(b"%02x\n" % number for number in range(200)))
            heard: List[bytes] = []
            threads = [threading.Thread(target=lambda: heard.extend(pipes.line.exchange(FRAME) for _ in range(50)))
                       for _ in range(4)]
            for thread in threads:
                thread.start()
            for thread in threads:
                thread.join()
            self.assertEqual(sorted(heard), [bytes([number]) for number in range(200)])


class FarEnds(TestCase):
    def served(self, line: ListLine, text: bytes) -> bytes:
        replies = io.BytesIO()
        serve_text(line, io.BytesIO(text), replies)
        return replies.getvalue()

    def test_answers_each_line_with_one(self) -> None:
        line = ListLine(b"\xcc\x01", b"", b"\xff" * 300)
        text = b"".join(FRAME.hex().encode() + end for end in (b"\n", b"\r\n", b"\n"))
        self.assertEqual(self.served(line, text), b"cc01\n\n" + b"ff" * 257 + b"\n")
        self.assertEqual(line.frames, [FRAME] * 3)

    def test_what_is_no_frame_fails(self) -> None:
        for text in (b"", b"00", b"00" * 25, b"00" * 258, b"zz" * 26, b"00" * 99999):
            self.assertEqual(self.served(ListLine(), text + b"\n"), b"failed\n")

    def test_a_line_that_was_cut_off_is_no_frame(self) -> None:
        line = ListLine()
        self.assertEqual(self.served(line, FRAME.hex().encode()), b"")

    def test_a_failure_of_the_line(self) -> None:
        class Broken:
            def exchange(self, frame: bytes) -> bytes:
                raise LineFailed

        replies = io.BytesIO()
        self.assertEqual(serve_text(Broken(), io.BytesIO(FRAME.hex().encode() + b"\n"), replies), 1)
        self.assertEqual(replies.getvalue(), b"failed\n")

    def test_ends_when_nobody_reads(self) -> None:
        text = (FRAME.hex().encode() + b"\n") * 2
        full: BinaryIO = FullStream()  # type: ignore[assignment]
        self.assertEqual(serve_text(ListLine(b"", b""), io.BytesIO(text), full), 0)


class Openings(TestCase):
    def serve_in_thread(self, frames: str, replies: str, frames_first: bool) -> threading.Thread:
        def serve() -> None:
            def open_frames() -> BinaryIO:
                return open(frames, "rb")

            def open_replies() -> BinaryIO:
                return open(replies, "wb")

            if frames_first:
                reader, writer = open_frames(), open_replies()
            else:
                writer, reader = open_replies(), open_frames()
            with reader, writer:
                serve_text(ListLine(b"\x01", b""), reader, writer)

        thread = threading.Thread(target=serve)
        thread.start()
        return thread

    def test_fifos_in_both_orders(self) -> None:
        for frames_first in (False, True):
            with folder() as directory:
                frames, replies = str(directory / "frames"), str(directory / "replies")
                os.mkfifo(frames)
                os.mkfifo(replies)
                thread = self.serve_in_thread(frames, replies, frames_first)
                with open_line(f"text:{frames},{replies}") as line:
                    self.assertEqual(line.exchange(FRAME), b"\x01")
                    self.assertEqual(line.exchange(FRAME), b"")
                thread.join()

    def test_a_terminal_in_both_directions(self) -> None:
        own, other = os.openpty()
        with os.fdopen(own, "rb+", buffering=0) as far:
            with open_line(f"text:{os.ttyname(other)}") as line:
                os.close(other)
                thread = threading.Thread(target=serve_text, args=(ListLine(b"\x05", b"\x06"), far, far), daemon=True)
                thread.start()
                self.assertEqual(line.exchange(FRAME), b"\x05")
                self.assertEqual(line.exchange(FRAME), b"\x06")
            thread.join()

    def test_what_is_not_there_is_not_made(self) -> None:
        with folder() as directory:
            os.mkfifo(directory / "frames")
            for text in ("text:{0}/none", "text:{0}/none,{0}/frames", "text:{0}/frames,{0}/none",
                         "text:{0}/frames"):
                with self.assertRaises(LineFailed):
                    open_line(text.format(directory))
            self.assertEqual(os.listdir(directory), ["frames"])

    def test_a_file_of_replies(self) -> None:
        with folder() as directory:
            (directory / "frames").write_bytes(b"before")
            (directory / "replies").write_bytes(b"01\n")
            with open_line(f"text:{directory}/frames,{directory}/replies") as line:
                self.assertEqual(line.exchange(FRAME), b"\x01")
                with self.assertRaises(LineFailed):
                    line.exchange(FRAME)
            self.assertTrue((directory / "frames").read_bytes().startswith(FRAME.hex().encode()[:6]))

    def test_a_command(self) -> None:
        program = "import sys\nfor line in sys.stdin: print('cc' if line.strip() else 'failed', flush=True)"
        with TextLine.run([sys.executable, "-c", program]) as line:
            self.assertEqual(line.exchange(FRAME), b"\xcc")
            self.assertEqual(line.exchange(FRAME), b"\xcc")

    def test_a_command_that_dies(self) -> None:
        with open_line(f"exec:{sys.executable} -c 'input(); print(\"0102\", flush=True); input()'") as line:
            self.assertEqual(line.exchange(FRAME), b"\x01\x02")
            for _ in range(3):
                with self.assertRaises(LineFailed):
                    line.exchange(FRAME)

    def test_a_command_that_does_not_end_is_killed(self) -> None:
        began = time.monotonic()
        line = TextLine.run([sys.executable, "-c", "import time; time.sleep(100)"])
        line.close()
        line.close()
        self.assertLess(time.monotonic() - began, 10)

    def test_texts_that_name_no_line(self) -> None:
        for text in ("", "enttec", "enttec:", "serial:/dev/ttyUSB0", "/nowhere/ttyUSB0"):
            with self.assertRaises(ValueError):
                open_line(text)
        for text, reason in (("exec: ", "without a command"), ("exec:'a", "can't be split into words: No closing")):
            with self.assertRaisesRegex(ValueError, reason):
                open_line(text)
        with self.assertRaises(ValueError):
            TextLine.run([])
        with self.assertRaises(LineFailed):
            open_line("exec:/no/such/program")
        with self.assertRaises(OSError):
            open_line("rig:/no/such/file")
