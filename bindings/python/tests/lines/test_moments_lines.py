"""An exception at each line that a call of a line runs: the next exchange has its own answer, and nothing leaks."""
from __future__ import annotations

import contextlib
import gc
import io
import os
import sys
import threading
from pathlib import Path
from typing import Any, Iterator, List, Tuple
from unittest import mock

from common import ENTTEC, ListLine, LongTestCase, folder, one
from moments import Trial, elsewhere, held, raising
from test_text import FRAME, Pipes, get, line_of, response
from wurstlinen.line import LineFailed
from wurstlinen.lines import EnttecPro, Rig, TextLine, open_line, serve_text
from wurstlinen.lines.emulator import Emulator, Widget
from wurstlinen.lines.packets import Packet, decode_packet

# It answers each frame by itself.
ECHO = ["cat"]
WIDGET = Widget(manufacturer=ENTTEC)
BUSY_SECONDS = 5.0
TRIES = 3


def settled(line: Any, frame: bytes, wanted: bytes) -> None:
    """The line is soon as it was, from each thread. An exchange that was interrupted may have left an answer owed."""
    for _ in range(TRIES):
        with contextlib.suppress(LineFailed):
            assert elsewhere(lambda: line.exchange(frame)) == wanted
            return
    raise AssertionError("the line has failed again and again")


class EchoPipes(Pipes):
    """A line over pipes, whose far end answers each frame by itself."""

    def __init__(self) -> None:
        super().__init__(BUSY_SECONDS)
        self.start(self.echo)

    def echo(self) -> None:
        """The far end."""
        while True:
            text = self.frames.read(1000)
            if not text:
                return
            self.replies.write(text)


class Texts(LongTestCase):
    """Lines as text."""

    def test_exchanges(self) -> None:
        def check(pipes: Any, returned: List[bytes]) -> None:
            self.assertEqual(returned, [FRAME] * len(returned))
            settled(pipes.line, bytes(26), bytes(26))

        trial = Trial(EchoPipes, lambda pipes: pipes.line.exchange(FRAME), check, EchoPipes.__exit__)
        self.assertGreater(trial.run(), 50)

    def test_a_reply_of_another_frame(self) -> None:
        def make() -> Pipes:
            pipes = Pipes(BUSY_SECONDS)
            pipes.answers(line_of(response(9)) + line_of(response(0)), line_of(response(1)))
            return pipes

        def check(pipes: Pipes, returned: List[bytes]) -> None:
            self.assertIn(returned, ([], [response(0)]))
            with contextlib.suppress(LineFailed):
                # The first reply may have been answered to nobody.
                replies = (response(1),) if returned else (response(0), response(1))
                self.assertIn(pipes.line.exchange(get(1)), replies)

        Trial(make, lambda pipes: pipes.line.exchange(get(0)), check, Pipes.__exit__).run()

    def test_close(self) -> None:
        def check(pipes: Any, returned: List[Any]) -> None:
            elsewhere(lambda: pipes.line.close() or True)
            self.assertRaises(LineFailed, pipes.line.exchange, FRAME)

        Trial(EchoPipes, lambda pipes: pipes.line.close(), check, EchoPipes.__exit__).run()

    def test_commands(self) -> None:
        def whole(made: List[Any]) -> bytes:
            with TextLine.run(ECHO) as line:
                made.append(line)
                return line.exchange(FRAME)

        def check(made: List[Any], returned: List[bytes]) -> None:
            self.assertEqual(returned, [FRAME] * len(returned))
            for line in made:
                line.close()
                assert line._program.poll() is not None
            gc.collect()

        Trial(list, whole, check).run()

    def test_open(self) -> None:
        with folder() as place:
            names = [str(place / name) for name in ("frames", "replies")]
            for name in names:
                os.mkfifo(name)
            ends = [os.open(name, os.O_RDWR) for name in names]

            def whole(made: None) -> None:
                with open_line(f"text:{names[0]},{names[1]}"):
                    pass

            Trial(lambda: None, whole, lambda made, returned: gc.collect() and None).run()
            for end in ends:
                os.close(end)

    def test_open_a_command(self) -> None:
        def whole(made: None) -> bytes:
            with open_line("exec:cat") as line:
                return line.exchange(FRAME)

        def check(made: None, returned: List[bytes]) -> None:
            self.assertEqual(returned, [FRAME] * len(returned))
            gc.collect()
            # If even the close was interrupted, what was started ends since nobody has its other ends.
            with contextlib.suppress(ChildProcessError):
                os.waitpid(-1, 0)

        self.assertGreater(Trial(lambda: None, whole, check).run(), 50)

    def test_far_ends(self) -> None:
        def serve(line: Rig) -> bytes:
            replies = io.BytesIO()
            serve_text(line, io.BytesIO(line_of(get(0))), replies)
            return replies.getvalue()

        Trial(lambda: Rig(one(label="Lamp")), serve, lambda line, returned: None).run()
        for at in range(2):
            replies = io.BytesIO()
            rig = Rig(one(label="Lamp"))
            rig.exchange = raising(rig.exchange, at, KeyboardInterrupt())  # type: ignore[method-assign]
            with self.assertRaises(KeyboardInterrupt):
                serve_text(rig, io.BytesIO(line_of(get(0)) * 2), replies)
            self.assertEqual(replies.getvalue().count(b"\n"), at)


class Adapters(LongTestCase):
    """The driver of a USB Pro, and the emulated adapter."""

    def setUp(self) -> None:
        hook = sys.unraisablehook
        self.addCleanup(setattr, sys, "unraisablehook", hook)
        # An exception within a finalizer is ignored by Python, and reported.
        sys.unraisablehook = lambda reported: None

    @contextlib.contextmanager
    def emulated(self) -> Iterator[Tuple[Emulator, Path]]:
        """An adapter with a rig behind it, and a folder for locks."""
        with folder() as locks, Emulator(Rig(one(label="Lamp")), WIDGET) as emulator:
            yield emulator, locks

    def lamp(self, line: Any, transaction: int) -> None:
        """A GET of the lamp's label has its own answer."""
        for _ in range(TRIES):
            with contextlib.suppress(LineFailed):
                reply = decode_packet(elsewhere(lambda: line.exchange(get(transaction))))
                assert reply is not None and (reply.transaction, reply.data) == (transaction, b"Lamp"), reply
                return
        raise AssertionError("the driver has failed again and again")

    def test_exchanges(self) -> None:
        branch = Packet(0xFFFFFFFFFFFF, 1, 3, 1, 0, 0, 0x10, 1, bytes(6) + b"\xff" * 6).encode()
        with self.emulated() as (emulator, locks), EnttecPro(emulator.path, locks, BUSY_SECONDS) as driver:
            for frame in (get(1), branch):
                trial = Trial(lambda: driver, lambda line, frame=frame: line.exchange(frame),
                              lambda line, _: self.lamp(line, 2))
                self.assertGreater(trial.run(), 100)
            for read in (lambda line: line.branch_end, lambda line: line.response_end, lambda line: line.is_there):
                Trial(lambda: driver, read, lambda line, _: self.lamp(line, 2)).run()

    def test_opening_and_closing(self) -> None:
        with self.emulated() as (emulator, locks):
            def whole(made: None) -> None:
                with EnttecPro(emulator.path, locks, BUSY_SECONDS):
                    pass

            def check(made: None, returned: List[None]) -> None:
                gc.collect()
                self.assertEqual(os.listdir(locks), [])
                EnttecPro(emulator.path, locks, BUSY_SECONDS).close()

            self.assertGreater(Trial(lambda: None, whole, check).run(), 100)

    def test_open_line(self) -> None:
        def check(made: None, returned: List[None]) -> None:
            gc.collect()
            self.assertEqual(os.listdir(locks), [])

        with self.emulated() as (emulator, locks), \
                mock.patch.object(EnttecPro.__init__, "__defaults__", (locks, BUSY_SECONDS)):
            trial = Trial(lambda: None, lambda made: open_line(f"enttec:{emulator.path}").close(), check)
            self.assertGreater(trial.run(), 100)

    def test_opening_again(self) -> None:
        with self.emulated() as (emulator, locks), EnttecPro(emulator.path, locks, BUSY_SECONDS) as driver:
            trial = Trial(lambda: driver, EnttecPro.open, lambda line, _: self.lamp(line, 2))
            self.assertGreater(trial.run(), 100)

    def test_emulators(self) -> None:
        def whole(made: None) -> None:
            with Emulator(ListLine()):
                pass

        def check(made: None, returned: List[None]) -> None:
            gc.collect()
            for thread in threading.enumerate():
                if thread.name == "emulator":
                    thread.join(BUSY_SECONDS)

        Trial(lambda: None, whole, check).run()

    def test_one_that_is_not_entered(self) -> None:
        before = held()
        for _ in range(20):
            Emulator(ListLine())
        self.assertEqual(held(), before)

    def test_a_line_behind_the_adapter(self) -> None:
        """Whatever it raises ends the adapter, which says why."""
        for fault in (KeyboardInterrupt(), RuntimeError("wrong")):
            with self.emulated() as (emulator, locks), EnttecPro(emulator.path, locks, BUSY_SECONDS) as driver:
                emulator.line.exchange = raising(emulator.line.exchange, 0, fault)  # type: ignore[method-assign]
                self.assertRaises(LineFailed, driver.exchange, get(1))
                emulator.wait()
                self.assertIs(emulator.failure, fault)


class Rigs(LongTestCase):
    """Simulated fixtures."""

    def test_exchanges(self) -> None:
        def check(rig: Rig, returned: List[bytes]) -> None:
            reply = decode_packet(rig.exchange(get(2)))
            assert reply is not None and reply.data == b"Lamp"

        Trial(lambda: Rig(one(label="Lamp")), lambda rig: rig.exchange(get(1)), check).run()

    def test_a_rigs_file(self) -> None:
        with folder() as place:
            file = place / "rig.json"
            file.write_text('{"source": "7a70:00000100", "devices": [{"uid": "1234:00000001"}]}')
            trial = Trial(lambda: file, Rig, lambda path, _: self.assertEqual(len(Rig(path).fixtures), 1))
            self.assertGreater(trial.run(), 20)
            trial = Trial(lambda: file, lambda path: open_line(f"rig:{path}"),
                          lambda path, _: self.assertIsInstance(open_line(f"rig:{path}"), Rig))
            self.assertGreater(trial.run(), 20)
