"""A close from another thread, wherever something waits: both return soon. So does a wait for a turn."""
from __future__ import annotations

import os
import socket
import sys
import threading
import time
import unittest
from typing import Any, Callable, List, Optional, Type

from asking import DEVICE, Device, Queueing, timer
from common import ENTTEC, ListLine, TestCase, folder, needs_library
from moments import held
from test_text import FRAME, Pipes, fill
from wurstlinen import Asker, Closed, Controller, NotOpen
from wurstlinen._turns import Turns
from wurstlinen.line import LineFailed
from wurstlinen.lines import EnttecPro, TextLine
from wurstlinen.lines.emulator import Emulator, Widget
from wurstlinen.lines.numbers import Pid

# What has to be over within a second, but for a margin, and for the time in which this machine has run another job.
SECONDS = 1.0
MARGIN = 0.25
NAP = 0.005
STANDSTILL = 4.0
SLEEP = [sys.executable, "-c", "import time; time.sleep(100)"]
STUBBORN = [sys.executable, "-c", "import signal, time; signal.signal(signal.SIGTERM, signal.SIG_IGN); time.sleep(100)"]


class Soon:
    """The time within a `with`, which has to be a second at most. A thread beside it measures how long it gets no
    processor when it wants to go on."""

    def __enter__(self) -> "Soon":
        self._late = 0.0
        self._is_over = threading.Event()
        self._began = time.monotonic()
        self._naps = threading.Thread(target=self._nap, daemon=True)
        self._naps.start()
        return self

    def _nap(self) -> None:
        before = self._began
        while not self._is_over.is_set():
            time.sleep(NAP)
            now = time.monotonic()
            self._late += now - before - NAP
            before = now

    def __exit__(self, *why: object) -> None:
        seconds = time.monotonic() - self._began
        self._is_over.set()
        self._naps.join()
        late = self._late
        assert seconds < SECONDS + MARGIN + late, f"it took {seconds:.2f} s, {late:.2f} of them at a standstill"


class Waiting:
    """Something that waits in a thread of its own, and what it ends with."""

    def __init__(self, call: Callable[[], Any]) -> None:
        self._call = call
        self.fault: Optional[BaseException] = None
        self._thread = threading.Thread(target=self._run, daemon=True)
        self._thread.start()

    def _run(self) -> None:
        try:
            self._call()
        except BaseException as fault:
            # Its frames would keep what has to be freed.
            fault.__context__ = fault.__traceback__ = None
            self.fault = fault

    def ends(self, test: unittest.TestCase, close: Callable[[], Any], fault: Type[BaseException], text: str) -> None:
        """A close returns soon, and so does what waits."""
        time.sleep(0.2)
        test.assertTrue(self._thread.is_alive(), "it doesn't wait")
        with Soon():
            closing = Waiting(close)
            closing._thread.join(5 * STANDSTILL)
            test.assertFalse(closing._thread.is_alive(), "the close waits for ever")
            test.assertIsNone(closing.fault)
            self._thread.join(5 * STANDSTILL)
            test.assertFalse(self._thread.is_alive(), "it waits for ever")
        test.assertIsInstance(self.fault, fault)
        test.assertRegex(str(self.fault), text)


class Fair(TestCase):
    def test_who_waits_has_the_next_turn(self) -> None:
        """Beside a thread that takes a turn again at once. A busy machine may hold up some that begin to wait."""
        waited = [self.turns_of_another() for _ in range(30)]
        self.assertLessEqual(sorted(waited)[20], 1)

    @staticmethod
    def turns_of_another() -> int:
        """How many turns another thread begins while this one waits for one."""
        turns, has_begun, is_over = Turns(), threading.Event(), threading.Event()
        begun = [0]

        def work() -> None:
            begun[0] += 1
            has_begun.set()
            time.sleep(0.002)

        def run() -> None:
            while not is_over.is_set():
                turns.alone(work)
        thread = threading.Thread(target=run)
        thread.start()
        has_begun.wait()
        before = begun[0]
        turns.alone(is_over.set)
        thread.join()
        return begun[0] - before


class Texts(TestCase):
    def test_a_reply_is_awaited(self) -> None:
        for seconds in (None, 100.0):
            with Pipes(seconds) as pipes:
                Waiting(lambda: pipes.line.exchange(FRAME)).ends(self, pipes.line.close, LineFailed, "was closed")
                self.assertRaises(LineFailed, pipes.line.exchange, FRAME)

    def test_a_line_that_is_owed_is_awaited(self) -> None:
        with Pipes(0.01) as pipes:
            self.assertRaises(LineFailed, pipes.line.exchange, FRAME)
            pipes.line._seconds = None
            Waiting(lambda: pipes.line.exchange(FRAME)).ends(self, pipes.line.close, LineFailed, "was closed")

    def test_a_far_end_that_does_not_read(self) -> None:
        with Pipes() as pipes:
            fill(pipes.line._frames.fileno())
            Waiting(lambda: pipes.line.exchange(FRAME)).ends(self, pipes.line.close, LineFailed, "was closed")

    def test_several_exchanges(self) -> None:
        with Pipes() as pipes:
            others = [Waiting(lambda: pipes.line.exchange(FRAME)) for _ in range(3)]
            Waiting(lambda: pipes.line.exchange(FRAME)).ends(self, pipes.line.close, LineFailed, "closed")
            for other in others:
                other._thread.join(10 * STANDSTILL)
                self.assertIsInstance(other.fault, LineFailed)

    def test_commands(self) -> None:
        before = held()
        for command in (SLEEP, STUBBORN):
            self.end_command(TextLine.run(command))
        self.assertEqual(held(), before)

    def end_command(self, line: TextLine) -> None:
        """Closes a line whose command doesn't answer."""
        Waiting(lambda: line.exchange(FRAME)).ends(self, line.close, LineFailed, "was closed")
        assert line._program is not None
        self.assertIsNotNone(line._program.poll())

    def test_what_can_not_be_opened_leaves_nothing(self) -> None:
        before = held()
        with folder() as place:
            names = [str(place / name) for name in ("frames", "replies")]
            os.mkfifo(names[0])
            os.mkdir(names[1])
            with socket.socket(socket.AF_UNIX) as bound:
                bound.bind(str(place / "socket"))
            for frames, replies in (names, names[::-1], (names[0], "/dev/none"), (names[0], str(place / "socket")),
                                    (str(place), names[1])):
                for _ in range(5):
                    self.assertRaises(LineFailed, TextLine.open, frames, replies)
            self.assertEqual(held(), before)
            # A far end that comes later finds nobody.
            with self.assertRaises(OSError):
                os.open(names[0], os.O_WRONLY | os.O_NONBLOCK)


class Adapters(TestCase):
    def test_an_adapter_that_hangs(self) -> None:
        with folder() as locks, Emulator(ListLine(), Widget(manufacturer=ENTTEC)) as emulator:
            driver = EnttecPro(emulator.path, locks, STANDSTILL)
            emulator.widget = Widget(hangs_after=1, manufacturer=ENTTEC)
            emulator.messages = 1
            Waiting(lambda: driver.exchange(FRAME)).ends(self, driver.close, LineFailed, "was closed")
            self.assertEqual(os.listdir(locks), [])
            # It is opened again by an exchange, and by `open`.
            emulator.messages = 0
            driver.open()
            driver.close()

    def test_an_adapter_that_is_being_opened(self) -> None:
        with folder() as locks, Emulator(ListLine(), Widget(manufacturer=ENTTEC)) as emulator:
            driver = EnttecPro(emulator.path, locks, STANDSTILL)
            emulator.widget = Widget(hangs_after=0)
            emulator._facts = lambda label: []  # type: ignore[method-assign]
            Waiting(driver.open).ends(self, driver.close, LineFailed, "was closed")
            self.assertEqual(os.listdir(locks), [])

    def test_an_emulator_whose_driver_does_not_read(self) -> None:
        before = held()
        with Emulator(ListLine(*[bytes(257)] * 100), Widget()) as emulator:
            with open(emulator.path, "wb", 0, opener=lambda path, _: os.open(path, os.O_RDWR | os.O_NOCTTY)) as driver:
                for _ in range(100):
                    driver.write(b"\x7e\x07" + len(FRAME).to_bytes(2, "little") + FRAME + b"\xe7")
                Waiting(emulator.wait)
                time.sleep(0.2)
                with Soon():
                    emulator.__exit__(None, None, None)
        # The threads end when they next have a processor.
        until = time.monotonic() + STANDSTILL
        while held() != before and time.monotonic() < until:
            time.sleep(0.01)
        self.assertEqual(held(), before)


@needs_library
class Queues(TestCase):
    def closed(self, device: Any, close: Callable[[Controller], None], fault: Type[BaseException]) -> None:
        """A client that asks a device ends soon if its queue is closed."""
        with Controller("7a70:00000100") as controller:
            client = controller.join(2)
            Waiting(lambda: client.ask(DEVICE, Pid.DEVICE_LABEL, line=device, wait=100.0)).ends(
                self, lambda: close(controller), fault, ".")

    def test_a_device_that_needs_time(self) -> None:
        for close, fault in ((Controller.close, Closed), (Controller.dispose, NotOpen)):
            self.closed(Device(Queueing(900)), close, fault)
            self.closed(Device(lambda command: timer(command.pid, 65535)), close, fault)

    def test_a_queue_that_is_paused(self) -> None:
        def close(controller: Controller) -> None:
            controller.close()

        with Controller("7a70:00000100") as controller:
            client = controller.join(2)
            controller.pause()
            waiting = Waiting(lambda: client.ask(DEVICE, Pid.DEVICE_LABEL, line=ListLine(), wait=100.0))
            time.sleep(0.2)
            close(controller)
            waiting._thread.join(STANDSTILL)
            # The request has ended, as one that wasn't sent.
            self.assertFalse(waiting._thread.is_alive())

    def test_another_thread_that_has_the_line(self) -> None:
        """Its own exchange ends with the line, and those who wait for it end with the queue."""
        with Pipes() as pipes, Controller("7a70:00000100") as controller:
            first, second = controller.join(1), controller.join(1)
            first.get(DEVICE, Pid.DEVICE_LABEL)
            server = Waiting(lambda: controller.run(pipes.line))
            time.sleep(0.1)
            asks: List[Waiting] = [Waiting(lambda: second.ask(DEVICE, Pid.DEVICE_LABEL, line=pipes.line, wait=100.0))]
            time.sleep(0.2)
            controller.close()
            pipes.line.close()
            for each in (server, *asks):
                each._thread.join(STANDSTILL)
                self.assertFalse(each._thread.is_alive())
            self.assertIsNone(server.fault)
            self.assertIsNotNone(first.next_completion())

    def test_a_signal_in_a_call(self) -> None:
        """A handler may call the queue, also within a call of the same thread."""
        controller = Controller("7a70:00000100")
        controller._turns.alone(lambda: (controller.is_idle(), controller.close()))
        self.assertTrue(controller.is_closed())
        controller.dispose()

    def test_asker_of_its_own_sleep(self) -> None:
        with Controller("7a70:00000100") as controller:
            naps: List[float] = []

            def sleep(seconds: float) -> None:
                naps.append(seconds)
                controller.close()

            asker = Asker(controller.join(1), Device(Queueing(3)), sleep=sleep)
            self.assertRaises(Closed, asker.get, DEVICE, Pid.DEVICE_LABEL)
            self.assertEqual(naps, [0.3])
