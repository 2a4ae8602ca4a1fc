"""The proved controller on these lines: what needs the C library."""
from __future__ import annotations

import contextlib
import io
import json
import os
import signal
import subprocess
import sys
import unittest
from pathlib import Path
from typing import Any, Iterator, List, Optional, Tuple
from unittest import mock

from common import (
    FIRMWARES, LOSSES, PACKAGE, SEEDS, SEEDS_OF_LARGE_RIGS, LongTestCase, TestCase, adapter,
    discoveries_of_examples, needs_library, one, random_scene, uids_of,
)
from search import Controller as OwnController
from test_discovery import GETS, WASH
from wurstlinen import commands
from wurstlinen.line import LineFailed
from wurstlinen.lines import Rig
from wurstlinen.lines.emulator import Widget
from wurstlinen.lines.uids import parse_uid
from wurstlinen.lines.scene import Scene

SOURCE = "7a70:00000100"


def printed(*arguments: str) -> Tuple[int, str]:
    """The status of a command, and its standard output."""
    out = io.StringIO()
    with contextlib.redirect_stdout(out), contextlib.redirect_stderr(io.StringIO()):
        status = commands.main(arguments)
    return status, out.getvalue()


def discover(line: Any, is_quick: bool = False) -> List[int]:
    """The UIDs that a proved run finds without a fault."""
    from wurstlinen import DiscoveryAgent, Search, Uid
    search = Search.QUICK if is_quick else Search.STEADY
    with DiscoveryAgent(Uid.parse(SOURCE), search=search) as agent:
        devices = agent.run(line)
        assert agent.fault() is None
        return [device.uid.number for device in devices]


class Limits(unittest.TestCase):
    """The limit of time of a test, which isn't taken for a fault of what is tested."""

    def test_a_command_that_takes_too_long(self) -> None:
        class Slow(TestCase):
            seconds = 1

            def runTest(self) -> None:
                printed("discover", "--line", "rig:none")

        with mock.patch.object(commands, "run_discover", lambda _: signal.pause()):
            errors = Slow().run(unittest.TestResult()).errors
        self.assertEqual([text.splitlines()[-1] for _, text in errors], ["common.TooLong"])


@needs_library
class Examples(LongTestCase):
    """A rig finds and prints what the proved program does on its own simulated line, frame by frame."""

    def test_each_discovery_of_the_examples(self) -> None:
        ran = 0
        for file, options, wanted in discoveries_of_examples():
            ran += 1
            arguments = ["discover", *options, *self.options(file, "--incremental" in options)]
            status, out = printed(*arguments, "--line", f"rig:{file}")
            self.assertEqual((status, out), (int(wanted.startswith("fault")), wanted), file.name)
        self.assertGreater(ran, 8)

    def options(self, file: Path, is_incremental: bool) -> List[str]:
        """The settings that the program reads from the file, and this command from its arguments."""
        keys = json.loads(file.read_text())
        known = keys.get("known", []) if is_incremental else []
        options = [word for uid in known for word in ("--known", uid)]
        return options + (["--budget", str(keys["budget"])] if "budget" in keys else [])


@needs_library
class Discoveries(LongTestCase):
    def check(self, count: int, loss: float, seeds: int) -> None:
        for firmware in FIRMWARES:
            with adapter(Rig(one()), Widget(firmware)) as (driver, emulator):
                for seed in range(seeds):
                    made = random_scene(count, seed, loss)
                    emulator.line = Rig(made)
                    found = discover(driver, is_quick=bool(seed % 2))
                    self.assertEqual(found, sorted(uids_of(made)), (firmware, count, loss, seed))

    def test_one_fixture(self) -> None:
        for loss in LOSSES:
            self.check(1, loss, SEEDS)

    def test_five_fixtures(self) -> None:
        for loss in LOSSES:
            self.check(5, loss, SEEDS)

    def test_forty_fixtures_without_losses(self) -> None:
        self.check(40, 0.0, SEEDS_OF_LARGE_RIGS)

    def test_forty_fixtures_with_a_tenth_lost(self) -> None:
        self.check(40, 0.1, SEEDS_OF_LARGE_RIGS)

    def test_forty_fixtures_with_half_lost(self) -> None:
        self.check(40, 0.5, SEEDS_OF_LARGE_RIGS)


@contextlib.contextmanager
def interrupted(queue: Any, name: str, is_done: bool) -> Iterator[None]:
    """An interrupt at the first call of the library with this name, before or after it has done its work."""
    real = getattr(queue._calls, name)

    def call(*arguments: Any) -> None:
        if is_done:
            real(*arguments)
        raise KeyboardInterrupt

    with mock.patch.object(queue._calls, name, call, create=True):
        yield


@needs_library
class Exceptions(TestCase):
    """A line that raises something else than LineFailed."""

    class Broken:
        """It raises this at its first exchange, and is a rig afterwards."""

        def __init__(self, error: Optional[BaseException]) -> None:
            self._errors = [] if error is None else [error]
            self._rig = Rig(one(label="Lamp"))

        def exchange(self, frame: bytes) -> bytes:
            if self._errors:
                raise self._errors.pop()
            return self._rig.exchange(frame)

    def test_the_next_run_goes_on(self) -> None:
        from wurstlinen import Controller, Status, Uid
        for error in (OSError("gone"), KeyboardInterrupt(), MemoryError()):
            line = self.Broken(error)
            with Controller(Uid.parse(SOURCE)) as controller:
                client = controller.join(2)
                for _ in range(2):
                    client.get(Uid.parse("1234:00000001"), 0x0082)
                with self.assertRaises(type(error)):
                    controller.run(line)
                self.assertTrue(controller.awaits())
                self.assertEqual(controller.run(line), 1)
                first, second = client.next_completion(), client.next_completion()
                self.assertEqual((first.status, second.status), (Status.FAILED_TO_SEND, Status.COMPLETED))
                self.assertEqual((second.data, controller.run(line)), (b"Lamp", 0))

    def test_an_interrupt_in_each_step_of_a_run(self) -> None:
        """Before and after each call of the library, and in the exchange: the next run goes on."""
        from wurstlinen import Controller, Status, Uid
        for name in ("take", "deliver", "fail"):
            for is_done in (False, True):
                with Controller(Uid.parse(SOURCE)) as controller:
                    client = controller.join(2)
                    for _ in range(2):
                        client.get(Uid.parse("1234:00000001"), 0x0082)
                    line = self.Broken(LineFailed() if name == "fail" else None)
                    with interrupted(controller, name, is_done), self.assertRaises(KeyboardInterrupt):
                        controller.run(line)
                    controller.run(line)
                    self.assertFalse(controller.awaits())
                    statuses = [client.next_completion().status for _ in range(2)]
                    self.assertEqual(statuses[1], Status.COMPLETED, (name, is_done))
                    client.get(Uid.parse("1234:00000001"), 0x0082)
                    self.assertEqual(controller.run(line), 1)

    def test_a_run_of_another_thread_is_left_alone(self) -> None:
        """While one run's exchange is under way, another one sends nothing, and reports nothing."""
        from wurstlinen import Controller, Status, Uid
        with Controller(Uid.parse(SOURCE)) as controller:
            client, rig, runs = controller.join(1), Rig(one(label="Lamp")), []

            class Twice:
                def exchange(self, frame: bytes) -> bytes:
                    runs.append(controller.run(rig))
                    return rig.exchange(frame)

            client.get(Uid.parse("1234:00000001"), 0x0082)
            self.assertEqual((controller.run(Twice()), runs), (1, [0]))
            self.assertEqual(client.next_completion().status, Status.COMPLETED)

    def test_its_reply_may_still_be_delivered(self) -> None:
        from wurstlinen import Controller, Status, Uid
        line = self.Broken(OSError("gone"))
        with Controller(Uid.parse(SOURCE)) as controller:
            client = controller.join(2)
            client.get(Uid.parse("1234:00000001"), 0x0082)
            with self.assertRaises(OSError):
                controller.run(line)
            controller.deliver(b"")
            client.get(Uid.parse("1234:00000001"), 0x0082)
            self.assertEqual(controller.run(line), 1)
            statuses = [client.next_completion().status for _ in range(2)]
            self.assertEqual(statuses, [Status.TIMEOUT, Status.COMPLETED])


@needs_library
class Loading(TestCase):
    def test_a_file_without_a_folder_is_loaded_from_here(self) -> None:
        from wurstlinen import _library
        library = next(Path(place) for place in _library._places() if Path(place).exists()).resolve()
        program = "import wurstlinen; print(wurstlinen.Uid.parse('1234:00000001'))"
        environment = {**os.environ, "WURSTLINEN_LIBRARY": library.name, "PYTHONPATH": str(PACKAGE)}
        done = subprocess.run([sys.executable, "-c", program], cwd=library.parent, env=environment, text=True,
                              capture_output=True, check=False)
        self.assertEqual((done.stdout, done.returncode), ("1234:00000001\n", 0), done.stderr)


@needs_library
class Gets(TestCase):
    def test_each_is_right_or_a_timeout(self) -> None:
        for firmware in FIRMWARES:
            for loss in LOSSES:
                for seed in range(SEEDS):
                    made = random_scene(2, seed, loss, fixture=WASH)
                    with adapter(Rig(made), Widget(firmware)) as (driver, _):
                        self.check(made, driver, loss)

    def check(self, made: Scene, driver: Any, loss: float) -> None:
        from wurstlinen import Controller, Status, Uid
        own = OwnController(Rig(Scene(made.source, made.devices)))
        with Controller(Uid.parse(SOURCE)) as controller:
            client = controller.join(1)
            for uid in sorted(uids_of(made)):
                for pid, data in GETS:
                    wanted = own.get(uid, pid, data)
                    client.get(Uid.from_number(uid), pid, data)
                    controller.run(driver)
                    got = client.next_completion()
                    if got.status == Status.TIMEOUT:
                        self.assertGreater(loss, 0)
                        continue
                    self.assertEqual((got.status, got.data), (Status.COMPLETED, wanted.data))
                    self.assertEqual(int(got.head.ack), wanted.kind)

    def test_a_queued_message(self) -> None:
        from wurstlinen import AckType, Controller, Uid
        rig = Rig(one(timer=0, label="Lamp"))
        uid = Uid.from_number(parse_uid("1234:00000001"))
        with Controller(Uid.parse(SOURCE)) as controller:
            client = controller.join(2)
            client.get(uid, 0x0082)
            client.get(uid, 0x0020, b"\x04")
            controller.run(rig)
            first, second = client.next_completion(), client.next_completion()
        self.assertEqual((first.head.ack, first.data), (AckType.TIMER, b"\x00\x00"))
        self.assertEqual((second.head.pid, second.data), (0x0082, b"Lamp"))
