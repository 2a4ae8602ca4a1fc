"""What the tests of lines share."""
from __future__ import annotations

import contextlib
import os
import random
import signal
import sys
import tempfile
import unittest
from dataclasses import replace
from pathlib import Path
from types import FrameType
from typing import Any, Iterator, List, Optional, Set, Tuple

PACKAGE = Path(__file__).resolve().parents[2]
ROOT = PACKAGE.parents[1]
sys.path.insert(0, str(PACKAGE))
sys.path.append(str(ROOT))
from cases.checker.tables import read_table  # noqa: E402
from cases.generated import neighbours  # noqa: E402
from wurstlinen.line import Line  # noqa: E402
from wurstlinen.lines import EnttecPro  # noqa: E402
from wurstlinen.lines.emulator import Emulator, Widget  # noqa: E402
from wurstlinen.lines.scene import Collide, DeviceKeys, FixtureKeys, RigKeys, Scene, parse_scene  # noqa: E402

SOURCE = 0x7A7000000100
LAST_DEVICE_PART = 0xFFFFFFFE
MANUFACTURERS = (0x1234, 0x454E, 0x9ABC)
ENTTEC = 0x454E
ANSWER_SECONDS = 5.0
# How many seeds a test with losses has, and how many if it has 40 fixtures.
SEEDS = int(os.environ.get("LINE_SEEDS", "3"))
SEEDS_OF_LARGE_RIGS = min(SEEDS, 5)
# How long a test may take, however busy the machine is: with more seeds it has more to do.
SECONDS = 60 * SEEDS
LOSSES = (0.0, 0.1, 0.5)
# The two ways in which OLA expects firmware to end an answered branch.
FIRMWARES = ((2, 4), (4, 15))


class TooLong(BaseException):
    """A test takes longer than it may. What is tested catches it at most to raise it again."""


class TestCase(unittest.TestCase):
    """A test that takes three minutes at most, or what its class says."""

    seconds = SECONDS

    def run(self, result: Any = None) -> Any:
        before = signal.signal(signal.SIGALRM, _too_long)
        signal.alarm(self.seconds)
        try:
            return super().run(result)
        finally:
            signal.alarm(0)
            signal.signal(signal.SIGALRM, before)


class LongTestCase(TestCase):
    """A test of very many trials."""

    seconds = 3 * SECONDS


def _too_long(number: int, frame: Optional[FrameType]) -> None:
    raise TooLong


def discoveries_of_examples() -> Iterator[Tuple[Path, List[str], str]]:
    """Each discovery on an example's scene: the file, the options, and what the proved program prints."""
    for case in [*read_table(ROOT / "cases/examples.txt").cases, *neighbours.cases()]:
        command, file, *options = (argument.decode() for argument in case.commands[0])
        printed = (case.expected.out or b"").decode()
        if case.folder and command == "discover" and not printed.startswith("fault: "):
            yield case.folder / file, options, printed


def has_library() -> bool:
    """Whether the C library can be loaded."""
    try:
        from wurstlinen import Controller, Uid
        Controller(Uid.from_number(SOURCE)).dispose()
        return True
    except ImportError:
        return False


def needs_library(test: Any) -> Any:
    """Skips a test if the C library can't be loaded."""
    return test if has_library() else unittest.skip("needs the C library")(test)


def scene(**keys: Any) -> Scene:
    """A scene as its file has it, with a source."""
    return parse_scene({"source": "7a70:00000100", **keys})


def one(**rig: Any) -> Scene:
    """A scene of the device 1234:00000001 with these keys of its `rig`."""
    return scene(devices=[{"uid": "1234:00000001", "rig": rig}])


def random_scene(count: int, seed: int, loss: float, collide: Collide = Collide.OR,
                 fixture: FixtureKeys = FixtureKeys()) -> Scene:
    """This many fixtures with random UIDs, about half of which are close neighbours."""
    chance = random.Random(seed)
    uids: Set[int] = set()
    while len(uids) < count:
        device = chance.randrange(64) if chance.random() < 0.5 else chance.randint(0, LAST_DEVICE_PART)
        uids.add(chance.choice(MANUFACTURERS) << 32 | device)
    devices = tuple(DeviceKeys(uid, chance.randint(0, 7), fixture=fixture) for uid in sorted(uids))
    return Scene(SOURCE, devices, rig=RigKeys(seed, loss, 4, collide))


def uids_of(made: Scene) -> Set[int]:
    """The UIDs of a scene's devices."""
    return {device.uid for device in made.devices}


@contextlib.contextmanager
def folder() -> Iterator[Path]:
    """An empty folder, for the duration of a `with`."""
    with tempfile.TemporaryDirectory(prefix="lines.") as name:
        yield Path(name)


@contextlib.contextmanager
def adapter(line: Line, widget: Widget = Widget()) -> Iterator[Tuple[EnttecPro, Emulator]]:
    """A driver on an emulated adapter with this line behind it.

    The adapter reports its manufacturer, which a USB Pro doesn't, so the driver needn't wait for that. This, and the
    longer time for its answers, is for busy machines.
    """
    if widget.manufacturer is None:
        widget = replace(widget, manufacturer=ENTTEC)
    with folder() as locks, Emulator(line, widget) as emulator:
        with EnttecPro(emulator.path, locks, ANSWER_SECONDS) as driver:
            yield driver, emulator


class ListLine:
    """A line that returns these replies one after another, and keeps the frames."""

    def __init__(self, *replies: bytes) -> None:
        self.replies = list(replies)
        self.frames: List[bytes] = []

    def exchange(self, frame: bytes) -> bytes:
        self.frames.append(frame)
        return self.replies.pop(0)
