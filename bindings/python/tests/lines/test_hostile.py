"""The driver on a hostile adapter: each discovery is exact or has a fault, and it recovers at once."""
from __future__ import annotations

import gc
import os
import threading
import time
from concurrent.futures import ThreadPoolExecutor
from pathlib import Path
from typing import Any, Callable, Iterable, List

from common import ANSWER_SECONDS, ENTTEC, FIRMWARES, SEEDS, TestCase, folder, one, random_scene, uids_of
from hostile import ATTACKS, Hostile, Straggler
from script import BRANCH, GET, UNMUTE
from search import Corrupt, discover
from wurstlinen.line import LineFailed
from wurstlinen.lines import EnttecPro, Rig
from wurstlinen.lines.emulator import Emulator, Widget
from wurstlinen.lines.scene import Scene

# As many discoveries at once: they mostly wait.
WORKERS = 8
DISCOVERIES = 60
# Two or three messages of a discovery.
SHARE = 0.005
MOST_EXCHANGES = 3
MOST_SECONDS = 2.0
EXACT, FAULT, WRONG = "exact", "fault", "wrong"


class HostileCase(TestCase):
    """Counts what is left after each test: descriptors, threads and locks."""

    def setUp(self) -> None:
        self.locks = self.enter(folder())
        self.before = self.counts()
        self.addCleanup(lambda: self.assertEqual((self.counts(), os.listdir(self.locks)), (self.before, [])))

    def enter(self, context: Any) -> Path:
        path: Path = context.__enter__()
        self.addCleanup(context.__exit__, None, None, None)
        return path

    def counts(self) -> List[int]:
        """The descriptors and threads of this process."""
        gc.collect()
        deadline = time.monotonic() + 5
        while threading.active_count() > 1 and time.monotonic() < deadline:
            time.sleep(0.01)
        return [len(os.listdir("/proc/self/fd")), threading.active_count()]

    def driver(self, emulator: Emulator) -> EnttecPro:
        return EnttecPro(emulator.path, self.locks, ANSWER_SECONDS)


class Discoveries(HostileCase):
    def check(self, make: Callable[[int, Scene], Emulator], seeds: Iterable[int], least_exact: int) -> None:
        """Makes discoveries, of which none may find another set without a fault."""
        def result(seed: int) -> str:
            made = random_scene(5, seed, 0.0)
            with make(seed, made) as emulator, self.driver(emulator) as driver:
                if isinstance(emulator, Hostile):
                    emulator.share = SHARE
                try:
                    return EXACT if discover(driver) == uids_of(made) else WRONG
                except (LineFailed, Corrupt):
                    return FAULT

        with ThreadPoolExecutor(WORKERS) as workers:
            results = list(workers.map(result, seeds))
        self.assertEqual(results.count(WRONG), 0, [seed for seed, each in zip(seeds, results) if each == WRONG])
        self.assertGreaterEqual(results.count(EXACT), least_exact, results)

    def attack(self, name: str, least_exact: int) -> None:
        def make(seed: int, made: Scene) -> Emulator:
            return Hostile(Rig(made), Widget(FIRMWARES[seed % 2], manufacturer=ENTTEC), ATTACKS[name], seed)

        self.check(make, range(8 * SEEDS), least_exact)

    def test_random_bytes(self) -> None:
        self.attack("random bytes", 12)

    def test_headers_that_announce_too_much(self) -> None:
        self.attack("too much", 12)

    def test_lost_bytes(self) -> None:
        self.attack("lost", 12)

    def test_doubled_bytes(self) -> None:
        self.attack("doubled", 12)

    def test_late_messages(self) -> None:
        self.attack("late", 1)

    def test_messages_that_never_come(self) -> None:
        self.attack("never", 1)

    def test_ends_after_all(self) -> None:
        delays = (0.0, 0.0005, 0.002, 0.01)

        def make(seed: int, made: Scene) -> Emulator:
            return Emulator(Rig(made), Widget(FIRMWARES[seed % 2], manufacturer=ENTTEC, ends_branches=True,
                                              ends_responses=True, end_delay=delays[seed % len(delays)]))

        self.check(make, range(DISCOVERIES), DISCOVERIES)

    def test_ends_after_all_that_come_whenever_they_like(self) -> None:
        delays = (0.0005, 0.005, 0.03, 0.15, 0.3)

        def make(seed: int, made: Scene) -> Emulator:
            widget = Widget(FIRMWARES[seed % 2], manufacturer=ENTTEC, ends_branches=True, takes_time=seed % 3 > 0)
            return Straggler(Rig(made), widget, seed, delays[seed % len(delays)])

        self.check(make, range(DISCOVERIES), DISCOVERIES // 2)


class Recovery(HostileCase):
    """After the last attack, the driver is right again within three exchanges and two seconds."""

    def test_after_each_attack(self) -> None:
        cases = [(name, seed) for name in ATTACKS for seed in range(4 * SEEDS)]
        with ThreadPoolExecutor(WORKERS) as workers:
            for name, seed, exchanges, seconds in workers.map(lambda case: self.recover(*case), cases):
                self.assertLessEqual(exchanges, MOST_EXCHANGES, (name, seed))
                self.assertLess(seconds, MOST_SECONDS, (name, seed))

    def recover(self, name: str, seed: int) -> Any:
        """Attacks some exchanges, and returns how many exchanges and seconds it takes until one is right again."""
        rig = Rig(one(label="Lamp"))
        wanted = Rig(one(label="Lamp")).exchange(GET)
        emulator = Hostile(rig, Widget(FIRMWARES[seed % 2], manufacturer=ENTTEC), ATTACKS[name], seed)
        with emulator, self.driver(emulator) as driver:
            emulator.share = 1.0
            for frame in (UNMUTE, BRANCH, GET)[seed % 3:]:
                self.attacked(driver, frame)
            emulator.share = 0.0
            began = time.monotonic()
            for exchanges in range(1, MOST_EXCHANGES + 2):
                if self.attacked(driver, GET) == wanted:
                    break
            return name, seed, exchanges, time.monotonic() - began

    def attacked(self, driver: EnttecPro, frame: bytes) -> bytes:
        """A reply, of which a branch that was answered must show something."""
        try:
            reply = driver.exchange(frame)
        except LineFailed:
            return b"failed"
        self.assertTrue(reply or frame is not BRANCH)
        return reply
