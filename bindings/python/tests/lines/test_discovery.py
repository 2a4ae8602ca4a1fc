"""Discoveries and GETs through the driver and the emulated adapter, with and without losses."""
from __future__ import annotations

from typing import Dict, List, Sequence, Tuple

from common import (
    FIRMWARES, LOSSES, SEEDS, SEEDS_OF_LARGE_RIGS, Collide, LongTestCase, TestCase, adapter, one, random_scene, uids_of,
)
from search import TIMEOUT, Answer, Controller, discover
from wurstlinen.lines import EnttecPro, Rig
from wurstlinen.lines.emulator import Emulator, Widget
from wurstlinen.lines.numbers import NackReason, ResponseType
from wurstlinen.lines.scene import FixtureKeys, Personality, Scene, Sensor

LARGE = 40
# Each firmware with the ends that OLA expects from it, and with the others.
WIDGETS = (*(Widget(firmware) for firmware in FIRMWARES), Widget((4, 15), ends_branches=True),
           Widget((2, 4), end_delay=0.0005))
WASH = FixtureKeys(
    label="A label that comes in some parts", part=5, personality=2,
    personalities=(Personality(4, "Short"), Personality(12, "Long")),
    sensors=(Sensor("Head", value=35), Sensor("Base", value=-7)))
# Each GET that a fixture answers, and some that it refuses.
GETS: Sequence[Tuple[int, bytes]] = (
    (0x0050, b""), (0x0060, b""), (0x0080, b""), (0x0081, b""), (0x0082, b""), (0x00C0, b""), (0x00E0, b""),
    (0x00E1, b"\x01"), (0x00E1, b"\x02"), (0x00F0, b""), (0x0200, b"\x00"), (0x0200, b"\x01"), (0x0201, b"\x00"),
    (0x0201, b"\x01"), (0x1000, b""), (0x00E1, b"\x09"), (0x0400, b""), (0x0060, b"\x00"),
)


class Discoveries(LongTestCase):
    def check(self, widget: Widget, count: int, loss: float, seeds: int) -> None:
        with adapter(Rig(one()), widget) as (driver, emulator):
            for seed in range(seeds):
                self.check_one(driver, emulator, count, loss, seed)

    def check_one(self, driver: EnttecPro, emulator: Emulator, count: int, loss: float, seed: int) -> None:
        made = random_scene(count, seed, loss, Collide.GARBLED if seed % 2 else Collide.OR)
        rig = Rig(made)
        emulator.line = rig
        self.assertEqual(discover(driver), uids_of(made), (emulator.widget, count, loss, seed))
        self.assertTrue(rig.lost == 0 if loss == 0 else count == 1 or rig.lost > 0)

    def test_one_fixture(self) -> None:
        for widget in WIDGETS:
            for loss in LOSSES:
                self.check(widget, 1, loss, SEEDS)

    def test_five_fixtures(self) -> None:
        for widget in WIDGETS:
            for loss in LOSSES:
                self.check(widget, 5, loss, SEEDS)

    def test_firmware_that_behaves_otherwise(self) -> None:
        for widget in (Widget((2, 4), ends_branches=False), Widget((2, 4), end_delay=0.003)):
            for loss in (0.0, 0.1):
                self.check(widget, 5, loss, SEEDS)

    def test_forty_fixtures_without_losses(self) -> None:
        self.check_large(0.0)

    def test_forty_fixtures_with_a_tenth_lost(self) -> None:
        self.check_large(0.1)

    def test_forty_fixtures_with_half_lost(self) -> None:
        self.check_large(0.5)

    def check_large(self, loss: float) -> None:
        for widget in WIDGETS[:len(FIRMWARES)]:
            self.check(widget, LARGE, loss, SEEDS_OF_LARGE_RIGS)


class Gets(TestCase):
    def wanted(self, made: Scene) -> Dict[Tuple[int, int, bytes], Answer]:
        """The answers of the same rig without an adapter and without losses."""
        without_losses = Scene(made.source, made.devices)
        asked = Controller(Rig(without_losses))
        return {(uid, pid, data): asked.get(uid, pid, data) for uid in sorted(uids_of(made)) for pid, data in GETS}

    def test_the_answers_themselves(self) -> None:
        made = random_scene(1, 1, 0.0, fixture=WASH)
        (uid,) = uids_of(made)
        wanted = self.wanted(made)
        self.assertEqual(wanted[uid, 0x0082, b""].data, b"A label that comes in some parts")
        self.assertEqual(wanted[uid, 0x00E1, b"\x02"].data, b"\x02\x00\x0cLong")
        self.assertEqual(wanted[uid, 0x0201, b"\x01"].data.hex(), "01fff9fff9fff90000")
        refused = Answer(ResponseType.NACK_REASON, NackReason.UNKNOWN_PID.to_bytes(2, "big"), 0x0400)
        self.assertEqual(wanted[uid, 0x0400, b""], refused)

    def test_each_is_right_without_losses(self) -> None:
        for widget in WIDGETS:
            made = random_scene(5, 1, 0.0, fixture=WASH)
            with adapter(Rig(made), widget) as (driver, _):
                asked = Controller(driver)
                for (uid, pid, data), answer in self.wanted(made).items():
                    self.assertEqual(asked.get(uid, pid, data), answer)

    def test_each_is_right_or_a_timeout_with_losses(self) -> None:
        for widget in WIDGETS:
            for loss in (0.1, 0.5):
                with adapter(Rig(one()), widget) as (driver, emulator):
                    for seed in range(SEEDS):
                        made = random_scene(3, seed, loss, fixture=WASH)
                        emulator.line = Rig(made)
                        self.check_with_losses(made, driver)

    def check_with_losses(self, made: Scene, driver: EnttecPro) -> None:
        asked = Controller(driver)
        answers: List[Answer] = []
        for (uid, pid, data), wanted in self.wanted(made).items():
            answer = asked.get(uid, pid, data)
            answers.append(answer)
            self.assertIn(answer, (wanted, TIMEOUT))
        self.assertIn(TIMEOUT, answers)
        self.assertLess(answers.count(TIMEOUT), len(answers))
