"""The driver after garbage, lost bytes, late answers, and ends that nobody expects."""
from __future__ import annotations

import time

from common import ANSWER_SECONDS, LongTestCase, TestCase, adapter, folder, one, random_scene, scene, uids_of
from script import BRANCH, END, GET, LAMP, REPLY, UNMUTE, Script, received
from search import discover
from wurstlinen.line import LineFailed
from wurstlinen.lines import BranchEnd, EnttecPro, Rig
from wurstlinen.lines.emulator import Widget
from wurstlinen.lines.packets import Packet


class EndsAfterAll(LongTestCase):
    """An adapter that sends label 12 after good responses too, which OLA expects of none."""

    def test_they_are_awaited_once_one_came(self) -> None:
        for delay in (0.0, 0.003, 0.05, 0.3):
            with adapter(Rig(one()), Widget(ends_responses=True, end_delay=delay)) as (driver, _):
                for _ in range(4):
                    self.assertEqual(driver.exchange(GET)[24:], Rig(one()).exchange(GET)[24:])
                self.assertEqual(driver.response_end, BranchEnd.SENT, delay)
                for _ in range(4):
                    self.assertEqual(driver.exchange(BRANCH), Rig(one()).exchange(BRANCH), delay)
                    self.assertTrue(driver.exchange(GET), delay)

    def test_without_them_nothing_is_awaited_after_three_responses(self) -> None:
        with adapter(Rig(one())) as (driver, _):
            for _ in range(3):
                self.assertTrue(driver.exchange(GET))
            self.assertEqual(driver.response_end, BranchEnd.NOT_SENT)
            began = time.monotonic()
            for _ in range(5):
                self.assertTrue(driver.exchange(GET))
            self.assertLess((time.monotonic() - began) / 5, 0.1)

    def test_ends_that_begin_later_are_noticed(self) -> None:
        with adapter(Rig(one())) as (driver, emulator):
            for _ in range(3):
                driver.exchange(GET)
            emulator.widget = Widget(ends_responses=True)
            driver.exchange(GET)
            time.sleep(0.05)
            self.assertTrue(driver.exchange(BRANCH))
            self.assertEqual(driver.response_end, BranchEnd.SENT)

    def test_ends_that_stop_are_not_awaited_for_ever(self) -> None:
        with adapter(Rig(one()), Widget(ends_responses=True)) as (driver, emulator):
            self.assertTrue(driver.exchange(GET))
            self.assertEqual(driver.response_end, BranchEnd.SENT)
            emulator.widget = Widget()
            for _ in range(3):
                self.assertTrue(driver.exchange(GET))
            self.assertEqual(driver.response_end, BranchEnd.NOT_SENT)

    def test_an_end_before_the_frame_can_have_been_sent_is_stale(self) -> None:
        for answer in (END + received(REPLY), END + END + received(REPLY)):
            script = Script(answer)
            with folder() as locks, EnttecPro(script.path, locks) as driver:
                self.assertEqual(driver.exchange(GET), REPLY)

    def test_an_early_end_counts_if_nothing_else_comes(self) -> None:
        with adapter(Rig(scene())) as (driver, _):
            for _ in range(3):
                self.assertEqual(driver.exchange(BRANCH), b"")
            began = time.monotonic()
            for _ in range(5):
                self.assertEqual(driver.exchange(BRANCH), b"")
            self.assertLess((time.monotonic() - began) / 5, 0.1)

    def test_sixty_discoveries_are_exact(self) -> None:
        with adapter(Rig(one()), Widget(ends_responses=True)) as (driver, emulator):
            for seed in range(60):
                made = random_scene(5, seed, 0.0)
                emulator.line = Rig(made)
                self.assertEqual(discover(driver), uids_of(made), seed)


class LateAnswers(TestCase):
    LATE = Packet(1, LAMP, 9, 0, 0, 0, 0x21, 0x0082, b"Late").encode()

    def test_the_frames_own_answer_is_taken(self) -> None:
        script = Script(received(self.LATE) + received(REPLY), received(self.LATE))
        with folder() as locks, EnttecPro(script.path, locks) as driver:
            self.assertEqual(driver.exchange(GET), REPLY)
            # If no other comes it is the controller that judges it.
            began = time.monotonic()
            self.assertEqual(driver.exchange(GET), self.LATE)
            self.assertLess(time.monotonic() - began, 2.0)

    def test_a_reply_after_an_end_raises_doubts(self) -> None:
        script = Script(END, b"", received(REPLY))
        with folder() as locks, EnttecPro(script.path, locks) as driver:
            self.assertEqual(driver.exchange(GET), b"")
            script.say(received(self.LATE))
            script._answers.pop(0)
            time.sleep(0.05)
            self.assertEqual(driver.exchange(GET), REPLY)
        self.assertEqual([message.label for message in script.sent[3:]], [7, 10, 7])


class Resynchronising(TestCase):
    """Garbage, and bytes that are lost on the way, cost one exchange at most."""

    TOO_MUCH = bytes.fromhex("7e055802")

    def check_next(self, script: Script, *frames: bytes) -> float:
        """Makes exchanges of which all but the last may fail, and returns how long they took."""
        with folder() as locks, EnttecPro(script.path, locks, ANSWER_SECONDS) as driver:
            began = time.monotonic()
            for frame in frames[:-1]:
                try:
                    self.assertNotEqual(driver.exchange(frame), b"")
                except LineFailed:
                    pass
            self.assertEqual(driver.exchange(frames[-1]), REPLY)
            return time.monotonic() - began

    def test_a_header_that_announces_too_much(self) -> None:
        for frame, answer in ((GET, received(REPLY)), (BRANCH, received(b"\xfe\xaa") + END)):
            script = Script(self.TOO_MUCH + answer)
            with folder() as locks, EnttecPro(script.path, locks) as driver:
                began = time.monotonic()
                self.assertEqual(driver.exchange(frame), REPLY if frame is GET else b"\xfe\xaa")
                self.assertLess(time.monotonic() - began, 1.5)

    def test_a_header_that_announces_too_much_after_an_exchange(self) -> None:
        script = Script(received(REPLY) + self.TOO_MUCH, received(REPLY))
        self.assertLess(self.check_next(script, GET, GET), 1.5)

    def test_a_header_and_no_answer(self) -> None:
        script = Script(self.TOO_MUCH, received(REPLY))
        self.assertLess(self.check_next(script, GET, GET), 1.5)

    def test_each_lost_byte(self) -> None:
        reply = received(b"\xfe" * 3) + END
        for index in range(len(reply)):
            script = Script(reply[:index] + reply[index + 1:], received(REPLY))
            self.assertLess(self.check_next(script, BRANCH, GET), 2.0, index)

    def test_each_lost_byte_of_a_response(self) -> None:
        reply = received(REPLY)
        for index in (0, 1, 2, 3, 4, 5, len(reply) // 2, len(reply) - 2, len(reply) - 1):
            script = Script(reply[:index] + reply[index + 1:], received(REPLY))
            self.assertLess(self.check_next(script, GET, GET), 2.0, index)

    def test_each_lost_byte_of_silence(self) -> None:
        for index in range(len(END)):
            script = Script(END[:index] + END[index + 1:], received(REPLY))
            self.assertLess(self.check_next(script, BRANCH, GET), 2.0, index)

    def test_a_damaged_reply_is_not_silence(self) -> None:
        good = received(b"\xfe" * 7 + b"\xaa" + bytes(16))
        for damaged in (good[:9] + good[10:], good[:9] + good[8:], good[:-1]):
            self.assertEqual(self.exchange(BRANCH, damaged + END), b"\x00", damaged.hex())
            self.assertEqual(self.exchange(UNMUTE, damaged + END), b"", damaged.hex())

    def exchange(self, frame: bytes, answer: bytes) -> bytes:
        with folder() as locks, EnttecPro(Script(answer).path, locks, ANSWER_SECONDS) as driver:
            return driver.exchange(frame)

    def test_an_adapter_that_answers_the_second_question(self) -> None:
        script = Script(b"", received(REPLY))
        with folder() as locks, EnttecPro(script.path, locks) as driver:
            with self.assertRaises(LineFailed):
                driver.exchange(GET)
            script.say(self.TOO_MUCH)
            script.deaf = 1
            began = time.monotonic()
            self.assertEqual(driver.exchange(GET), REPLY)
            self.assertLess(time.monotonic() - began, 1.5)
        self.assertEqual([message.label for message in script.sent[3:]], [7, 10, 10, 7])
