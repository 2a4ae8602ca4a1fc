"""The driver of the USB Pro on an emulated one, and on a scripted one that says exactly these bytes."""
from __future__ import annotations

import os
import random
import signal
import threading
import time
from typing import Dict, List, Tuple
from unittest import mock

from common import ANSWER_SECONDS, ENTTEC, ListLine, TestCase, adapter, folder, one, random_scene, scene, uids_of
from script import BRANCH, END, GET, LAMP, REPLY, UNMUTE, Script, received
from search import Controller, discover
from wurstlinen.line import LineFailed
from wurstlinen.lines import BranchEnd, EnttecPro, Rig
from wurstlinen.lines.emulator import Emulator, Widget
from wurstlinen.lines.messages import Label, Message
from wurstlinen.lines.packets import Packet
from wurstlinen.lines.terminal import Terminal

DMXKING = 0x6A6B
# Two seconds on a busy machine.
SLOW = 10.0


def hostile(chance: random.Random) -> bytes:
    """Messages of any kind with any bytes between them, up to the end of an exchange."""
    data = b""
    for _ in range(chance.randrange(6)):
        label = chance.choice((3, 5, 5, 5, 7, 9, 10, 11, 77, 129, chance.randrange(256)))
        start = chance.choice((b"", b"\x00", b"\x00\xcc", b"\x01\xcc\x01", b"\x7e"))
        content = start + chance.randbytes(chance.randrange(300))
        between = chance.randbytes(chance.randrange(20)).replace(b"\x7e", b"\xe7")
        if label != Label.RDM_END:
            data += between + Message(label, content).encode()
    return data + END


class Meeting(TestCase):
    def test_asks_for_the_serial_number_and_the_firmware_first(self) -> None:
        script = Script(maker=b"")
        with folder() as locks, EnttecPro(script.path, locks) as driver:
            self.assertEqual(driver.serial, 0x01020304)
            self.assertEqual(driver.firmware, (2, 4))
            self.assertEqual(driver.source, 0x454E01020304)
            self.assertEqual(repr(driver), f"EnttecPro('{script.path}': firmware 2.4, 454e:01020304)")
        self.assertEqual([message.encode().hex() for message in script.sent],
                         ["7e0a0000e7", "7e4d0000e7", "7e03020000" "00e7"])

    def test_firmware_below_2_4_has_no_rdm(self) -> None:
        for firmware in ((1, 44), (2, 3)):
            with self.assertRaisesRegex(LineFailed, f"firmware {firmware[0]}.{firmware[1]}; RDM needs 2.4"):
                with adapter(ListLine(), Widget(firmware=firmware)):
                    pass

    def test_a_dmxking_is_told_by_its_model(self) -> None:
        with adapter(Rig(one()), Widget((1, 0), manufacturer=DMXKING, device=4, ends_branches=True)) as (driver, _):
            self.assertEqual(driver.source, DMXKING << 32 | 0x01020304)
            self.assertEqual(discover(driver), {LAMP})
        for device in (0, 1, 2, 3):
            with self.assertRaisesRegex(LineFailed, "DMXking without RDM"):
                with adapter(ListLine(), Widget((4, 0), manufacturer=DMXKING, device=device)):
                    pass

    def test_a_usb_pro_says_nothing_of_its_maker(self) -> None:
        with folder() as locks, Emulator(Rig(one())) as emulator, EnttecPro(emulator.path, locks) as driver:
            self.assertEqual(driver.source, 0x454E01020304)
            self.assertEqual(discover(driver), {LAMP})

    def test_nothing_is_awaited_that_a_usb_pro_does_not_send(self) -> None:
        waits, read = [], Terminal.read_until

        def noted(terminal: Terminal, end: float) -> bytes:
            data = read(terminal, end)
            waits.extend([end] if end and not data else [])
            return data

        with folder() as locks, Emulator(Rig(one())) as emulator, mock.patch.object(Terminal, "read_until", noted):
            with EnttecPro(emulator.path, locks, ANSWER_SECONDS) as driver:
                self.assertTrue(driver.exchange(GET))
        self.assertEqual(waits, [])

    def test_another_maker_is_asked_for_its_firmware(self) -> None:
        with adapter(Rig(one()), Widget(manufacturer=0x7A70, device=1)) as (driver, _):
            self.assertEqual(driver.source, 0x7A7001020304)
        with self.assertRaises(LineFailed):
            with adapter(ListLine(), Widget((1, 0), manufacturer=0x7A70)):
                pass

    def test_a_device_that_does_not_answer(self) -> None:
        with folder() as locks, Emulator(ListLine(), Widget(hangs_after=0)) as emulator:
            began = time.monotonic()
            with self.assertRaisesRegex(LineFailed, "doesn't answer"):
                EnttecPro(emulator.path, locks)
            self.assertLess(time.monotonic() - began, SLOW)

    def test_a_serial_number_that_is_late_or_lost(self) -> None:
        script = Script()
        script.deaf = 1
        threading.Timer(0.5, script.say, [Message(Label.SERIAL_NUMBER, b"\x04\x03\x02\x01").encode()]).start()
        with folder() as locks, EnttecPro(script.path, locks) as driver:
            self.assertEqual((driver.serial, driver.firmware), (0x01020304, (2, 4)))
        script = Script()
        script.deaf = 1
        with folder() as locks, EnttecPro(script.path, locks) as driver:
            self.assertEqual((driver.serial, driver.firmware), (0x01020304, (2, 4)))

    def test_short_answers_are_no_answers(self) -> None:
        for keys in ({"serial": b"\x01\x02\x03"}, {"serial": b""}):
            with folder() as locks, self.assertRaises(LineFailed):
                EnttecPro(Script(**keys).path, locks)
        with folder() as locks, EnttecPro(Script(firmware=b"\x04\x02\x09").path, locks) as driver:
            self.assertIsNone(driver.firmware)

    def test_rubbish_before_the_answers(self) -> None:
        with adapter(Rig(one()), Widget(noise=received(bytes(513)) + b"\x00\xe7\x01")) as (driver, _):
            self.assertEqual(driver.serial, 0x01020304)

    def test_what_is_no_terminal(self) -> None:
        with folder() as directory:
            (directory / "file").write_bytes(b"")
            for name in ("file", "none", ""):
                with self.assertRaises(LineFailed):
                    EnttecPro(str(directory / name), directory)
            self.assertEqual(os.listdir(directory), ["file"])


class Exchanges(TestCase):
    def exchange(self, frame: bytes, *answers: bytes) -> Tuple[bytes, List[Message]]:
        script = Script(*answers)
        with folder() as locks, EnttecPro(script.path, locks, ANSWER_SECONDS) as driver:
            return driver.exchange(frame), script.sent[3:]

    def check(self, frame: bytes, answer: bytes, wanted: bytes) -> None:
        self.assertEqual(self.exchange(frame, answer)[0], wanted, answer.hex())

    def test_branches_go_by_label_11_and_all_else_by_7(self) -> None:
        mute = Packet(LAMP, 1, 0, 1, 0, 0, 0x10, 0x0002).encode()
        for frame, label in ((BRANCH, 11), (GET, 7), (mute, 7), (UNMUTE, 7)):
            self.assertEqual(self.exchange(frame, END), (b"", [Message(label, frame)]))

    def test_a_good_response_ends_at_once(self) -> None:
        began = time.monotonic()
        self.check(GET, received(REPLY), REPLY)
        self.assertLess(time.monotonic() - began, 2.0)

    def test_bytes_that_are_no_good_response_end_with_label_12(self) -> None:
        for data, status in ((REPLY, 1), (REPLY[:-1], 0), (REPLY + b"\x00", 0), (b"\xcc", 0), (b"\xcc\x01\x03", 2)):
            self.check(GET, received(data, status) + END, data)

    def test_the_end_of_such_bytes_is_awaited(self) -> None:
        script = Script(received(REPLY, 1))
        with folder() as locks, EnttecPro(script.path, locks) as driver:
            threading.Timer(0.3, script.say, [END]).start()
            began = time.monotonic()
            self.assertEqual(driver.exchange(GET), REPLY)
            self.assertGreater(time.monotonic() - began, 0.2)

    def test_the_first_of_such_bytes_count(self) -> None:
        self.check(GET, received(b"\xcc\x01") + received(b"\xcc\x02") + END, b"\xcc\x01")
        self.check(GET, received(b"\xcc\x01") + received(REPLY), REPLY)

    def test_messages_that_are_no_reply_are_ignored(self) -> None:
        dmx, empty, status_alone = received(bytes(513)), Message(Label.RECEIVED).encode(), received(b"")
        others = dmx + empty + status_alone + Message(9, bytes(46)).encode() + Message(77, b"\x00\x00").encode()
        self.check(GET, others + received(REPLY), REPLY)
        self.check(GET, others + END, b"")

    def test_the_first_bytes_after_a_branch_are_its_reply(self) -> None:
        for data, status in ((b"\xfe\xfe\xaa", 0), (b"\x00", 0), (b"\xff\x7e\xe7", 3), (REPLY, 0)):
            self.check(BRANCH, received(data, status) + received(REPLY) + END, data)

    def test_a_fault_without_bytes_is_not_silence(self) -> None:
        self.check(BRANCH, received(b"", 2) + END, b"\x02")
        self.check(BRANCH, received(b"", 0) + END, b"")
        self.check(BRANCH, Message(Label.RECEIVED).encode() + received(b"\xfe") + END, b"\xfe")

    def test_a_reply_has_257_bytes_at_most(self) -> None:
        self.check(BRANCH, received(b"\xfe" * 500) + END, b"\xfe" * 257)
        self.check(GET, received(b"\xcc" * 500) + END, b"\xcc" * 257)

    def test_what_is_left_over_is_dropped(self) -> None:
        script = Script(received(REPLY) + END + END + b"\x7e\x05\xff", END, received(REPLY))
        with folder() as locks, EnttecPro(script.path, locks) as driver:
            self.assertEqual([driver.exchange(GET) for _ in range(3)], [REPLY, b"", REPLY])

    def test_after_an_exchange_that_was_interrupted_the_past_is_settled(self) -> None:
        script = Script(b"", received(REPLY))
        with folder() as locks, EnttecPro(script.path, locks) as driver:
            with mock.patch("wurstlinen.lines.terminal.Terminal.read_until", side_effect=[b"", KeyboardInterrupt]):
                with self.assertRaises(KeyboardInterrupt):
                    driver.exchange(GET)
            self.assertEqual(driver.exchange(GET), REPLY)
        self.assertEqual([message.label for message in script.sent[3:]], [7, 10, 7])

    def test_any_messages_and_any_bytes_between_them(self) -> None:
        chance = random.Random(1)
        answers = [hostile(chance) for _ in range(300)]
        script = Script(*answers)
        with folder() as locks, EnttecPro(script.path, locks) as driver:
            for answer in answers:
                reply = driver.exchange(chance.choice((GET, BRANCH, UNMUTE)))
                self.assertLessEqual(len(reply), 257)
                self.assertIn(reply, answer)

    def test_without_an_end_what_came_counts_after_two_seconds(self) -> None:
        began = time.monotonic()
        self.check(GET, received(REPLY[:-1]), REPLY[:-1])
        self.assertTrue(2.0 <= time.monotonic() - began < SLOW)

    def test_nothing_at_all_fails_after_two_seconds(self) -> None:
        for frame in (GET, BRANCH):
            began = time.monotonic()
            with self.assertRaisesRegex(LineFailed, "within 2 seconds"):
                self.exchange(frame, b"")
            self.assertTrue(2.0 <= time.monotonic() - began < SLOW)

    def test_an_adapter_that_talks_without_an_end_fails_too(self) -> None:
        script = Script(b"", received(REPLY))
        with folder() as locks, EnttecPro(script.path, locks) as driver:
            talking = threading.Event()

            def talk() -> None:
                while not talking.wait(0.001):
                    script.say(received(bytes(20)))

            talker = threading.Thread(target=talk)
            talker.start()
            with self.assertRaises(LineFailed):
                driver.exchange(GET)
            talking.set()
            talker.join()
            self.assertEqual(driver.exchange(GET), REPLY)


class BranchEnds(TestCase):
    def learned(self, widget: Widget, branches: int = 4) -> Tuple[BranchEnd, float]:
        """What the driver knows after some answered branches, and the seconds that the shortest one took."""
        with adapter(Rig(one()), widget) as (driver, _):
            seconds = []
            for _ in range(branches):
                began = time.monotonic()
                self.assertEqual(driver.exchange(BRANCH), Rig(one()).exchange(BRANCH))
                seconds.append(time.monotonic() - began)
                # A late end mustn't end this one.
                self.assertTrue(driver.exchange(GET))
            return driver.branch_end, min(seconds)

    def test_an_end_is_awaited_once_it_came(self) -> None:
        for firmware in ((2, 4), (4, 14), (4, 15), (5, 0)):
            self.assertEqual(self.learned(Widget(firmware, ends_branches=True), 1)[0], BranchEnd.SENT)

    def test_late_ends_are_awaited(self) -> None:
        for firmware in ((2, 4), (4, 15)):
            for delay in (0.003, 0.05, 0.15, 0.3):
                widget = Widget(firmware, ends_branches=True, end_delay=delay)
                self.assertEqual(self.learned(widget, 3)[0], BranchEnd.SENT, widget)

    def test_new_firmware_without_ends_is_learned(self) -> None:
        self.assertEqual(self.learned(Widget((4, 15)), 2)[0], BranchEnd.UNKNOWN)
        end, seconds = self.learned(Widget((4, 15)), 20)
        self.assertEqual(end, BranchEnd.NOT_SENT)
        self.assertLess(seconds, 0.1)

    def test_old_firmware_without_ends_is_learned_in_six_seconds(self) -> None:
        end, seconds = self.learned(Widget((2, 4), ends_branches=False), 10)
        self.assertEqual(end, BranchEnd.NOT_SENT)
        self.assertLess(seconds, 2.0)

    def test_ends_that_come_after_all_are_noticed(self) -> None:
        with adapter(Rig(one()), Widget((4, 15))) as (driver, emulator):
            for _ in range(3):
                driver.exchange(BRANCH)
            self.assertEqual(driver.branch_end, BranchEnd.NOT_SENT)
            driver.exchange(GET)
            emulator.widget = Widget((4, 15), ends_branches=True)
            driver.exchange(BRANCH)
            time.sleep(0.05)
            driver.exchange(GET)
            self.assertEqual(driver.branch_end, BranchEnd.SENT)


class Faults(TestCase):
    def test_pieces_noise_and_status_bytes(self) -> None:
        made = random_scene(5, 1, 0.1)
        for widget in (Widget(piece=1), Widget(piece=7), Widget(noise=b"\x00\xe7\xff\x0c"), Widget(status=1),
                       Widget(noise=received(bytes(24))[:-1] + b"\x00"), Widget((4, 15), status=2)):
            with adapter(Rig(one()), widget) as (driver, emulator):
                emulator.line = Rig(made)
                self.assertEqual(discover(driver), uids_of(made), widget)
                self.assertEqual(Controller(driver).get(made.devices[0].uid, 0x0081).data, b"Wurstlinen")

    def test_an_adapter_that_hangs(self) -> None:
        with adapter(Rig(one()), Widget(hangs_after=5)) as (driver, emulator):
            for _ in range(5):
                self.assertTrue(driver.exchange(GET))
            for _ in range(2):
                with self.assertRaises(LineFailed):
                    driver.exchange(GET)
            emulator.widget = Widget()
            self.assertTrue(driver.exchange(GET))

    def test_a_signal_that_closes_it(self) -> None:
        with adapter(Rig(one())) as (driver, emulator):
            healthy = emulator.widget
            # Once between two steps, and once while it waits.
            with mock.patch("wurstlinen.lines.terminal.Terminal.write", side_effect=lambda _: driver.close()):
                with self.assertRaises(LineFailed):
                    driver.exchange(GET)
            self.assertTrue(driver.exchange(GET))
            emulator.widget = Widget(hangs_after=0)
            before = signal.signal(signal.SIGUSR1, lambda *_: driver.close())
            threading.Timer(0.2, os.kill, (os.getpid(), signal.SIGUSR1)).start()
            with self.assertRaises(LineFailed):
                driver.exchange(GET)
            signal.signal(signal.SIGUSR1, before)
            emulator.widget = healthy
            self.assertTrue(driver.exchange(GET))

    def test_two_threads_have_their_own_replies(self) -> None:
        frames = [Packet(LAMP, 1, number, 1, 0, 0, 0x20, 0x0082).encode() for number in range(200)]
        rig = Rig(one(label="Lamp"))
        with adapter(Rig(one(label="Lamp"))) as (driver, _):
            heard: Dict[bytes, bytes] = {}

            def ask(part: List[bytes]) -> None:
                heard.update((frame, driver.exchange(frame)) for frame in part)

            threads = [threading.Thread(target=ask, args=(frames[start::4],)) for start in range(4)]
            for thread in threads:
                thread.start()
            for thread in threads:
                thread.join()
        self.assertEqual(heard, {frame: rig.exchange(frame) for frame in frames})

    def test_a_line_that_fails_behind_the_adapter(self) -> None:
        with adapter(Rig(scene(devices=[{"uid": "1234:00000001"}], fails=[1])), Widget()) as (driver, _):
            self.assertTrue(driver.exchange(GET))
            with self.assertRaises(LineFailed):
                driver.exchange(GET)
            self.assertTrue(driver.exchange(GET))

    def test_unplugging_fails_and_opening_again_works(self) -> None:
        for frame in (GET, BRANCH, UNMUTE):
            with folder() as directory:
                path = directory / "ttyUSB0"
                with Emulator(Rig(one()), Widget(manufacturer=ENTTEC, leaves_after=3)) as emulator:
                    path.symlink_to(emulator.path)
                    driver = EnttecPro(str(path), directory, ANSWER_SECONDS)
                    for _ in range(3):
                        driver.exchange(frame)
                    with self.assertRaises(LineFailed):
                        driver.exchange(frame)
                    emulator.wait()
                    self.assertEqual(os.listdir(directory), ["ttyUSB0"])
                    with self.assertRaises(LineFailed):
                        driver.exchange(frame)
                path.unlink()
                with Emulator(Rig(one()), Widget(manufacturer=ENTTEC)) as emulator:
                    path.symlink_to(emulator.path)
                    self.assertTrue(driver.exchange(GET))
                    driver.close()
                    with EnttecPro(str(path), directory, ANSWER_SECONDS) as other:
                        self.assertTrue(other.exchange(GET))
