"""Asking devices that need time, over the proved queue. Without the C library a stand-in takes its place."""
from __future__ import annotations

import threading
from typing import Any, List, Optional

from asking import (
    DEVICE, EMPTY, OTHER_DEVICE, Clock, Device, Queueing, StandInClient, ack, nack, timer,
)
from common import SOURCE, ListLine, TestCase, has_library, needs_library, one
from wurstlinen import (
    AckType, Answer, Asker, Completion, Controller, Request, RequestClass, ResponseClass, Status, Uid, Unserved,
)
from wurstlinen._ask import MOST_EXCHANGES, is_echoed
from wurstlinen.line import LineFailed
from wurstlinen.lines import Rig
from wurstlinen.lines.numbers import CommandClass, Pid, ResponseType
from wurstlinen.lines.packets import Packet, decode_packet
from wurstlinen.parameters import STANDARD

LABEL = Pid.DEVICE_LABEL
QUEUED = Pid.QUEUED_MESSAGE
ERROR = b"\x04"
LAST = b"\x01"
LAMP = ack(LABEL, b"Lamp")
HOURS = 0x0400

HAS_LIBRARY = has_library()


class Asks(TestCase):
    """Each test with a device and a clock of its own."""

    def setUp(self) -> None:
        self.clock = Clock()
        self.asker: Optional[Asker] = None

    def client(self) -> Any:
        return Controller(Uid.from_number(SOURCE)).join(8) if HAS_LIBRARY else StandInClient()

    def ask(self, line: Any, pid: int = LABEL, data: bytes = b"", *, is_set: bool = False, wait: float = 10.0,
            sub_device: int = 0) -> Answer:
        """The answer of the device. The next call of a test uses the same client."""
        if self.asker is None:
            self.asker = Asker(self.client(), line, wait, clock=self.clock.time, sleep=self.clock.sleep)
        self.asker.line, self.asker.wait = line, wait
        request_class = RequestClass.SET if is_set else RequestClass.GET
        return self.asker.ask(Request(DEVICE, pid, data, sub_device, request_class))

    def check(self, answer: Answer, data: bytes, queued: int = 0) -> None:
        """An answer in time, with this data and as many other messages."""
        self.assertFalse(answer.is_late)
        self.assertEqual((answer.completion.status, answer.completion.data), (Status.COMPLETED, data))
        self.assertEqual((len(answer.queued), answer.earlier), (queued, ()))


class Prompt(Asks):
    """Devices that need no time."""

    def test_an_answer_at_once(self) -> None:
        device = Device(lambda command: LAMP)
        self.check(self.ask(device), b"Lamp")
        self.assertEqual((device.asked, self.clock.naps), ([(LABEL, b"")], []))

    def test_a_refusal(self) -> None:
        answer = self.ask(Device(lambda command: nack(LABEL)))
        assert answer.completion.head is not None
        self.assertEqual((answer.completion.head.ack, answer.is_late, self.clock.naps), (AckType.NACK, False, []))

    def test_silence_and_garbage(self) -> None:
        for reply, is_timeout in ((b"", True), (b"\xcc\x01", False)):
            answer = self.ask(ListLine(reply))
            self.assertIsNone(answer.completion.head)
            self.assertEqual((answer.completion.status == Status.TIMEOUT, self.clock.naps), (is_timeout, []))

    def test_a_broadcast(self) -> None:
        line = ListLine(b"")
        asker = Asker(self.client(), line)
        self.assertEqual(asker.set(Uid.ALL, HOURS, bytes(4)).completion.status, Status.WAS_BROADCAST)

    def test_a_line_that_fails(self) -> None:
        class Failing:
            def exchange(self, frame: bytes) -> bytes:
                raise LineFailed("unplugged")
        self.assertEqual(self.ask(Failing()).completion.status, Status.FAILED_TO_SEND)

    def test_a_queued_message_that_is_asked_for(self) -> None:
        answers = [timer(QUEUED, 5), timer(QUEUED, 7), LAMP]
        device = Device(lambda command: answers.pop(0))
        self.check(self.ask(device, QUEUED, ERROR), b"Lamp")
        self.assertEqual((self.clock.naps, device.asked), ([0.5, 0.7], [(QUEUED, ERROR)] * 3))
        self.clock.naps.clear()
        self.assertTrue(self.ask(Device(lambda command: timer(QUEUED, 5)), QUEUED, ERROR).is_late)
        self.assertAlmostEqual(sum(self.clock.naps), 10.0)


class Interrupted(Device):
    """A device on a line that is interrupted after so many exchanges, with this exception."""

    def __init__(self, answer: Any, exchanges: int, fault: BaseException = KeyboardInterrupt()) -> None:
        super().__init__(answer)
        self.exchanges, self.fault = exchanges, fault

    def exchange(self, frame: bytes) -> bytes:
        if len(self.commands) == self.exchanges:
            raise self.fault
        return super().exchange(frame)


class Waits(Asks):
    """Devices that need time."""

    def test_a_rig_that_needs_three_tenths(self) -> None:
        rig = Rig(one(timer=3, label="Lamp"), self.clock.time)
        self.check(self.ask(rig), b"Lamp")
        self.assertEqual((self.clock.naps, rig.exchanges), ([0.3], 3))

    def test_a_set(self) -> None:
        rig = Rig(one(timer=3, label="Lamp"), self.clock.time)
        answer = self.ask(rig, data=b"Front", is_set=True)
        self.check(answer, b"")
        assert answer.completion.head is not None
        self.assertEqual(answer.completion.head.response_class, ResponseClass.SET)
        self.check(self.ask(rig), b"Front")

    def test_no_time_at_all(self) -> None:
        rig = Rig(one(timer=0, label="Lamp"), self.clock.time)
        self.check(self.ask(rig), b"Lamp")
        self.assertEqual(self.clock.naps, [0.0])

    def test_the_wait_is_reported_first(self) -> None:
        waits: List[float] = []
        rig = Rig(one(timer=3, label="Lamp"), self.clock.time)
        asker = Asker(self.client(), rig, clock=self.clock.time, sleep=self.clock.sleep, on_wait=waits.append)
        self.check(asker.get(DEVICE, LABEL), b"Lamp")
        self.assertEqual(waits, [0.3])
        # It is what the device asked for, also if the wait is shorter or longer.
        asker.line, asker.wait = Device(Queueing(65535)), 0.7
        self.assertTrue(asker.get(DEVICE, LABEL).is_late)
        asker.line = Device(Queueing(3))
        self.assertTrue(asker.set(DEVICE, LABEL, b"x").is_late)
        self.assertEqual(waits[1:], [6553.5, 0.3, 0.3])
        self.assertEqual([round(nap, 9) for nap in self.clock.naps[:3]], [0.3, 0.7, 0.3])

    def test_a_device_that_wants_more_than_the_caller_waits(self) -> None:
        device = Device(Queueing(65535))
        self.assertTrue(self.ask(device).is_late)
        self.assertEqual(self.clock.naps, [10.0])
        self.assertEqual(device.asked, [(LABEL, b""), (QUEUED, ERROR)])

    def test_a_device_that_is_ready_at_the_end(self) -> None:
        rig = Rig(one(timer=100, label="Lamp"), self.clock.time)
        self.check(self.ask(rig), b"Lamp")

    def test_a_caller_that_does_not_wait(self) -> None:
        device = Device(Queueing(1, LAMP))
        self.assertTrue(self.ask(device, wait=0.0).is_late)
        self.assertEqual((device.asked, self.clock.naps), ([(LABEL, b"")], []))

    def test_a_device_that_needs_longer_than_it_says(self) -> None:
        answers, later = Queueing(1), [LAMP]

        def answer(command: Packet) -> Any:
            if self.clock.now >= 104.0 and later:
                answers.messages.append(later.pop())
            return answers(command)
        self.check(self.ask(Device(answer)), b"Lamp")
        self.assertLess(self.clock.now, 108.0)

    def test_a_queue_that_says_that_it_needs_longer(self) -> None:
        line = Device(Queueing(3, timer(LABEL, 5), LAMP))
        self.check(self.ask(line), b"Lamp")
        self.assertEqual(line.asked, [(LABEL, b""), *[(QUEUED, ERROR)] * 3])
        self.assertEqual(self.clock.naps, [0.3, 0.6])

    def test_a_time_of_another_size(self) -> None:
        for data in (b"", b"\x01", b"\x01\x00\x00"):
            answers = [(ResponseType.ACK_TIMER, LABEL, data, CommandClass.GET), LAMP, EMPTY]
            self.check(self.ask(Device(lambda command, answers=answers: answers.pop(0))), b"Lamp")
        self.assertEqual(self.clock.naps, [0.0, 0.0, 0.0])

    def test_a_refusal_that_was_queued(self) -> None:
        answer = self.ask(Device(Queueing(1, nack(LABEL, b"\x00\x06", CommandClass.SET))), data=b"x", is_set=True)
        self.check(answer, b"\x00\x06")
        assert answer.completion.head is not None
        self.assertEqual(answer.completion.head.ack, AckType.NACK)

    def test_a_device_without_a_queue(self) -> None:
        answers = [timer(LABEL, 2), nack(QUEUED), timer(LABEL, 2), LAMP]
        device = Device(lambda command: answers.pop(0))
        self.check(self.ask(device), b"Lamp")
        self.assertEqual(device.asked, [(LABEL, b""), (QUEUED, ERROR), (LABEL, b""), (LABEL, b"")])

    def test_a_set_is_sent_once(self) -> None:
        for queued in (nack(QUEUED), EMPTY):
            for tenths in (0, 1):
                device = Device(lambda command, tenths=tenths, queued=queued: queued if command.pid == QUEUED
                                else timer(LABEL, tenths, CommandClass.SET))
                self.assertTrue(self.ask(device, data=b"x", is_set=True).is_late)
                self.assertEqual([pid for pid, _ in device.asked].count(LABEL), 1)
                self.assertLess(len(device.asked), 20)
                self.assertAlmostEqual(sum(self.clock.naps), 10.0)
                self.clock.naps.clear()

    def test_a_device_that_leaves(self) -> None:
        answers = [timer(LABEL, 2)]
        device = Device(lambda command: answers.pop() if answers else None)
        answer = self.ask(device)
        self.assertEqual(answer.completion.status, Status.TIMEOUT)
        self.assertLessEqual(sum(self.clock.naps), 10.0)
        # Two tries for queued messages, of five exchanges each.
        self.assertLessEqual(len(device.commands), 12)

    def test_a_line_that_fails_during_the_wait(self) -> None:
        class Unplugged(Device):
            def exchange(self, frame: bytes) -> bytes:
                if len(self.commands) == 1:
                    raise LineFailed("unplugged")
                return super().exchange(frame)
        for is_set in (False, True):
            line = Unplugged(Queueing(1, LAMP))
            self.assertEqual(self.ask(line, is_set=is_set).completion.status, Status.FAILED_TO_SEND)
            self.assertEqual(self.clock.naps, [0.1])
            self.clock.naps.clear()

    def test_another_exception_passes_through(self) -> None:
        with self.assertRaises(KeyboardInterrupt):
            self.ask(Interrupted(Queueing(1, LAMP), 1))


class Others(Asks):
    """Messages that aren't the answer."""

    def test_other_messages_are_returned(self) -> None:
        status = ack(Pid.STATUS_MESSAGES, bytes.fromhex("000004002100050000"))
        messages = [ack(HOURS, bytes(4)), LAMP, ack(LABEL, b"", CommandClass.SET), nack(HOURS), status]
        answer = self.ask(Device(Queueing(1, *messages)))
        self.check(answer, b"Lamp", 4)
        self.assertEqual([(each.head.pid, each.data) for each in answer.queued if each.head is not None],
                         [(HOURS, bytes(4)), (LABEL, b""), (HOURS, b"\x00\x00"), (Pid.STATUS_MESSAGES, status[2])])

    def test_a_refusal_of_a_get_by_number(self) -> None:
        answer = self.ask(Device(Queueing(1, nack(Pid.SENSOR_VALUE, b"\x00\x06"))), Pid.SENSOR_VALUE, b"\x02")
        self.check(answer, b"\x00\x06")

    def test_the_newest_answer_counts(self) -> None:
        answer = self.ask(Device(Queueing(1, ack(LABEL, b"old"), LAMP)))
        self.check(answer, b"Lamp", 1)
        self.assertEqual(answer.queued[0].data, b"old")

    def test_the_answer_for_another_sensor(self) -> None:
        value = Pid.SENSOR_VALUE
        answer = self.ask(Device(Queueing(1, ack(value, b"\x02" + bytes(8)), ack(value, b"\x01" + bytes(8)))),
                          value, b"\x02")
        self.check(answer, b"\x02" + bytes(8), 1)

    def test_which_answers_begin_with_the_data(self) -> None:
        for parameter in STANDARD.parameters:
            message = parameter.get
            if message is None or not message.request or parameter.number in (QUEUED, Pid.STATUS_MESSAGES):
                continue
            begins = message.response[:len(message.request)] == message.request
            self.assertEqual(is_echoed(Request(DEVICE, parameter.number)), begins, parameter.name)
        self.assertFalse(is_echoed(Request(DEVICE, 0x8001, b"\x01")))
        self.assertFalse(is_echoed(Request(DEVICE, LABEL, b"x", 0, RequestClass.SET)))

    def test_the_answer_for_another_sub_device(self) -> None:
        class SubDevices(Device):
            def exchange(self, frame: bytes) -> bytes:
                reply = decode_packet(super().exchange(frame))
                assert reply is not None
                is_message = self.commands[-1].pid == QUEUED and reply.pid == LABEL
                return reply._replace(sub_device=7, data=b"seven").encode() if is_message else reply.encode()
        self.check(self.ask(SubDevices(Queueing(1, LAMP)), sub_device=7), b"seven")
        answer = self.ask(SubDevices(Queueing(1, LAMP)), sub_device=3)
        self.assertTrue(answer.is_late)
        self.assertEqual([each.data for each in answer.queued], [b"seven"])

    def test_all_sub_devices_are_answered_by_the_root(self) -> None:
        device = Device(Queueing(1, ack(LABEL, b"", CommandClass.SET)))
        self.check(self.ask(device, data=b"x", is_set=True, sub_device=0xFFFF), b"")

    def test_status_messages_are_not_taken_from_the_queue(self) -> None:
        report = bytes.fromhex("000004002100050000")
        answers = [timer(Pid.STATUS_MESSAGES, 1), EMPTY, EMPTY, ack(Pid.STATUS_MESSAGES, report)]
        self.check(self.ask(Device(lambda command: answers.pop(0)), Pid.STATUS_MESSAGES, b"\x02"), report)

    def test_a_device_that_answers_too_much(self) -> None:
        device = Device(lambda command: ack(HOURS, bytes(4)) if command.pid == QUEUED else timer(LABEL, 1))
        answer = self.ask(device)
        self.assertTrue(answer.is_late)
        self.assertLessEqual(len(device.commands), MOST_EXCHANGES + 1)

    def test_a_device_that_repeats_its_answer(self) -> None:
        device = Device(lambda command: LAMP if command.pid == QUEUED else timer(LABEL, 1))
        self.assertEqual(self.ask(device).completion.data, b"Lamp")
        self.assertLessEqual(len(device.commands), MOST_EXCHANGES)

    def test_a_device_that_always_needs_time(self) -> None:
        for tenths in (0, 1, 3):
            self.setUp()
            device = Device(lambda command, tenths=tenths: timer(command.pid, tenths))
            self.assertTrue(self.ask(device).is_late)
            self.assertLess(len(device.commands), 250)
            self.assertAlmostEqual(sum(self.clock.naps), 10.0)

    def test_a_slow_line_with_endless_messages(self) -> None:
        def answer(command: Packet) -> Any:
            self.clock.now += 1.0
            return ack(HOURS) if command.pid == QUEUED else timer(LABEL, 1)
        self.assertTrue(self.ask(Device(answer)).is_late)
        self.assertLess(self.clock.now, 100.0 + 10.0 + 3.5)


class Losses(Asks):
    """Queued messages that don't arrive. E1.20, queued message: GET_LAST_MESSAGE repeats the last one."""

    def test_the_lost_message_is_repeated(self) -> None:
        answers = Queueing(1, ack(HOURS, bytes(4)), LAMP)
        answers.lost_replies = [1]
        device = Device(answers)
        self.check(self.ask(device), b"Lamp", 1)
        # It is repeated twice, since the first time it may lack its first parts.
        self.assertEqual(device.asked, [(LABEL, b""), (QUEUED, ERROR), (QUEUED, ERROR), (QUEUED, LAST), (QUEUED, LAST),
                                        (QUEUED, ERROR)])

    def test_several_losses(self) -> None:
        answers = Queueing(1, ack(HOURS, bytes(4)), LAMP)
        answers.lost_replies = [1, 2, 3, 4]
        self.check(self.ask(Device(answers)), b"Lamp", 1)

    def test_a_lost_command_repeats_an_old_message(self) -> None:
        answers = Queueing(1, ack(LABEL, b"old"))
        device = Device(answers)
        self.check(self.ask(device), b"old")
        answers.messages.append(LAMP)
        answers.last = ack(LABEL, b"old")
        answers.lost_commands = [2]
        self.check(self.ask(device), b"Lamp")

    def test_a_repeated_message_of_unknown_age_is_no_answer(self) -> None:
        answers = Queueing(1)
        answers.last = ack(LABEL, b"old")
        answers.lost_commands = [0]

        def answer(command: Packet) -> Any:
            labels = sum(pid == LABEL for pid, _ in device.asked)
            return LAMP if command.pid == LABEL and labels > 1 else answers(command)
        device = Device(answer)
        got = self.ask(device)
        self.assertEqual((got.completion.data, [each.data for each in got.queued]), (b"Lamp", [b"old"]))

    def test_nothing_is_repeated_after_the_end(self) -> None:
        answers = Queueing(1, LAMP)
        answers.lost_replies = [1]
        self.check(self.ask(Device(answers)), b"Lamp")

    def test_a_repeated_report_is_kept(self) -> None:
        report = ack(Pid.STATUS_MESSAGES, bytes.fromhex("000004002100050000"))
        answers = Queueing(1, LAMP, report)
        answers.lost_replies = [1]
        self.check(self.ask(Device(answers)), b"Lamp", 1)

    def test_each_place_of_up_to_four_losses(self) -> None:
        for first in range(4):
            for count in range(1, 5):
                self.setUp()
                answers = Queueing(1, LAMP)
                answers.lost_replies = list(range(first, first + count))

                def answer(command: Packet, answers: Queueing = answers) -> Any:
                    if command.pid == LABEL and not answers.messages:
                        answers.messages.append(LAMP)
                    return answers(command)
                got = self.ask(Device(answer))
                self.assertEqual(got.completion.data, b"Lamp", (first, count))


class Queues(Asks):
    """What else goes on in the queue."""

    def test_earlier_outcomes_are_returned(self) -> None:
        client = self.client()
        line = Rig(one(label="Lamp"))
        client.submit(Request(DEVICE, Pid.MANUFACTURER_LABEL))
        client.submit(Request(OTHER_DEVICE, LABEL))
        answer = Asker(client, line).get(DEVICE, LABEL)
        self.assertEqual(answer.completion.data, b"Lamp")
        self.assertEqual([each.number for each in answer.earlier], [0, 1])

    def test_a_paused_queue(self) -> None:
        client = self.client()
        client.queue.pause()
        asker = Asker(client, ListLine(), 2.0, clock=self.clock.time, sleep=self.clock.sleep)
        with self.assertRaises(Unserved):
            asker.get(DEVICE, LABEL)
        self.assertAlmostEqual(sum(self.clock.naps), 2.0, places=1)


class Kept(Asks):
    """What was collected before an exception."""

    def test_earlier_outcomes_of_a_paused_queue(self) -> None:
        client = self.client()
        asker = Asker(client, Rig(one(label="Lamp")), 1.0, clock=self.clock.time, sleep=self.clock.sleep)
        client.submit(Request(DEVICE, Pid.MANUFACTURER_LABEL))
        client.queue._step(asker.line)
        client.queue.pause()
        with self.assertRaises(Unserved) as caught:
            asker.get(DEVICE, LABEL)
        self.assertEqual([each.number for each in caught.exception.earlier], [0])
        self.assertEqual(caught.exception.queued, ())
        # They are handed out once.
        with self.assertRaises(Unserved) as caught:
            asker.get(DEVICE, LABEL)
        self.assertEqual(caught.exception.earlier, ())

    def test_messages_of_a_device(self) -> None:
        report = ack(Pid.STATUS_MESSAGES, bytes.fromhex("000004002100050000"))
        for exchanges, kept in ((1, []), (2, [bytes(4)]), (3, [bytes(4), b"Lamp"])):
            self.setUp()
            with self.assertRaises(KeyboardInterrupt):
                self.ask(Interrupted(Queueing(1, ack(HOURS, bytes(4)), LAMP, report), exchanges))
            answer = self.ask(Device(lambda command: LAMP))
            self.assertEqual([each.data for each in answer.queued], kept)
            self.assertEqual(self.ask(Device(lambda command: LAMP)).queued, ())

    def test_messages_before_the_queue_is_paused(self) -> None:
        client = self.client()
        answers = Queueing(1, ack(HOURS, bytes(4)), LAMP)

        def answer(command: Packet) -> Any:
            if len(device.commands) == 3:
                client.queue.pause()
            return answers(command)
        device = Device(answer)
        asker = Asker(client, device, 1.0, clock=self.clock.time, sleep=self.clock.sleep)
        with self.assertRaises(Unserved) as caught:
            asker.get(DEVICE, LABEL)
        self.assertEqual([each.data for each in caught.exception.queued], [bytes(4), b"Lamp"])
        self.assertEqual(asker.kept.outcomes, [])

    def test_an_answer_before_the_line_fails(self) -> None:
        line = Interrupted(Queueing(1, ack(HOURS, bytes(4)), LAMP), 3, LineFailed("unplugged"))
        answer = self.ask(line)
        self.assertEqual(answer.completion.status, Status.FAILED_TO_SEND)
        self.assertEqual([each.data for each in answer.queued], [bytes(4), b"Lamp"])

    def test_earlier_outcomes_of_an_interrupt(self) -> None:
        client = self.client()
        asker = Asker(client, Interrupted(Queueing(1), 2), clock=self.clock.time, sleep=self.clock.sleep)
        client.submit(Request(OTHER_DEVICE, LABEL))
        with self.assertRaises(KeyboardInterrupt):
            asker.get(DEVICE, LABEL)
        asker.line = Device(lambda command: LAMP)
        self.assertEqual(asker.get(DEVICE, LABEL).earlier[0].number, 0)


@needs_library
class Proved(Asks):
    """What only the proved queue has."""

    def test_a_client_asks(self) -> None:
        rig = Rig(one(timer=0, label="Lamp"))
        with Controller("7a70:00000100") as controller:
            client = controller.join(1)
            self.check(client.ask("1234:00000001", LABEL, line=rig), b"Lamp")
            self.check(client.ask("1234:00000001", LABEL, "Front", request_class=RequestClass.SET, line=rig), b"")
            self.check(client.ask("1234:00000001", LABEL, line=rig, wait=1.0), b"Front")

    def test_a_client_keeps_what_was_collected(self) -> None:
        with Controller("7a70:00000100") as controller:
            client = controller.join(3)
            number = client.get(OTHER_DEVICE, LABEL)
            with self.assertRaises(KeyboardInterrupt):
                client.ask(DEVICE, LABEL, line=Interrupted(Queueing(0, LAMP), 2))
            answer = client.ask(DEVICE, LABEL, line=Device(lambda command: LAMP))
            self.assertEqual(answer.earlier[0].number, number)

    def test_texts_are_taken(self) -> None:
        rig = Rig(one(label="Lamp"))
        with Controller("7a70:00000100") as controller:
            client = controller.join(2)
            client.set("1234:00000001", LABEL, "Front")
            client.get("1234:00000001", LABEL)
            controller.run(rig)
            self.assertEqual([client.next_completion().data for _ in range(2)], [b"", b"Front"])
            with self.assertRaises(ValueError):
                client.set("1234:00000001", LABEL, "Fröhlich")
            with self.assertRaises(ValueError):
                client.get("1234", LABEL)

    def test_every_frame_is_in_the_log(self) -> None:
        from wurstlinen import Session, entries
        device = Device(Queueing(2, ack(HOURS, bytes(4)), LAMP))
        with Session(Uid.from_number(SOURCE)) as session:
            asker = Asker(session.join(1), device, clock=self.clock.time, sleep=self.clock.sleep)
            self.check(asker.get(DEVICE, LABEL), b"Lamp", 1)
            logged = [session.entry(index) for index in range(session.entry_count())]
        frames = [each.frame for each in logged if isinstance(each, entries.Send)]
        self.assertEqual(frames, [command.encode() for command in device.commands])
        self.assertEqual(len(frames), 4)

    def test_another_thread_has_the_line(self) -> None:
        begun, may_go = threading.Event(), threading.Event()

        class Held(Device):
            def exchange(self, frame: bytes) -> bytes:
                if not self.commands:
                    begun.set()
                    may_go.wait(20)
                return super().exchange(frame)
        line = Held(lambda command: LAMP)
        with Controller(Uid.from_number(SOURCE)) as controller:
            first, second = controller.join(1), controller.join(1)
            first.get(DEVICE, LABEL)
            thread = threading.Thread(target=controller.run, args=(line,))
            thread.start()
            begun.wait(20)
            threading.Timer(0.2, may_go.set).start()
            self.check(second.ask(DEVICE, LABEL, line=line), b"Lamp")
            thread.join()
            self.assertIsInstance(first.next_completion(), Completion)
