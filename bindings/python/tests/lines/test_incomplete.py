"""Answers that may lack their first parts, since another program's GET of the same lost a part.

The device is a rig's, whose parameter answers part after part, whatever comes in between.
"""
from __future__ import annotations

import contextlib
import json
from typing import Any, Iterator, List, Sequence, Union
from unittest import mock

from asking import DEVICE, Clock, Device, ack
from common import TestCase, folder, needs_library, scene
from fronts import called
from servers import Program, here
from wurstlinen import AckType, Asker, Completion, Controller, Incomplete, Session, Status, Uid, Unanswered, connect
from wurstlinen.lines import Rig
from wurstlinen.lines.numbers import Pid
from wurstlinen.lines.scene import Scene

LABEL = Pid.DEVICE_LABEL
PARTS = (b"Front ", b"of the ", b"stage")
WHOLE = b"Front of the stage"
UID = "1234:00000001"
GET = {"do": "get", "uid": UID, "pid": "0082"}
TIMEOUT = 3


def in_parts(*losses: int, parts: Sequence[bytes] = PARTS) -> Scene:
    """A scene whose device has a label in these parts. The replies to these exchanges are lost."""
    params = [{"pid": "0082", "parts": [part.hex() for part in parts]}]
    return scene(source="7ff0:00000001", devices=[{"uid": UID, "params": params}], losses=list(losses))


class Breaking:
    """A line on which each GET of the other client loses its second part.

    `again` lets that client ask once more, before the client does that got the rest.
    """

    def __init__(self) -> None:
        self.rig = Rig(in_parts())
        self.again: Any = lambda: None
        self.broken = 0
        self.position = 0
        self.is_others = True

    def exchange(self, frame: bytes) -> bytes:
        """The device's reply, or what is left of it."""
        reply = self.rig.exchange(frame)
        self.position = (self.position + 1) % len(PARTS)
        if self.is_others and self.position == 2:
            self.is_others = False
            self.broken += 1
            return b""
        if not self.is_others and self.position == 0:
            self.is_others = True
            self.again()
        return reply


@needs_library
class Asks(TestCase):
    """A client asks what another one's GET has broken off."""

    def test_each_part_that_another_client_loses(self) -> None:
        for kind in (Controller, Session):
            for lost in range(len(PARTS)):
                rig = Rig(in_parts(lost))
                with kind("7a70:00000100") as queue:
                    other, client = queue.join(1), queue.join(1)
                    other.get(DEVICE, LABEL)
                    answer = client.ask(DEVICE, LABEL, line=rig)
                    self.assertEqual((answer.completion.data, answer.completion.may_be_incomplete), (WHOLE, False))
                    self.assertEqual((answer.queued, answer.earlier), ((), ()))
                    self.assertEqual(other.next_completion(), Completion(0, Status.TIMEOUT, None, b""))
                    # What the device had left, or all of it, and then all of it.
                    self.assertEqual(rig.exchanges, lost + 1 + (len(PARTS[lost + 1:]) or len(PARTS)) + len(PARTS))

    def test_a_completion_says_it(self) -> None:
        with Controller("7a70:00000100") as queue:
            client = queue.join(3)
            for _ in range(3):
                client.get(DEVICE, LABEL)
            queue.run(Rig(in_parts(1)))
            done = [client.next_completion() for _ in range(3)]
        self.assertEqual([(each.data, each.may_be_incomplete) for each in done if each is not None],
                         [(b"", False), (b"stage", True), (WHOLE, False)])

    def test_the_own_loss_is_said_and_the_next_answer_is_whole(self) -> None:
        rig = Rig(in_parts(1))
        with Controller("7a70:00000100") as queue:
            asker = Asker(queue.join(1), rig)
            self.assertEqual(asker.get(DEVICE, LABEL).completion.status, Status.TIMEOUT)
            answer = asker.get(DEVICE, LABEL)
            self.assertEqual((answer.completion.data, answer.earlier), (WHOLE, ()))

    def test_a_line_that_loses_every_other_reply(self) -> None:
        rig = Rig(in_parts(*range(1, 100, 2)))
        with Controller("7a70:00000100") as queue:
            asker = Asker(queue.join(1), rig)
            statuses = {asker.get(DEVICE, LABEL).completion.status for _ in range(10)}
        # At most two GETs each, with one or two exchanges.
        self.assertEqual((statuses, rig.exchanges <= 40), ({Status.TIMEOUT}, True))

    def test_no_rest_is_given_if_all_break_off(self) -> None:
        line = Breaking()
        with Controller("7a70:00000100") as queue:
            other, client = queue.join(20), queue.join(2)
            line.again = lambda: other.get(DEVICE, LABEL)
            other.get(DEVICE, LABEL)
            clock = Clock()
            asker = Asker(client, line, clock=clock.time, sleep=clock.sleep)
            with self.assertRaises(Incomplete) as caught:
                asker.get(DEVICE, LABEL)
            self.assertIsInstance(caught.exception, Unanswered)
            self.assertEqual((caught.exception.queued, caught.exception.earlier, clock.naps), ((), (), []))
            # Six GETs of the client, and the other one's before each, and behind the last.
            self.assertEqual(line.broken, 7)
            asker.line = line.rig
            self.assertEqual(asker.get(DEVICE, LABEL).completion.data, WHOLE)

    def test_an_interrupt_hands_out_no_rest_later(self) -> None:
        class Interrupted(Rig):
            def exchange(self, frame: bytes) -> bytes:
                if self.exchanges == 4:
                    raise KeyboardInterrupt
                return super().exchange(frame)
        with Controller("7a70:00000100") as queue:
            other, client = queue.join(1), queue.join(2)
            other.get(DEVICE, LABEL)
            asker = Asker(client, Interrupted(in_parts(1)))
            with self.assertRaises(KeyboardInterrupt):
                asker.get(DEVICE, LABEL)
            asker.line = Rig(in_parts())
            answer = asker.get(DEVICE, LABEL)
            self.assertEqual((answer.completion.data, [each.data for each in answer.earlier
                                                       if isinstance(each, Completion)]), (WHOLE, [b""]))


class Fixtures:
    """A client that polls fixtures. Each has timed out once."""

    def __init__(self, queue: Union[Controller, Session], count: int) -> None:
        self.is_off = True
        self.client = queue.join(1)
        self.line = Device(lambda command: None if self.is_off else ack(command.pid, WHOLE))
        assert {self.polled(number).status for number in range(count)} == {Status.TIMEOUT}
        self.is_off = False

    def polled(self, number: int) -> Completion:
        """How a GET of this fixture ends."""
        self.client.get(Uid(0x1234, number), LABEL)
        self.client.queue.run(self.line)
        done = self.client.next_completion()
        assert done is not None
        return done

    def flagged(self, numbers: Sequence[int]) -> List[int]:
        """Those of them whose answers may be incomplete."""
        return [number for number in numbers if self.polled(number).may_be_incomplete]


@needs_library
class Polls(TestCase):
    """Many fixtures are off for a while."""

    def test_each_answer_is_flagged_once(self) -> None:
        for count in (100, 1_024):
            numbers = list(range(count))
            with Controller("7a70:00000100") as queue:
                fixtures = Fixtures(queue, count)
                self.assertEqual([fixtures.flagged(numbers) for _ in range(3)], [numbers, [], []])

    def test_a_rotation_goes_on(self) -> None:
        with Session("7a70:00000100", 2_000) as queue:
            fixtures = Fixtures(queue, 100)
            queue.rotate(2_000).dispose()
            numbers = list(range(100))
            self.assertEqual([fixtures.flagged(numbers) for _ in range(2)], [numbers, []])

    def test_more_than_are_noted(self) -> None:
        numbers = list(range(1_025))
        with Controller("7a70:00000100") as queue:
            fixtures = Fixtures(queue, len(numbers))
            self.assertEqual(fixtures.flagged(numbers), numbers)
            # The 1,024 that were last whole aren't flagged.
            self.assertEqual(fixtures.flagged(numbers[1:]), [])
            self.assertEqual(fixtures.flagged([0, 0]), [0])
            self.assertEqual(fixtures.flagged([2, 1]), [1])


@needs_library
class Served(TestCase):
    """The same by a server."""

    @contextlib.contextmanager
    def broken(self, lost: int, parts: Sequence[bytes] = PARTS) -> Iterator[str]:
        """A line whose server has made a GET that lost a part."""
        with here(lambda: Rig(in_parts(lost, parts=parts))) as made:
            self.path = made.place.path
            with Program(made.place.path) as program:
                program.ask(GET)
                self.assertEqual(program.read(), {"request": 0, "status": TIMEOUT})
                yield made.name

    def test_a_result_says_it(self) -> None:
        head = {"status": 0, "ack": 0, "response": "get", "pid": "0082", "sub": 0}
        with self.broken(1), Program(self.path) as program:
            program.ask(GET)
            self.assertEqual(program.read(), {**head, "request": 1, "data": b"stage".hex(), "may_be_incomplete": True})
            program.ask(GET)
            self.assertEqual(program.read(), {**head, "request": 2, "data": WHOLE.hex()})

    def test_a_client_in_python(self) -> None:
        for lost in range(len(PARTS)):
            with self.broken(lost) as line, connect(line) as client:
                self.assertEqual(client.ask(DEVICE, LABEL).completion.data, WHOLE)
        with self.broken(1) as line, connect(line) as client:
            client.get(DEVICE, LABEL)
            client.queue.run()
            done = client.next_completion()
            assert done is not None and done.head is not None
            self.assertEqual((done.data, done.head.ack, done.may_be_incomplete), (b"stage", AckType.ACK, True))

    def test_commands(self) -> None:
        text = WHOLE.decode()
        for lost in range(len(PARTS)):
            for words, expected in ((["get", UID, "device_label"], text), (["get", "all", "device_label"], text),
                                    (["show", UID], text), (["fixtures"], text),
                                    (["get", "--raw", UID, "0082"], f"0 00 {WHOLE.hex()}\n")):
                with self.broken(lost) as line:
                    status, out, errors = called(*words, "--line", line)
                    self.assertEqual((status, expected in out), (0, True), (words, out, errors))
            with self.broken(lost) as line, folder() as place:
                file = place / "rig.csv"
                self.assertEqual(called("save", str(file), "--line", line)[0], 0)
                self.assertIn(text, file.read_text())

    def test_commands_that_get_no_whole_answer(self) -> None:
        why = "no whole answer came: other GETs of the same, or over 1,024 others, break off again and again"

        class Broken(Controller):
            """A queue whose answers may all be incomplete."""

            def join(self, places: int) -> Any:
                client = super().join(places)
                collect = client.next_completion

                def flagged() -> Any:
                    done = collect()
                    return done if done is None or done.head is None else done._replace(may_be_incomplete=True)
                setattr(client, "next_completion", flagged)
                return client
        with folder() as place:
            file = place / "rig.json"
            params: List[Any] = [{"pid": "0082", "parts": [WHOLE.hex()]}]
            file.write_text(json.dumps({"source": "7ff0:00000001", "devices": [{"uid": UID, "params": params}]}))
            line = f"rig:{file}"
            with mock.patch("wurstlinen._queue.Controller", Broken), mock.patch("wurstlinen.Controller", Broken):
                self.assertEqual(called("get", UID, "device_label", "--line", line),
                                 (1, "", f"wurstlinen: {UID}: {why}\n"))
                status, out, _ = called("get", UID, "device_label", "--line", line, "--json")
                self.assertEqual((status, json.loads(out)["error"]["reason"]), (1, "incomplete"))
                status, out, errors = called("get", "--raw", UID, "0082", "--line", line)
                self.assertEqual((status, out), (1, ""))
                self.assertIn(why, errors)
