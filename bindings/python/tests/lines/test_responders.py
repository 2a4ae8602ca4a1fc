"""The table and asking, with the responders of OLA's library as the devices of a line."""
from __future__ import annotations

import contextlib
import re
import shutil
import subprocess
import tempfile
import unittest
from pathlib import Path
from typing import Any, Dict, Iterator, List, Tuple

from asking import StandInClient
from common import SOURCE, TestCase, has_library
from test_values import words_of
from wurstlinen import AckType, Asker, Completion, Controller, Status, Uid
from wurstlinen.lines import TextLine
from wurstlinen.lines.numbers import Pid
from wurstlinen.parameters import STANDARD, Parameter, decode, encode, ola
from wurstlinen.parameters.fields import Number
from wurstlinen.parameters.names import NACK_REASONS

CODE = Path(__file__).resolve().parent / "responders.cpp"
HEADER = Path("/usr/include/ola/rdm/AckTimerResponder.h")
UIDS = [Uid(0x7A70, number) for number in range(1, 8)]
ACK_TIMER_RESPONDER, DUMMY = UIDS[0], UIDS[3]
# The numbers by which sensors, personalities, curves, interfaces and so on are asked for.
FIRST_NUMBERS = 6
# What E1.20 wants from all devices, and what they don't list.
REQUIRED = (Pid.SUPPORTED_PARAMETERS, Pid.DEVICE_INFO, Pid.SOFTWARE_VERSION_LABEL, Pid.DMX_START_ADDRESS,
            Pid.IDENTIFY_DEVICE)
# At least so many replies have to be compared.
LEAST_REPLIES = 150
LEAST_SETS = 30
RAW = re.compile(r"0x[0-9a-f]*")


@unittest.skipUnless(HEADER.is_file() and shutil.which("c++"), "needs OLA's headers and a C++ compiler")
class Responders(TestCase):
    folder: Any = None

    @classmethod
    def setUpClass(cls) -> None:
        cls.folder = tempfile.TemporaryDirectory(prefix="lines.")
        command = ["c++", "-std=c++17", "-O1", "-w", str(CODE), "-lolacommon", "-o", cls.program()]
        subprocess.run(command, check=True)

    @classmethod
    def tearDownClass(cls) -> None:
        cls.folder.cleanup()

    @classmethod
    def program(cls) -> str:
        return str(Path(cls.folder.name) / "responders")

    @contextlib.contextmanager
    def asker(self) -> Iterator[Asker]:
        """Asks the responders, which have just been started."""
        with TextLine.run([self.program()]) as line:
            client: Any = Controller(Uid.from_number(SOURCE)).join(8) if has_library() else StandInClient()
            yield Asker(client, line)

    def replies(self, asker: Asker) -> Iterator[Tuple[Uid, Parameter, bytes, Completion]]:
        """All that the responders return to GETs: the device, the parameter, the GET's data, and the reply."""
        for uid in UIDS:
            listed = asker.get(uid, Pid.SUPPORTED_PARAMETERS).completion.data
            pids = {int.from_bytes(listed[at:at + 2], "big") for at in range(0, len(listed), 2)}
            for pid in sorted(pids | set(REQUIRED)):
                parameter = STANDARD.numbered(pid)
                if parameter is not None and parameter.get is not None:
                    for data in self.requests(parameter):
                        yield uid, parameter, data, asker.get(uid, pid, data).completion

    def requests(self, parameter: Parameter) -> List[bytes]:
        """The data of GETs of a parameter."""
        assert parameter.get is not None
        fields = parameter.get.request
        if not fields:
            return [b""]
        field, = fields
        assert isinstance(field, Number)
        return [number.to_bytes(field.size, "big") for number in range(FIRST_NUMBERS)]

    def test_all_replies_fit_the_table(self) -> None:
        count = 0
        with self.asker() as asker:
            for uid, parameter, data, reply in self.replies(asker):
                where = f"{uid.number:012x} {parameter.name} {data.hex()} {reply}"
                self.assertEqual(reply.status, Status.COMPLETED, where)
                assert reply.head is not None
                if reply.head.ack == AckType.NACK:
                    self.assertIn(int.from_bytes(reply.data, "big"), NACK_REASONS, where)
                    continue
                # A queued message may be of any parameter.
                reading = decode(STANDARD.numbered(reply.head.pid), False, reply.data)
                self.assertEqual(reading.misfit, "", where)
                raw = [word for word in words_of(reading.values) if RAW.fullmatch(word)]
                # The numbers of OLA's own parameters.
                self.assertEqual([word for word in raw if word not in ("0x8000", "0x8001", "0x8002")], [], where)
                count += 1
        self.assertGreater(count, LEAST_REPLIES)

    def test_what_is_returned_can_be_set(self) -> None:
        count = 0
        with self.asker() as asker:
            held: Dict[Tuple[Uid, int], bytes] = {
                (uid, parameter.number): reply.data for uid, parameter, data, reply in self.replies(asker)
                if not data and reply.head is not None and reply.head.ack == AckType.ACK}
            for (uid, pid), data in held.items():
                count += self.set_again(asker, uid, pid, data)
        self.assertGreater(count, LEAST_SETS)

    def set_again(self, asker: Asker, uid: Uid, pid: int, data: bytes) -> bool:
        """Sets a parameter to what was returned, and reads it back. False if that isn't possible."""
        parameter = STANDARD.numbered(pid)
        assert parameter is not None and parameter.get is not None
        if parameter.set is None or parameter.set.request != parameter.get.response:
            return False
        words = words_of(decode(parameter, False, data).values)
        made = encode(parameter, True, words)
        self.assertEqual(made, data, parameter.name)
        head = asker.set(uid, pid, made).completion.head
        # Some are only to be read.
        if head is None or head.ack != AckType.ACK:
            return False
        self.assertEqual(asker.get(uid, pid).completion.data, data, parameter.name)
        return True

    def test_other_values_are_set(self) -> None:
        with self.asker() as asker:
            for name, words in (("device_label", ["Front left"]), ("dmx_start_address", ["17"]),
                                ("identify_device", ["yes"]), ("device_hours", ["1234"]), ("lamp_hours", ["7"]),
                                ("lamp_strikes", ["3"]), ("lamp_state", ["standby"]), ("lamp_on_mode", ["on"]),
                                ("display_invert", ["auto"]), ("display_level", ["9"]), ("pan_invert", ["yes"]),
                                ("tilt_invert", ["yes"]), ("pan_tilt_swap", ["yes"]), ("power_state", ["standby"])):
                parameter = STANDARD.named(name)
                done = asker.set(UIDS[4], parameter.number, encode(parameter, True, words)).completion
                assert done.head is not None
                self.assertEqual(done.head.ack, AckType.ACK, name)
                values = decode(parameter, False, asker.get(UIDS[4], parameter.number).completion.data).values
                self.assertEqual(words_of(values), words, name)

    def test_the_responder_that_needs_time(self) -> None:
        address = STANDARD.named("dmx_start_address")
        waits: List[float] = []
        with self.asker() as asker:
            asker.on_wait = waits.append
            # Its first personality has no slots.
            asker.set(ACK_TIMER_RESPONDER, Pid.DMX_PERSONALITY, b"\x02")
            for number in ("17", "400"):
                done = asker.set(ACK_TIMER_RESPONDER, address.number, encode(address, True, [number]))
                assert done.completion.head is not None
                self.assertEqual((done.completion.head.ack, done.completion.data), (AckType.ACK, b""))
                self.assertEqual((done.is_late, done.queued), (False, ()))
                self.assertEqual(asker.get(ACK_TIMER_RESPONDER, address.number).completion.data,
                                 encode(address, True, [number]))
        # It says so, and needs 0.4 s.
        self.assertEqual(waits, [0.5, 0.5])

    @unittest.skipUnless((ola.FOLDER / ola.MANUFACTURERS_FILE).is_file(), "needs OLA's data")
    def test_a_parameter_of_the_manufacturer(self) -> None:
        version = next(each for each in ola.manufacturers()[0x7A70].parameters if each.number == 0x8001)
        with self.asker() as asker:
            reading = decode(version, False, asker.get(DUMMY, version.number).completion.data)
        self.assertEqual(reading.misfit, "")
        self.assertRegex(reading.lines[0], r"[0-9]+\.[0-9]+")
