"""A rig's fixtures against E1.20's tables, with bytes that were calculated by hand."""
from __future__ import annotations

import random
from typing import Any, Dict, List, Tuple

from common import (
    LOSSES, ROOT, SEEDS, SOURCE, Collide, TestCase, discoveries_of_examples, folder, one, random_scene, scene, uids_of,
)
from search import TIMEOUT, Answer, Controller, Corrupt, discover
from wurstlinen.line import LineFailed
from wurstlinen.lines import Rig, SceneFault
from wurstlinen.lines.keys import Keys
from wurstlinen.lines.numbers import Pid, ResponseType
from wurstlinen.lines.packets import Packet, decode_packet
from wurstlinen.lines.uids import ALL_DEVICES, uid_text
from wurstlinen.lines.scene import parse_scene

LAMP = 0x123400000001
OTHER = 0x9ABC00000002
ACK, TIMER, NACK = ResponseType.ACK, ResponseType.ACK_TIMER, ResponseType.NACK_REASON
UNKNOWN_PID, FORMAT, CLASS, RANGE, FULL, SUB_DEVICE = (
    bytes.fromhex(text) for text in ("0000", "0001", "0005", "0006", "0007", "0009"))
BRANCH = Packet(ALL_DEVICES, 1, 0, 1, 0, 0, 0x10, 0x0001, bytes(6) + b"\xff" * 5 + b"\xfe").encode()
TWO = [{"uid": "1234:00000001"}, {"uid": "1234:00000002", "preamble": 0}]
WASH: Dict[str, Any] = {
    "manufacturer": "Maker", "model": "Wash 7", "model_id": "0203", "category": "0102", "software": "2.5",
    "software_id": "00020005", "label": "Left", "address": 17, "personality": 2,
    "personalities": [{"footprint": 4, "name": "Short"}, {"footprint": 12, "name": "Long"}],
    "sensors": [{"name": "Head", "type": "00", "unit": "01", "prefix": "00", "range": [-20, 100], "normal": [0, 60],
                 "value": 35}, {"value": -1}],
}


class Clock:
    """A clock that is set by hand."""

    def __init__(self) -> None:
        self.now = 0.0

    def __call__(self) -> float:
        return self.now


def any_command(chance: random.Random) -> Packet:
    """A good packet with random contents."""
    target = chance.choice((LAMP, LAMP + 1, ALL_DEVICES, 0x1234FFFFFFFF))
    sub_device = chance.choice((0, 0, 0, 1, 0xFFFF))
    command_class = chance.choice((0x10, 0x20, 0x20, 0x30, 0x21))
    pid = chance.choice((*Pid, 0x8000, 2, 3))
    data = chance.randbytes(chance.choice((0, 1, 1, 2, 32, 231)))
    return Packet(target, SOURCE, chance.randrange(256), 1, 0, sub_device, command_class, pid, data)


class Parameters(TestCase):
    def setUp(self) -> None:
        self.controller = Controller(Rig(one(**WASH)))

    def check_get(self, pid: int, wanted: str, data: str = "") -> None:
        answer = self.controller.get(LAMP, pid, bytes.fromhex(data))
        self.assertEqual((answer.kind, answer.data.hex()), (ACK, wanted.replace(" ", "")))

    def check_set(self, pid: int, data: str, kind: ResponseType = ACK, wanted: bytes = b"") -> None:
        answer = self.controller.set(LAMP, pid, bytes.fromhex(data))
        self.assertEqual((answer.kind, answer.data), (kind, wanted))

    def check_refused(self, pid: int, reason: bytes, data: str = "") -> None:
        answer = self.controller.get(LAMP, pid, bytes.fromhex(data))
        self.assertEqual((answer.kind, answer.data), (NACK, reason))

    def test_the_bytes_of_an_answer(self) -> None:
        get = "cc0118 123400000001 7a7000000001 07 01 00 0000 20 00f0 00"
        wanted = "cc011a 7a7000000001 123400000001 07 00 00 0000 21 00f0 02 0011"
        frame, reply = (bytes.fromhex(text) for text in (get, wanted))
        frame, reply = (each + (sum(each) % 65536).to_bytes(2, "big") for each in (frame, reply))
        self.assertEqual(Rig(one(**WASH)).exchange(frame), reply)

    def test_device_info(self) -> None:
        self.check_get(0x0060, "0100 0203 0102 00020005 000c 0202 0011 0000 02")

    def test_supported_parameters(self) -> None:
        self.check_get(0x0050, "0080 0081 0082 00e0 00e1 0200 0201 0202")
        plain = Controller(Rig(scene(devices=[{"uid": "1234:00000001", "params": [{"pid": "8001", "parts": [""]}]}])))
        self.assertEqual(plain.get(LAMP, 0x0050).data.hex(), "008000810082" "00e000e1" "8001")

    def test_labels(self) -> None:
        for pid, text in ((0x0081, b"Maker"), (0x0080, b"Wash 7"), (0x00C0, b"2.5"), (0x0082, b"Left")):
            self.check_get(pid, text.hex())
        self.check_set(0x0082, b"Right".hex())
        self.check_get(0x0082, b"Right".hex())
        self.check_set(0x0082, "61" * 33, NACK, FORMAT)
        self.check_set(0x0080, "61", NACK, CLASS)
        self.check_refused(0x0081, FORMAT, "00")

    def test_the_dmx_address(self) -> None:
        self.check_get(0x00F0, "0011")
        self.check_set(0x00F0, "0200")
        self.check_get(0x00F0, "0200")
        for data, reason in (("0000", RANGE), ("0201", RANGE), ("01", FORMAT), ("000001", FORMAT), ("", FORMAT)):
            self.check_set(0x00F0, data, NACK, reason)
        self.check_get(0x00F0, "0200")

    def test_a_fixture_without_slots_has_no_address(self) -> None:
        controller = Controller(Rig(one(personalities=[])))
        self.assertEqual(controller.get(LAMP, 0x00F0).data.hex(), "ffff")
        self.assertEqual(controller.set(LAMP, 0x00F0, b"\x00\x01").data, RANGE)
        self.assertEqual(controller.get(LAMP, 0x00E0).data, UNKNOWN_PID)

    def test_personalities(self) -> None:
        self.check_get(0x00E0, "0202")
        self.check_get(0x00E1, "01 0004" + b"Short".hex(), "01")
        self.check_set(0x00E0, "01")
        self.check_get(0x00E0, "0102")
        self.check_get(0x0060, "0100 0203 0102 00020005 0004 0102 0011 0000 02")
        for data, reason in (("00", RANGE), ("03", RANGE), ("", FORMAT)):
            self.check_set(0x00E0, data, NACK, reason)
            self.check_refused(0x00E1, reason, data)

    def test_identify(self) -> None:
        self.check_get(0x1000, "00")
        self.check_set(0x1000, "01")
        self.check_get(0x1000, "01")
        self.check_set(0x1000, "02", NACK, RANGE)
        self.check_set(0x1000, "", NACK, FORMAT)

    def test_sensors(self) -> None:
        self.check_get(0x0200, "00 00 01 00 ffec 0064 0000 003c 03" + b"Head".hex(), "00")
        self.check_get(0x0201, "00 0023 0023 0023 0000", "00")
        self.check_get(0x0201, "01 ffff ffff ffff 0000", "01")
        self.check_set(0x0202, "01")
        self.check_get(0x0201, "01 ffff ffff ffff ffff", "01")
        self.check_set(0x0201, "00", ACK, bytes.fromhex("000023002300230023"))
        self.check_set(0x0201, "ff", ACK, b"\xff" + bytes(8))
        for pid in (0x0200, 0x0201):
            self.check_refused(pid, RANGE, "02")
            self.check_refused(pid, FORMAT)
        self.check_refused(0x0202, CLASS, "00")

    def test_what_is_refused(self) -> None:
        self.check_refused(0x0400, UNKNOWN_PID)
        self.check_refused(0x0020, UNKNOWN_PID, "01")
        self.check_set(0x8000, "", NACK, UNKNOWN_PID)
        for sub_device in (1, 0xFFFF):
            command = Packet(LAMP, 1, 0, 1, 0, sub_device, 0x20, 0x0082)
            reply = decode_packet(Rig(one()).exchange(command.encode()))
            assert reply is not None
            self.assertEqual((reply.sub_device, reply.data), (sub_device, SUB_DEVICE))

    def test_a_fixture_that_refuses_everything(self) -> None:
        controller = Controller(Rig(one(nack="0002")))
        for pid in (0x0060, 0x0082, 0x0020, 0x8000):
            self.assertEqual(controller.get(LAMP, pid), Answer(NACK, b"\x00\x02", pid))
            self.assertEqual(controller.set(LAMP, pid), Answer(NACK, b"\x00\x02", pid))

    def test_broadcasts_are_done_and_not_answered(self) -> None:
        rig = Rig(scene(devices=[{"uid": "1234:00000001"}, {"uid": "9abc:00000002"}]))
        controller = Controller(rig)
        self.assertIs(controller.set(0x1234FFFFFFFF, 0x1000, b"\x01"), TIMEOUT)
        self.assertEqual([controller.get(uid, 0x1000).data for uid in (LAMP, OTHER)], [b"\x01", b"\x00"])
        self.assertIs(controller.set(ALL_DEVICES, 0x1000, b"\x01"), TIMEOUT)
        self.assertEqual(controller.get(OTHER, 0x1000).data, b"\x01")
        self.assertIs(controller.get(ALL_DEVICES, 0x1000), TIMEOUT)
        self.assertIs(controller.get(0x123400000009, 0x1000), TIMEOUT)


class Parts(TestCase):
    def test_a_long_answer_comes_in_parts(self) -> None:
        rig = Rig(one(part=4, **{**WASH, "label": "abcdefgh"}))
        controller = Controller(rig)
        for _ in range(2):
            for pid, wanted, exchanges in ((0x0082, "6162636465666768", 2), (0x00F0, "0011", 1),
                                           (0x0081, "4d616b6572", 2),
                                           (0x0060, "01000203010200020005" "000c02020011000002", 5)):
                before = rig.exchanges
                self.assertEqual(controller.get(LAMP, pid).data.hex(), wanted)
                self.assertEqual(rig.exchanges - before, exchanges)

    def test_another_command_begins_it_anew(self) -> None:
        rig = Rig(one(part=1, label="abc"))
        label = Packet(LAMP, 1, 0, 1, 0, 0, 0x20, 0x0082).encode()
        for between in (Packet(LAMP, 1, 0, 1, 0, 0, 0x20, 0x1000), Packet(LAMP, 1, 0, 1, 0, 0, 0x10, 0x0002),
                        Packet(ALL_DEVICES, 1, 0, 1, 0, 0, 0x10, 0x0001, bytes(6) + b"\xff" * 6),
                        Packet(LAMP, 1, 0, 1, 0, 0, 0x30, 0x0082, b"abc")):
            self.assertEqual(rig.exchange(label)[24:25], b"a")
            self.assertEqual(rig.exchange(label)[24:25], b"b")
            rig.exchange(between.encode())
        self.assertEqual(Controller(rig).get(LAMP, 0x0082).data, b"abc")

    def test_listed_parameters_go_on_whatever_comes_between(self) -> None:
        params = [{"pid": "0082", "parts": ["61", "62"]}, {"pid": "0082", "parts": ["ff"]}]
        rig = Rig(scene(devices=[{"uid": "1234:00000001", "params": params}], losses=[1]))
        controller = Controller(rig)
        self.assertIs(controller.get(LAMP, 0x0082), TIMEOUT)
        self.assertEqual(controller.get(LAMP, 0x1000).data, b"\x00")
        self.assertEqual(controller.set(LAMP, 0x0082, b"x"), Answer(ACK, b"", 0x0082))
        self.assertEqual(controller.get(LAMP, 0x0082).data, b"ab")

    def test_a_broadcast_get_moves_no_answer_on(self) -> None:
        params = [{"pid": "0082", "parts": ["61", "62"]}]
        controller = Controller(Rig(scene(devices=[{"uid": "1234:00000001", "params": params}])))
        self.assertIs(controller.get(ALL_DEVICES, 0x0082), TIMEOUT)
        self.assertEqual(controller.get(LAMP, 0x0082).data, b"ab")


class Timers(TestCase):
    def setUp(self) -> None:
        self.clock = Clock()
        self.controller = Controller(Rig(one(timer=15, label="abc"), self.clock))

    def queued(self, status: int = 4) -> Tuple[int, bytes, int]:
        answer = self.controller.get(LAMP, Pid.QUEUED_MESSAGE, bytes([status]))
        self.assertEqual(answer.kind, ACK)
        return answer.pid, answer.data, answer.message_count

    def test_answers_become_queued_messages(self) -> None:
        self.assertEqual(self.controller.get(LAMP, 0x0082), Answer(TIMER, b"\x00\x0f", 0x0082))
        self.assertEqual(self.controller.set(LAMP, 0x00F0, b"\x00\x05"), Answer(TIMER, b"\x00\x0f", 0x00F0))
        self.assertEqual(self.queued(), (0x0030, b"", 0))
        self.clock.now = 1.5
        self.assertEqual(self.queued(), (0x0082, b"abc", 1))
        self.assertEqual(self.queued(), (0x00F0, b"", 0))
        self.assertEqual(self.queued(1), (0x00F0, b"", 0))
        self.assertEqual(self.queued(), (0x0030, b"", 0))
        self.assertEqual(self.queued(1), (0x0030, b"", 0))

    def test_a_lost_message_is_asked_for_again(self) -> None:
        rig = Rig(scene(devices=[{"uid": "1234:00000001", "rig": {"timer": 0, "label": "abc"}}], losses=[1]))
        self.controller = Controller(rig)
        self.controller.get(LAMP, 0x0082)
        self.assertIs(self.controller.get(LAMP, Pid.QUEUED_MESSAGE, b"\x04"), TIMEOUT)
        self.assertEqual(self.queued(1), (0x0082, b"abc", 0))

    def test_what_is_refused_at_once(self) -> None:
        self.assertEqual(self.controller.get(LAMP, 0x8000).data, UNKNOWN_PID)
        for pid, data, reason in ((0x0020, "", FORMAT), (0x0020, "00", RANGE), (0x0020, "05", RANGE),
                                  (0x0030, "05", RANGE)):
            self.assertEqual(self.controller.get(LAMP, pid, bytes.fromhex(data)), Answer(NACK, reason, pid))
        self.assertEqual(self.controller.set(LAMP, 0x0020, b"\x01").data, CLASS)
        self.assertEqual(self.controller.get(LAMP, 0x0030, b"\x00"), Answer(ACK, b"", 0x0030))

    def test_the_queue_has_an_end(self) -> None:
        for _ in range(255):
            self.assertEqual(self.controller.get(LAMP, 0x0082).kind, TIMER)
        self.assertEqual(self.controller.get(LAMP, 0x0082).data, FULL)
        self.clock.now = 2.0
        for left in reversed(range(255)):
            self.assertEqual(self.queued(), (0x0082, b"abc", left))


class Discovery(TestCase):
    def test_is_exact(self) -> None:
        for count in (0, 1, 5, 40):
            for loss in LOSSES:
                for collide in Collide:
                    for seed in range(SEEDS):
                        made = random_scene(count, seed, loss, collide)
                        self.assertEqual(discover(Rig(made)), uids_of(made), (count, loss, collide, seed))

    def test_a_mute_has_the_control_field_and_the_binding(self) -> None:
        rig = Rig(scene(devices=[{"uid": "1234:00000001", "control": "0006", "binding": "1234:00000007"}]))
        mute = decode_packet(rig.exchange(Packet(LAMP, 1, 0, 1, 0, 0, 0x10, 0x0002).encode()))
        assert mute is not None
        self.assertEqual(mute.data.hex(), "0006" "123400000007")
        self.assertEqual(mute.command_class, 0x11)

    def test_colliding_replies(self) -> None:
        first = bytes.fromhex("fefefefefefefeaa" "ba57be75" "aa55aa55aa55ab55" "ae57eb55")
        second = bytes.fromhex("aa" "ba57be75" "aa55aa55aa55aa57" "ae57ea57")
        both = bytes(a | b for a, b in zip(first, second.ljust(len(first), b"\x00")))
        replies = [Rig(scene(devices=devices)).exchange(BRANCH) for devices in (TWO[:1], TWO[1:], TWO)]
        self.assertEqual(replies, [first, second, both])
        spelled = "fefefefefefefeaa" + "ff" * 12 + "ab5ffef5"
        collisions = [{"bytes": "00ff"}, {"uid": "ffff:ffffffff"}, "or"]
        listed = Rig(scene(devices=TWO, collisions=collisions))
        self.assertEqual([listed.exchange(BRANCH) for _ in range(4)], [b"\x00\xff", bytes.fromhex(spelled), both, both])

    def test_garbled_replies(self) -> None:
        rig = Rig(scene(devices=TWO, rig={"collide": "garbled"}))
        replies = [rig.exchange(BRANCH) for _ in range(50)]
        self.assertGreater(len(set(replies)), 40)
        self.assertTrue(all(1 <= len(reply) <= 40 for reply in replies))

    def test_what_is_no_branch_is_silence(self) -> None:
        rig = Rig(one())
        bounds = bytes(6) + b"\xff" * 6
        for packet in (Packet(ALL_DEVICES, 1, 0, 1, 0, 0, 0x10, 1), Packet(LAMP, 1, 0, 1, 0, 0, 0x10, 1, bounds + b"x"),
                       Packet(LAMP, 1, 0, 1, 0, 0, 0x10, 0x0004), Packet(LAMP, 1, 0, 1, 0, 0, 0x21, 0x0082)):
            self.assertEqual(rig.exchange(packet.encode()), b"")
        for frame in (b"", b"\xcc", bytes(26), bytes(257)):
            self.assertEqual(rig.exchange(frame), b"")

    def test_branches_for_one_device_or_one_maker(self) -> None:
        """OLA's DUBPositiveUnicast, DUBPositiveVendorcast and DUBNegativeVendorcast."""
        rig = Rig(scene(devices=[{"uid": "1234:00000001"}, {"uid": "9abc:00000002"}]))
        bounds = bytes(6) + b"\xff" * 6
        alone = Rig(one()).exchange(BRANCH)
        for target, wanted in ((LAMP, alone), (0x1234FFFFFFFF, alone), (LAMP + 1, b""), (0x1235FFFFFFFF, b"")):
            branch = Packet(target, 1, 0, 1, 0, 0, 0x10, 0x0001, bounds)
            self.assertEqual(rig.exchange(branch.encode()), wanted, uid_text(target))
        rig.exchange(Packet(LAMP, 1, 0, 1, 0, 0, 0x10, 0x0002).encode())
        self.assertEqual(rig.exchange(Packet(LAMP, 1, 0, 1, 0, 0, 0x10, 0x0001, bounds).encode()), b"")

    def test_mutes_and_unmutes_with_data_are_neither_answered_nor_done(self) -> None:
        """OLA's MuteDeviceWithData and UnMuteDeviceWithData."""
        rig = Rig(one())
        for pid, is_muted in ((0x0002, False), (0x0003, True)):
            rig.fixtures[0].is_muted = is_muted
            for target in (LAMP, 0x1234FFFFFFFF, ALL_DEVICES):
                for data in (b"x", bytes(12)):
                    self.assertEqual(rig.exchange(Packet(target, 1, 0, 1, 0, 0, 0x10, pid, data).encode()), b"")
                    self.assertEqual(rig.fixtures[0].is_muted, is_muted)
            self.assertTrue(rig.exchange(Packet(LAMP, 1, 0, 1, 0, 0, 0x10, pid).encode()))

    def test_any_command_has_a_response_or_none(self) -> None:
        chance = random.Random(1)
        devices = [{"uid": "1234:00000001", "rig": WASH}, {"uid": "1234:00000002", "rig": {"timer": 0, "part": 1}}]
        rig = Rig(scene(devices=devices))
        answered = 0
        for _ in range(20_000):
            command = any_command(chance)
            reply = rig.exchange(command.encode())
            if reply and not command.is_branch:
                answered += 1
                response = decode_packet(reply)
                assert response is not None
                self.assertEqual((response.source, response.destination), (command.destination, SOURCE))
                self.assertEqual(response.transaction, command.transaction)
                self.assertLessEqual(response.port_or_type, 3)
        self.assertGreater(answered, 5000)

    def test_fixtures_come_and_leave(self) -> None:
        rig = Rig(scene(devices=[{"uid": "1234:00000001", "until": 2}, {"uid": "9abc:00000002", "from": 2}]))
        controller = Controller(rig)
        answers = [(controller.get(LAMP, 0x1000).kind, controller.get(OTHER, 0x1000).kind) for _ in range(2)]
        self.assertEqual(answers, [(ACK, None), (None, ACK)])

    def test_losses_and_failures(self) -> None:
        rig = Rig(scene(devices=[{"uid": "1234:00000001"}], losses=[1], fails=[2]))
        controller = Controller(rig)
        self.assertEqual(controller.get(LAMP, 0x1000).kind, ACK)
        self.assertIs(controller.get(LAMP, 0x1000), TIMEOUT)
        with self.assertRaises(LineFailed):
            controller.get(LAMP, 0x1000)
        self.assertEqual(controller.get(LAMP, 0x1000).kind, ACK)

    def test_losses_by_chance_have_a_limit_in_a_row(self) -> None:
        for most in (0, 1, 4):
            rig = Rig(scene(devices=[{"uid": "1234:00000001"}], rig={"loss": 0.9, "most_losses": most, "seed": 3}))
            controller = Controller(rig)
            kinds = [controller.get(LAMP, 0x1000).kind for _ in range(500)]
            in_a_row = longest = 0
            for kind in kinds:
                in_a_row = in_a_row + 1 if kind is None else 0
                longest = max(longest, in_a_row)
            self.assertEqual(longest, most)


class Lies(TestCase):
    def found(self, *lies: str, **keys: Any) -> List[int]:
        devices = [{"uid": "1234:00000001", "rig": {"lies": list(lies), **keys}}, {"uid": "9abc:00000002"}]
        return sorted(discover(Rig(scene(devices=devices))))

    def test_lies_that_do_not_hide_a_fixture(self) -> None:
        for lie in ("adds bytes", "unmutes late", "every other", "cuts short", "wrong sum", "answers all"):
            self.assertEqual(self.found(lie), [LAMP, OTHER], lie)

    def test_a_fixture_that_hides(self) -> None:
        self.assertEqual(self.found("hides"), [OTHER])
        controller = Controller(Rig(one(lies=["hides"])))
        self.assertEqual(controller.get(LAMP, 0x1000).kind, ACK)

    def test_fixtures_that_make_a_run_corrupt(self) -> None:
        for lies in (("ignores mutes",), ("stays unmuted",), ("stays unmuted", "wrong sum")):
            with self.assertRaises(Corrupt):
                self.found(*lies)

    def test_a_reply_that_spells_another_uid(self) -> None:
        for spelled in ("9abc:00000002", "1234:00000009", "1234:ffffffff", "ffff:ffffffff"):
            self.assertEqual(self.found(spells=spelled), [LAMP, OTHER])

    def test_late_unmutes(self) -> None:
        rig = Rig(one(lies=["unmutes late"]))
        fixture = rig.fixtures[0]
        unmute = Packet(ALL_DEVICES, 1, 0, 1, 0, 0, 0x10, 0x0003).encode()
        fixture.is_muted = True
        for is_muted in (True, True, False):
            rig.exchange(unmute)
            self.assertEqual(fixture.is_muted, is_muted)


class Files(TestCase):
    FAULTS = (
        ({}, "source: the key is missing"),
        ({"source": "7a70:ffffffff"}, "source: the UID of one device is expected"),
        ({"source": 1}, "source: a UID such as 7a70:00000001 is expected"),
        ({"devices": {}}, "devices: a list of 0 to 1024 elements is expected"),
        ({"devices": [{"uid": "1234:00000001"}, {"uid": "1234:00000001"}]},
         "devices[1].uid: there is a device with this UID already"),
        ({"devices": [{}]}, "devices[0].uid: the key is missing"),
        ({"devices": [{"uid": "1234:00000001", "preamble": 8}]},
         "devices[0].preamble: a whole number from 0 to 7 is expected"),
        ({"devices": [{"uid": "1234:00000001", "preamble": True}]},
         "devices[0].preamble: a whole number from 0 to 7 is expected"),
        ({"devices": [{"uid": "1234:00000001", "params": [{"pid": "0082", "parts": ["0"]}]}]},
         "devices[0].params[0].parts[0]: 0 to 231 bytes in hexadecimal are expected"),
        ({"devices": [{"uid": "1234:00000001", "until": 5, "from": 5}]},
         "devices[0].until: a number above 'from' is expected"),
        ({"devices": [{"uid": "1234:00000001", "rig": {"lable": ""}}]}, "devices[0].rig.lable: there is no such key"),
        ({"devices": [{"uid": "1234:00000001", "rig": {"label": "ü"}}]},
         "devices[0].rig.label: a text of at most 32 ASCII characters is expected"),
        ({"devices": [{"uid": "1234:00000001", "rig": {"personality": 2}}]},
         "devices[0].rig.personality: a whole number from 1 to 1 is expected"),
        ({"collisions": [{"uid": "1234:00000001", "bytes": "00"}]},
         "collisions[0]: one of 'uid' and 'bytes' is expected"),
        ({"losses": [-1]}, "losses[0]: a whole number from 0 to 18446744073709551615 is expected"),
        ({"rig": {"loss": 1.5}}, "rig.loss: a share from 0 to 1 is expected"),
        ({"rig": {"collide": "xor"}}, "rig.collide: one of these is expected: or, garbled"),
    )

    def test_what_is_wrong_is_named(self) -> None:
        for keys, wanted in self.FAULTS:
            source = {} if "source" in keys or not keys else {"source": "7a70:00000100"}
            with self.assertRaises(SceneFault) as caught:
                parse_scene({**source, **keys})
            self.assertEqual(str(caught.exception), wanted)
        with self.assertRaises(SceneFault):
            Keys([])

    def test_numbers_of_any_length(self) -> None:
        long, whole = "9" * 5_000, "a whole number from 0 to"
        with folder() as place:
            for keys, wanted in ((f'"losses": [0, {long}]', f"losses[1]: {whole} {2 ** 64 - 1} is expected"),
                                 (f'"rig": {{"seed": -{long}}}', f"rig.seed: {whole} {2 ** 64 - 1} is expected"),
                                 ('"rig": {"loss": NaN}', "rig.loss: a share from 0 to 1 is expected"),
                                 (f'"rig": {{"loss": {long}}}', "rig.loss: a share from 0 to 1 is expected")):
                (place / "rig.json").write_text(f'{{"source": "7a70:00000100", {keys}}}')
                with self.assertRaises(SceneFault) as caught:
                    Rig(place / "rig.json")
                self.assertEqual(str(caught.exception), wanted)

    def test_a_rig_is_searched_as_the_simulated_line_is(self) -> None:
        read = 0
        for path, options, wanted in discoveries_of_examples():
            if options or '"budget"' in path.read_text():
                continue
            self.assertEqual(self.printed(Controller(Rig(path))), wanted, path.name)
            read += 1
        self.assertGreater(read, 7)

    def printed(self, controller: Controller) -> str:
        """What the program prints for a discovery."""
        try:
            controller.discover()
            lines = [" ".join(self.words(uid, data)) for uid, data in sorted(controller.found.items())]
        except Corrupt as corrupt:
            lines = [f"fault 1 {uid_text(corrupt.uid)}"]
        except LineFailed:
            lines = ["fault 4"]
        return "\n".join([*lines, f"frames {controller.frames}"]) + "\n"

    def words(self, uid: int, data: bytes) -> List[str]:
        """A device's UID, its control field and its binding UID; the last two only if they aren't empty."""
        binding = [uid_text(int.from_bytes(data[2:], "big"))] if data[2:] else []
        return [uid_text(uid), *([data[:2].hex()] if any(data) else []), *binding]

    def test_files_that_are_no_scenes(self) -> None:
        for name in ("no_json.json", "no_scene.json", "two_programs.json"):
            with self.assertRaises(SceneFault):
                Rig(ROOT / "examples" / name)
