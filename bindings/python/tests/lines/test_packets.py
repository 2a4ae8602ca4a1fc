"""Packets and branch replies against bytes of E1.20 that were calculated by hand."""
from __future__ import annotations

import random

from common import TestCase
from wurstlinen.lines.packets import (
    Packet, addresses, decode_branch_reply, decode_packet, encode_branch_reply, is_branch_frame, is_whole_packet,
)
from wurstlinen.lines.uids import parse_uid, uid_text

GET = bytes.fromhex("cc01181234000000077a7000000001000100000020006000029e")
BRANCH_REPLY = bytes.fromhex("fefefefefefefeaafa7ffa75aa55aa55aa55ab55ae57eff5")


class Packets(TestCase):
    def test_a_get(self) -> None:
        packet = Packet(0x123400000007, 0x7A7000000001, 0, 1, 0, 0, 0x20, 0x0060)
        self.assertEqual(packet.encode(), GET)
        self.assertEqual(decode_packet(GET), packet)
        self.assertEqual(decode_packet(GET + b"\x00"), packet)

    def test_damaged_packets_are_none(self) -> None:
        for index in range(len(GET)):
            damaged = bytearray(GET)
            damaged[index] ^= 1
            self.assertIsNone(decode_packet(bytes(damaged)), index)
            self.assertIsNone(decode_packet(GET[:index]), index)

    def test_any_bytes_are_read(self) -> None:
        chance = random.Random(1)
        for _ in range(5000):
            data = chance.randbytes(chance.randrange(60))
            decode_packet(b"\xcc\x01" + data)
            decode_branch_reply(b"\xfe\xaa" + data)
            is_whole_packet(data)
            is_branch_frame(data)

    def test_a_branch_reply(self) -> None:
        self.assertEqual(encode_branch_reply(0x7A7000000001), BRANCH_REPLY)
        for preamble in range(8):
            self.assertEqual(decode_branch_reply(BRANCH_REPLY[7 - preamble:] + b"\x55"), 0x7A7000000001)
        self.assertIsNone(decode_branch_reply(b"\xfe" + BRANCH_REPLY))
        self.assertIsNone(decode_branch_reply(BRANCH_REPLY[:-1]))
        self.assertIsNone(decode_branch_reply(b""))

    def test_damaged_branch_replies_are_none(self) -> None:
        for index in range(8, len(BRANCH_REPLY)):
            for bit in range(8):
                damaged = bytearray(BRANCH_REPLY)
                damaged[index] ^= 1 << bit
                found = decode_branch_reply(bytes(damaged))
                self.assertIn(found, (None, 0x7A7000000001))

    def test_uids(self) -> None:
        self.assertEqual(parse_uid("7a70:0000000A"), 0x7A700000000A)
        self.assertEqual(uid_text(0x7A700000000A), "7a70:0000000a")
        for text in ("", "7a70:0000000", "7a70-00000001", "7a70:0000000g", "7a70:00000001\n"):
            with self.assertRaises(ValueError):
                parse_uid(text)

    def test_broadcast(self) -> None:
        self.assertTrue(addresses(0xFFFFFFFFFFFF, 0x123400000001))
        self.assertTrue(addresses(0x1234FFFFFFFF, 0x123400000001))
        self.assertFalse(addresses(0x1235FFFFFFFF, 0x123400000001))
        self.assertFalse(addresses(0x123400000002, 0x123400000001))
