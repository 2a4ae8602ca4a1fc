"""The messages of the adapter, in pieces and with rubbish between them."""
from __future__ import annotations

import random
from typing import List

from common import TestCase
from wurstlinen.lines.messages import LENGTHS_FROM_ADAPTER, Message, MessageReader

SERIAL = bytes.fromhex("7e0a040004030201e7")
# Data with the bytes that begin and end a message.
TRICKY = Message(5, bytes.fromhex("007ee77e0501e7"))


def read(*pieces: bytes) -> List[Message]:
    reader = MessageReader()
    return [message for piece in pieces for message in reader.feed(piece)]


class Messages(TestCase):
    def test_as_bytes(self) -> None:
        self.assertEqual(Message(10, bytes.fromhex("04030201")).encode(), SERIAL)
        self.assertEqual(Message(12).encode(), bytes.fromhex("7e0c0000e7"))
        self.assertEqual(Message(5, bytes(300)).encode()[:4], bytes.fromhex("7e052c01"))

    def test_in_pieces_of_each_size(self) -> None:
        data = SERIAL + TRICKY.encode() + Message(12).encode()
        wanted = [Message(10, bytes.fromhex("04030201")), TRICKY, Message(12)]
        for size in range(1, len(data) + 1):
            self.assertEqual(read(*(data[start:start + size] for start in range(0, len(data), size))), wanted, size)

    def test_bytes_between_messages_are_dropped(self) -> None:
        self.assertEqual(read(b"\x00\xe7\xff" + SERIAL + b"\xe7\xe7" + Message(12).encode()),
                         [Message(10, bytes.fromhex("04030201")), Message(12)])

    def test_a_wrong_end_drops_the_message(self) -> None:
        self.assertEqual(read(SERIAL[:-1] + b"\x00" + Message(12).encode()), [Message(12)])

    def test_a_length_above_600_is_no_header(self) -> None:
        self.assertEqual(read(bytes.fromhex("7e055902") + Message(12).encode()), [Message(12)])
        self.assertEqual(read(Message(5, bytes(600)).encode()), [Message(5, bytes(600))])

    def test_what_came_of_a_message_can_be_dropped(self) -> None:
        reader = MessageReader()
        self.assertEqual(reader.feed(SERIAL[:5]), [])
        reader.clear()
        self.assertEqual(reader.feed(Message(12).encode()), [Message(12)])

    def test_a_message_behind_a_false_header_is_found(self) -> None:
        for length in range(5, 8):
            self.assertEqual(read(bytes([0x7E, 5, length, 0]) + SERIAL + Message(12).encode()),
                             [Message(10, bytes.fromhex("04030201")), Message(12)], length)

    def test_messages_in_an_incomplete_one_are_rescued(self) -> None:
        for false in ("7e055802", "7e0558027e", "7e0558027e7e05ff01", "7e055802ff7e0b5802"):
            reader = MessageReader(LENGTHS_FROM_ADAPTER)
            self.assertEqual(reader.feed(bytes.fromhex(false) + SERIAL + Message(12).encode() + b"\x7e\x05"), [])
            self.assertEqual(reader.rescue(), [Message(10, bytes.fromhex("04030201")), Message(12)], false)
            self.assertEqual(reader.feed(bytes.fromhex("0000e7")), [Message(5)])

    def test_a_slow_message_is_not_given_up(self) -> None:
        reader = MessageReader(LENGTHS_FROM_ADAPTER)
        for byte in TRICKY.encode()[:-1]:
            self.assertEqual(reader.feed(bytes([byte])) + reader.rescue(), [])
        self.assertEqual(reader.feed(TRICKY.encode()[-1:]), [TRICKY])

    def test_labels_and_lengths_that_an_adapter_does_not_send(self) -> None:
        for false in ("7e075802", "7ec85802", "7e0c0500", "7e0a0500", "7e030400", "7e4d0100", "7e090500"):
            reader = MessageReader(LENGTHS_FROM_ADAPTER)
            found = reader.feed(bytes.fromhex(false) + SERIAL)
            self.assertEqual(found, [Message(10, bytes.fromhex("04030201"))], false)
        others = Message(129, bytes(200)).encode() + Message(8, b"\x01").encode()
        reader = MessageReader(LENGTHS_FROM_ADAPTER)
        self.assertEqual(reader.feed(others + Message(12).encode()), [Message(12)])
        self.assertFalse(reader.has_lost_message)

    def test_a_lost_or_doubled_byte_is_noticed(self) -> None:
        whole = Message(5, bytes(range(20, 45)))
        good = whole.encode()
        for index in range(len(good)):
            for damaged in (good[:index] + good[index + 1:], good[:index + 1] + good[index:]):
                reader = MessageReader(LENGTHS_FROM_ADAPTER)
                messages = reader.feed(damaged + Message(12).encode()) + reader.rescue()
                self.assertEqual(messages[-1], Message(12), damaged.hex())
                self.assertTrue(reader.has_lost_message or messages[0] == whole, damaged.hex())

    def test_noise_is_no_lost_message(self) -> None:
        reader = MessageReader(LENGTHS_FROM_ADAPTER)
        reader.feed(b"\x00\xe7\xff\x0c" + SERIAL + SERIAL[:-1] + b"\x00" + Message(12).encode())
        self.assertFalse(reader.has_lost_message)

    def test_what_is_left_is_bounded(self) -> None:
        chance = random.Random(2)
        reader = MessageReader(LENGTHS_FROM_ADAPTER)
        for _ in range(300):
            reader.feed(bytes(chance.choice((0x7E, 0x7E, 5, 0x58, 2)) for _ in range(4096)))
            reader.rescue()
            self.assertLess(len(reader._left) + len(reader._dropped), 1000)

    def test_any_bytes_are_read(self) -> None:
        chance = random.Random(1)
        reader = MessageReader()
        for _ in range(2000):
            reader.feed(bytes(chance.choice((0x7E, 0xE7, 0, 1, 5, 12)) for _ in range(chance.randrange(20))))
