"""A scripted adapter, and the messages and frames that tests of the driver have in common."""
from __future__ import annotations

import os
import threading
import tty
from typing import Dict, List

import common  # noqa: F401  (it makes the package known)
from wurstlinen.lines.messages import Label, Message, MessageReader
from wurstlinen.lines.packets import Packet
from wurstlinen.lines.uids import ALL_DEVICES

LAMP = 0x123400000001
GET = Packet(LAMP, 1, 0, 1, 0, 0, 0x20, 0x0082).encode()
REPLY = Packet(1, LAMP, 0, 0, 0, 0, 0x21, 0x0082, b"Lamp").encode()
BRANCH = Packet(ALL_DEVICES, 1, 0, 1, 0, 0, 0x10, 0x0001, bytes(6) + b"\xff" * 6).encode()
UNMUTE = Packet(ALL_DEVICES, 1, 0, 1, 0, 0, 0x10, 0x0003).encode()
END = Message(Label.RDM_END).encode()


def received(data: bytes, status: int = 0) -> bytes:
    """A message of what came from the line."""
    return Message(Label.RECEIVED, bytes([status]) + data).encode()


class Script(threading.Thread):
    """An adapter that answers each RDM message with the next of these bytes, and keeps the messages."""

    def __init__(self, *answers: bytes, serial: bytes = b"\x04\x03\x02\x01",
                 firmware: bytes = b"\x04\x02\x09\x01\x28", maker: bytes = b"\x4e\x45") -> None:
        super().__init__(daemon=True)
        self.sent: List[Message] = []
        # How many questions about itself it doesn't answer.
        self.deaf = 0
        self._answers = list(answers)
        self._facts: Dict[int, bytes] = {
            Label.SERIAL_NUMBER: serial, Label.PARAMETERS: firmware, Label.MANUFACTURER: maker}
        self._own, self._other = os.openpty()
        tty.setraw(self._other)
        self.path = os.ttyname(self._other)
        self.start()

    def run(self) -> None:
        reader = MessageReader()
        while True:
            for message in reader.feed(os.read(self._own, 4096)):
                self.sent.append(message)
                if self.deaf and message.label in self._facts:
                    self.deaf -= 1
                elif self._facts.get(message.label):
                    self.say(Message(message.label, self._facts[message.label]).encode())
                elif message.label in (Label.SEND_RDM, Label.SEND_BRANCH):
                    self.say(self._answers.pop(0))

    def say(self, data: bytes) -> None:
        """Sends these bytes now."""
        if data:
            os.write(self._own, data)
