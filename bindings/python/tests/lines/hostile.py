"""An emulated adapter that damages, delays or loses some of its messages, always the same ones for a seed."""
from __future__ import annotations

import random
import threading
import time
from typing import Any, Callable, Dict, List

import common  # noqa: F401  (it makes the package known)
from wurstlinen.line import Line
from wurstlinen.lines.emulator import Emulator, Widget
from wurstlinen.lines.messages import Label, Message
from wurstlinen.lines.packets import is_whole_packet

# What becomes of the bytes of some messages.
Attack = Callable[[random.Random, bytes], bytes]


def random_bytes(chance: random.Random, data: bytes) -> bytes:
    """Any bytes before and after them."""
    return chance.randbytes(chance.randrange(1, 40)) + data + chance.randbytes(chance.randrange(40))


def announces_too_much(chance: random.Random, data: bytes) -> bytes:
    """The header of a message that doesn't come, and maybe some of its bytes."""
    length = chance.randrange(300, 601).to_bytes(2, "little")
    return b"\x7e\x05" + length + chance.randbytes(chance.randrange(5)) + data


def loses_a_byte(chance: random.Random, data: bytes) -> bytes:
    """One byte fewer."""
    index = chance.randrange(len(data))
    return data[:index] + data[index + 1:]


def doubles_a_byte(chance: random.Random, data: bytes) -> bytes:
    """One byte twice."""
    index = chance.randrange(len(data))
    return data[:index + 1] + data[index:]


def is_late(chance: random.Random, data: bytes) -> bytes:
    """The same later, sometimes after the exchange's time."""
    time.sleep(chance.choice((0.01, 0.05, 0.3, 2.1)))
    return data


def never_comes(chance: random.Random, data: bytes) -> bytes:
    """Nothing."""
    return b""


ATTACKS: Dict[str, Attack] = {
    "random bytes": random_bytes, "too much": announces_too_much, "lost": loses_a_byte, "doubled": doubles_a_byte,
    "late": is_late, "never": never_comes,
}


class Hostile(Emulator):
    """An adapter that attacks this share of its messages, and is an ordinary one while `share` is 0."""

    def __init__(self, line: Line, widget: Widget, attack: Attack, seed: int, share: float = 0.0) -> None:
        super().__init__(line, widget)
        self.share = share
        self._attack = attack
        self._chance = random.Random(seed)

    def _write(self, messages: List[Message]) -> None:
        data = b"".join(message.encode() for message in messages)
        if data and self._chance.random() < self.share:
            data = self._attack(self._chance, data)
        if data:
            self._files.write(data)


class Straggler(Emulator):
    """An adapter whose label 12 also comes after good responses, some time later, whatever it does then."""

    def __init__(self, line: Line, widget: Widget, seed: int, delay: float) -> None:
        super().__init__(line, widget)
        self._delay = delay
        self._chance = random.Random(seed)
        self._writing = threading.Lock()
        self._is_over = False

    def __exit__(self, *why: Any) -> None:
        # Another file may soon have the terminal's number.
        with self._writing:
            self._is_over = True
        super().__exit__(*why)

    def _write(self, messages: List[Message]) -> None:
        with self._writing:
            self._files.write(b"".join(message.encode() for message in messages))
        if messages and messages[-1].label == Label.RECEIVED and is_whole_packet(messages[-1].data[1:]):
            threading.Timer(self._delay * (0.5 + self._chance.random()), self._end).start()

    def _end(self) -> None:
        with self._writing:
            if not self._is_over:
                self._files.write(Message(Label.RDM_END).encode())
