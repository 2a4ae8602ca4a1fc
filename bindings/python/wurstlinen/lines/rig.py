"""A rig of simulated fixtures, for people and tests.

It is written from E1.20's public tables, and shares nothing with the simulated line of the proved program. The file is
a scene of docs/FORMATS.md; bindings/python/LINES.md has the keys that a rig adds.
"""
from __future__ import annotations

import random
import time
from pathlib import Path
from typing import Callable, List, Sequence, Union

from ..line import MOST_REPLY_BYTES, LineFailed
from .base import OpenLine
from .fixture import Fixture
from .packets import MOST_PREAMBLE_BYTES, Packet, addresses, decode_packet, encode_branch_reply
from .uids import is_broadcast
from .scene import Collide, Scene, read_scene

BRANCH_DATA_BYTES = 12
UID_BYTES = 6
# Garbled replies have any length up to this one.
MOST_GARBLED_BYTES = 40


class Rig(OpenLine):
    """A line of simulated fixtures, from a file or a scene.

    The file's faults are `SceneFault` and `OSError`. The clock is for answers that take time.
    """

    def __init__(self, scene: Union[str, Path, Scene], clock: Callable[[], float] = time.monotonic) -> None:
        self.scene = scene if isinstance(scene, Scene) else read_scene(scene)
        self.source = self.scene.source
        self.fixtures = [Fixture(keys) for keys in self.scene.devices]
        self._by_uid = {fixture.uid: fixture for fixture in self.fixtures}
        self._all_stay = all(fixture.is_present(0) and fixture.stays for fixture in self.fixtures)
        # The numbers of exchanges made and of replies lost.
        self.exchanges = 0
        self.lost = 0
        self._clock = clock
        self._chance = random.Random(self.scene.rig.seed)
        self._losses_in_a_row = 0
        self._collisions = 0

    def exchange(self, frame: bytes) -> bytes:
        """The reply to a frame."""
        number = self.exchanges
        self.exchanges += 1
        if number in self.scene.fails:
            raise LineFailed("the rig's file lets this exchange fail")
        reply = self._reply(frame, number)
        if reply and self._loses(number):
            self.lost += 1
            return b""
        return reply[:MOST_REPLY_BYTES]

    def _reply(self, frame: bytes, number: int) -> bytes:
        command = decode_packet(frame)
        if command is None:
            return b""
        if command.is_branch:
            return self._branched(command, number)
        now = self._clock()
        if is_broadcast(command.destination):
            for fixture in self._present(number):
                if addresses(command.destination, fixture.uid):
                    fixture.respond(command, number, now)
            return b""
        asked = self._by_uid.get(command.destination)
        return asked.respond(command, number, now) if asked and asked.is_present(number) else b""

    def _present(self, number: int) -> Sequence[Fixture]:
        """The fixtures that are on the line at an exchange."""
        return self.fixtures if self._all_stay else [each for each in self.fixtures if each.is_present(number)]

    def _branched(self, command: Packet, number: int) -> bytes:
        """E1.20, discovery unique branch: all fixtures that it is for answer at once, and the wire carries the result.

        OLA's tests of responders send it to a device's own UID and to its maker's too, and expect an answer.
        """
        if len(command.data) != BRANCH_DATA_BYTES:
            return b""
        low = int.from_bytes(command.data[:UID_BYTES], "big")
        high = int.from_bytes(command.data[UID_BYTES:], "big")
        asked = [fixture for fixture in self._present(number) if addresses(command.destination, fixture.uid)]
        unmuted = [fixture for fixture in asked if not fixture.is_muted]
        replies = [reply for reply in (fixture.branch_reply(low, high) for fixture in unmuted) if reply]
        if len(replies) > 1:
            return self._collided(replies)
        return replies[0] if replies else b""

    def _collided(self, replies: List[bytes]) -> bytes:
        """The next of the file's collisions, of which the last is repeated; or else what the rig's key says."""
        collisions = self.scene.collisions
        if not collisions:
            both = _ored(replies)
            return both if self.scene.rig.collide is Collide.OR else self._garbled(both)
        collision = collisions[min(self._collisions, len(collisions) - 1)]
        self._collisions += 1
        if collision is None:
            return _ored(replies)
        return encode_branch_reply(collision, MOST_PREAMBLE_BYTES) if isinstance(collision, int) else collision

    def _garbled(self, data: bytes) -> bytes:
        """The bytes with a quarter of their bits changed at random, and with a random length."""
        length = self._chance.randint(1, MOST_GARBLED_BYTES)
        noise = self._chance.randbytes(length)
        mask = self._chance.randbytes(length)
        padded = data.ljust(length, b"\x00")
        return bytes(byte ^ (wrong & some) for byte, wrong, some in zip(padded, noise, mask))

    def _loses(self, number: int) -> bool:
        """Whether the reply of an exchange is lost: by the file's list, or at random, but not too often in a row."""
        rig = self.scene.rig
        is_lost = number in self.scene.losses
        if not is_lost and rig.loss and self._losses_in_a_row < rig.most_losses:
            is_lost = self._chance.random() < rig.loss
        self._losses_in_a_row = self._losses_in_a_row + 1 if is_lost else 0
        return is_lost


def _ored(replies: Sequence[bytes]) -> bytes:
    """The bitwise OR from the front; shorter replies are padded with 00."""
    length = max(map(len, replies))
    number = 0
    for reply in replies:
        number |= int.from_bytes(reply.ljust(length, b"\x00"), "big")
    return number.to_bytes(length, "big")
