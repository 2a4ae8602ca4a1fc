"""What the tests of the daemon share: counted checks, and scenes with random fixtures."""
from __future__ import annotations

import random
from typing import Any, List

from daemon import Daemon  # noqa: F401  # it makes the package wurstlinen known
from wurstlinen.lines.scene import Scene, parse_scene

MANUFACTURERS = (0x1234, 0x454E, 0x9ABC)


class Checks:
    """Counts checks, and prints those that fail."""

    def __init__(self) -> None:
        self.passed = 0
        self.failed = 0

    def check(self, holds: bool, text: str) -> None:
        """One check."""
        if holds:
            self.passed += 1
        else:
            self.failed += 1
            print(f"failed: {text}", flush=True)


def random_scene(count: int, seed: int, loss: float = 0.0, **rig: Any) -> Scene:
    """This many fixtures with random UIDs, half of them close neighbours, each with a label and an address."""
    chance = random.Random(seed)
    uids: List[int] = []
    while len(uids) < count:
        near = bool(uids) and chance.random() < 0.5
        uid = uids[-1] + chance.randint(1, 3) if near else chance.choice(MANUFACTURERS) << 32 | chance.getrandbits(31)
        if uid not in uids:
            uids.append(uid)
    devices = [{"uid": uid_text(uid), "rig": {"label": f"Fixture {number}", "address": number + 1}}
               for number, uid in enumerate(uids)]
    return parse_scene({"source": "7ff0:00000001", "devices": devices, "rig": {"loss": loss, "seed": seed, **rig}})


def uid_text(uid: int) -> str:
    """A UID as OLA prints it."""
    return f"{uid >> 32:04x}:{uid & 0xFFFFFFFF:08x}"


def uids_of(scene: Scene) -> List[str]:
    """The UIDs of a scene's fixtures, ascending, as OLA prints them."""
    return [uid_text(uid) for uid in sorted(device.uid for device in scene.devices)]
