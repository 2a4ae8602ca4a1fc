"""Counts the discoveries of an unchanged olad whose sets are wrong, with its own controller or with the stand-in.

usage: trials.py SEEDS REDIRECT [LIBRARY]
  SEEDS     how many lines of each kind, with a full and an incremental discovery on each, or a full one beside a
            fixture that lies, or in noise
  REDIRECT  what redirect.c makes
  LIBRARY   libwurstlinen-ola.so; without it, OLA's own controller
"""
from __future__ import annotations

import itertools
import random
import sys
import time
from collections import Counter
from pathlib import Path
from typing import List, Optional, Sequence, Tuple

from checks import random_scene, uids_of
from daemon import FIRST_SERIAL, Adapter, Daemon
from test_daemon import COUNTS, FIRMWARES
from wurstlinen.line import Line
from wurstlinen.lines.emulator import Widget
from wurstlinen.lines.scene import Lie, Scene, parse_scene

LOSSES = (0.0, 0.1, 0.2)
QUIET_SECONDS = 0.5
MOST_SECONDS = 60.0
# How many fixtures follow the rules beside one that lies, or in noise.
OTHERS = (5, 15)
# The part of replies with a bit error, and the part of silences in which noise comes.
NOISES = ((0.1, 0.0), (0.0, 0.01), (0.0, 0.1), (0.1, 0.1))
NOISE = b"\xff"


class NoisyLine:
    """A line with bit errors and noise."""

    def __init__(self, line: Line, errors: float, noise: float, seed: int) -> None:
        self._line = line
        self._errors = errors
        self._noise = noise
        self._chance = random.Random(seed)

    def exchange(self, frame: bytes) -> bytes:
        """The reply to a frame, or what becomes of it."""
        reply = bytearray(self._line.exchange(frame))
        if reply and self._chance.random() < self._errors:
            reply[self._chance.randrange(1, len(reply))] ^= 1 << self._chance.randrange(8)
        return bytes(reply) if reply or self._chance.random() >= self._noise else NOISE


class NoisyAdapter(Adapter):
    """An adapter on such a line."""

    def __init__(self, scene: Scene, errors: float, noise: float) -> None:
        super().__init__(scene, Widget(serial=FIRST_SERIAL))
        self._disturbed = (errors, noise)
        self.seed = 0

    def _line(self) -> Line:
        return NoisyLine(super()._line(), *self._disturbed, self.seed)


def wait_for_quiet(daemon: Daemon) -> bool:
    """Waits until a discovery that the daemon has begun by itself has ended: whether it has, in a while."""
    before, end = -1, time.monotonic() + MOST_SECONDS
    while before != daemon.rig.exchanges and time.monotonic() < end:
        before = daemon.rig.exchanges
        time.sleep(QUIET_SECONDS)
    return before == daemon.rig.exchanges


def lying_scene(count: int, seed: int, lie: Lie) -> Tuple[Scene, List[str]]:
    """Random fixtures, of which the first, a middle one or the last lies, and the UIDs of the others."""
    uids = uids_of(random_scene(count + 1, seed))
    liar = uids.pop((0, count // 2, count)[seed % 3])
    devices = [{"uid": uid} for uid in uids] + [{"uid": liar, "rig": {"lies": [lie.value]}}]
    return parse_scene({"source": "7ff0:00000001", "devices": devices}), uids


def try_losses(seeds: int, redirect: Path, library: Optional[Path]) -> None:
    """Prints a line for each kind of line that loses replies."""
    for count, firmware, loss in itertools.product(COUNTS, FIRMWARES, LOSSES):
        results: Counter[str] = Counter()
        frames = 0
        with Daemon(random_scene(count, 0, loss), redirect, library, firmware) as daemon:
            for seed in range(seeds):
                wait_for_quiet(daemon)
                scene = random_scene(count, seed, loss)
                daemon.replace_rig(scene)
                for is_full in (True, False):
                    found = daemon.discover(is_full)
                    kind = "exact" if found == uids_of(scene) else "wrong" if found else "empty"
                    results[kind] += 1
                frames += daemon.rig.exchanges
        print(f"{count} fixtures, firmware {firmware[0]}.{firmware[1]}, loss {loss}: exact {results['exact']}, wrong "
              f"{results['wrong']}, empty {results['empty']}, frames {frames}", flush=True)


def try_lies(seeds: int, redirect: Path, library: Optional[Path]) -> None:
    """Prints a line for each lie of one fixture beside others. The frames are those of two discoveries."""
    for count, lie in itertools.product(OTHERS, Lie):
        whole = endless = frames = 0
        for seed in range(seeds):
            scene, others = lying_scene(count, seed, lie)
            with Daemon(scene, redirect, library) as daemon:
                has_ended = wait_for_quiet(daemon)
                endless += not has_ended
                whole += has_ended and set(others) <= set(daemon.discover(True))
                frames += daemon.rig.exchanges
        print(f"{count} fixtures, and one with the lie {lie.value}: all found {whole}, didn't end {endless}, "
              f"frames {frames}", flush=True)


def try_noise(seeds: int, redirect: Path, library: Optional[Path]) -> None:
    """Prints a line for each kind of noise."""
    for count, (errors, noise) in itertools.product(OTHERS, NOISES):
        adapter = NoisyAdapter(random_scene(count, 0), errors, noise)
        whole = frames = 0
        with Daemon([adapter], redirect, library) as daemon:
            for seed in range(seeds):
                adapter.seed = seed
                scene = random_scene(count, seed)
                wait_for_quiet(daemon)
                daemon.replace_rig(scene)
                whole += set(uids_of(scene)) <= set(daemon.discover(True))
                frames += daemon.rig.exchanges
        print(f"{count} fixtures, bit errors {errors}, noise {noise}: all found {whole}, frames {frames}", flush=True)


def main(arguments: Sequence[str]) -> int:
    """Prints a line for each kind of line."""
    redirect = Path(arguments[1]).resolve()
    library = Path(arguments[2]).resolve() if len(arguments) > 2 else None
    for kinds in (try_losses, try_lies, try_noise):
        kinds(int(arguments[0]), redirect, library)
    return 0


if __name__ == "__main__":
    sys.exit(main(sys.argv[1:]))
