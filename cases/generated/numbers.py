"""Numbers that look random, the same in each run."""
from __future__ import annotations

BITS_64 = 2**64 - 1


class Random:
    """A linear congruential generator of 64 bits."""

    def __init__(self, seed: int) -> None:
        self._state = seed * 0x9E37_79B9_7F4A_7C15 & BITS_64
        # The first number still shows the seed.
        self._step()

    def _step(self) -> None:
        self._state = self._state * 6_364_136_223_846_793_005 + 1_442_695_040_888_963_407 & BITS_64

    def below(self, most: int) -> int:
        """The next number below this one; 0 below 0. The low bits of the state repeat early, so they aren't used."""
        self._step()
        return (self._state >> 33) % most if most else 0
