"""Counts how discoveries end on simulated lines: `python3 searches.py [--all] [--quick] SUBJECT SIZE ROUNDS`.

`frames` searches honest lines with SIZE devices, 1 to 1024, and each run has to find all of them. `noise` searches
lines with bit errors and noise, and SIZE devices, 1 to 1000. `scenes` does so on lines that aren't honest. With `lies`
one of a rig's SIZE fixtures lies, and with `pairs` two do; with `noisy-lies` and `noisy-pairs` they do so on lines with
losses, bit errors and noise. `--all` adds the spreads and levels that a subject leaves out, and `--quick` leaves out
steady searches. A row counts ROUNDS runs, 1 to 1000, and their frames. The number of a run is the seed of its devices
and of what is wrong with its line, so the rows are the same each time. If a run ends as none may, it is named, and the
status is 1.
WURSTLINEN_LIBRARY names the shared library.
"""
from __future__ import annotations

import argparse
import itertools
import os
import sys
from bisect import bisect_left, bisect_right
from dataclasses import asdict, dataclass, field
from typing import Any, Dict, FrozenSet, Iterator, List, Sequence, Set, Tuple

ROOT = os.path.dirname(os.path.dirname(os.path.dirname(os.path.abspath(__file__))))
sys.path.insert(0, os.path.join(ROOT, "bindings", "python"))

from wurstlinen import DiscoveryAgent, RunFaultKind, Search, Uid  # noqa: E402
from wurstlinen.lines import Rig  # noqa: E402
from wurstlinen.lines.numbers import Pid, ResponseType  # noqa: E402
from wurstlinen.lines.packets import Packet, decode_packet, encode_branch_reply, is_branch_frame  # noqa: E402
from wurstlinen.lines.scene import Lie, parse_scene  # noqa: E402
from wurstlinen.lines.uids import is_broadcast, uid_text  # noqa: E402

SOURCE = Uid(0x7A70, 0x100)
WORD = (1 << 64) - 1
MOST_ROUNDS = 1000
UNMUTES = 3
MOST_LOST = 4
# A byte that spells no UID.
NOISE = b"\xff"
# What is wrong with a line: its name in rows, and its numbers or words there.
Wrong = Tuple[Any, ...]
SPREADS = ("Random", "Consecutive", "Close", "Block", "Makers")
# Consecutive UIDs are a block, too.
DRAWN = ("Random", "Block", "Close", "Makers")
HONEST: List[Wrong] = [("Nothing",), ("Lost", 100), ("Lost", 20), ("Lost", 10), ("Lost", 5), ("Phantom", 10)]
DISHONEST: List[Wrong] = [("Burst", 5), ("Burst", 10), ("Burst", 20), ("Noise", 1000), ("Noise", 10)]
# A device that breaks the rules has the first UID, one in the middle, or the last.
ODD: List[Wrong] = [("Odd", breach, uid) for uid in (0, 0x7FFF_FFFF_FFFE, 0xFFFF_FFFF_FFFE)
                    for breach in ("NeverMutes", "TenBytes", "GoesOn", "AnswersAll")]
# One reply in so many is lost, one lone reply has bit errors, and one silence brings noise. 0: none.
NOISY: List[Wrong] = [("Disturbed", 0, 10, 0), ("Disturbed", 0, 0, 100), ("Disturbed", 0, 0, 10),
                      ("Disturbed", 20, 20, 20), ("Disturbed", 10, 10, 10)]
LEVELS = (1000, 100, 20, 10, 5)
ALL_NOISY: List[Wrong] = [("Disturbed", 0, 0, 0), *(("Disturbed", *levels) for level in LEVELS for levels in (
    (level, 0, 0), (0, level, 0), (0, 0, level), (level, level, level)))]
# What one fixture of a rig lies about, or two. They have the first UIDs, some in the middle, or the last.
LIES: List[Wrong] = [("Lying", lie.value) for lie in Lie]
PAIRS: List[Wrong] = [("Lying", one.value, other.value)
                      for one, other in itertools.combinations_with_replacement(Lie, 2)]
# The levels of losses, bit errors and noise on lines whose fixtures lie, too.
AROUND_LIES = ((20, 20, 20), (10, 0, 0), (0, 20, 0), (0, 0, 20), (10, 20, 20))


def noisy(lies: List[Wrong], levels: Sequence[Tuple[int, int, int]]) -> List[Wrong]:
    """The same lies on lines that are disturbed, at each of these levels."""
    return [("NoisyLying", *level, *lying) for level in levels for _, *lying in lies]


# For each subject: the most devices, and its rows, each with the spread of the devices and what is wrong.
SUBJECTS: Dict[str, Tuple[int, List[Tuple[str, Wrong]]]] = {
    "frames": (1024, list(itertools.product(SPREADS, HONEST))),
    "noise": (1000, list(itertools.product(["Block", "Random"], NOISY))),
    "scenes": (1000, [*itertools.product(["Random"], DISHONEST),
                      *((spread, wrong) for wrong in ODD for spread in ("Random", "Close"))]),
    "lies": (1000, list(itertools.product(["Random", "Close"], LIES))),
    "pairs": (1000, list(itertools.product(["Random", "Close"], PAIRS))),
    "noisy-lies": (1000, list(itertools.product(["Block", "Makers"], noisy(LIES, AROUND_LIES[:1])))),
    "noisy-pairs": (1000, list(itertools.product(["Random"], noisy(PAIRS, AROUND_LIES[:1])))),
}
# The rows of a subject with all spreads and levels, if it has more.
ALL_ROWS: Dict[str, List[Tuple[str, Wrong]]] = {
    "noise": list(itertools.product(DRAWN, ALL_NOISY)),
    "lies": list(itertools.product(DRAWN, LIES)),
    "pairs": list(itertools.product(DRAWN, PAIRS)),
    "noisy-lies": list(itertools.product(DRAWN, noisy(LIES, AROUND_LIES))),
    "noisy-pairs": list(itertools.product(DRAWN, noisy(PAIRS, AROUND_LIES))),
}


class Random:
    """A generator of numbers below 2^64 (xorshift64*)."""

    def __init__(self, seed: int) -> None:
        self._state = (seed * 0x9E37_79B9_7F4A_7C15 + 0x123_4567 & WORD) or 1
        # The first few still show the seed.
        for _ in range(4):
            self.next()

    def next(self) -> int:
        """The next number."""
        state = self._state
        state ^= state >> 12
        state ^= state << 25 & WORD
        state ^= state >> 27
        self._state = state
        return state * 2_685_821_657_736_338_717 & WORD

    def below(self, most: int) -> int:
        """The next number, below this one."""
        return self.next() % most


def drawn_uids(spread: str, count: int, seed: int) -> Iterator[int]:
    """UIDs without end, for this many devices. A few are broadcast UIDs, or were drawn before."""
    random, endless = Random(seed), itertools.count()
    if spread == "Random":
        return (random.next() >> 16 for _ in endless)
    # The search has to halve its ranges far down.
    if spread == "Consecutive":
        return endless
    # Four manufacturers, with device numbers close together.
    if spread == "Close":
        return (random.below(4) + seed << 32 | random.below(4 * count) + (seed << 16) for _ in endless)
    # Each has a manufacturer below 0x8000, and a device number below 0x80000000.
    firsts = [random.next() >> 49 << 32 | random.next() >> 33 for _ in range(4)]
    if spread == "Block":
        return itertools.count(firsts[0])
    # Makers: four manufacturers, each with device numbers close to one of its own.
    return (first + random.below(max(4 * count, 40)) for first in itertools.cycle(firsts))


def devices_of(spread: str, count: int, seed: int) -> FrozenSet[int]:
    """This many devices, others for each seed unless they are consecutive."""
    uids = itertools.filterfalse(is_broadcast, drawn_uids(spread, count, seed))
    devices: Set[int] = set()
    while len(devices) < count:
        devices.add(next(uids))
    return frozenset(devices)


@dataclass
class SimulatedLine:
    """A line whose devices keep to the rules."""

    devices: FrozenSet[int]
    # Whether each reply is lost, and what comes of each collision and of each silent branch.
    losses: Iterator[bool] = itertools.repeat(False)
    collisions: Iterator[bytes] = itertools.repeat(NOISE)
    silences: Iterator[bytes] = itertools.repeat(b"")
    # Devices that don't keep to the rules.
    odd: FrozenSet[int] = frozenset()
    # Ascending.
    unmuted: List[int] = field(default_factory=list, init=False)

    def exchange(self, frame: bytes) -> bytes:
        """What comes after a frame."""
        reply = self.reply(frame)
        return b"" if next(self.losses) else reply

    def reply(self, frame: bytes) -> bytes:
        """The reply to a frame, which may be lost."""
        if is_branch_frame(frame):
            return self.branch(*(int.from_bytes(frame[at:at + 6], "big") for at in (24, 30)))
        command = decode_packet(frame)
        if command is not None and command.pid == Pid.DISC_MUTE:
            return self.mute(command)
        if command is not None and command.pid == Pid.DISC_UN_MUTE:
            self.unmuted = sorted(self.devices)
        return b""

    def branch(self, low: int, high: int) -> bytes:
        """What comes of a branch of the UIDs from `low` to `high`."""
        first, end = bisect_left(self.unmuted, low), bisect_right(self.unmuted, high)
        if end - first > 1:
            return next(self.collisions)
        return encode_branch_reply(self.unmuted[first]) if first < end else next(self.silences)

    def mute(self, command: Packet) -> bytes:
        """The reply to a mute."""
        uid = command.destination
        if uid not in self.devices:
            return b""
        at = bisect_left(self.unmuted, uid)
        if self.unmuted[at:at + 1] == [uid]:
            del self.unmuted[at]
        return acknowledge(command)


class DisturbedLine(SimulatedLine):
    """A line like this one, on which replies may be lost or have bit errors, and silences may bring noise. A rig's
    collisions may have bit errors, too."""

    def __init__(self, line: SimulatedLine, random: Random, lost: int, errors: int, noise: int) -> None:
        super().__init__(line.devices, losses=few_losses(random, lost), odd=line.odd)
        self.line = line
        self.errors = noises(random, errors)
        self.noise = noises(random, noise)

    def reply(self, frame: bytes) -> bytes:
        return self.line.exchange(frame)

    def exchange(self, frame: bytes) -> bytes:
        reply = super().exchange(frame)
        if not reply:
            return next(self.noise)
        return reply if reply == NOISE else next(self.errors) or reply


class OddLine(SimulatedLine):
    """A line with one more device, which breaks the rules. It replies to each branch that it is in, or to all branches
    until it is muted."""

    def __init__(self, devices: FrozenSet[int], breach: str, uid: int) -> None:
        super().__init__(devices, odd=frozenset([uid]))
        self.uid = uid
        self.text = encode_branch_reply(uid)[:10 if breach == "TenBytes" else None]
        self.acknowledges = breach in ("GoesOn", "AnswersAll")
        self.answers_all = breach == "AnswersAll"
        self.is_muted = False

    def branch(self, low: int, high: int) -> bytes:
        others = super().branch(low, high)
        if self.is_muted or not (self.answers_all or low <= self.uid <= high):
            return others
        return NOISE if others else self.text

    def mute(self, command: Packet) -> bytes:
        if not self.acknowledges or command.destination != self.uid:
            return super().mute(command)
        self.is_muted = self.answers_all
        return acknowledge(command)


class LyingLine(SimulatedLine):
    """A rig's line, on which these fixtures lie."""

    def __init__(self, devices: FrozenSet[int], lies: Dict[int, str]) -> None:
        super().__init__(devices - lies.keys(), odd=frozenset(lies))
        self.rig = Rig(parse_scene({"source": str(SOURCE), "devices": [
            {"uid": uid_text(uid), "rig": {"lies": [lies[uid]] if uid in lies else []}} for uid in sorted(devices)]}))

    def exchange(self, frame: bytes) -> bytes:
        return self.rig.exchange(frame)


def liars_of(devices: FrozenSet[int], seed: int, lies: Sequence[str]) -> Dict[int, str]:
    """The UIDs of the fixtures that lie, and their lies."""
    honest = max(len(devices) - len(lies), 0)
    first = (0, honest // 2, honest)[seed % 3]
    return dict(zip(sorted(devices)[first:], lies))


def acknowledge(command: Packet) -> bytes:
    """E1.20, discovery mute: the reply of the device that the mute is for. Its control field is 0."""
    return command.answer(command.destination, ResponseType.ACK, b"\0\0").encode()


def one_in(random: Random, many: int) -> bool:
    """Whether this is the one among this many, of 0 never."""
    return many > 0 and random.below(many) == 0


def few_losses(random: Random, many: int) -> Iterator[bool]:
    """One reply in this many is lost, but no five in a row."""
    in_a_row = 0
    while True:
        is_lost = one_in(random, many) and in_a_row < MOST_LOST
        in_a_row = in_a_row + 1 if is_lost else 0
        yield is_lost


def burst(random: Random, count: int) -> Iterator[bool]:
    """This many replies in a row are lost, from one of the first 40 exchanges after the unmutes on."""
    before = random.below(40) + UNMUTES
    return itertools.chain(itertools.repeat(False, before), itertools.repeat(True, count), itertools.repeat(False))


def phantoms(random: Random, many: int) -> Iterator[bytes]:
    """One collision in this many spells a phantom."""
    while True:
        yield encode_branch_reply(random.next() >> 16) if random.below(many) == 0 else NOISE


def noises(random: Random, many: int) -> Iterator[bytes]:
    """Noise once in this many times."""
    while True:
        yield NOISE if one_in(random, many) else b""


def line_of(devices: FrozenSet[int], seed: int, kind: str, *details: Any) -> SimulatedLine:
    """A line with these devices, on which this is wrong."""
    if kind == "Lost":
        return SimulatedLine(devices, losses=few_losses(Random(seed), *details))
    if kind == "Burst":
        return SimulatedLine(devices, losses=burst(Random(seed), *details))
    if kind == "Phantom":
        return SimulatedLine(devices, collisions=phantoms(Random(seed), *details))
    if kind == "Noise":
        return SimulatedLine(devices, silences=noises(Random(seed), *details))
    if kind == "Disturbed":
        return DisturbedLine(SimulatedLine(devices), Random(seed), *details)
    if kind == "Lying":
        return LyingLine(devices, liars_of(devices, seed, details))
    if kind == "NoisyLying":
        return DisturbedLine(line_of(devices, seed, "Lying", *details[3:]), Random(seed), *details[:3])
    return OddLine(devices, *details) if kind == "Odd" else SimulatedLine(devices)


class WrongEnd(Exception):
    """A run ended as none may."""


@dataclass
class Ends:
    """How runs ended: without fault, with all devices that keep to the rules or with one missing; with the fault
    CORRUPT, after all of them were found or before."""

    right: int = 0
    missing: int = 0
    corrupt_with_all: int = 0
    corrupt: int = 0
    frames: int = 0

    def __str__(self) -> str:
        return f"Ends {{ {', '.join(f'{name}: {count}' for name, count in asdict(self).items())} }}"

    def add(self, line: SimulatedLine, search: Search) -> None:
        """Makes a run, and counts how it ended."""
        with DiscoveryAgent(SOURCE, search=search) as agent:
            found = {device.uid.number for device in agent.run(line)}
            fault, frames = agent.fault(), agent.frames()
        if not found <= line.devices | line.odd:
            raise WrongEnd("it found a device that isn't there")
        if fault is not None and fault.kind != RunFaultKind.CORRUPT:
            raise WrongEnd(f"it ended with the fault {fault.kind.name}")
        has_all = line.devices <= found
        self.right += fault is None and has_all
        self.missing += fault is None and not has_all
        self.corrupt_with_all += fault is not None and has_all
        self.corrupt += fault is not None and not has_all
        self.frames += frames


def print_row(spread: str, wrong: Wrong, search: Search, size: int, rounds: int) -> None:
    """Counts runs, one for each seed, and prints how they ended."""
    kind, *details = wrong
    name = f"{kind}({', '.join(map(str, details))})" if details else kind
    row = f"{spread}, {name}, {search.name.capitalize()}"
    ends = Ends()
    for seed in range(1, rounds + 1):
        try:
            ends.add(line_of(devices_of(spread, size, seed), seed, *wrong), search)
            if wrong in HONEST and ends.right < seed:
                raise WrongEnd("it didn't find all devices")
        except WrongEnd as reason:
            sys.exit(f"searches: {row}, seed {seed}: {reason}")
    print(f"{row}: {ends}", flush=True)


def main() -> None:
    """Prints the rows of a subject."""
    parser = argparse.ArgumentParser(description=__doc__.splitlines()[0])
    parser.add_argument("--all", action="store_true")
    parser.add_argument("--quick", action="store_true")
    parser.add_argument("subject", choices=SUBJECTS)
    parser.add_argument("size", type=int)
    parser.add_argument("rounds", type=int)
    given = parser.parse_args()
    most, rows = SUBJECTS[given.subject]
    if not (1 <= given.size <= most and 1 <= given.rounds <= MOST_ROUNDS):
        parser.error(f"SIZE is from 1 to {most}, and ROUNDS from 1 to {MOST_ROUNDS}")
    if given.all:
        rows = ALL_ROWS.get(given.subject, rows)
    for spread, wrong in rows:
        for search in [Search.QUICK] if given.quick else Search:
            print_row(spread, wrong, search, given.size, given.rounds)


if __name__ == "__main__":
    main()
