"""Discoveries on a line as text, whose replies are written as in runs.py: which frames are sent, and what is found."""
from __future__ import annotations

import json
from dataclasses import dataclass
from functools import partial
from typing import Dict, FrozenSet, Iterator, NamedTuple, Sequence, Tuple

from ..checker.case import Case, Expected, FarEnd, File, Streams, arguments_of
from .commands import QUICK
from .runs import (
    ALL_DEVICES, PORT, SOURCE, CommandClass, Packet, Pid, ResponseType, encode_branch_reply, exchanges, uid_text,
)
from wurstlinen.lines.packets import decode_packet

LINE = ("discover", "--line", "out", "--replies", "replies", "--source", uid_text(SOURCE))
PIPES = ("discover", "--line", "/dev/fd/100", "--replies", "/dev/fd/101", "--source", uid_text(SOURCE))
NEAR, FAR = "1234:00000001", "9abc:00000002"
BOTH_HALVES = "lower > found; mute found > ack; 5 lower; upper > new; mute new > ack; 5 upper"
NONE, EXHAUSTED = "no device was found until then", "the frames that were allowed are used up"


class Run(NamedTuple):
    """A run with these options, and all that it prints."""

    name: str
    options: str
    run: str
    out: str
    err: str = ""
    status: int = 0


# A UID that no device has is muted five times, and then the range is split; a broadcast UID isn't muted. The first mute
# of a known device is lost. A fault that a reply shows comes before a budget that is used up.
RUNS = (
    Run("a UID that no device has", "", f"3 unmute; all > absent; 5 mute absent; {BOTH_HALVES}",
        f"{NEAR}\n{FAR}\nframes 23\n"),
    Run("a broadcast UID", "", f"3 unmute; all > nobody; {BOTH_HALVES}", f"{NEAR}\n{FAR}\nframes 18\n"),
    Run("known devices", f"--incremental --known {NEAR} --known 5678:00000009",
        "3 unmute; mute found; mute found > ack; 5 mute absent; all > new; mute new > ack; 5 all",
        f"{NEAR}\n{FAR}\nframes 17\n"),
    Run("bytes after unmutes", "", "3 unmute > noise; 5 all", "frames 8\n"),
    Run("a failure at the last frame that is allowed", "--budget 2", "unmute; unmute > failed",
        "fault 4\nframes 2\n", f"the line failed; {NONE}", 1),
    Run("a mute that fails", "", "3 unmute; all > found; mute found > failed", "fault 4\nframes 5\n",
        f"the line failed; {NONE}", 1),
)

# Packets that come after the mute of 1234:00000001 with the number 4 and acknowledge it, and what is printed of the
# control field and the binding UID in each.
ACKNOWLEDGEMENTS: Dict[str, Tuple[str, str]] = {
    "without data beyond the control field": ("cc011a7a700000010012340000000104000000001100020200000232", ""),
    "with a byte after it": ("cc011a7a700000010012340000000104000000001100020200000232ff", ""),
    "with control field 3 and a binding UID": (
        "cc01207a700000010012340000000104000000001100020800031234000000020289", " 0003 1234:00000002"),
    "with control field 2 and another": (
        "cc01207a70000001001234000000010400000000110002080002123400000005028b", " 0002 1234:00000005"),
}
# What comes after that mute and doesn't acknowledge it.
OTHERS: Dict[str, str] = {
    "three bytes": "cc011b7a70000001001234000000010400000000110002030000000234",
    "of a GET": "cc011a7a700000010012340000000104000000002100020200000242",
    "of an unmute": "cc011a7a700000010012340000000104000000001100030200000233",
    "a timer": "cc011a7a700000010012340000000104010000001100020200000233",
    "of another device": "cc011a7a700000010012340000000204000000001100020200000233",
    "to another controller": "cc011a7a700000010112340000000104000000001100020200000233",
    "a wrong sum": "cc011a7a700000010012340000000104000000001100020200000233",
    "of another mute": "cc011a7a700000010012340000000105000000001100020200000233",
    "silence": "",
}
# How many ranges come one after the other if each branch is answered by other bytes; how many devices fit into a set.
DEPTH, MOST_DEVICES = 49, 1024
FIRST = 0x123400000000
CORRUPT = "the branch of one UID alone was answered, but showed no new device"
TOO_MANY = "more devices were found than a set has room for"

# The lies of fixtures at the far end that end a run, and which of them still acknowledge their mute.
LIES = {"ignores mutes": False, "answers short": False, "stays unmuted": True}
# A lie that ends no quick run.
ANSWERS_ALL = "answers all"
FIXTURES, BAD = 11, (0, 5, 10)


def cases() -> Iterator[Case]:
    """All discoveries."""
    yield from (searched(it) for it in RUNS)
    err = f"{EXHAUSTED}; found until then:\n{NEAR}"
    for name, (reply, said) in ACKNOWLEDGEMENTS.items():
        yield acknowledged(f"an acknowledgement {name}", reply, f"{err}{said}")
    for name, reply in OTHERS.items():
        yield acknowledged(f"no acknowledgement: {name}", reply, f"{EXHAUSTED}; {NONE}")
    yield always_colliding()
    yield too_many()
    yield from lost_replies()
    for search in ("--quick", ""):
        for apart in (False, True):
            yield from (lied(search, apart, lie, bad) for lie in LIES for bad in BAD)
    yield from (answered_all(apart, bad) for apart in (False, True) for bad in BAD)


def searched(it: Run) -> Case:
    """A discovery with these replies, which sends all frames of the run and no more."""
    run = list(exchanges(it.run))
    replies = tuple(b"failed" if one.reply is None else one.reply.hex().encode() for one in run)
    sent = tuple(one.frame.encode() for one in run)
    return scripted(it, replies, sent)


def scripted(it: Run, replies: Sequence[bytes], sent: Sequence[bytes]) -> Case:
    """A discovery with these replies and frames."""
    err = f"wurstlinen: {it.err}\n".encode() if it.err else None
    expected = Expected(it.status, it.out.encode(), err, sent=tuple(sent))
    command = arguments_of(*LINE, *it.options.split())
    return Case(it.name, (command,), expected, far_end=FarEnd(Streams.FILES, tuple(replies)))


def acknowledged(name: str, reply: str, err: str) -> Case:
    """A mute with this reply, the last frame that is allowed."""
    run = f"3 unmute; all > found; mute found > x{reply}"
    return searched(Run(name, "--budget 5", run, "fault 3\nframes 5\n", err, 1))


def always_colliding() -> Case:
    """A line on which each branch is answered by other bytes: the lower half is searched first, down to one UID."""
    unmutes = [one.frame.encode() for one in exchanges("3 unmute")]
    highest = [ALL_DEVICES >> at for at in range(DEPTH)]
    sent = [branch(at, high) for at, high in enumerate(highest, len(unmutes))]
    replies = [b""] * len(unmutes) + [b"ff"] * (DEPTH + 10)
    out = "fault 1 0000:00000000\nframes 52\n"
    return scripted(Run("noise after each branch", "", "", out, f"{CORRUPT}; {NONE}", 1), replies, unmutes + sent)


def branch(number: int, high: int) -> bytes:
    """The frame of a branch from UID 0, as digits."""
    data = bytes(6) + high.to_bytes(6, "big")
    packet = Packet(ALL_DEVICES, SOURCE, number % 256, PORT, 0, 0, CommandClass.DISCOVERY, Pid.DISC_UNIQUE_BRANCH, data)
    return packet.encode().hex().encode()


def too_many() -> Case:
    """A device more than fit into a set: each answers a branch of all UIDs, and acknowledges its mute."""
    replies, lines = [b""] * 3, []
    for uid in range(FIRST, FIRST + MOST_DEVICES + 1):
        number = (len(replies) + 1) % 256
        mute = Packet(uid, SOURCE, number, PORT, 0, 0, CommandClass.DISCOVERY, Pid.DISC_MUTE)
        packet = mute.answer(uid, ResponseType.ACK, b"\0\0")
        replies += [it.hex().encode() for it in (encode_branch_reply(uid), packet.encode())]
        lines.append(f"\n{uid_text(uid)}")
    err = f"{TOO_MANY}; found until then:{''.join(lines[:-1])}\n"
    expected = Expected(1, b"fault 2\nframes 2053\n", err_ends=err.encode())
    return Case("a device too many", (arguments_of(*LINE),), expected, far_end=FarEnd(Streams.FILES, tuple(replies)))


def lost_replies() -> Iterator[Case]:
    """A quick search of two devices finds both, whichever of the first 13 replies is lost."""
    for lost in range(13):
        scene = {"source": uid_text(SOURCE), "devices": [{"uid": NEAR}, {"uid": FAR}],
                 "collisions": [{"bytes": "ff"}], "losses": [lost]}
        expected = Expected(form=Finds((NEAR, FAR)), err=b"")
        yield Case(f"reply {lost} is lost", (QUICK,), expected, (File(json.dumps(scene).encode()),))


@dataclass(frozen=True)
class Finds:
    """Whether a discovery prints exactly these devices, and any number of frames."""

    uids: Tuple[str, ...]

    def __call__(self, out: bytes, status: int) -> bool:
        *uids, frames = out.decode().splitlines()
        return (tuple(uids), status, frames[:7]) == (self.uids, 0, "frames ")

    @property
    def __name__(self) -> str:
        return f"the devices {' '.join(self.uids)}"


@dataclass
class Liar:
    """Fixtures at the far end whose replies to a branch collide as noise. One of them lies."""

    uids: Tuple[int, ...]
    bad: int
    lie: str
    muted: FrozenSet[int] = frozenset()

    def __call__(self, frame: bytes) -> bytes:
        pid, target = frame[22], int.from_bytes(frame[3:9], "big")
        if pid == Pid.DISC_UN_MUTE:
            self.muted = frozenset()
        elif pid == Pid.DISC_UNIQUE_BRANCH:
            return self._branched(*(int.from_bytes(frame[at:at + 6], "big") for at in (24, 30)))
        elif target in self.uids and not (target == self.bad and self.lie == "ignores mutes"):
            self.muted |= {target}
            return decode_packet(frame).answer(target, ResponseType.ACK, b"\0\0").encode()
        return b""

    def _branched(self, low: int, high: int) -> bytes:
        """What the unmuted ones from `low` to `high` reply together."""
        muted = self.muted - ({self.bad} if self.lie == "stays unmuted" else set())
        everywhere = self.bad if self.lie == ANSWERS_ALL else None
        due = [uid for uid in self.uids if (low <= uid <= high or uid == everywhere) and uid not in muted]
        if len(due) == 1 and (due[0], self.lie) != (self.bad, "answers short"):
            return encode_branch_reply(due[0])
        return b"\xff" if due else b""


def fixtures(apart: bool, first: int = 0) -> Tuple[int, ...]:
    """The UIDs of all fixtures, far apart or in a row."""
    return tuple(at * 0x1234 << 32 | 0x01020304 if apart else first + at for at in range(FIXTURES))


def answered_all(apart: bool, index: int) -> Case:
    """A quick search finds all fixtures, one of which also answers the branches of ranges that it isn't in."""
    uids = fixtures(apart, FIRST)
    expected = Expected(form=Finds(tuple(map(uid_text, uids))), err=b"")
    name = f"{uid_text(uids[index])} {ANSWERS_ALL}, quick{', UIDs far apart' if apart else ''}"
    far_end = FarEnd(Streams.PIPES, rig=partial(Liar, uids, uids[index], ANSWERS_ALL))
    return Case(name, (arguments_of(*PIPES, "--quick"),), expected, far_end=far_end)


def lied(search: str, apart: bool, lie: str, index: int) -> Case:
    """A quick search finds all honest fixtures, a steady one those below the one that lies."""
    uids = fixtures(apart)
    bad = uids[index]
    found = [uid for at, uid in enumerate(uids) if (LIES[lie] if at == index else search or at < index)]
    devices = "".join(f"\n{uid_text(uid)}" for uid in found)
    err = f"{CORRUPT}; found until then:{devices}\n" if found else f"{CORRUPT}; {NONE}\n"
    expected = Expected(1, form=Corrupt(uid_text(bad)), err_ends=err.encode())
    name = f"{uid_text(bad)} {lie}{', quick' if search else ''}{', UIDs far apart' if apart else ''}"
    far_end = FarEnd(Streams.PIPES, rig=partial(Liar, uids, bad, lie))
    return Case(name, (arguments_of(*PIPES, *search.split()),), expected, far_end=far_end)


@dataclass(frozen=True)
class Corrupt:
    """Whether a discovery prints that the branch of this UID is corrupt, after any number of frames."""

    uid: str

    def __call__(self, out: bytes, status: int) -> bool:
        return status == 1 and out.startswith(f"fault 1 {self.uid}\nframes ".encode())

    @property
    def __name__(self) -> str:
        return f"fault 1 {self.uid}"
