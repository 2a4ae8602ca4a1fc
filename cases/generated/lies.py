"""Logs of two discoveries each in which a fixture lies, and what explain shows of them.

A rig in Python makes them, with a search in Python. What is expected comes from a model of the honest line of
docs/PROOFS.md, and without losses also from TABLE, made by hand. Neither shares code with the program.
"""
from __future__ import annotations

import re
import sys
from dataclasses import dataclass
from typing import Dict, Iterator, List, NamedTuple, Optional, Sequence, Set, Tuple

from ..checker.case import EXPLAINED_NAME, Case, Expected, File, arguments_of
from ..checker.tables import ROOT

sys.path += [str(ROOT / "bindings/python"), str(ROOT / "bindings/python/tests/lines")]
from search import SOURCE, Controller, Corrupt  # noqa: E402
from wurstlinen.lines import Rig  # noqa: E402
from wurstlinen.lines.packets import decode_branch_reply, decode_packet  # noqa: E402
from wurstlinen.lines.uids import parse_uid, uid_text  # noqa: E402
from wurstlinen.lines.scene import parse_scene  # noqa: E402

BELOW, LIAR, NEXT, ABOVE = "0123:00000005", "1234:00000009", "1234:0000000a", "9abc:00000002"
# Where the UIDs of honest fixtures are, seen from the one that lies.
PLACES = {"alone": (), "below": (BELOW,), "next": (NEXT,), "above": (ABOVE,), "below and above": (BELOW, ABOVE)}
# With these seeds "every other" breaks a rule in each place.
LOSS, SEEDS, RUNS = 0.2, (28, 44), 2
HIDDEN, UNMUTED, GARBLED = "silent branches", "silent mutes", "garbled mute"
# What is said of a device that breaks none: it acknowledged a mute, or didn't.
FOUND, MISSED = "found", "not found"
# What each lie shows without losses: the rule that its fixture breaks, and where bytes come that no honest line allows.
# - "unmutes late" breaks none, since a fixture may stay muted until the third unmute.
# - Bytes after the text of a UID are ignored, so "adds bytes" breaks none.
# - "answers all" is stray from a range without honest fixtures, and then with other bytes from a UID alone. Nothing
#   shows it if the first such range has its own UID, as when it is alone: it is muted there.
# - The mutes of "stays unmuted" are acknowledged, so its bytes are stray after its mute.
# - The replies of "cuts short" and "wrong sum" count as collisions, until its UID alone is asked.
# No lie makes other bytes answer a mute (GARBLED).
TABLE: Dict[str, Tuple[str, Sequence[str]]] = {
    "hides": (HIDDEN, ()), "ignores mutes": (UNMUTED, ()), "every other": ("", ()), "unmutes late": ("", ()),
    "adds bytes": ("", ()), "answers all": ("", ("below", "next", "below and above")),
    "stays unmuted": ("", tuple(PLACES)), "cuts short": ("", tuple(PLACES)), "wrong sum": ("", tuple(PLACES)),
}
MOST_LOSSES, UNMUTES = 4, 3
BRANCH, MUTE, UNMUTE = 1, 2, 3
OPERATIONS = {BRANCH: "branch", MUTE: "mute", UNMUTE: "unmute"}
OPENING = (f'{{"entry":"opening","source":"{uid_text(SOURCE)}","budget":384008,"search":"steady","discover":"full",'
           '"known":[]}\n')
# The lines of explain that are compared, and what is left of them.
UID = "([0-9a-f]{4}:[0-9a-f]{8})"
IN_DOUBT = "has its UID and an answer that wasn't due, perhaps another device's"
SIGHTING = r"exchange (\d+)((?: \(and \d+ more\))?)"
SHORTENED = {re.compile(line): short for line, short in (
    (f"{UID} was found, and followed the rules(?: in the exchanges that the log has)?", rf"\1 {FOUND}"),
    (rf"{UID} was found; exchange (\d+) {IN_DOUBT}", rf"\1 {FOUND} \2"),
    (f"{UID} wasn't found(?::| yet;) .* (?:until then|that the log has)", rf"\1 {MISSED}"),
    (rf"{UID} wasn't found(?:: .* is there| yet); exchange (\d+) {IN_DOUBT}", rf"\1 {MISSED} \2"),
    (rf"{UID} (?:was never heard|didn't answer) \(exchange (\d+) is .*", rf"\1 {HIDDEN} \2"),
    (rf"{UID} didn't mute \(exchange (\d+) is .*", rf"\1 {UNMUTED} \2"),
    (rf"{UID} didn't acknowledge a mute \(exchange (\d+) has .*", rf"\1 {GARBLED} \2"),
    (rf"{UID} was found, but didn't answer \(exchange (\d+) is .*", rf"\1 {FOUND}, {HIDDEN} \2"),
    (rf"{UID} was found, but didn't mute \(exchange (\d+) is .*", rf"\1 {FOUND}, {UNMUTED} \2"),
    (rf"{SIGHTING}: .*(?:bytes came though no listed device was due|, which isn't listed)(?:[;:] .*)?", r"stray \1\2"),
    (rf"{SIGHTING}: .* (?:are no right answer|though it was muted|don't acknowledge it)[;:] .*", r"none \1\2"))}


class Exchange(NamedTuple):
    """What was asked of the UIDs from `low` to `high`, and the reply."""

    pid: int
    low: int
    high: int
    reply: bytes

    def asks(self, uid: int) -> bool:
        """Whether it is a branch of a range with this UID, or a mute of it."""
        return self.pid != UNMUTE and self.low <= uid <= self.high

    @property
    def is_acknowledged(self) -> bool:
        """Whether it is a mute, and the reply acknowledges it."""
        packet = decode_packet(self.reply) if self.pid == MUTE else None
        kind = packet and (packet.source, packet.command_class, packet.pid, packet.port_or_type)
        return kind == (self.low, 0x11, MUTE, 0)

    def may_be_answered(self, muted: Set[int]) -> bool:
        """Whether any device may send this reply, if those that acknowledged a mute are muted."""
        if self.pid == BRANCH and self.low == self.high:
            return decode_branch_reply(self.reply) == self.low and self.low not in muted
        return self.pid != MUTE or self.is_acknowledged

    def is_misread(self, uid: int) -> bool:
        """Whether it is a branch of this UID alone, and the reply, if there is one, reads otherwise."""
        return self.pid == BRANCH and self.low == self.high == uid and self.reads != {uid}

    @property
    def names(self) -> Set[int]:
        """The UIDs that a line about such bytes names: the one asked alone, and the one that they read as."""
        asked = {self.low} if self.low == self.high else set()
        return asked | self.reads

    @property
    def reads(self) -> Set[int]:
        """The UID that the reply to a branch reads as."""
        found = decode_branch_reply(self.reply) if self.pid == BRANCH else None
        return set() if found is None else {found}


class Device:
    """Whether a device may be muted, and may be unmuted, on a line that is honest to it. If neither, it isn't."""

    def __init__(self, uid: str) -> None:
        self.uid = parse_uid(uid)
        # The rule that it broke, and where.
        self.broken = ""
        self.is_found = False
        self.may_be_muted = self.may_be_unmuted = True
        # How many unmutes, silent branches and silent mutes came in a row.
        self.unmutes = self.branches = self.mutes = 0

    def is_due(self, exchange: Exchange) -> bool:
        """Whether it may have to answer: it isn't known to be muted, or this is its mute."""
        return exchange.asks(self.uid) and (exchange.pid == MUTE or self.may_be_unmuted or not self.may_be_muted)

    def see(self, at: int, exchange: Exchange) -> None:
        """Learns from an exchange, which may be the first to break a rule."""
        self.is_found |= exchange.is_acknowledged and exchange.low == self.uid
        was_honest = self.may_be_muted or self.may_be_unmuted
        is_silent = exchange.asks(self.uid) and not exchange.reply
        self.unmutes = self.unmutes + 1 if exchange.pid == UNMUTE else 0
        self.branches = self.branches + 1 if exchange.pid == BRANCH and is_silent else 0
        self.mutes = self.mutes + 1 if exchange.pid == MUTE and is_silent else 0
        if exchange.pid == UNMUTE:
            self.may_be_unmuted = was_honest
            self.may_be_muted &= self.unmutes < UNMUTES
        elif exchange.pid == BRANCH:
            self.may_be_unmuted &= self.branches <= MOST_LOSSES
        elif exchange.asks(self.uid):
            is_lost = is_silent and self.mutes <= MOST_LOSSES
            self.may_be_muted = was_honest and (is_lost or exchange.is_acknowledged)
            self.may_be_unmuted &= is_lost
        if was_honest and not self.may_be_muted and not self.may_be_unmuted:
            rule = HIDDEN if exchange.pid == BRANCH else UNMUTED if is_silent else GARBLED
            self.broken = f"{rule} {at}"

    def shown(self, named_at: Sequence[int]) -> str:
        """What is said of it, if lines about these exchanges name it, or count them: the first one counts."""
        see = "".join(f" {at}" for at in named_at[:1])
        if self.broken:
            return f"{uid_text(self.uid)} {f'{FOUND}, ' if self.is_found else ''}{self.broken}"
        return f"{uid_text(self.uid)} {FOUND if self.is_found else MISSED}{see}"


def findings_of(exchanges: Sequence[Exchange], uids: Sequence[str], has_all: bool) -> Tuple[List[str], int]:
    """What the model finds in a run, if these devices are listed, and the status. `has_all`: it found all devices."""
    devices, muted = [Device(uid) for uid in uids], set()
    stray: List[int] = []
    none: List[int] = []
    for at, exchange in enumerate(exchanges):
        if exchange.reply and exchange.pid != UNMUTE:
            stray += [at] if not any(device.is_due(exchange) for device in devices) else []
            none += [at] if not exchange.may_be_answered(muted) else []
        muted = set() if exchange.pid == UNMUTE else muted | {exchange.low} if exchange.is_acknowledged else muted
        for device in devices:
            device.see(at, exchange)
    is_broken = none or has_all and stray or any(device.broken for device in devices)
    stray = [] if stray[:1] == none[:1] else stray
    shown = []
    for device in devices:
        named_at = [at for at in none[:1] if device.uid in exchanges[at].names]
        named_at += [at for at in none if exchanges[at].is_misread(device.uid)]
        named_at += [at for at in stray[:1] if device.uid in exchanges[at].reads]
        shown.append(device.shown(named_at))
    return shown + sighting("stray", stray) + sighting("none", none), 3 if is_broken else 0


def sighting(kind: str, exchanges: Sequence[int]) -> List[str]:
    """The line about the first of such exchanges, if there is one, and how many others there are."""
    more = f" (and {len(exchanges) - 1} more)" if exchanges[1:] else ""
    return [f"{kind} {at}{more}" for at in exchanges[:1]]


@dataclass(frozen=True)
class Shows:
    """Whether explain shows these lines, each after the number of its run, with this status."""

    lines: Tuple[str, ...]
    status: int

    def __call__(self, out: bytes, status: int) -> bool:
        return (sorted(shortened(out.decode(errors="replace"))), status) == (sorted(self.lines), self.status)

    @property
    def __name__(self) -> str:
        return f"{'; '.join(self.lines)} with status {self.status}"


def shortened(out: str) -> Iterator[str]:
    """What is left of the lines that are compared, each after the number of its run."""
    run = -1
    for line in out.splitlines():
        run += line.startswith("discovery: ")
        yield from (f"{run}: {form.sub(short, line)}" for form, short in SHORTENED.items() if form.fullmatch(line))


class Recorded(Rig):
    """A rig that writes down its exchanges."""

    log, kept = "", ()

    def exchange(self, frame: bytes) -> bytes:
        """The reply to a frame."""
        reply, pid = super().exchange(frame), frame[22]
        self.log += (f'{{"number":{len(self.kept)},"operation":"{OPERATIONS[pid]}","frame":"{frame.hex()}",'
                     f'"reply":"{reply.hex()}"}}\n')
        ends = frame[24:36] if pid == BRANCH else frame[3:9] * 2
        self.kept += (Exchange(pid, int.from_bytes(ends[:6], "big"), int.from_bytes(ends[6:], "big"), reply),)
        return reply


def case_of(lie: str, place: str, seed: Optional[int]) -> Case:
    """What explain shows of discoveries of a fixture with this lie, with losses if there is a seed."""
    name = f"{lie}, {place}" + ("" if seed is None else f", losses with seed {seed}")
    uids = (LIAR, *PLACES[place])
    devices = [{"uid": uid, "rig": {"lies": [lie] if uid == LIAR else []}} for uid in uids]
    keys = {} if seed is None else {"loss": LOSS, "seed": seed}
    rig = Recorded(parse_scene({"source": uid_text(SOURCE), "devices": devices, "rig": keys}))
    lines, status = [], 0
    for run in range(RUNS):
        rig.log, rig.kept, has_all = rig.log + OPENING, (), True
        try:
            Controller(rig).discover()
        except Corrupt:
            has_all = False
        found, of_run = findings_of(rig.kept, uids, has_all)
        status = max(status, of_run)
        lines += [f"{run}: {line}" for line in found]
        check(name, found, TABLE[lie][0], place in TABLE[lie][1], seed is not None)
    command = arguments_of("explain", EXPLAINED_NAME, *(f"--present={uid}" for uid in uids))
    expected = Expected(status=None, err=b"", form=Shows(tuple(lines), status))
    return Case(name, (command,), expected, (File(rig.log.encode(), EXPLAINED_NAME),))


def check(name: str, found: Sequence[str], rule: str, has_none: bool, is_lossy: bool) -> None:
    """The model blames no honest fixture, and finds what the table has, at least without losses."""
    lines = [line.replace(f"{FOUND}, ", "").rpartition(" ")[0] for line in found]
    blamed = [line for line in lines if line.endswith((HIDDEN, UNMUTED, GARBLED))]
    is_right = blamed == ([f"{LIAR} {rule}"] if rule else []) and has_none == found[-1].startswith("none")
    if not is_right and not (is_lossy and all(line.startswith(LIAR) for line in blamed)):
        raise ValueError(f"{name}: the model finds {found}")


def cases() -> Iterator[Case]:
    """Each lie in each place, without losses and with some."""
    yield from (case_of(lie, place, seed) for lie in TABLE for place in PLACES for seed in (None, *SEEDS))
