"""A quick search as docs/DECISIONS.md describes it, written apart from the library's code: what it asks next, and why.

It knows no frames. A line of its own has `unmute`, `mute` and `branch`, which say what came.
"""
from __future__ import annotations

import enum
from typing import Iterable, List, NamedTuple, Optional, Protocol, Set

ALL = 1 << 48
LAST = ALL - 1
UNMUTES, TRIES = 3, 5
# Bad answers in a row of one UID alone that end a run, and those that set it apart; how many are set apart at most.
BADS, BADS_ASIDE, MOST_ASIDE = 8, 4, 16
GARBLED = 8
# The noise level: what a range that fell silent adds, what an answer that wasn't repeated adds, and its maximum.
LOUD, LOUDER, LOUDEST = 16, 4, 31
UNASSIGNED = LAST - 1
# What a branch brings if it isn't a UID.
BAD = -1


class Mute(enum.Enum):
    """What a mute brings."""

    SILENCE = 0
    ACK = 1
    OTHER = 2


class Line(Protocol):
    """What a search asks of a line."""

    def unmute(self) -> None:
        """Unmutes all devices."""

    def mute(self, uid: int) -> Mute:
        """Mutes a device."""

    def branch(self, low: int, high: int) -> Optional[int]:
        """The UID that comes, None if nothing comes, or BAD."""


class Part(enum.Enum):
    """What is asked, of the range that answered or beyond it; and a UID alone, for its own sake."""

    FRESH, LOWER, REST, ALL, WHOLE, END, APART, SPELT = range(8)


class Question(NamedTuple):
    """A branch that is to come."""

    part: Part
    low: int
    high: int

    def has(self, uid: int) -> bool:
        """Whether a UID is in its range."""
        return self.low <= uid <= self.high


class Over(Exception):
    """The run has ended."""


class Steady(Exception):
    """The sweep gives up, after so many silences in a row of all UIDs."""


def is_device(uid: int) -> bool:
    """Whether a device may have this UID."""
    return uid & 0xFFFF_FFFF != 0xFFFF_FFFF


def spanning(part: Part, low: int, high: int) -> Question:
    """The UIDs from `low` to `high`; `high` alone if `low` is above it."""
    high = min(high, LAST)
    return Question(part, min(low, high), high)


class Belief:
    """What a sweep believes: the UIDs below `at` were swept, and those from `lo` to `end` have `need` devices more."""

    def __init__(self) -> None:
        self.base = self.lo = self.at = self.gap = self.need = 0
        self.end = self.top = LAST
        self.width, self.growth, self.back = ALL, 2, 1
        self.quiet = self.begun = self.level = self.doubt = self.turn = 0
        self.alone: Optional[Part] = None
        self.suspect: Optional[int] = None
        self.found_nothing = self.again = self.hushed = False
        self.spelt: Optional[int] = None
        self.times = self.due = 0

    def question(self) -> Question:
        """What comes next."""
        if self.alone is Part.SPELT:
            return spanning(Part.SPELT, *[LAST if self.spelt is None else self.spelt] * 2)
        if self.alone is not None:
            return spanning(self.alone, *[self.end if self.alone is Part.END else min(self.end, LAST - 1)] * 2)
        if self.at > self.top:
            return self.all_of()
        part, low, high = Part.LOWER, self.at, self.at + max(self.end - self.at, 0) // 2
        if self.need == 0:
            # As far back as ahead; the last one looks back to the start.
            low = self.base if self.top < self.at + self.width else max(self.base, self.at - self.width)
            part, high = Part.FRESH, self.at + max(self.width - 1, 0)
        elif self.need == 1:
            part, low, high = Part.ALL, self.lo, self.end
        elif self.lo < self.at and self.quiet >= 3:
            part, high = Part.REST, self.end
        asked = spanning(part, low, min(high, self.top))
        if asked.low < asked.high:
            return asked
        return spanning(part, max(self.base, asked.high - self.back), asked.high)

    def all_of(self) -> Question:
        """All of the gap."""
        return Question(Part.WHOLE, 0, LAST) if self.top == LAST else \
            spanning(Part.WHOLE, self.gap, min(self.top, LAST - 1))

    def ready(self) -> None:
        """A range of which too little is left is begun again, and UID 0 alone is left out."""
        if self.alone is None and self.need == 2 and self.lo < self.at and self.end <= self.at:
            if self.begun + 1 < 4:
                self.begin_again()
            else:
                self.alone, self.quiet, self.suspect = Part.END, 0, None
        if self.alone is None and self.question().high == 0 and self.top:
            self.base = self.lo = self.at = 1
            self.need //= 2

    def begin_again(self) -> None:
        """A silence was a loss."""
        self.at, self.quiet, self.begun = self.lo, 0, min(self.begun + 1, 4)

    def enter(self, at: int, width: int) -> None:
        """No range that answered is known from here on, where fresh ranges begin with this width."""
        self.lo = self.at = at
        self.need = self.quiet = self.begun = 0
        self.width, self.growth, self.alone = width, 2, None

    def give_up(self, uid: int) -> None:
        """A UID can't be muted."""
        if self.alone is Part.SPELT:
            self.alone = None
        else:
            self.enter(uid + 1, 2)
            self.base = uid + 1

    def above(self, asked: Question) -> None:
        """A range that answered fell silent four times in a row."""
        self.level = min(self.level + LOUD, LOUDEST)
        self.enter(asked.high + 1, max(asked.high + 1 - self.lo, 1))

    def stop_below(self, uid: int) -> None:
        """The gap ends below a UID that was set apart."""
        self.lo = self.at = uid
        self.need = self.quiet = self.begun = 0
        self.top, self.alone = uid - 1, None
        self.renew()

    def renew(self) -> None:
        """A pass that begins, or a search of other UIDs."""
        self.suspect, self.found_nothing, self.again = None, False, False

    def settle(self) -> None:
        """A bad answer that was asked again was noise."""
        if self.doubt:
            self.doubt, self.level = 0, min(self.level + LOUDER, LOUDEST)

    def hear(self, uid: int) -> None:
        """A branch spelt this UID."""
        if uid == self.spelt:
            self.due = self.due if self.times < self.due else 2 * self.times
            self.times += 1
            return
        self.spelt, self.times, self.due = uid, 1, 1
        self.alone = None if self.alone is Part.SPELT else self.alone

    def is_due(self) -> bool:
        """Whether the UID was spelt 1, 2, 4, 8 .. times in a row; once only counts if nothing was silent so far."""
        return self.times == self.due and (self.times > 1 or not self.hushed)

    # What is believed after a silence, a find, and anything else.

    def silent(self, asked: Question) -> None:
        """Nothing came."""
        if self.alone is Part.SPELT:
            self.alone = None
        elif self.doubt == 1:
            self.doubt = 2
        else:
            self.settle()
            self.believe_silence(asked)

    def believe_silence(self, asked: Question) -> None:
        """Nothing answers."""
        if asked.part is Part.FRESH:
            self.at, self.width = asked.high + 1, min(self.width * self.growth, ALL)
            self.growth = min(self.growth ** 2, 1 << 32)
        elif asked.part is Part.LOWER:
            self.at, self.quiet = asked.high + 1, min(self.quiet + 1, 3)
        elif asked.part is Part.REST:
            self.need = 1 if self.begun or self.level else self.need
            self.begin_again()
        elif asked.part is Part.WHOLE:
            self.again = False
        elif asked.part is Part.END:
            if self.quiet:
                self.give_up(self.end)
            else:
                self.quiet = 1

    def found(self, asked: Question) -> None:
        """One device answered and was muted."""
        self.settle()
        self.growth, self.quiet, self.begun, self.back = 2, 0, 0, 1
        self.found_nothing = self.again = False
        above = asked.high + 1
        if asked.part is Part.FRESH:
            self.lo = self.at = above
        elif asked.part is Part.LOWER:
            wide = max(above - self.at, 0)
            self.lo = above if self.at == self.lo else self.lo
            self.at, self.need, self.width = above, 1, max(wide, min(8 * wide, self.width // 4 * 3))
        elif asked.part is Part.REST:
            self.end, self.at, self.need = max(self.at - 1, 0), self.lo, 1
        elif asked.part in (Part.ALL, Part.END):
            self.width = min(self.width, 8 * max(self.end + 1 - self.lo, 0))
            self.lo = self.at = self.end + 1
            self.need = 0
        self.alone = self.alone if self.alone is not asked.part else None

    def apart(self, asked: Question, silences: int) -> None:
        """A bad answer of several UIDs, which were silent so many times in a row before."""
        is_often = self.times == self.due == 4 and self.spelt is not None and asked.has(self.spelt)
        if asked.part is Part.WHOLE:
            if not self.again and (self.level or self.found_nothing or silences >= 2):
                self.again = True
            else:
                self.split(asked, self.gap, 0, self.back)
                self.renew()
                self.base, self.width, self.found_nothing = self.gap, ALL, True
        elif asked.part is Part.ALL:
            self.split(asked, asked.low if asked.high < self.at else self.at, self.begun, self.back)
        elif asked.part in (Part.FRESH, Part.LOWER, Part.REST):
            self.split_unless_doubted(asked)
        if is_often:
            self.alone, self.due = Part.SPELT, 8

    def split_unless_doubted(self, asked: Question) -> None:
        """In noise a bad answer is asked again first."""
        if self.level and not self.doubt:
            self.doubt = 1
            return
        self.level -= bool(self.doubt and self.level)
        self.doubt = 0
        if asked.part is Part.FRESH:
            self.split(asked, self.at, 0, self.back)
        else:
            back = min(4 * self.back, 1 << 46) if asked.low < self.at else self.back
            self.split(asked, asked.low, 0, back)

    def split(self, asked: Question, at: int, begun: int, back: int) -> None:
        """The range has two devices, and is searched from `at` on."""
        self.lo, self.at, self.end, self.need = asked.low, at, asked.high, 2
        self.growth, self.quiet, self.begun, self.back = 2, 0, begun, back


class Model:
    """A run on a line: what it found, the UIDs that it set apart, the newest first, whether there were more, and the
    UID of a fault."""

    def __init__(self, line: Line, known: Iterable[int] = ()) -> None:
        self.line, self.belief = line, Belief()
        self.known = sorted(known)
        self.found: Set[int] = set()
        self.aside: List[int] = []
        self.has_more = False
        self.fault: Optional[int] = None
        self._made = 0
        self._asked, self._silences, self._bads = self.belief.question(), 0, 0

    def run(self) -> None:
        """Makes the run."""
        for _ in range(UNMUTES):
            self.line.unmute()
        for uid in self.known:
            self._mute(uid)
        self._made = 0
        try:
            try:
                while True:
                    self._step()
            except Steady as steady:
                self._search(*steady.args)
        except Over:
            pass

    def _mute(self, uid: int, spare: int = GARBLED) -> bool:
        """Whether one of a series of mutes was acknowledged. So many garbled replies aren't counted as tries."""
        tries = 0
        while tries < TRIES:
            heard = self.line.mute(uid)
            self._made += 1
            if heard is Mute.ACK:
                self.found.add(uid)
                return True
            if heard is Mute.OTHER and spare:
                spare -= 1
            else:
                tries += 1
        return False

    def _branch(self, low: int, high: int) -> Optional[int]:
        self._made += 1
        heard = self.line.branch(low, high)
        self.belief.hushed = self.belief.hushed or heard is None
        return heard

    def _step(self) -> None:
        """One question of the sweep, and what it entails."""
        asked, belief = self._asked, self.belief
        heard = self._branch(asked.low, asked.high)
        if heard is None:
            if self._silences + 1 == TRIES:
                self._all_silent(asked)
                self._go_on(asked)
            else:
                belief.silent(asked)
                self._go_on(asked, self._silences + 1)
            return
        if heard != BAD:
            belief.hear(heard)
            is_last = self._bads + 1 == BADS
            if asked.has(heard) and is_device(heard) and heard not in self.found \
                    and (heard != belief.suspect or is_last):
                self._read(asked, heard, 0 if is_last else GARBLED)
                return
            if self._is_stray(asked, heard):
                self._check(asked, heard)
                return
        self._bad(asked)

    def _read(self, asked: Question, uid: int, spare: int) -> None:
        """The range spelt a UID that may be a device's."""
        if not self._mute(uid, spare):
            self.belief.suspect = uid
            self._bad(asked)
            return
        aside = len(self.aside)
        self.aside = [other for other in self.aside if other != uid]
        if asked.part is Part.APART:
            self._ask_turn(self.belief.turn)
        else:
            self.belief.found(asked)
        self._go_on(asked, aside=aside)

    def _is_stray(self, asked: Question, uid: int) -> bool:
        """Whether the UID is looked into, since it answered for others."""
        return is_device(uid) and not asked.has(uid) and asked.low < asked.high and self.belief.is_due() \
            and uid not in self.found and uid not in self.aside and uid != self.belief.suspect

    def _check(self, asked: Question, uid: int) -> None:
        """It answers for others if UIDs that nobody has are answered by it. Then it is muted."""
        silences, heard = 0, self._branch(UNASSIGNED, LAST)
        while heard is None:
            silences += 1
            if silences == 2 or self.belief.times < 8:
                break
            heard = self._branch(UNASSIGNED, LAST)
        else:
            silences = 0
        if heard == uid:
            if self._mute(uid):
                self.belief.found_nothing = self.belief.again = False
                self.belief.settle()
                self._go_on(asked)
                return
            self.belief.suspect = uid
        self._collide(asked, Question(Part.FRESH, UNASSIGNED, LAST), silences)

    def _bad(self, asked: Question) -> None:
        """A bad answer, which may be the last one that a UID alone may give."""
        if asked.low < asked.high:
            self._collide(asked, asked)
            return
        bads = self._bads + 1
        if bads == BADS:
            self.fault = asked.low
            raise Over
        if asked.part is Part.APART:
            if bads + 1 == BADS and self.belief.turn + 1 < len(self.aside):
                self._ask_turn(self.belief.turn + 1)
        elif bads == BADS_ASIDE:
            self._put_aside(asked.high)
        elif self.belief.alone is not None:
            self.belief.quiet = 0
        self._go_on(asked, bads=bads)

    def _collide(self, asked: Question, last: Question, silences: int = 0) -> None:
        """Several UIDs answered. After a pass without a find that is in vain."""
        if asked.part is Part.WHOLE and self.belief.found_nothing and self.belief.again:
            raise Steady(0)
        self.belief.apart(asked, self._silences)
        self._go_on(last, silences)

    def _go_on(self, last: Question, silences: int = 0, bads: int = 0, aside: Optional[int] = None) -> None:
        """The next question, after so many silences or bad answers in a row of the range that was asked last."""
        paid = len(self.found) + 2
        if self._made >= 100 * paid + 60 * min(len(self.aside) if aside is None else aside, paid):
            raise Steady(silences if last[1:] == (0, LAST) else 0)
        self.belief.ready()
        asked = self.belief.question()
        if asked[1:] != last[1:]:
            silences = bads = 0
        if silences + 1 == TRIES and asked.part is not Part.APART and asked[1:] != self.belief.all_of()[1:]:
            self.belief.above(asked)
            asked, silences, bads = self.belief.question(), 0, 0
        self._asked, self._silences, self._bads = asked, silences, bads

    # UIDs that are set apart, and the gaps between them.

    def _put_aside(self, uid: int) -> None:
        """A UID can't be read or muted."""
        if not is_device(uid) or len(self.aside) == MOST_ASIDE:
            self.has_more = self.has_more or is_device(uid)
            self.belief.give_up(uid)
            return
        self.aside.insert(0, uid)
        self.belief.doubt = 0
        if uid <= self.belief.gap:
            self._next_gap(uid)
        else:
            self.belief.stop_below(uid)

    def _all_silent(self, asked: Question) -> None:
        """Five silences in a row of all UIDs end the run, and those of another gap end its search."""
        if asked.part is Part.APART:
            self.aside.remove(asked.high)
            self._ask_turn(self.belief.turn)
        elif asked[1:] == (0, LAST):
            raise Over
        else:
            self._next_gap(self.belief.top + 1)

    def _next_gap(self, low: int) -> None:
        """The UIDs from here to the next one that was set apart. After the last gap each of those is asked alone."""
        for uid in self.aside:
            low += uid == low
        if low >= LAST:
            self._ask_turn(0)
            return
        self.belief.enter(low, 2)
        self.belief.base = self.belief.gap = low
        self.belief.top = min([uid for uid in self.aside if uid > low], default=LAST) - 1
        self.belief.back = 1
        self.belief.renew()

    def _ask_turn(self, turn: int) -> None:
        """One that was set apart is asked alone. If none is left, all UIDs are asked."""
        belief = self.belief
        if self.aside:
            belief.turn = turn if turn < len(self.aside) else 0
            belief.alone, belief.end, belief.suspect = Part.APART, self.aside[belief.turn], None
            return
        belief.base = belief.lo = belief.gap = belief.need = 0
        belief.top, belief.at, belief.alone = LAST, ALL, None
        belief.renew()

    # The steady search.

    def _search(self, silences: int) -> None:
        """All UIDs by halves."""
        ranges = [(0, LAST)]
        while ranges:
            low, high = ranges.pop()
            if self._is_split(low, high, silences):
                middle = low + (high - low) // 2
                ranges += [(middle + 1, high), (low, middle)]
            silences = 0

    def _is_split(self, low: int, high: int, silences: int) -> bool:
        """Whether a range isn't silent in the end, after these silences."""
        spent, bads = silences, 0
        while silences < TRIES:
            heard = self.line.branch(low, high)
            spent += 1
            if heard is None:
                silences, bads = silences + 1, 0
                continue
            silences, bads = 0, bads + 1
            if low <= heard <= high and is_device(heard) and heard not in self.found and (low == high or spent <= 5):
                if self._mute(heard, 0 if low == high and bads >= BADS else GARBLED):
                    self.aside = [other for other in self.aside if other != heard]
                    spent = bads = 0
                    continue
                spent = 10
            if low == high and bads == BADS:
                self.fault = low
                raise Over
            if low < high and not (spent <= 5 and bads < 3):
                return True
        return False
