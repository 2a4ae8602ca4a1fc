"""The findings of the proved program about a log, as its JSON has them, and what they say in all.

docs/FORMATS.md has the names. Sentences are shown as they are, and nothing is read from them.
"""
from __future__ import annotations

import enum
import json
from dataclasses import dataclass
from typing import AbstractSet, Any, Dict, Iterator, List, Optional, Sequence, Tuple

from .. import Uid
from ..lines.packets import decode_branch_reply
from ..lines.uids import is_broadcast, parse_uid
from ..tool.places import program
from .discovery_log import explanation

NO_FAULT = "no fault"
NO_RUN = "no run"
FAILURE = "failure"


class NoFindings(Exception):
    """A text that isn't the program's JSON."""


class Outcome(enum.IntEnum):
    """What is known of a discovery, the worst last."""

    COMPLETE = 0
    UNDECIDED = 1
    INCOMPLETE = 2
    FAILED = 3


JUDGED = {"complete": Outcome.COMPLETE, "incomplete": Outcome.INCOMPLETE, "undecided": Outcome.UNDECIDED}
# What is said of one discovery, and of some of many.
OUTCOMES = {
    Outcome.UNDECIDED: ("It isn't decided whether the discovery is complete.",
                        "It isn't decided whether {} of {} discoveries are complete."),
    Outcome.INCOMPLETE: ("The discovery is incomplete.", "{} of {} discoveries are incomplete."),
    Outcome.FAILED: ("The discovery failed.", "{} of {} discoveries failed."),
}
BROKEN, UNBROKEN, NO_DISCOVERY = "A rule was broken.", "No broken rule was seen.", "No discovery."
# The judgements by which a rule was broken, whichever devices are there; and the one on a listed device, if only by
# silence.
BREAKS, BROKE, GARBLED = ("stray", "unmuted", "garbled"), "broke", "garbled"
# The judgement on a part of the certificate that fails, which may be about a range of UIDs.
GAP = "gap"
# The judgements on bytes that read as a device's, which need not have sent them; and on what to do.
NO_REASONS = ("stray", "unexplained", "order")
NOTHING_ELSE = "nothing else can be on this line if it is honest"
# Who hears nothing has more reason to doubt the line.
NOTHING = "No fixture found: check the adapter and the first cable."
COMPLETE = f"{{}} found; {NOTHING_ELSE}."


@dataclass(frozen=True)
class Finding:
    """A sentence, what it says, the device that it is about, and the place of an exchange among those of all runs."""

    text: str
    judgement: str
    uid: Optional[int] = None
    place: Optional[int] = None
    is_head: bool = False
    # Of a listed device that broke a rule: whether it acknowledged a mute.
    is_found: Optional[bool] = None


@dataclass(frozen=True)
class Run:
    """A run: its name, the place of its first exchange among those of all runs, and a letter for what each heard."""

    name: str
    place: int
    heard: str
    outcome: Outcome
    devices: int


@dataclass(frozen=True)
class Findings:
    """What the program found in a log."""

    runs: Sequence[Run]
    all: Sequence[Finding]
    is_broken: bool
    # Why the log isn't explained to its end, if it isn't.
    fault: Optional[str]

    def lines(self) -> Iterator[str]:
        """What the program prints without --json."""
        for finding in self.all:
            yield finding.text
        if self.fault is not None:
            yield f"fault: {self.fault}"

    def of_uids(self, expected: AbstractSet[int]) -> Iterator[Tuple[Optional[int], Finding]]:
        """The findings but the first of each run, each with the UID whose device it is about, if there is one.

        No device has a broadcast UID. Where an unsettled range begins there need be none. After a complete discovery,
        bytes after an unexpected UID are no device's.
        """
        is_complete = all(run.outcome is Outcome.COMPLETE for run in self.runs)
        for each in self.all:
            uid = None if each.judgement in NO_REASONS else each.uid
            is_nobody = each.judgement == GAP or (is_complete and each.judgement == GARBLED)
            if uid is not None and ((is_nobody and uid not in expected) or is_broadcast(uid)):
                uid = None
            if not each.is_head:
                yield uid, each

    def verdict(self) -> List[str]:
        """What they say in all, the worst first."""
        worst = worst_of(self.runs)
        if not self.is_broken:
            return [*(worst or [complete_of(self.runs)]), UNBROKEN]
        missing = self.missing()
        return [missing, *(worst or [complete_of(self.runs)])] if missing else [BROKEN, *worst]

    def missing(self) -> str:
        """How many listed devices weren't found, if no other rule was broken in the log's only run."""
        broke = [each for each in self.all if each.judgement == BROKE]
        if len(self.runs) != 1 or any(each.is_found is not False for each in broke) or any(
                each.judgement in BREAKS for each in self.all):
            return ""
        count = len(broke)
        return f"{count} listed fixture{' was' if count == 1 else 's were'} not found." if count else ""


def findings_in(text: bytes) -> Findings:
    """What the program's JSON says. Raises NoFindings."""
    try:
        found = json.loads(text)
        runs: List[Run] = []
        findings = [finding_in(each, None) for each in found["passing"]]
        place = 0
        for run in found["runs"]:
            findings += run_findings(run, place)
            if run["findings"][0]["judgement"] != NO_RUN:
                runs.append(Run(name_of(run), place, run["heard"], outcome_of(run), run["devices"]))
            place += run["exchanges"]
        return Findings(runs, findings, found.get("broken", False), found.get("fault"))
    except (ValueError, TypeError, KeyError, IndexError, AttributeError, RecursionError) as fault:
        raise NoFindings(f"{type(fault).__name__}: {fault}") from None


def findings_of(log: Sequence[str], expected: Sequence[Uid]
                ) -> Tuple[Optional[Findings], Dict[Uid, str], Dict[str, Any]]:
    """What a discovery's log shows of devices that should be on the line, and what pages show of that."""
    place = program()
    try:
        if place is None:
            raise NoFindings("the proved program isn't installed")
        said = findings_in(explanation(place, log, expected, "--json")[1])
        if said.fault is not None:
            raise NoFindings(said.fault)
    except (OSError, NoFindings) as fault:
        return None, {}, {"others": [f"why a fixture is missing can't be said: {fault}"]}
    about = [(None if number is None else Uid.from_number(number), each)
             for number, each in said.of_uids({uid.number for uid in expected})]
    reasons = {uid: each.text.removeprefix(f"{uid} ") for uid, each in about if uid is not None}
    # Who breaks a rule may answer for others, which then are nobody: whose reply to a branch it is counts, if any.
    replies = {each: decode_branch_reply(bytes.fromhex(json.loads(log[1 + each.place]).get("reply", "")))
               for _, each in about if each.place is not None}
    breaks = {each: uid if (number := replies.get(each)) is None else Uid.from_number(number) for uid, each in about
              if each.judgement in BREAKS or (each.judgement == BROKE and each.is_found)}
    broken = {str(who): each.text.removeprefix(f"{who} ") for each, who in breaks.items() if who is not None}
    return said, reasons, {
        "devices": [{"uid": uid, "text": text} for uid, text in broken.items()], "is_broken": said.is_broken,
        "missing": said.missing(), "others": [each.text for uid, each in about if uid is breaks.get(each) is None]}


def run_findings(run: Dict[str, Any], place: int) -> List[Finding]:
    """The findings about a run whose first exchange has this place."""
    # The first exchange that the log has, if that isn't known, has the number 0.
    start = place - run.get("first", 0)
    head, *others = run["findings"]
    return [finding_in(head, start, True), *(finding_in(each, start) for each in others)]


def finding_in(found: Dict[str, Any], start: Optional[int], is_head: bool = False) -> Finding:
    """A finding, about a run whose exchange 0 would have this place."""
    uid, exchange = found.get("uid"), found.get("exchange")
    place = None if start is None or exchange is None else start + exchange
    return Finding(found["sentence"], found["judgement"], None if uid is None else parse_uid(uid), place, is_head,
                   found.get("found"))


def name_of(run: Dict[str, Any]) -> str:
    """A run of a session has a number."""
    return f"run {run['run']}" if "run" in run else "discovery"


def outcome_of(run: Dict[str, Any]) -> Outcome:
    """What is known of a run."""
    if run.get("end", NO_FAULT) != NO_FAULT or any(each["judgement"] == FAILURE for each in run["findings"]):
        return Outcome.FAILED
    return JUDGED[run["findings"][0]["judgement"]]


def worst_of(runs: Sequence[Run]) -> List[str]:
    """What is said of the worst discoveries of a log; nothing if all are complete."""
    if not runs:
        return [NO_DISCOVERY]
    worst = max(run.outcome for run in runs)
    if worst is Outcome.COMPLETE:
        return []
    one, many = OUTCOMES[worst]
    count = sum(run.outcome is worst for run in runs)
    return [one if len(runs) == 1 else many.format(count, len(runs))]


def complete_of(runs: Sequence[Run]) -> str:
    """What is said if all discoveries are complete, and no rule was broken."""
    count = runs[-1].devices
    said = COMPLETE.format(f"{count} fixture{'' if count < 2 else 's'}") if count else NOTHING
    return said if len(runs) == 1 else f"The last of {len(runs)} discoveries: {said}"
