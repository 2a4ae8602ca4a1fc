"""The fixtures as the page knows them: what they have said, what the last discovery said, and changes with undo."""
from __future__ import annotations

import math
import threading
import time
from concurrent.futures import Future
from dataclasses import dataclass, replace
from functools import partial
from typing import Any, Callable, Dict, List, Mapping, Optional, Sequence, Tuple

from .. import Device, Uid
from ..front.applying import make
from ..front.csv_files import COLUMNS, LABEL, Change, differs
from ..front.fixtures import SLOW, Fixture, identifies_of, keys_of, look_at, values_of
from ..front.guarding import ADDRESS, PERSONALITY, moved_by, patched, problems_after
from ..front.output import BAD_ARGUMENTS, FAILED, REFUSED, Failure
from ..front.requests import OFF, ON, identify
from ..front.work import Work
from ..parameters import WordFault, encode
from ..parameters.words import whole
from ..shared.words import Keys
from .hands import Board, Hands

MOST_UNDOS = 100
# What the parts begin with that show a device.
PREFIX = "fixture/"
# The page says these in other places.
ELSEWHERE = (SLOW, "part of ", "its slots end after")


@dataclass
class Entry:
    """A device, and what is known of it."""

    device: Device
    fixture: Fixture
    # Whether it has been asked so far.
    is_read: bool = False
    # When it was asked in vain, since the line failed; if it wasn't, for ever later.
    failed_at: float = math.inf
    identifies: bool = False
    # Why it isn't there; nothing if the last discovery found it.
    missing: str = ""

    @property
    def model(self) -> Tuple[object, ...]:
        """What devices have in common that have the same personalities."""
        info = self.fixture.info or {}
        return self.device.uid.manufacturer, info.get("device_model_id"), info.get("software_version_id")


class Rig:
    """All fixtures. Threads call it. Whoever changes a device, which one task does at a time, shows it afterwards."""

    def __init__(self, board: Board, hands: Hands) -> None:
        self._board = board
        self.hands = hands
        # Held while a device is shown, so that the newest is shown last, and while undos change.
        self.lock = threading.Lock()
        # Threads change it in single steps.
        self.entries: Dict[Uid, Entry] = {}
        self._personalities: Dict[Tuple[object, ...], List[Dict[str, Any]]] = {}
        self._undos: List[Change] = []
        # What the last discovery shows of devices.
        self.reasons: Mapping[Uid, str] = {}
        # The devices of the file that is loaded.
        self.planned_labels: Mapping[Uid, str] = {}

    def _those(self, is_wanted: Callable[[Entry], bool] = lambda entry: True) -> List[Entry]:
        """The devices for which this is true."""
        return [entry for _, entry in sorted(self.entries.items()) if is_wanted(entry)]

    def fixtures(self) -> List[Fixture]:
        """Those that the last discovery found, as far as they were asked."""
        return [entry.fixture for entry in self._those(lambda each: not each.missing)]

    def with_slots(self) -> List[Fixture]:
        """All that are known: one that is missing keeps its slots. Each is labelled as pages name it, in quotes."""
        return [replace(each.fixture, label=f"“{each.fixture.label or each.fixture.model or 'no name'}"
                        f"{' (missing)' if each.missing else ''}”") for each in self._those()]

    def entry(self, uid: Uid) -> Entry:
        """A device that the page knows. Raises Failure."""
        found = self.entries.get(uid)
        if found is None:
            raise Failure(BAD_ARGUMENTS, f"{uid} isn't among the fixtures", reason="uid")
        return found

    def show(self, entry: Entry) -> None:
        """Has pages show a device."""
        with self.lock:
            fixture = entry.fixture
            keys = keys_of(fixture)
            first, last = fixture.slots or (None, None)
            keys.update(first=first, last=last, root=str(fixture.root), identifies=entry.identifies,
                        missing=entry.missing and self.reasons.get(fixture.uid, entry.missing),
                        is_read=entry.is_read, is_slow=SLOW in fixture.notes,
                        personalities=self._personalities.get(entry.model, []), is_gone=fixture.is_gone,
                        notes=[note for note in fixture.notes if not note.startswith(ELSEWHERE)])
            self._board.put(f"{PREFIX}{fixture.uid}", keys)

    def labels(self) -> Dict[Uid, str]:
        """The devices that are shown, and those of the file that is loaded, with their labels."""
        return {**self.planned_labels, **{each.device.uid: each.fixture.label or "" for each in self._those()}}

    def explain(self, reasons: Mapping[Uid, str]) -> None:
        """Has pages show why devices are missing."""
        self.reasons = reasons
        for entry in self._those(lambda each: bool(each.missing)):
            self.show(entry)

    def adopt(self, devices: Sequence[Device], fault: Optional[str], reads_all: bool) -> None:
        """These devices are on the line, and with a fault perhaps more."""
        found = {device.uid for device in devices}
        why = "the last discovery didn't find it" if fault is None else "the last discovery is incomplete"
        # What other programs' runs show isn't known.
        self.reasons = {} if reads_all else {uid: text for uid, text in self.reasons.items() if uid not in found}
        known = {each.uid for each in self.fixtures() if not each.is_gone}
        for entry in self._those(lambda each: each.device.uid not in found):
            entry.missing = why
            self.show(entry)
        for device in devices:
            if reads_all or device.uid not in known:
                self.read(device)

    def read(self, device: Device, is_urgent: bool = False) -> None:
        """Has a device asked for all that the table has."""
        new = Entry(device, Fixture(device.uid, root=device.binding or device.uid))
        entry = self.entries.setdefault(device.uid, new)
        entry.device, entry.missing, entry.failed_at = device, "", math.inf
        self.show(entry)
        self.hands.do(str(device.uid), partial(self._read, entry), is_urgent, "read").add_done_callback(
            partial(self._end_read, entry))

    def _end_read(self, entry: Entry, end: Future[None]) -> None:
        """A device was asked, perhaps in vain."""
        fault = end.exception()
        if isinstance(fault, Failure) and fault.is_of_line:
            entry.failed_at = time.monotonic()
        elif fault is not None:
            entry.fixture, entry.is_read = replace(entry.fixture, notes=[str(fault)]), True
            self.show(entry)

    def read_those(self, is_wanted: Callable[[Entry], bool], is_urgent: bool = False) -> None:
        """Has devices asked again."""
        for entry in self._those(lambda each: not each.missing and is_wanted(each)):
            self.read(entry.device, is_urgent)

    def forget(self, uid: Uid) -> None:
        """Takes a device away that isn't there. Raises Failure."""
        if not self.entry(uid).missing:
            raise Failure(BAD_ARGUMENTS, f"{uid} is there, and isn't forgotten", reason="uid")
        self.entries.pop(uid, None)
        self._board.put(f"{PREFIX}{uid}", None)

    def _read(self, entry: Entry, work: Work) -> None:
        """Asks a device."""
        fixture = look_at(work, entry.device)
        identifies = entry.identifies if fixture.is_gone else identifies_of(work, fixture.uid)
        # What it has said before is better than nothing.
        if fixture.is_gone and entry.fixture.info is not None:
            fixture = replace(entry.fixture, notes=fixture.notes, is_gone=True)
        entry.fixture, entry.is_read, entry.identifies = fixture, True, identifies
        self.show(entry)
        is_wanted = not fixture.is_gone and (fixture.number("personality_count") or 0) > 1
        if is_wanted and entry.model not in self._personalities:
            asking = partial(self._read_personalities, fixture, entry.model)
            self.hands.do(str(entry.model), asking, False, "read").add_done_callback(partial(self._end_read, entry))

    def _read_personalities(self, fixture: Fixture, model: Tuple[object, ...], work: Work) -> None:
        """Asks a device for what all of its model have. If it doesn't say all, the next one that is read is asked."""
        asked, numbers = Fixture(fixture.uid), range(1, (fixture.number("personality_count") or 0) + 1)
        # Another one may have said it since.
        if model in self._personalities:
            return
        answers = [values_of(work, asked, "dmx_personality_description", bytes([number])) for number in numbers]
        if not asked.is_gone:
            self._personalities[model] = [
                {"number": number, "name": str(values["description"]), "slots": values["slots_required"]}
                for number, values in zip(numbers, answers) if values is not None]
        for entry in self._those(lambda each: each.model == model):
            self.show(entry)

    def identify(self, uid: Uid, on: bool = False, only: bool = False) -> None:
        """Has a device show itself, or not; if only that one, the others stop. Raises Failure."""
        wanted = self.entry(uid)
        found = self._those(lambda each: each is wanted or (only and each.identifies and not each.missing))
        for end in [self.hands.do(str(each.device.uid), partial(self._identify, each, on and each is wanted))
                    for each in found]:
            end.result()

    def _identify(self, entry: Entry, is_on: bool, work: Work) -> None:
        # What it does isn't known until it has said so.
        entry.identifies = False
        try:
            identify(work, entry.device.uid, ON if is_on else OFF)
            entry.identifies = identifies_of(work, entry.device.uid, is_on)
        finally:
            self.show(entry)

    def planned(self, uid: Uid, column: str, value: str) -> List[Change]:
        """The change of a device, unless it has that value. Raises Failure."""
        if column not in COLUMNS:
            raise Failure(BAD_ARGUMENTS, f"there is no column {column}", reason="column")
        entry = self.entry(uid)
        try:
            encode(COLUMNS[column], True, [value])
        except WordFault as fault:
            text = str(fault).replace(COLUMNS[column].name, column, 1)
            raise Failure(BAD_ARGUMENTS, f"{uid}: {text}", reason="value") from None
        before = keys_of(entry.fixture)[column]
        is_new = before is None or differs(column, str(before), value)
        return [Change(uid, column, "" if before is None else str(before), value)] if is_new else []

    def set(self, uid: Uid, column: str, value: str, force: bool = False) -> Keys:
        """Changes a value. Raises Failure."""
        return self.change(self.planned(uid, column, value), force)

    def change(self, changes: Sequence[Change], is_forced: bool = False, is_dry: bool = False, is_undo: bool = False
               ) -> Keys:
        """Makes changes, those of a device in their order, unless slots would overlap or end after the last one. A page
        gets them, what would be wrong after them, which overlaps they end, how many were made, and why others not."""
        # As `apply` sees it.
        found, moved = self.with_slots(), moved_by(changes)
        problems = problems_after(found, moved, partial(self._changed, changes))
        solved = [f"{each.fixture.label} {each.slots_text}" for each in problems_after(found, moved, lambda now: now)
                  if each.devices not in [other.devices for other in problems]]
        plan: Keys = {"changes": [{"uid": str(each.uid), "text": self._text(each)} for each in changes],
                      "problems": [each.text_after for each in problems], "solved": solved, "made": 0, "failures": []}
        if is_dry or (problems and not is_forced):
            return plan
        for change, end in [(each, self.hands.do(str(each.uid), partial(self._make, each, is_undo)))
                            for each in changes]:
            try:
                end.result()
                plan["made"] += 1
            except Failure as failure:
                plan["failures"].append(f"{change.column}: {failure}")
        return plan

    def _make(self, change: Change, is_undo: bool, work: Work) -> None:
        """Makes a change, and reads it back. Raises Failure."""
        entry = self.entry(change.uid)
        try:
            found = make(work, change)
        except Failure as failure:
            if not failure.is_of_line and failure.status != REFUSED:
                # What it has now isn't known.
                self._read(entry, work)
            raise
        if change.column == LABEL:
            entry.fixture.label = found
        elif change.column == ADDRESS:
            entry.fixture = patched(entry.fixture, found, None)
        else:
            # Another personality has other slots, and perhaps another address.
            self._read(entry, work)
        self.show(entry)
        # What wasn't known can't be set again.
        if not is_undo and (change.before or change.column == LABEL):
            with self.lock:
                self._set_undos([*self._undos, change])

    def _text(self, change: Change) -> str:
        """A change of a device, for pages."""
        before, after = (self.value_text(change.uid, change.column, each) for each in (change.before, change.after))
        return f"{change.column} {before} → {after}"

    def value_text(self, uid: Uid, column: str, value: object) -> str:
        """A value for pages. Personalities have their names and slots, if these are known."""
        known = self._personalities.get(self.entries[uid].model, []) if uid in self.entries else []
        return next((f"{value} {each['name']}, {each['slots']} slot{'s' * (each['slots'] != 1)}" for each in known
                     if column == PERSONALITY and str(each["number"]) == str(value)), str(value or "empty"))

    def _changed(self, changes: Sequence[Change], fixture: Fixture) -> Fixture:
        """A device as it will be. With a personality that isn't known it has no slots."""
        values = {change.column: change.after for change in changes if change.uid == fixture.uid}
        known = self._personalities.get(self.entry(fixture.uid).model, [])
        slots = None if PERSONALITY not in values else next(
            (each["slots"] for each in known if each["number"] == whole(values[PERSONALITY])), 0)
        return patched(fixture, values.get(ADDRESS), slots)

    def _set_undos(self, undos: List[Change]) -> None:
        """These changes can be taken back, the last one first."""
        self._undos = undos[-MOST_UNDOS:]
        last = undos[-1] if undos else None
        self._board.put("undo", last and {
            "text": last.text, "back": self._text(replace(last, before=last.after, after=last.before)),
            "made": self._text(last), "count": len(self._undos), "uid": str(last.uid)})

    def undo(self, text: str = "", force: bool = False) -> Keys:
        """Takes the last change back, unless slots would overlap or end after the last one. Raises Failure if that
        isn't the change with this text, or if somebody has changed it since."""
        with self.lock:
            if not self._undos:
                raise Failure(BAD_ARGUMENTS, "there is no change to take back", reason="undo")
            last = self._undos[-1]
            if text not in ("", last.text):
                raise Failure(FAILED, "another change is the last one by now, so nothing is taken back", reason="undo")
            now = keys_of(self.entry(last.uid).fixture)[last.column]
            if now is not None and differs(last.column, str(now), last.after):
                self._set_undos(self._undos[:-1])
                raise Failure(FAILED, f"{last.uid} has {last.column} {now} by now, so it isn't taken back",
                              reason="undo")
        plan = self.change([replace(last, before=last.after, after=last.before)], force, is_undo=True)
        if plan["made"]:
            with self.lock:
                self._set_undos([each for each in self._undos if each is not last])
        return plan
