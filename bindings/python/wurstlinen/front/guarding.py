"""What changes would do to the patch: whose slots would overlap, or end after the last one."""
from __future__ import annotations

from dataclasses import dataclass, replace
from typing import Any, Callable, Dict, Iterable, List, Mapping, Optional, Sequence, Set, Tuple

from .. import Device, Uid
from ..parameters.decoding import Value
from ..parameters.words import whole
from .csv_files import Change, Row
from .fixtures import ADDRESS_FIELD, FOOTPRINT_FIELD, LAST_SLOT, Fixture, overlap, text_of, values_of
from .output import BAD_ARGUMENTS, FAILED, LINE_FAILED, Failure
from .work import Work

ADDRESS = "address"
PERSONALITY = "personality"


@dataclass(frozen=True)
class Problem:
    """A device whose slots overlap another's, or, without another, end after the last slot."""

    fixture: Fixture
    other: Optional[Fixture] = None

    @property
    def kind(self) -> str:
        """What it is."""
        return "end" if self.other is None else "overlap"

    @property
    def devices(self) -> Tuple[Uid, ...]:
        """The devices."""
        return (self.fixture.uid,) if self.other is None else (self.fixture.uid, self.other.uid)

    @property
    def slots_text(self) -> str:
        """The slots and the problem, for people."""
        if self.other is None:
            return f"{self.fixture.slots_text} ends after {LAST_SLOT}"
        return f"{self.fixture.slots_text} overlaps {named(self.other)} {self.other.slots_text}"

    @property
    def text_after(self) -> str:
        """What would be wrong after changes."""
        return f"after this, {named(self.fixture)} {self.slots_text}"

    @property
    def keys(self) -> Dict[str, Any]:
        """The slots, for JSON."""
        other = {} if self.other is None else {"other": str(self.other.uid), "other_slots": self.other.slots}
        return {"slots": self.fixture.slots, **other}


def named(fixture: Fixture) -> str:
    """A device with its label."""
    return f"{fixture.uid} {fixture.label}" if fixture.label else str(fixture.uid)


def problems_of(fixtures: Sequence[Fixture]) -> List[Problem]:
    """All problems, in the order of the devices."""
    found = []
    for number, fixture in enumerate(fixtures):
        if fixture.slots is not None and fixture.slots[1] > LAST_SLOT:
            found.append(Problem(fixture))
        found += [Problem(fixture, other) for other in fixtures[number + 1:] if overlap(fixture, other)]
    return found


def guard(work: Work, rows: Sequence[Row], changes: Sequence[Change], is_forced: bool) -> None:
    """Shows the problems that changes would make. Raises Failure if there are any, unless they are wanted."""
    moved = moved_by(changes)
    if not moved:
        return
    found = problems_after(fixtures_of(work, moved), moved,
                           lambda fixture: moved_fixture(work, fixture, rows, changes))
    for problem in found:
        label_all(work, rows, (problem.fixture, problem.other))
        work.output.result([problem.text_after], problem=problem.kind, uid=str(problem.fixture.uid), **problem.keys)
    if found and not is_forced:
        raise Failure(BAD_ARGUMENTS, "nothing was changed, because of these slots; --force changes it all the same",
                      reason="patch")


def moved_by(changes: Sequence[Change]) -> Set[Uid]:
    """The devices that changes may give other slots."""
    return {change.uid for change in changes if change.column in (ADDRESS, PERSONALITY)}


def problems_after(fixtures: Sequence[Fixture], moved: Set[Uid], changed: Callable[[Fixture], Fixture]
                   ) -> List[Problem]:
    """The problems of devices that are moved, when these are changed."""
    after = [changed(fixture) if fixture.uid in moved else fixture for fixture in fixtures]
    return [each for each in problems_of(after) if moved.intersection(each.devices)] if moved else []


def patched(fixture: Fixture, address: Optional[str], slots: Optional[Value]) -> Fixture:
    """A device with another address, or another number of slots."""
    if fixture.info is None:
        return fixture
    others = {ADDRESS_FIELD: None if address is None else whole(address), FOOTPRINT_FIELD: slots}
    return replace(fixture, info={**fixture.info, **{name: value for name, value in others.items()
                                                     if value is not None}})


def note_problems(work: Work, uid: Uid) -> None:
    """Notes what is wrong with the slots of a device that was moved. Raises Failure."""
    for problem in problems_of(fixtures_of(work, [uid])):
        if uid in problem.devices:
            label_all(work, [], (problem.fixture, problem.other))
            work.output.note(f"{named(problem.fixture)} {problem.slots_text}")


def fixtures_of(work: Work, moved: Iterable[Uid]) -> List[Fixture]:
    """The devices on the line, and those that are to be moved, as they are now."""
    devices, fault = work.discover()
    if work.line.failure is not None:
        raise Failure(FAILED, str(work.line.failure), reason=LINE_FAILED)
    if fault is not None:
        work.output.note(f"slots of devices that weren't found aren't compared: the discovery is incomplete: {fault}")
    known = {device.uid for device in devices}
    found = [*devices, *(Device(uid) for uid in moved if uid not in known)]
    fixtures = []
    for number, device in enumerate(found, 1):
        work.output.progress(f"comparing {number} of {len(found)}")
        fixture = Fixture(device.uid, root=device.binding or device.uid)
        fixture.info = values_of(work, fixture, "device_info")
        fixtures.append(fixture)
    return fixtures


def moved_fixture(work: Work, fixture: Fixture, rows: Sequence[Row], changes: Sequence[Change]) -> Fixture:
    """A device as it will be. Without a number of slots that is known, it has none."""
    if fixture.info is None:
        return fixture
    values, slots = values_after(fixture.uid, rows, changes), None
    if PERSONALITY in values:
        number = whole(values[PERSONALITY])
        found = values_of(work, fixture, "dmx_personality_description", bytes([number]))
        slots = 0 if found is None else found["slots_required"]
        if found is None:
            work.output.note(f"{fixture.uid} doesn't say how many slots its personality {number} has, so these aren't "
                             "compared")
    return patched(fixture, values.get(ADDRESS), slots)


def values_after(uid: Uid, rows: Sequence[Row], changes: Sequence[Change]) -> Mapping[str, str]:
    """What is to be changed, and the address of a device that gets another personality."""
    changed = {change.column: change.after for change in changes if change.uid == uid}
    row = next(each for each in rows if each.uid == uid)
    if PERSONALITY in changed and ADDRESS in row.values:
        changed[ADDRESS] = row.values[ADDRESS]
    return changed


def label_all(work: Work, rows: Sequence[Row], fixtures: Iterable[Optional[Fixture]]) -> None:
    """Gives devices the labels that they will have."""
    for fixture in fixtures:
        if fixture is not None and fixture.label is None:
            label = next((row.values.get("label") for row in rows if row.uid == fixture.uid), None)
            fixture.label = label if label is not None else text_of(work, fixture, "device_label") or ""
