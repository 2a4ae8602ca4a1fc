"""The command fixtures: the devices on a line with what people look for."""
from __future__ import annotations

import argparse
from dataclasses import dataclass, field
from typing import Any, Dict, List, Optional, Sequence, Tuple

from .. import Device, Uid
from ..parameters import STANDARD
from ..parameters.decoding import Values
from .discovery_log import sink_of
from .output import DONE, FAILED, REFUSED, Failure, Output, aligned
from .work import Work, open_work

HEADINGS = ("UID", "ADDRESS", "SLOTS", "LABEL", "MAKER", "MODEL", "PERSONALITY", "NOTE")
NOTHING = "-"
LAST_SLOT = 512
UNKNOWN_PID = "unknown_pid"
# A device that doesn't answer so many times in a row isn't asked any more.
MOST_SILENCES = 2
ADDRESS_FIELD = "dmx_start_address"
FOOTPRINT_FIELD = "dmx_footprint"
SLOW = "answers slowly"
REASONS = {"timeout": "no answer", "late": "no answer in time", "incomplete": "no whole answer"}


@dataclass
class Fixture:
    """A device, and what it says of itself. What isn't known is None."""

    uid: Uid
    info: Optional[Values] = None
    label: Optional[str] = None
    maker: Optional[str] = None
    model: Optional[str] = None
    personality: Optional[str] = None
    notes: List[str] = field(default_factory=list)
    # The device that it is a part of, or itself.
    root: Optional[Uid] = None
    # How many times in a row it didn't answer, and whether it isn't asked any more.
    silences: int = 0
    is_gone: bool = False

    def number(self, name: str) -> Optional[int]:
        """A number of its DEVICE_INFO; None if it isn't known, or isn't valid."""
        value = None if self.info is None else self.info[name]
        return value if isinstance(value, int) else None

    @property
    def slots(self) -> Optional[Tuple[int, int]]:
        """Its first and last DMX slot; None if it has none."""
        address, count = self.number(ADDRESS_FIELD), self.number(FOOTPRINT_FIELD)
        return (address, address + count - 1) if address and count else None

    @property
    def slots_text(self) -> str:
        """The same for people."""
        if self.slots is None:
            return NOTHING
        first, last = self.slots
        return str(first) if first == last else f"{first}-{last}"


def run_fixtures(chosen: argparse.Namespace, output: Output) -> int:
    """Discovers the devices, and prints what they say of themselves."""
    with open_work(chosen, output) as work, sink_of(chosen.log) as sink:
        devices, fault = work.discover(sink)
        found, failure = look_at_all(work, devices)
        frames = work.line.frames
    print_all(found, output)
    if failure is not None:
        raise failure
    count = "1 fixture" if len(found) == 1 else f"{len(found)} fixtures"
    end = work.line.ending if fault is None else f"the discovery is incomplete: {fault}"
    # Without frames another program made the exchanges, and keeps them to itself.
    sent = {0: "", 1: ", 1 frame"}.get(frames, f", {frames} frames")
    output.result([f"{count}{sent}; {end}"], fixtures=len(found), frames=frames, fault=fault)
    return DONE if fault is None else FAILED


def look_at_all(work: Work, devices: Sequence[Device]) -> Tuple[List[Fixture], Optional[Failure]]:
    """Asks each device, until the line fails, and notes whose slots overlap."""
    found: List[Fixture] = []
    failed: Optional[Failure] = None
    try:
        for number, device in enumerate(devices, 1):
            work.output.progress(f"asking {number} of {len(devices)}")
            found.append(look_at(work, device))
        note_bad(work, found)
    except Failure as failure:
        failed = failure
    for fixture in found:
        others = [str(other.uid) for other in found if overlap(fixture, other)]
        fixture.notes += [f"overlaps {', '.join(others)}"] if others else []
    return found, failed


def note_bad(work: Work, found: List[Fixture]) -> None:
    """Notes which devices answered wrongly in the discovery: the one that ended it, and each other one."""
    noted = note_unmuted(work, found)
    for uid in work.bad.uids:
        fixture = found_or_asked(work, found, uid)
        if fixture is not None and fixture is not noted:
            fixture.notes.insert(0, "gave wrong answers in the discovery")
    if work.bad.has_more:
        work.output.note(f"more than {len(work.bad.uids)} UIDs were answered wrongly in the discovery")


def note_unmuted(work: Work, found: List[Fixture]) -> Optional[Fixture]:
    """Notes which device ended the discovery, if there is one.

    That is the one whose branch was answered again and again, or else the one whose UID these answers had.
    """
    if work.unmuted is None:
        return None
    spelled = None if work.line.spelled is None else Uid.from_number(work.line.spelled)
    for uid in (work.unmuted, spelled):
        fixture = None if uid is None or uid.is_broadcast else found_or_asked(work, found, uid)
        if fixture is not None:
            fixture.notes.insert(0, "ended the discovery by wrong answers")
            return fixture
    return None


def found_or_asked(work: Work, found: List[Fixture], uid: Uid) -> Optional[Fixture]:
    """A device that was found, or else one that answers."""
    fixture = next((each for each in found if each.uid == uid), None)
    if fixture is None:
        fixture = look_at(work, Device(uid))
        if fixture.is_gone:
            return None
        found.append(fixture)
    return fixture


def overlap(first: Fixture, second: Fixture) -> bool:
    """Whether two devices have a slot in common, and aren't parts of one device."""
    if first.slots is None or second.slots is None or first.root == second.root:
        return False
    return first.slots[0] <= second.slots[1] and second.slots[0] <= first.slots[1]


def look_at(work: Work, device: Device) -> Fixture:
    """Asks a device for what people look for."""
    fixture = Fixture(device.uid, root=device.binding or device.uid)
    if fixture.root != fixture.uid:
        fixture.notes.append(part_of(fixture))
    if fixture.uid.number in work.line.talkative:
        fixture.notes.append("sends too much in discovery")
    fixture.info = values_of(work, fixture, "device_info")
    fixture.label = text_of(work, fixture, "device_label")
    fixture.maker = text_of(work, fixture, "manufacturer_label")
    fixture.model = text_of(work, fixture, "device_model_description")
    fixture.personality = personality_of(work, fixture)
    check(fixture)
    if fixture.uid in work.slow:
        fixture.notes.append(SLOW)
    return fixture


def part_of(fixture: Fixture) -> str:
    """What is noted of a part of another device."""
    return f"part of {fixture.root}"


def values_of(work: Work, fixture: Fixture, name: str, data: bytes = b"") -> Optional[Values]:
    """What a device returns. If it returns nothing of use, that is noted, and a device that is gone isn't asked.

    Raises Failure if the line failed.
    """
    if fixture.is_gone:
        return None
    try:
        reading = work.read(fixture.uid, STANDARD.named(name), data)
    except Failure as failure:
        if failure.is_of_line:
            raise
        fixture.silences = 0 if failure.status == REFUSED else fixture.silences + 1
        # Some devices are silent if they don't know a parameter, but each has DEVICE_INFO.
        fixture.is_gone = fixture.silences >= (1 if name == "device_info" else MOST_SILENCES)
        fixture.notes += note_of(name, failure)
        return None
    fixture.silences = 0
    if reading.values is None:
        fixture.notes.append(f"wrong {name}: 0x{reading.data.hex()}")
    return reading.values


def identifies_of(work: Work, uid: Uid, otherwise: bool = False) -> bool:
    """Whether a device shows itself, or something else if it doesn't say."""
    return (values_of(work, Fixture(uid), "identify_device") or {}).get("identify_state", otherwise) is True


def note_of(name: str, failure: Failure) -> List[str]:
    """What a failure says of a device. Only DEVICE_INFO has to be there."""
    if failure.status != REFUSED:
        return [f"{REASONS.get(str(failure.keys.get('reason')), 'no valid answer')} to {name}"]
    nack = failure.keys.get("nack")
    return [] if nack == UNKNOWN_PID and name != "device_info" else [f"refuses {name} ({nack})"]


def text_of(work: Work, fixture: Fixture, name: str) -> Optional[str]:
    """A text of a device."""
    values = values_of(work, fixture, name)
    return None if values is None else str(next(iter(values.values())))


def personality_of(work: Work, fixture: Fixture) -> Optional[str]:
    """The name of a device's personality."""
    number = fixture.number("current_personality")
    if not number:
        return None
    values = values_of(work, fixture, "dmx_personality_description", bytes([number]))
    return None if values is None else str(values["description"])


def check(fixture: Fixture) -> None:
    """Notes what is wrong with a device's DEVICE_INFO."""
    fixture.notes += [f"wrong {name}: {value}" for name, value in (fixture.info or {}).items()
                      if str(value).startswith("0x")]
    if fixture.slots is not None and fixture.slots[1] > LAST_SLOT:
        fixture.notes.append(f"its slots end after {LAST_SLOT}")


def print_all(found: Sequence[Fixture], output: Output) -> None:
    """Prints a table, or an object for each device."""
    if output.is_json:
        for fixture in found:
            output.result([], **keys_of(fixture))
        return
    output.result(aligned([HEADINGS, *(cells_of(fixture) for fixture in found)] if found else []))


def cells_of(fixture: Fixture) -> Tuple[str, ...]:
    """A device's row."""
    number, footprint = fixture.number("current_personality"), fixture.number(FOOTPRINT_FIELD)
    personality = " ".join([str(number or ""), fixture.personality or ""]).strip()
    return (str(fixture.uid), fixture.slots_text, NOTHING if footprint is None else str(footprint),
            fixture.label or NOTHING, fixture.maker or NOTHING, fixture.model or NOTHING, personality or NOTHING,
            "; ".join(fixture.notes))


def keys_of(fixture: Fixture) -> Dict[str, Any]:
    """A device, for JSON."""
    return {"uid": str(fixture.uid), "address": fixture.number(ADDRESS_FIELD),
            "slots": fixture.number(FOOTPRINT_FIELD), "label": fixture.label, "manufacturer": fixture.maker,
            "model": fixture.model, "personality": fixture.number("current_personality"),
            "personality_name": fixture.personality, "notes": fixture.notes}
