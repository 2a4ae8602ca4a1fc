"""The command check: what differs between the devices on a line and a file that save wrote."""
from __future__ import annotations

import argparse
from dataclasses import dataclass, field
from typing import Any, Callable, Dict, Iterator, List, Mapping, Optional, Sequence

from .. import Uid
from .csv_files import LABEL, SLOTS, Row, differs, read, written
from .discovery_log import Sink, explained, sink_of
from .fixtures import ADDRESS_FIELD, Fixture, look_at_all
from .guarding import ADDRESS, PERSONALITY, patched, problems_of
from .output import DONE, FAILED, REFUSED, Output, aligned
from .patching import SLOT_COUNT
from .work import open_work

MISSING = "missing"
NOT_FOUND = "wasn't found"
# What the program advises if it has heard nothing of a device, and what else comes first.
POWER, LOOK = "check its power", "; see whether it is on and connected"
# What a value that differs is called, by its column.
KINDS: Mapping[str, str] = {ADDRESS: "moved", LABEL: "relabelled", PERSONALITY: "personality"}


@dataclass(frozen=True)
class Difference:
    """What differs of a device."""

    kind: str
    uid: Uid
    label: str
    text: str
    keys: Mapping[str, Any] = field(default_factory=dict)


def run_check(chosen: argparse.Namespace, output: Output) -> int:
    """Discovers the devices, and prints what differs from a file."""
    rows = read(chosen.file, output).rows
    log: List[str] = []
    with open_work(chosen, output) as work, sink_of(chosen.log) as sink:
        devices, fault = work.discover(both(log.append, sink))
        found, failure = look_at_all(work, devices)
    differences = [*missing(rows, found, log, output), *changed(rows, found), *crowded(rows, found)]
    print_all(differences, output)
    if failure is not None:
        raise failure
    count = {0: "no difference", 1: "1 difference"}.get(len(differences), f"{len(differences)} differences")
    end = "" if fault is None else f"; the discovery is incomplete: {fault}"
    there = sum(row.uid in {each.uid for each in found} for row in rows)
    output.result([f"{count}; {there} of {len(rows)} devices are there{end}"], differences=len(differences),
                  devices=len(found), expected=len(rows), fault=fault)
    return FAILED if fault is not None else REFUSED if differences else DONE


def both(first: Sink, second: Optional[Sink]) -> Sink:
    """What gives lines to two others, or to the first alone."""
    def take(line: str) -> None:
        """Takes a line."""
        first(line)
        if second is not None:
            second(line)
    return take


def print_all(differences: Sequence[Difference], output: Output) -> None:
    """Prints a table, or an object for each difference."""
    if not output.is_json:
        output.result(aligned([(each.kind, str(each.uid), each.label, each.text) for each in differences]))
        return
    for each in differences:
        output.result([], difference=each.kind, uid=str(each.uid), label=each.label, **each.keys)


def missing(rows: Sequence[Row], found: Sequence[Fixture], log: Sequence[str], output: Output) -> Iterator[Difference]:
    """The devices of the file that weren't found, with what the discovery shows of them, and those that are new."""
    here = {fixture.uid for fixture in found}
    absent = [row for row in rows if row.uid not in here]
    reasons = reasons_of(log, [row.uid for row in absent], output)
    for row in absent:
        reason = reasons.get(row.uid, NOT_FOUND)
        text = reason if POWER in reason else reason + LOOK
        yield Difference(MISSING, row.uid, row.cells.get(LABEL, ""), text, {"reason": text})
    known = {row.uid for row in rows}
    for fixture in found:
        if fixture.uid not in known:
            where = f"at {fixture.slots_text}" if fixture.slots else "without slots"
            text = f"{fixture.model or 'its model is unknown'}, {where}"
            yield Difference("new", fixture.uid, fixture.label or "", text,
                             {"model": fixture.model, "slots": fixture.slots})


def reasons_of(log: Sequence[str], uids: Sequence[Uid], output: Output) -> Dict[Uid, str]:
    """What the proved program says of devices that weren't found; nothing if it isn't there."""
    # The package of all commands imports this one.
    from ..tool.places import program
    place = program()
    if not uids or not log or place is None:
        return {}
    try:
        return explained(place, log, uids)
    except OSError as fault:
        output.note(f"why devices are missing can't be said: {fault.strerror}")
        return {}


def changed(rows: Sequence[Row], found: Sequence[Fixture]) -> Iterator[Difference]:
    """The devices that have other values than in the file."""
    fixtures = {fixture.uid: fixture for fixture in found}
    for row in (each for each in rows if each.uid in fixtures):
        fixture = fixtures[row.uid]
        values = {column: value(fixture) for column, value in VALUES.items() if column in row.values}
        unknown = [column for column, value in values.items() if value is None]
        if unknown:
            why = "; ".join(fixture.notes) or "it has none"
            yield Difference("unknown", row.uid, row.cells.get(LABEL, ""), f"{', '.join(unknown)}: {why}",
                             {"columns": unknown, "reason": why})
        for column, value in values.items():
            if value is not None and differs(column, str(value), row.values[column]):
                yield difference(row, fixture, column, str(value))


def difference(row: Row, fixture: Fixture, column: str, found: str) -> Difference:
    """How a value differs from that of the file."""
    before = row.values[column]
    planned = row.cells.get(LABEL, "")
    text = f"{column} {written(found)}, file says {written(before)}"
    return Difference(KINDS[column], row.uid, fixture.label or planned, text,
                      {"column": column, "before": before, "after": found})


def crowded(rows: Sequence[Row], found: Sequence[Fixture]) -> Iterator[Difference]:
    """The overlaps, and the ends after the last slot, that the file doesn't have too."""
    planned = {problem.devices for problem in problems_of(list(as_planned(rows, found)))}
    for problem in problems_of(found):
        if problem.devices not in planned:
            fixture = problem.fixture
            yield Difference(problem.kind, fixture.uid, fixture.label or "", problem.slots_text, problem.keys)


def as_planned(rows: Sequence[Row], found: Sequence[Fixture]) -> Iterator[Fixture]:
    """The devices of the file that were found, with its addresses and numbers of slots."""
    cells = {row.uid: row for row in rows}
    for fixture in found:
        if fixture.uid in cells and fixture.info is not None:
            row = cells[fixture.uid]
            slots = row.cells.get(SLOTS, "").strip()
            yield patched(fixture, row.values.get(ADDRESS), int(slots) if SLOT_COUNT.fullmatch(slots) else None)


# What a device has in the place of a column's value; None if it isn't known.
VALUES: Mapping[str, Callable[[Fixture], object]] = {
    ADDRESS: lambda fixture: None if fixture.info is None else fixture.info[ADDRESS_FIELD],
    PERSONALITY: lambda fixture: None if fixture.info is None else fixture.info["current_personality"],
    LABEL: lambda fixture: fixture.label,
}
