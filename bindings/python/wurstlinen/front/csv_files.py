"""What save writes and apply reads: a table with the labels, addresses and personalities of devices."""
from __future__ import annotations

import argparse
import os
import re
import sys
from collections import Counter
from dataclasses import dataclass
from typing import Dict, List, Mapping, Optional, Sequence, Tuple

from .. import Uid
from ..lines.uids import is_broadcast, parse_uid
from ..parameters import STANDARD, Parameter, WordFault, encode
from ..parameters.words import hint
from .files import file_of
from .output import BAD_ARGUMENTS, DONE, FAILED, REFUSED, Failure, Output
from .sheets import NoSheet, Sheet, sheet_of
from .work import Work, open_work

STANDARD_STREAM = "-"
# A line has at most some 100 bytes, and a rig at most 1,024 devices.
MOST_BYTES = 1_000_000
UID = "uid"
LABEL = "label"
MODEL = "model"
SLOTS = "slots"
MISFIT = "misfit"
# What an empty text is in a file, where an empty value changes nothing. A text that says so has an escape.
EMPTY = "(empty)"
ESCAPED = "\\x28empty)"
# Where a spreadsheet would take a label for a formula: labels come from the line, and may be anybody's. A semicolon
# separates cells in many languages.
FORMULA = re.compile("(^|;)([ ;]*)([=+@-])")
# The columns with their parameters, in the order in which they are set: a personality may change an address.
COLUMNS: Mapping[str, Parameter] = {
    "personality": STANDARD.named("dmx_personality"),
    "address": STANDARD.named("dmx_start_address"),
    LABEL: STANDARD.named("device_label"),
}
# The columns that say which device it is, and aren't set, with their parameters.
FACTS: Mapping[str, Tuple[Parameter, str]] = {
    MODEL: (STANDARD.named("device_model_description"), "description"),
    SLOTS: (STANDARD.named("device_info"), "dmx_footprint"),
}
WRITTEN = (UID, LABEL, "address", "personality", *FACTS)


@dataclass(frozen=True)
class Change:
    """A value of a device that is to be changed."""

    uid: Uid
    column: str
    before: str
    after: str

    @property
    def text(self) -> str:
        """The change, for people."""
        return f"{self.uid}  {self.column}  {written(self.before)} -> {written(self.after)}"


def show(change: Change, output: Output) -> None:
    """Prints a change."""
    output.result([change.text], uid=str(change.uid), column=change.column, before=change.before, after=change.after)


@dataclass(frozen=True)
class Row:
    """A device of a file, with the values that it is to have."""

    uid: Uid
    values: Dict[str, str]
    # All cells, by the names of their columns.
    cells: Mapping[str, str]
    place: str


@dataclass(frozen=True)
class RigFile:
    """A file with devices: a row for each row of its table."""

    sheet: Sheet
    rows: List[Row]


def run_save(chosen: argparse.Namespace, output: Output) -> int:
    """Discovers the devices, and writes their values."""
    if chosen.file == STANDARD_STREAM:
        rows, is_whole, fault = saved(chosen, output)
        print_rows(rows, output)
        return DONE if is_whole and fault is None else FAILED
    try:
        before = sheet_before(chosen.file)
        with file_of(chosen.file, before.encoding) as file:
            rows, is_whole, fault = saved(chosen, output)
            if not is_whole and file.is_replaced:
                raise Failure(FAILED, f"{chosen.file} stays as it is, since values are missing", reason="file")
            file.write(merged(before, rows, output, keeps=fault is not None).text())
    except OSError as fault:
        raise Failure(FAILED, f"{chosen.file}: {fault.strerror}", reason="file") from None
    count = "1 device" if len(rows) == 1 else f"{len(rows)} devices"
    output.result([f"{count}: {chosen.file}"], devices=len(rows), file=chosen.file)
    return DONE if is_whole and fault is None else FAILED


def sheet_before(name: str) -> Sheet:
    """The table that a file is, or else an empty one."""
    # A FIFO or a device isn't read.
    if not os.path.isfile(name):
        return Sheet([])
    try:
        data = bytes_of(name)
        sheet = sheet_of(data) if len(data) <= MOST_BYTES else Sheet([])
    except (OSError, NoSheet):
        return Sheet([])
    return sheet if sheet.column(UID) is not None else Sheet([])


def merged(before: Sheet, rows: Sequence[Mapping[str, str]], output: Output, keeps: bool) -> Sheet:
    """The rows in the manner of the table before, with what its other columns say of these devices. `keeps`: the rows
    of other devices stay, since these may only be missing."""
    titles = [*before.titles, *(column for column in WRITTEN if before.column(column) is None)]
    after = Sheet(titles, delimiter=before.delimiter, encoding=before.encoding)
    others = before.others(WRITTEN)
    at = before.column(UID)
    kept = {} if at is None else {row[at].strip().lower(): row for row in before.rows}
    for row in rows:
        cells = [row.get(column, "") for column in after.columns]
        for number in others:
            cells[number] = kept[row[UID]][number] if row[UID] in kept else ""
        after.rows.append(cells)
    absent = sorted(kept.keys() - {row[UID] for row in rows})
    if keeps:
        after.rows.extend(kept[uid] + [""] * (len(titles) - len(before.titles)) for uid in absent)
        return after
    for uid in absent:
        lost = [f"{before.titles[number]} {kept[uid][number]}" for number in others if kept[uid][number]]
        if lost:
            output.note(f"{uid} wasn't found, so its row is gone: {', '.join(lost)}")
    return after


def saved(chosen: argparse.Namespace, output: Output) -> Tuple[List[Dict[str, str]], bool, Optional[str]]:
    """The devices' values, whether each device answered, and why the discovery is incomplete. Raises Failure."""
    with open_work(chosen, output) as work:
        devices, fault = work.discover()
        if fault is not None and not work.has_searched:
            raise Failure(FAILED, f"the discovery is incomplete, so nothing is written: {fault}", reason="discovery")
        if fault is not None:
            output.note(f"devices may be missing: {fault}")
        rows, are_whole = [], True
        for number, device in enumerate(devices, 1):
            output.progress(f"asking {number} of {len(devices)}")
            row, is_whole = row_of(work, device.uid, output)
            rows.append({**row, **facts_of(work, device.uid)})
            are_whole = are_whole and is_whole
    return rows, are_whole, fault


def print_rows(rows: Sequence[Mapping[str, str]], output: Output) -> None:
    """Prints the table, or an object for each row."""
    if not output.is_json:
        output.result(Sheet(list(WRITTEN), [[row[column] for column in WRITTEN] for row in rows]).text().splitlines())
        return
    for row in rows:
        output.result([], **row)


def written(value: str) -> str:
    """A value of a device, as it is in a file. The sign that begins a formula has an escape."""
    return ESCAPED if value == EMPTY else FORMULA.sub(without_formula, value) or EMPTY


def without_formula(found: "re.Match[str]") -> str:
    """The beginning of a formula, with an escape that is read back as its sign."""
    return f"{found[1]}{found[2]}\\x{ord(found[3]):02x}"


def row_of(work: Work, uid: Uid, output: Output) -> Tuple[Dict[str, str], bool]:
    """A device's values, and whether it answered. What it refuses, or what can't be set, stays empty."""
    row = {UID: str(uid)}
    is_whole = True
    for column, parameter in COLUMNS.items():
        row[column] = ""
        try:
            value = value_of(work, uid, column)
            encode(parameter, True, [value])
            row[column] = written(value)
        except Failure as failure:
            if failure.is_of_line:
                raise
            output.failure(Failure(failure.status, f"{column} isn't known: {failure}", **failure.keys))
            is_whole = is_whole and (failure.status == REFUSED or failure.keys["reason"] == MISFIT)
        except WordFault:
            output.note(f"{uid}: {column} is {value}, and is left out")
    return row, is_whole


def facts_of(work: Work, uid: Uid) -> Dict[str, str]:
    """What says which device it is. What a device doesn't say stays empty, since nothing is set by it."""
    facts = {}
    for column, (parameter, name) in FACTS.items():
        try:
            values = work.read(uid, parameter).values or {}
        except Failure as failure:
            if failure.is_of_line:
                raise
            values = {}
        value = values.get(name, "")
        # A text that is empty, or a number that isn't valid, says nothing.
        is_said = isinstance(value, int) or column == MODEL and value != ""
        facts[column] = written(str(value)) if is_said else ""
    return facts


def value_of(work: Work, uid: Uid, column: str) -> str:
    """A value of a device, as it is written. Raises Failure."""
    reading = work.read(uid, COLUMNS[column])
    if reading.values is None:
        raise Failure(FAILED, f"{uid}: {reading.misfit}", uid=str(uid), reason=MISFIT)
    return str(next(iter(reading.values.values())))


def read(name: str, output: Output) -> RigFile:
    """The devices of a file. Columns that it doesn't know are named. Raises Failure."""
    try:
        data = standard_input() if name == STANDARD_STREAM else bytes_of(name)
    except OSError as fault:
        raise wrong(f"{name}: {fault.strerror}") from None
    return rig_file(name, data, output)


def rig_file(name: str, data: bytes, output: Output) -> RigFile:
    """The devices of a file with these bytes. Raises Failure."""
    if len(data) > MOST_BYTES:
        raise wrong(f"{name} is longer than {MOST_BYTES} bytes")
    try:
        sheet = sheet_of(data)
    except NoSheet as fault:
        raise wrong(f"{name}: {fault}") from None
    check_columns(name, sheet)
    rows = [checked(sheet.by_name(row), f"{name}: line {line}") for line, row in zip(sheet.lines, sheet.rows)]
    for uid, count in Counter(row.uid for row in rows).items():
        if count > 1:
            raise wrong(f"{name}: {uid} is there more than once")
    note_others(name, sheet, output)
    return RigFile(sheet, rows)


def standard_input() -> bytes:
    """All of standard input, or a byte more than a file may have; nothing if it is closed."""
    return b"" if sys.stdin is None else sys.stdin.buffer.read(MOST_BYTES + 1)


def bytes_of(name: str) -> bytes:
    """The same of a file. Raises OSError."""
    with open(name, "rb") as file:
        return file.read(MOST_BYTES + 1)


def wrong(text: str) -> Failure:
    """A file that can't be applied."""
    return Failure(BAD_ARGUMENTS, text, reason="file")


def check_columns(name: str, sheet: Sheet) -> None:
    """Refuses a file that doesn't say which devices it is about, or has a value twice."""
    if sheet.column(UID) is None:
        first = f", but it is '{sheet.delimiter.join(sheet.titles)}'" if sheet.titles else ""
        raise wrong(f"{name}: the first line has to name the columns, and one of them is uid{first}")
    for column in WRITTEN:
        if sheet.columns.count(column) > 1:
            raise wrong(f"{name}: the column '{column}' is there more than once")


def note_others(name: str, sheet: Sheet, output: Output) -> None:
    """Names the columns that change nothing, since one of them may be misspelled."""
    others = [sheet.titles[number].strip() for number in sheet.others(WRITTEN) if sheet.columns[number]]
    if others:
        named = ", ".join(f"{each}{hint(each, COLUMNS)}" for each in others)
        output.note(f"{name}: these columns change nothing: {named}")


def checked(cells: Mapping[str, str], place: str) -> Row:
    """A row whose values can be set, without those that stay as they are."""
    values = {column: cells[column] for column in COLUMNS if cells.get(column)}
    if values.get(LABEL) == EMPTY:
        values[LABEL] = ""
    try:
        number = parse_uid(cells[UID].strip())
        for column, value in values.items():
            encode(COLUMNS[column], True, [value])
    except ValueError as fault:
        raise wrong(f"{place}: {fault}") from None
    if is_broadcast(number):
        raise wrong(f"{place}: {cells[UID]} is no device's own UID")
    return Row(Uid.from_number(number), values, cells, place)


def differs(column: str, before: str, after: str) -> bool:
    """Whether two values are different data."""
    try:
        return encode(COLUMNS[column], True, [before]) != encode(COLUMNS[column], True, [after])
    except WordFault:
        # What a device returns may be nothing that can be set.
        return True
