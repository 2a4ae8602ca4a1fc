"""The command patch: gives the devices of a file addresses one after another, so that no slots overlap."""
from __future__ import annotations

import argparse
import re
from typing import Any, Callable, Dict, List, Mapping, Sequence, Tuple

from .. import Uid
from .csv_files import LABEL, SLOTS, STANDARD_STREAM, Change, RigFile, Row, read, show, wrong
from .files import file_of
from .fixtures import LAST_SLOT
from .output import DONE, FAILED, Failure, Output
from .sheets import Sheet

ADDRESS = "address"
SLOT_COUNT = re.compile(r"[0-9]{1,3}")
DIGITS = re.compile(r"([0-9]+)")


def run_patch(chosen: argparse.Namespace, output: Output) -> int:
    """Reads a file, and writes it with other addresses."""
    file = read(chosen.file, output)
    addresses = addresses_of(sorted(file.rows, key=ORDERS[chosen.order]), chosen.first)
    sheet = readdressed(file, addresses)
    name = chosen.to or chosen.file
    if name == STANDARD_STREAM:
        print_sheet(sheet, output)
        return DONE
    try:
        with file_of(name, sheet.encoding) as made:
            made.write(sheet.text())
    except OSError as fault:
        raise Failure(FAILED, f"{name}: {fault.strerror}", reason="file") from None
    changes = changes_of(file.rows, addresses)
    for change in changes:
        show(change, output)
    count = "1 change" if len(changes) == 1 else f"{len(changes)} changes"
    output.result([f"{count}: {name}"], changes=len(changes), file=name)
    return DONE


def print_sheet(sheet: Sheet, output: Output) -> None:
    """Prints a table, or an object for each row."""
    if not output.is_json:
        output.result(sheet.text().splitlines())
        return
    for row in sheet.rows:
        output.result([], **sheet.by_name(row))


def addresses_of(rows: Sequence[Row], first: int) -> Dict[Uid, int]:
    """The addresses of the devices in this order, without those that have no slots. Raises Failure."""
    addresses = {}
    for row in rows:
        count = slots_of(row)
        if count and first + count - 1 > LAST_SLOT:
            raise wrong(f"{row.place}: {row.uid} would have the slots {first}-{first + count - 1}, and the last one is "
                        f"{LAST_SLOT}")
        if count:
            addresses[row.uid] = first
            first += count
    return addresses


def slots_of(row: Row) -> int:
    """How many slots a device has, as its file says. Raises Failure."""
    text = row.cells.get(SLOTS, "").strip()
    if not SLOT_COUNT.fullmatch(text) or int(text) > LAST_SLOT:
        raise wrong(f"{row.place}: its {SLOTS} are '{text}', and no number from 0 to {LAST_SLOT}; save writes it")
    return int(text)


def readdressed(file: RigFile, addresses: Mapping[Uid, int]) -> Sheet:
    """The table of a file with other addresses, and all else that was in it."""
    before = file.sheet
    at = before.column(ADDRESS)
    titles = before.titles if at is not None else [*before.titles, ADDRESS]
    after = Sheet(titles, delimiter=before.delimiter, encoding=before.encoding)
    for row, cells in zip(file.rows, before.rows):
        made = [*cells] if at is not None else [*cells, ""]
        if row.uid in addresses:
            made[len(cells) if at is None else at] = str(addresses[row.uid])
        after.rows.append(made)
    return after


def changes_of(rows: Sequence[Row], addresses: Mapping[Uid, int]) -> List[Change]:
    """The addresses that differ from those of the file."""
    changes = []
    for row in rows:
        before = row.cells.get(ADDRESS, "").strip()
        if row.uid in addresses and before != str(addresses[row.uid]):
            changes.append(Change(row.uid, ADDRESS, before, str(addresses[row.uid])))
    return changes


def by_label(row: Row) -> Tuple[Any, ...]:
    """What labels are compared by: the numbers in them as numbers."""
    parts = DIGITS.split(row.cells.get(LABEL, "").lower())
    return (*(int(part) if number % 2 else part for number, part in enumerate(parts)), row.uid.number)


# What comes first, by the values of --order.
ORDERS: Mapping[str, Callable[[Row], Any]] = {
    "file": lambda row: 0,
    LABEL: by_label,
    "uid": lambda row: row.uid.number,
}
