"""The command apply: changes devices so that they are as a file says."""
from __future__ import annotations

import argparse
from typing import Dict, List, Mapping, Optional, Sequence, Tuple

from .. import Uid
from ..parameters import encode
from .csv_files import COLUMNS, MISFIT, Change, Row, differs, read, show, value_of
from .guarding import guard
from .output import DONE, FAILED, REFUSED, Failure, Output
from .work import Work, open_work


def run_apply(chosen: argparse.Namespace, output: Output) -> int:
    """Reads a file, shows what differs from the devices, and changes that."""
    rows = read(chosen.file, output).rows
    with open_work(chosen, output) as work:
        changes, status = changes_of(work, rows, output)
        for change in changes:
            show(change, output)
        guard(work, rows, changes, chosen.force)
        applied = Applied(work, output, status)
        if not chosen.dry_run:
            applied.make_all(changes, {row.uid: row.values for row in rows})
    count = applied.made + applied.failed if not chosen.dry_run else len(changes)
    text = "1 change" if count == 1 else f"{count} changes"
    if chosen.dry_run:
        text = f"{text}; nothing was changed"
    elif applied.failed:
        text = f"{applied.made} of {text} made"
    output.result([text], changes=count, made=applied.made, dry_run=chosen.dry_run)
    return applied.status


def changes_of(work: Work, rows: Sequence[Row], output: Output) -> Tuple[List[Change], int]:
    """What differs, and the status of those devices that couldn't be asked. Raises Failure if the line failed."""
    changes: List[Change] = []
    status = DONE
    for number, row in enumerate(rows, 1):
        output.progress(f"asking {number} of {len(rows)}")
        try:
            for column in COLUMNS:
                if column in row.values:
                    change, failed = difference(work, row.uid, column, row.values[column], output)
                    changes += [change] if change else []
                    status = failed or status
        except Failure as failure:
            if failure.is_of_line:
                raise
            output.failure(failure)
            status = failure.status
    return changes, status


def difference(work: Work, uid: Uid, column: str, after: str, output: Output) -> Tuple[Optional[Change], int]:
    """How a value differs, if it does, and the status. Raises Failure if the device doesn't answer."""
    try:
        before = value_of(work, uid, column)
    except Failure as failure:
        if failure.status != REFUSED and failure.keys["reason"] != MISFIT:
            raise
        output.failure(named(column, failure))
        return None, failure.status
    return (Change(uid, column, before, after) if differs(column, before, after) else None), DONE


def named(column: str, failure: Failure) -> Failure:
    """A failure that says which column it is about."""
    return Failure(failure.status, f"{column}: {failure}", **failure.keys)


class Applied:
    """Changes as they are made, and the status of the last one that failed."""

    def __init__(self, work: Work, output: Output, status: int) -> None:
        self.status = status
        self.made = self.failed = 0
        self._work = work
        self._output = output

    def make_all(self, changes: Sequence[Change], values: Mapping[Uid, Dict[str, str]]) -> None:
        """Makes the changes, until the line fails."""
        for number, change in enumerate(changes, 1):
            self._output.progress(f"changing {number} of {len(changes)}")
            failure = self._try(change)
            if failure is None and change.column == "personality":
                failure = self._make_again(change.uid, values[change.uid], changes)
            if failure is not None and failure.is_of_line:
                self.failed = len(changes) - self.made
                break

    def _try(self, change: Change) -> Optional[Failure]:
        """Makes a change, and counts it."""
        try:
            make(self._work, change)
        except Failure as failure:
            self._fail(failure if failure.is_of_line else named(change.column, failure))
            self.failed += 1
            return failure
        self.made += 1
        return None

    def _make_again(self, uid: Uid, values: Mapping[str, str], changes: Sequence[Change]) -> Optional[Failure]:
        """What a new personality has changed is set too, unless it will be set anyway."""
        planned = {change.column for change in changes if change.uid == uid}
        for column in (each for each in COLUMNS if each in values and each not in planned):
            try:
                change, status = difference(self._work, uid, column, values[column], self._output)
            except Failure as failure:
                self._fail(failure)
                return failure
            self.status = status or self.status
            if change is not None:
                show(change, self._output)
                self._try(change)
        return None

    def _fail(self, failure: Failure) -> None:
        self._output.failure(failure)
        self.status = failure.status


def make(work: Work, change: Change) -> str:
    """Makes a change, and returns what is read back. Raises Failure."""
    parameter = COLUMNS[change.column]
    try:
        work.ask(change.uid, parameter.number, encode(parameter, True, [change.after]), is_set=True)
    except Failure as failure:
        # It may have done so, though it didn't say so in time.
        if failure.keys.get("reason") != "late":
            raise
    found = value_of(work, change.uid, change.column)
    if differs(change.column, found, change.after):
        raise Failure(FAILED, f"{change.uid} accepted {change.after}, but has {found}", uid=str(change.uid),
                      reason="read_back")
    return found
