"""The file that a page has loaded: what differs from it, and changes that make the fixtures as it says."""
from __future__ import annotations

import threading
from io import StringIO
from typing import Any, Dict, Optional

from ..front.checking import KINDS, MISSING, Difference, changed, crowded, missing
from ..front.csv_files import LABEL, MODEL, SLOTS, WRITTEN, RigFile, merged, rig_file, written
from ..front.fixtures import keys_of
from ..front.guarding import ADDRESS, problems_of
from ..front.output import BAD_ARGUMENTS, Failure, Output
from ..front.sheets import Sheet
from ..shared.words import Keys
from .hands import SILENT, Board, failure_of
from .rig import PREFIX, Rig


class Plans:
    """The file, and what differs."""

    def __init__(self, board: Board, rig: Rig) -> None:
        self._board = board
        self._rig = rig
        self._file: Optional[RigFile] = None
        # What pages show of it, besides what differs.
        self._about: Dict[str, Any] = {}
        self._comparing = threading.Lock()

    def load(self, name: str, text: str) -> None:
        """Takes a file in place of the one before. Raises Failure."""
        remarks = StringIO()
        self._file = rig_file(name, text.encode(errors="surrogatepass"), Output(False, errors=remarks))
        self._about = {"name": name, "rows": len(self._file.rows),
                       "note": remarks.getvalue().strip().removeprefix("wurstlinen: "),
                       "planned": [(str(row.uid), row.values[ADDRESS], row.cells.get(SLOTS))
                                   for row in self._file.rows if ADDRESS in row.values]}
        self._rig.planned_labels = {row.uid: row.values.get(LABEL, "") for row in self._file.rows}
        self._compare()

    def unload(self) -> None:
        """There is no file any more."""
        self._file, self._rig.planned_labels = None, {}
        self._compare()

    def save(self) -> Dict[str, str]:
        """The fixtures as a file, with the other columns and devices of the one that is loaded."""
        before = Sheet([]) if self._file is None else self._file.sheet
        known = [{**keys_of(each), MODEL: each.model or None} for each in self._rig.fixtures() if each.info is not None]
        # What isn't known stays empty.
        rows = [{name: "" if keys[name] is None else written(str(keys[name])) for name in WRITTEN} for keys in known]
        return {"text": merged(before, rows, SILENT, keeps=True).text()}

    def apply(self, force: bool = False, dry: bool = False) -> Keys:
        """Makes the fixtures as the file says, or only says what that would change. Raises Failure."""
        if self._file is None:
            raise Failure(BAD_ARGUMENTS, "no file is loaded", reason="file")
        here = {fixture.uid for fixture in self._rig.fixtures()}
        changes = [change for row in self._file.rows if row.uid in here for column, value in row.values.items()
                   for change in self._rig.planned(row.uid, column, value)]
        return self._rig.change(changes, force, dry)

    def follow(self) -> None:
        """Compares whenever fixtures, or what is known of them, have changed, until the board's end."""
        for parts in self._board.follow():
            if any(name.startswith((PREFIX, "discovery")) for name in parts):
                try:
                    self._compare()
                except Exception as fault:  # Whatever it is, the next change is compared.
                    failure_of(fault)

    def _compare(self) -> None:
        """Shows which slots overlap, and what differs from the file."""
        with self._comparing:
            found, file, with_slots = self._rig.fixtures(), self._file, self._rig.with_slots()
            self._board.put("problems", [
                {"kind": each.kind, "uid": str(each.fixture.uid), "other": each.other and str(each.other.uid)}
                for each in problems_of(with_slots)])
            if file is None:
                self._board.put("file", None)
                return
            asked = [fixture for fixture in found if fixture.info is not None or fixture.notes]
            differences = (*missing(file.rows, found, [], SILENT), *changed(file.rows, asked),
                           *crowded(file.rows, with_slots))
            self._board.put("file", {**self._about, "differences": [
                {"kind": each.kind, "uid": str(each.uid), "label": each.label, "text": self._text(each)}
                for each in differences]})

    def _text(self, found: Difference) -> str:
        """What differs: what there is, and then what the file says; or why it is missing, by the last discovery."""
        if found.kind not in KINDS.values():
            return self._rig.reasons.get(found.uid, found.text) if found.kind == MISSING else found.text
        column = found.keys["column"]
        now, planned = (self._rig.value_text(found.uid, column, found.keys[name]) for name in ("after", "before"))
        return f"{'at' if column == ADDRESS else column} {now}, file says {planned}"
