"""Tables of values as spreadsheets write them: with commas, semicolons or tabs, and with columns of their own."""
from __future__ import annotations

import csv
import io
from dataclasses import dataclass, field
from typing import Dict, Iterator, List, Optional, Sequence, Tuple

DELIMITERS = (",", ";", "\t")
UID = "uid"
# How a file's bytes may begin, and what its encoding is then.
MARKS = ((b"\xef\xbb\xbf", "utf-8-sig"), (b"\xff\xfe", "utf-16"), (b"\xfe\xff", "utf-16"))
PLAIN = "utf-8"
# Any bytes are a text of this one, and are written again as they were.
ANY = "latin-1"


class NoSheet(ValueError):
    """Why a text is no table."""


@dataclass
class Sheet:
    """A table. Its rows have a cell for each title."""

    titles: List[str]
    rows: List[List[str]] = field(default_factory=list)
    # The number of each row's last line in the file.
    lines: List[int] = field(default_factory=list)
    delimiter: str = DELIMITERS[0]
    encoding: str = PLAIN

    @property
    def columns(self) -> List[str]:
        """The titles as names."""
        return [column_of(title) for title in self.titles]

    def column(self, name: str) -> Optional[int]:
        """The first column of this name; None if there is none."""
        return self.columns.index(name) if name in self.columns else None

    def others(self, known: Sequence[str]) -> List[int]:
        """The columns with other names."""
        return [number for number, name in enumerate(self.columns) if name not in known]

    def by_name(self, row: Sequence[str]) -> Dict[str, str]:
        """The cells of a row."""
        return dict(zip(self.columns, row))

    def text(self) -> str:
        """The table as text."""
        made = io.StringIO()
        csv.writer(made, delimiter=self.delimiter, lineterminator="\n").writerows([self.titles, *self.rows])
        return made.getvalue()


def column_of(title: str) -> str:
    """A title as a name."""
    return title.strip().lower()


def decoded(data: bytes) -> Tuple[str, str]:
    """The text of a file, and its encoding. Raises NoSheet."""
    encoding = next((encoding for mark, encoding in MARKS if data.startswith(mark)), PLAIN)
    try:
        return data.decode(encoding), encoding
    except UnicodeDecodeError as fault:
        if encoding != PLAIN:
            raise NoSheet(f"it isn't {encoding}, as it begins: {fault.reason}") from None
        return data.decode(ANY), ANY


def sheet_of(data: bytes) -> Sheet:
    """The table of a file. Raises NoSheet."""
    text, encoding = decoded(data)
    delimiter = delimiter_of(text)
    sheet = Sheet([], delimiter=delimiter, encoding=encoding)
    try:
        for line, row in rows_of(text, delimiter):
            if not sheet.titles:
                sheet.titles = row
            elif len(row) != len(sheet.titles):
                raise NoSheet(f"line {line}: it has more or fewer values than the first line")
            else:
                sheet.rows.append(row)
                sheet.lines.append(line)
    except csv.Error as fault:
        raise NoSheet(str(fault)) from None
    return sheet


def rows_of(text: str, delimiter: str) -> Iterator[Tuple[int, List[str]]]:
    """The rows in which something is, with the numbers of their lines."""
    reader = csv.reader(io.StringIO(text, newline=""), delimiter=delimiter, strict=True)
    for row in reader:
        if any(cell.strip() for cell in row):
            yield reader.line_num, row


def delimiter_of(text: str) -> str:
    """What separates the cells: that of these with which the first line has a column for UIDs."""
    first = text.lstrip().partition("\n")[0]
    return next((each for each in DELIMITERS if UID in map(column_of, cells_of(first, each))), DELIMITERS[0])


def cells_of(line: str, delimiter: str) -> List[str]:
    """The cells of a line; none if it can't be read."""
    try:
        return next(csv.reader([line], delimiter=delimiter), [])
    except csv.Error:
        return []
