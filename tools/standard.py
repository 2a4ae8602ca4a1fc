"""Reads which comments cite E1.20, for `./trust --standard`.

A comment cites a subject of the standard by `E1.20, SUBJECT`, or in a sentence as `E1.20's SUBJECT`. Each subject has
one name, which begins a row of SUBJECTS; the row also has the other forms in which sentences cite it.
"""
from __future__ import annotations

import re
from pathlib import Path
from typing import Iterator

from sources import ROOT

SUBJECTS = (
    ("unique identifier",),
    ("packet format", "start code", "sub start code", "port ID", "message count", "parameter data length", "checksum",
     "request packet", "response packet"),
    ("command classes", "command class", "GET and SET commands"),
    ("response types", "response type"),
    ("broadcast messages", "broadcast"),
    ("sub-devices",),
    ("timing", "packet timing"),
    ("discovery", "discovery commands"),
    ("discovery unique branch", "DISC_UNIQUE_BRANCH"),
    ("discovery unique branch response",),
    ("discovery mute message", "discovery mute", "DISC_MUTE"),
    ("discovery un-mute message", "discovery un-mute", "DISC_UN_MUTE"),
    ("acknowledge timer",),
    ("acknowledge overflow", "ACK_OVERFLOW"),
    ("NACK reason codes", "response NACK reason codes", "NR_UNKNOWN_PID"),
    ("queued message", "QUEUED_MESSAGE"),
    ("status types",),
    ("parameter ids",),
    ("parameter description",),
    ("supported parameters",),
    ("device info",),
    ("DMX personality",),
    ("sensor definition",),
)
NAMES = {form: row[0] for row in SUBJECTS for form in row}
LONGEST_FIRST = sorted(NAMES, key=len, reverse=True)
FOLDERS = ("crates", "bindings", "cases")
# What begins a line of a comment, by the ending of the file.
MARKS = {".rt": "//[/!]?", ".antt": "--", ".py": "#?", **{ending: r"//|\*" for ending in (".c", ".h", ".cpp", ".hpp")}}
BLANK = {ending: rf"(?: |\n *(?:{mark}) *)" for ending, mark in MARKS.items()}
# E1.20 is one of several standards here.
OTHERS = re.compile(r"E1(?:\.37)?\b|if any|in the order")


def files() -> Iterator[Path]:
    """The files whose comments may cite the standard."""
    for folder in FOLDERS:
        for path in sorted((ROOT / folder).rglob("*")):
            if path.suffix in MARKS and "out" not in path.relative_to(ROOT).parts:
                yield path


def cited(path: Path) -> Iterator[tuple[str, str]]:
    """Each citation: its place, and the words that follow. It may be broken between two lines. What E1.20 has besides
    its subjects, such as its tables, is no citation."""
    text, blank = path.read_text(encoding="utf-8"), BLANK[path.suffix]
    for match in re.finditer(rf"E1\.20(,|'s){blank}([\w-]+(?:{blank}[\w-]+)*)", text):
        place = f"{path.relative_to(ROOT)}:{text.count(chr(10), 0, match.start()) + 1}"
        words = re.sub(blank, " ", match[2])
        if match[1] == "," or subject_of(words):
            yield place, words


def subject_of(words: str) -> str:
    """The form of the subject with which the words begin, or an empty text."""
    return next((form for form in LONGEST_FIRST if re.match(rf"{re.escape(form)}\b", words)), "")


def citations() -> tuple[dict[str, list[str]], list[str]]:
    """The places that cite each subject, and citations of what has no name here."""
    found: dict[str, list[str]] = {row[0]: [] for row in SUBJECTS}
    unknown = []
    for path in files():
        for place, words in cited(path):
            form = subject_of(words)
            if form:
                found[NAMES[form]].append(place)
            elif not OTHERS.match(words):
                unknown.append(f"{place}: E1.20 has no subject {words!r} in tools/standard.py")
    return found, unknown


def report() -> Iterator[str]:
    """A line for each subject, and below it the places, those of one file together."""
    for subject, places in citations()[0].items():
        yield f"{subject}: cited {len(places)} times"
        lines: dict[str, list[str]] = {}
        for place in places:
            file, number = place.rsplit(":", 1)
            lines.setdefault(file, []).append(number)
        for file, numbers in lines.items():
            yield f"  {file}: {', '.join(numbers)}"
