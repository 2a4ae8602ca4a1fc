"""Notes the results of tests for `./check --tap FILE`, in TAP (the Test Anything Protocol).

The variable TAP_FILE names the file, and TAP_PART the part of the gate. Without TAP_FILE nothing is noted. What a test
starts doesn't get them, since it may call parts of the gate that have to fail.
"""
from __future__ import annotations

import os
import unittest
from typing import Any, Dict, Iterable, Tuple

FILE = os.environ.pop("TAP_FILE", "")
PART = os.environ.pop("TAP_PART", "")


def environment() -> Dict[str, str]:
    """The variables for another process that notes tests of this part."""
    return {"TAP_FILE": FILE, "TAP_PART": PART} if FILE else {}


def line(name: str, is_good: bool, skipped: str = "") -> str:
    """A test's line. In TAP `#` begins what isn't its name."""
    name = " ".join(f"{PART}: {name}".replace("#", "\\#").split())
    return f"{'ok' if is_good else 'not ok'} - {name}{f' # SKIP {skipped}' if skipped else ''}\n"


def note(name: str, is_good: bool, skipped: str = "") -> None:
    """Notes a test."""
    write([line(name, is_good, skipped)])


def note_all(results: Iterable[Tuple[str, bool]]) -> None:
    """Notes tests."""
    write(line(*result) for result in results)


def write(lines: Iterable[str]) -> None:
    """Adds lines in one step, since other processes may add some too."""
    if FILE:
        with open(FILE, "ab", buffering=0) as file:
            file.write("".join(lines).encode(errors="replace"))


class NotedResult(unittest.TextTestResult):
    """Notes each test that it gets, and counts those that passed: not one of which a part was skipped."""

    passed = 0

    def addSuccess(self, test: unittest.TestCase) -> None:
        super().addSuccess(test)
        self.passed += 1
        note(test.id(), True)

    def addError(self, test: unittest.TestCase, err: Any) -> None:
        super().addError(test, err)
        note(test.id(), False)

    def addFailure(self, test: unittest.TestCase, err: Any) -> None:
        super().addFailure(test, err)
        note(test.id(), False)

    def addUnexpectedSuccess(self, test: unittest.TestCase) -> None:
        super().addUnexpectedSuccess(test)
        note(test.id(), False)

    def addSkip(self, test: unittest.TestCase, reason: str) -> None:
        super().addSkip(test, reason)
        note(test.id(), True, reason)

    def addSubTest(self, test: unittest.TestCase, subtest: unittest.TestCase, err: Any) -> None:
        super().addSubTest(test, subtest, err)
        if err is not None:
            note(subtest.id(), False)
