"""What explain shows as JSON: the sentences of each case of explain.txt, which were written by hand, and its status."""
from __future__ import annotations

import json
from dataclasses import replace
from functools import partial
from typing import Any, Dict, Iterator, List

from ..checker.case import Case
from ..checker.tables import ROOT, read_table

BROKEN = 3
STATUSES = (0, BROKEN)
# Of a finding and of a run: the members that each has.
OF_FINDING, OF_RUN = {"judgement", "sentence"}, {"exchanges", "devices", "heard", "findings"}


def cases() -> Iterator[Case]:
    """Those whose log is explained to its end."""
    for case in read_table(ROOT / "cases/explain.txt").cases:
        expected = case.expected
        if expected.status in STATUSES and expected.out is not None:
            commands = tuple((*command, b"--json") for command in case.commands)
            says_it = replace(expected, out=None, form=partial(says, expected.out))
            yield replace(case, commands=commands, expected=says_it)


def says(lines: bytes, text: bytes, status: int) -> bool:
    """Whether a text is JSON with these lines as its sentences, and says as its status whether a rule was broken."""
    if text.count(b"\n") != 1 or not text.endswith(b"\n"):
        return False
    found = json.loads(text)
    are_whole = all(OF_RUN <= set(run) and len(run["heard"]) == run["exchanges"] for run in found["runs"])
    sentences = "".join(f"{each}\n" for each in sentences_in(found))
    return are_whole and sentences == lines.decode() and found["broken"] == (status == BROKEN)


def sentences_in(found: Dict[str, Any]) -> Iterator[str]:
    """The sentences of a document, in order."""
    findings: List[Dict[str, Any]] = list(found["passing"])
    for run in found["runs"]:
        findings += run["findings"]
    for finding in findings:
        assert OF_FINDING <= set(finding)
        yield finding["sentence"]
