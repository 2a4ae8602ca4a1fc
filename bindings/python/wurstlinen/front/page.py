"""A log and the findings about it as one HTML file, which needs nothing else.

The picture is drawn from the log. All findings are the proved program's.
"""
from __future__ import annotations

import base64
import hashlib
import html
import json
import pkgutil
from collections import Counter
from typing import Any, BinaryIO, Dict, List, Mapping, Optional, Set

from ..lines.uids import uid_text
from .page_details import PIECE, packed
from .page_findings import Finding, Findings
from .page_log import Log, read_log

# So many rows can be drawn at once. Devices of findings come first, then those that answered most.
MOST_ROWS = 2_200
# The page uses nothing but what is in it, and runs no other script, whatever a log has.
POLICY = ("default-src 'none'; script-src 'sha256-{script}'; style-src 'sha256-{style}'; base-uri 'none'; "
          "form-action 'none'")
SCRIPTS = ("page_picture.js", "page.js")
PAGE = """\
<!DOCTYPE html>
<html lang="en">
<head>
<meta charset="utf-8">
<meta http-equiv="Content-Security-Policy" content="{policy}">
<meta name="viewport" content="width=device-width, initial-scale=1">
<title>{title}</title>
<style>{style}</style>
</head>
<body>
{body}
<script type="application/json" id="head">{head}</script>
<script type="text/plain" id="columns">{columns}</script>
{pieces}
<script>{script}</script>
</body>
</html>
"""


def page_of(name: str, file: BinaryIO, findings: Findings, labels: Mapping[int, str] = {}) -> str:
    """The page of an open log and what the program found in it, with devices' labels. Raises NoLog, OtherLog and
    OSError."""
    log = read_log(file, findings.runs)
    script, style, body = "".join(map(resource, SCRIPTS)), resource("page.css"), resource("page.html")
    pieces = "\n".join(f'<script type="text/plain" id="piece{number}">{piece}</script>'
                       for number, piece in enumerate(log.details.pieces()))
    return PAGE.format(
        policy=html.escape(POLICY.format(script=digest(script), style=digest(style))), style=style, script=script,
        title=html.escape(f"wurstlinen explain {printable(name)}"), body=body,
        head=in_script(head_of(printable(name), log, findings, labels)), columns=packed(log.columns.data()),
        pieces=pieces)


def head_of(name: str, log: Log, findings: Findings, labels: Mapping[int, str]) -> Dict[str, Any]:
    """What a page knows at once."""
    rows = rows_of(log, findings)
    return {
        "name": name, "count": len(log), "piece": PIECE, "verdict": findings.verdict(),
        "came": counts(log.columns.came), "asked": counts(log.columns.asked), "clients": sorted(log.clients),
        "runs": [{"name": run.name, "first": log.places[run.place], "count": len(run.heard)}
                 for run in findings.runs if run.heard],
        "rows": [uid_text(uid) for uid in rows], "labels": [printable(labels.get(uid, "")) for uid in rows],
        "findings": [{"text": printable(finding.text), "isHead": finding.is_head, "place": place_of(finding, log),
                      "uid": None if finding.uid is None else uid_text(finding.uid)} for finding in findings.all]}


def place_of(finding: Finding, log: Log) -> Optional[int]:
    """The exchange in the log that a finding is about."""
    return None if finding.place is None else log.places[finding.place]


def counts(column: bytearray) -> Dict[int, int]:
    """How often each value is in a column."""
    return dict(sorted(Counter(column).items()))


def rows_of(log: Log, findings: Findings) -> List[int]:
    """The UIDs that have rows of their own, in ascending order."""
    rows: Set[int] = set()
    for uid in (*(finding.uid for finding in findings.all), *(uid for uid, _ in log.senders.most_common())):
        if uid is not None and len(rows) < MOST_ROWS:
            rows.add(uid)
    return sorted(rows)


def in_script(value: Any) -> str:
    """A value as JSON that can't end the element that it is in."""
    return json.dumps(value, separators=(",", ":")).replace("<", "\\u003c").replace("&", "\\u0026")


def printable(text: str) -> str:
    """A text without what UTF-8 can't have, such as bytes of a file's name."""
    return text.encode(errors="backslashreplace").decode()


def resource(name: str) -> str:
    """A file beside this one, which may be in an archive."""
    data = pkgutil.get_data(__package__, name)
    assert data is not None
    return data.decode()


def digest(text: str) -> str:
    """How a policy names a script or a style."""
    return base64.b64encode(hashlib.sha256(text.encode()).digest()).decode()
