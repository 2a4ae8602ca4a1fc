"""What the page of explain takes from the JSON of the proved program."""
from __future__ import annotations

from typing import Any, Dict

from common import TestCase
from page_logs import document, finding
from wurstlinen.front import page_findings
from wurstlinen.lines.uids import parse_uid, uid_text

LEFT, RIGHT, SILENT = "1234:00000001", "1234:00000002", "1234:00000009"


class Findings(TestCase):
    """What is taken from the program's JSON."""

    @staticmethod
    def run_with(judgement: str, *findings: Dict[str, Any], **members: Any) -> Dict[str, Any]:
        """A run of three exchanges."""
        return {"exchanges": 3, "devices": 1, "heard": "sss", "findings": [finding(judgement, "head"), *findings],
                **members}

    def test_places_and_devices(self) -> None:
        found = page_findings.findings_in(document([
            self.run_with("complete", finding("broke", "silent", uid=LEFT, exchange=2), run=7, first=0),
            self.run_with("undecided", finding("garbled", "bytes", uid=RIGHT, exchange=41), first=40),
            self.run_with("incomplete", finding("gap", "gap", uid="0000:00000000"), finding("gap", "late", exchange=3)),
        ], passing=[finding("passing", "passes", uid=SILENT)]))
        self.assertEqual([(each.text, each.is_head, None if each.uid is None else uid_text(each.uid), each.place)
                          for each in found.all], [
            ("passes", False, SILENT, None), ("head", True, None, None), ("silent", False, LEFT, 2),
            ("head", True, None, None), ("bytes", False, RIGHT, 4), ("head", True, None, None),
            ("gap", False, "0000:00000000", None), ("late", False, None, 9)])
        self.assertEqual([(run.name, run.place, run.heard) for run in found.runs],
                         [("run 7", 0, "sss"), ("discovery", 3, "sss"), ("discovery", 6, "sss")])
        self.assertEqual(list(found.lines()), ["passes", "head", "silent", "head", "bytes", "head", "gap", "late"])

    def test_sentences_are_shown_as_they_are(self) -> None:
        for judgement, end in (("complete", "no other device is on the line if all follow the rules"),
                               ("incomplete", "others may be on the line"), ("undecided", "a; b")):
            said = [f"discovery: quick, 18 exchanges, 2 devices; {end}", f"a label; {end}"]
            found = page_findings.findings_in(document([{**self.run_with(judgement), "findings": [
                finding(judgement, said[0]), finding("found", said[1])]}]))
            self.assertEqual([[each.text for each in found.all], list(found.lines())], [said, said])

    def test_bytes_of_nobody_are_no_devices(self) -> None:
        everyone, bytes_of = "ffff:ffffffff", (lambda uid: finding("garbled", "bytes", uid=uid, exchange=2))
        stray, silent = finding("stray", "bytes", uid=RIGHT, exchange=2), finding("broke", "silent", uid=RIGHT)
        for judgement, told, wanted in (
                ("incomplete", bytes_of(SILENT), SILENT), ("incomplete", bytes_of(everyone), None),
                ("complete", bytes_of(SILENT), None), ("complete", bytes_of(LEFT), LEFT),
                ("incomplete", stray, None), ("complete", silent, RIGHT),
                # What to do is said once, and isn't why a fixture is missing.
                ("incomplete", finding("order", "take it off", uid=LEFT), None),
                # A range that isn't settled begins with a UID that need be no device's.
                ("incomplete", finding("gap", "not settled", uid=SILENT), None),
                ("incomplete", finding("gap", "not settled", uid=LEFT), LEFT)):
            found = page_findings.findings_in(document([self.run_with(judgement, told)]))
            self.assertEqual([(uid if uid is None else uid_text(uid), each.text)
                              for uid, each in found.of_uids({parse_uid(LEFT)})], [(wanted, told["sentence"])])

    def test_who_is_missing_breaks_no_rule(self) -> None:
        lost = {**finding("broke", "was never heard", uid=SILENT, exchange=2), "found": False}
        late = {**finding("broke", "answered too much", uid=LEFT, exchange=2), "found": True}
        end = "1 fixture found; nothing else can be on this line if it is honest."
        complete, incomplete = self.run_with("complete", lost), self.run_with("incomplete", lost)
        other = {**lost, "uid": RIGHT}
        for runs, wanted in (
                ([complete], ["1 listed fixture was not found.", end]),
                ([self.run_with("complete", lost, other)], ["2 listed fixtures were not found.", end]),
                ([incomplete], ["1 listed fixture was not found.", "The discovery is incomplete."]),
                ([self.run_with("complete", lost, late)], ["A rule was broken."]),
                ([complete, complete], ["A rule was broken."]),
                *(([self.run_with("complete", lost, finding(each, "bytes", exchange=2))], ["A rule was broken."])
                  for each in ("stray", "garbled", "unmuted"))):
            self.assertEqual(page_findings.findings_in(document(runs, broken=True)).verdict(), wanted)

    def test_the_headline_is_that_of_the_worst_run(self) -> None:
        complete, incomplete, cut = map(self.run_with, ("complete", "incomplete", "undecided"))
        corrupt = self.run_with("incomplete", end="corrupt", uid=LEFT)
        line_failed = self.run_with("incomplete", finding("failure", "exchange 1 failed", exchange=1))
        none = {**self.run_with("no run"), "exchanges": 0, "heard": ""}
        unbroken, undecided = "No broken rule was seen.", "It isn't decided whether the discovery is complete."
        honest = "nothing else can be on this line if it is honest."
        for runs, wanted in (
                ([none], "No discovery."), ([], "No discovery."),
                ([complete], f"1 fixture found; {honest}"),
                ([{**complete, "devices": 5}], f"5 fixtures found; {honest}"),
                ([{**complete, "devices": 0, "end": "no fault"}],
                 "No fixture found: check the adapter and the first cable."),
                ([complete, {**complete, "devices": 2}], f"The last of 2 discoveries: 2 fixtures found; {honest}"),
                ([corrupt], "The discovery failed."), ([line_failed], "The discovery failed."),
                *(([{**incomplete, "end": end}], "The discovery failed.")
                  for end in ("too many devices", "budget used up", "line failed", "aborted")),
                ([incomplete], "The discovery is incomplete."), ([cut], undecided),
                ([complete, incomplete, corrupt, cut, corrupt], "2 of 5 discoveries failed."),
                ([complete, incomplete, cut], "1 of 3 discoveries are incomplete."),
                ([cut, complete], "It isn't decided whether 1 of 2 discoveries are complete.")):
            self.assertEqual(page_findings.findings_in(document(runs)).verdict(), [wanted, unbroken])
            said = [] if honest in wanted or "first cable" in wanted else [wanted]
            broken = page_findings.findings_in(document(runs, broken=True))
            self.assertEqual(broken.verdict(), ["A rule was broken.", *said])

    def test_a_log_that_is_not_explained_to_its_end(self) -> None:
        found = page_findings.findings_in(b'{"passing":[],"runs":[],"fault":"line 7"}\n')
        self.assertEqual((list(found.lines()), found.fault), (["fault: line 7"], "line 7"))

    def test_what_is_no_json_of_the_program(self) -> None:
        for text in (b"", b"fault: uid\n", b"[]", b"{}", b"\xff",
                     b'{"passing":[],"runs":[{}]}', b'{"passing":5,"runs":[]}',
                     b'{"passing":[],"runs":[{"exchanges":0,"devices":0,"heard":"","findings":[]}]}', b"[" * 100_000,
                     b'{"passing":[{"judgement":"passing","sentence":"x","uid":"1"}],"runs":[]}'):
            with self.assertRaises(page_findings.NoFindings):
                page_findings.findings_in(text)
