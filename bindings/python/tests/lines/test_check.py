"""The command check, and the logs of discoveries."""
from __future__ import annotations

import io
import json
import os
from typing import Any, Dict, List
from unittest import mock

from common import PACKAGE, folder, needs_library
from fronts import LEFT, SLOW, OneRig, called
from wurstlinen._times import now
from wurstlinen.front import discovery_log
from wurstlinen.front.page_findings import Outcome, Run
from wurstlinen.front.page_log import read_log
from wurstlinen.lines.numbers import ResponseType

RIGHT = "1234:00000002"
TRUSS = "454e:0a000017"
GONE = "1234:00000009"
WIDE: Dict[str, Any] = {"personalities": [{"footprint": 7, "name": "Basic"}, {"footprint": 14, "name": "Extended"}]}
HEAD = "uid,label,address,personality,model,slots\n"
# It says of each device for which it is asked what it was asked.
PROGRAM = """\
#!/bin/sh
[ "$1" = explain ] && cp "$2" {log} && shift 2
echo "discovery: full"
said="didn't mute"
while [ $# -gt 0 ]; do echo "$2 $said"; said="check its power and its cable"; shift 2; done
exit 3
"""


@needs_library
class Check(OneRig):
    def setUp(self) -> None:
        self.scene({"uid": LEFT, "rig": {**WIDE, "label": "Left"}},
                   {"uid": RIGHT, "rig": {**WIDE, "label": "Right", "address": 8}})
        self.saved = self.run_command("save", "-")[1]
        patch = mock.patch.dict(os.environ, {"WURSTLINEN_PROGRAM": "/nowhere"})
        patch.start()
        self.addCleanup(patch.stop)

    def check(self, text: str, *options: str) -> Any:
        """What the command ends with, and its lines without their columns' blanks."""
        status, out, errors = self.run_command("check", "-", *options, text=text)
        lines = ["  ".join(filter(None, line.split("  "))) for line in out.splitlines()]
        return status, [line.replace("   ", "  ") for line in lines], errors

    def test_nothing_differs(self) -> None:
        self.assertEqual(self.check(self.saved), (0, ["no difference; 2 of 2 devices are there"], ""))
        self.assertEqual(self.check("uid;label\n"), (3, [f"new  {LEFT}  Left  Simulated fixture, at 1-7",
                                                         f"new  {RIGHT}  Right  Simulated fixture, at 8-14",
                                                         "2 differences; 0 of 0 devices are there"], ""))

    def test_each_kind(self) -> None:
        self.run_command("set", RIGHT, "dmx_start_address", "506")
        self.run_command("set", RIGHT, "dmx_personality", "2")
        self.run_command("set", LEFT, "device_label", "=1")
        text = self.saved + f"{GONE},Front 9,3,1,,\n"
        self.assertEqual(self.check(text), (3, [
            f"missing  {GONE}  Front 9  wasn't found; see whether it is on and connected",
            f"relabelled  {LEFT}  =1  label \\x3d1, file says Left",
            f"moved  {RIGHT}  Right  address 506, file says 8",
            f"personality  {RIGHT}  Right  personality 2, file says 1",
            f"end  {RIGHT}  Right  506-519 ends after 512",
            "5 differences; 2 of 3 devices are there"], ""))

    def test_overlaps(self) -> None:
        self.run_command("set", RIGHT, "dmx_start_address", "7")
        self.assertEqual(self.check(self.saved)[1][1:], [f"overlap  {LEFT}  Left  1-7 overlaps {RIGHT} Right 7-13",
                                                         "2 differences; 2 of 2 devices are there"])
        # What the file has too is no difference.
        self.assertEqual(self.check(self.run_command("save", "-")[1])[0], 0)
        # An address of which the file says nothing is as it is.
        self.assertEqual(self.check(f"uid,label\n{LEFT},Left\n{RIGHT},Right\n")[0], 0)
        self.assertEqual(self.check(f"uid,slots\n{LEFT},7\n{RIGHT},6\n")[0], 0)

    def test_json(self) -> None:
        text = HEAD + f"{GONE},Front 9,3,1,,\n{LEFT},Left,3,1,,7\n{RIGHT},,,,,\n"
        self.run_command("set", RIGHT, "dmx_start_address", "7")
        _, out, _ = self.run_command("check", "-", "--json", text=text)
        found = [json.loads(line) for line in out.splitlines()]
        self.assertEqual(found, [
            {"difference": "missing", "uid": GONE, "label": "Front 9",
             "reason": "wasn't found; see whether it is on and connected"},
            {"difference": "moved", "uid": LEFT, "label": "Left", "column": "address", "before": "3", "after": "1"},
            {"differences": 2, "devices": 2, "expected": 3, "fault": None}])
        new = json.loads(self.run_command("check", "-", "--json", text="uid\n")[1].splitlines()[0])
        self.assertEqual(new, {"difference": "new", "uid": LEFT, "label": "Left", "model": "Simulated fixture",
                               "slots": [1, 7]})
        page = (PACKAGE / "COMMANDS.md").read_text(encoding="utf-8").partition("## JSON")[2]
        self.assertEqual({key for each in [*found, new] for key in each if f"`{key}`" not in page}, set())

    def test_why_a_device_is_missing(self) -> None:
        with folder() as place:
            program, log = place / "program", place / "its.log"
            program.write_text(PROGRAM.format(log=log))
            program.chmod(0o755)
            with mock.patch.dict(os.environ, {"WURSTLINEN_PROGRAM": str(program)}):
                status, lines, _ = self.check(HEAD + f"{GONE},Nine,,,,\n1234:00000008,,,,,\n", "--log",
                                              str(place / "our.log"))
            self.assertEqual((status, lines[:2]), (3, [
                f"missing  {GONE}  Nine  didn't mute; see whether it is on and connected",
                "missing  1234:00000008  check its power and its cable"]))
            ours = (place / "our.log").read_text()
            self.assertIn("microseconds", ours)
            self.assertEqual(log.read_text(), ours)
            # A program that can't be run.
            program.write_text("")
            with mock.patch.dict(os.environ, {"WURSTLINEN_PROGRAM": str(program)}):
                status, lines, errors = self.check(HEAD + f"{GONE},Nine,,,,\n")
            self.assertEqual((status, lines[0]), (3, f"missing  {GONE}  Nine  wasn't found; see whether it is on "
                                                   "and connected"))
            self.assertIn("wurstlinen: why devices are missing can't be said: ", errors)

    def test_a_device_that_does_not_answer(self) -> None:
        self.answers = {0x0060: None}
        self.assertEqual(self.check(self.saved)[:2], (3, [
            f"unknown  {LEFT}  Left  address, personality, label: no answer to device_info",
            "1 difference; 2 of 2 devices are there"]))
        self.scene({"uid": LEFT, "rig": {**WIDE, "label": "Left"}},
                   {"uid": RIGHT, "rig": {**WIDE, "address": 8}, "params": []})
        self.answers = {0x0082: (ResponseType.NACK_REASON, b"\0\0")}
        self.assertEqual(self.check(f"uid,label,address\n{LEFT},Left,1\n{RIGHT},(empty),8\n")[:2], (3, [
            f"unknown  {LEFT}  Left  label: it has none", "1 difference; 2 of 2 devices are there"]))

    def test_a_discovery_that_ends_early(self) -> None:
        self.scene({"uid": LEFT, "rig": {**WIDE, "label": "Left", "lies": ["ignores mutes"]}})
        status, lines, _ = self.check(self.saved)
        self.assertEqual(status, 1)
        self.assertIn("devices are there; the discovery is incomplete: 1234:00000001 was asked alone", lines[-1])

    def test_lines_and_files_that_fail(self) -> None:
        self.scene({"uid": LEFT, "rig": WIDE}, fails=[3])
        self.assertEqual(self.check(self.saved)[0], 1)
        sent = len(self.frames)
        self.assertEqual(self.run_command("check", "/nowhere.csv")[0], 2)
        self.assertEqual(self.run_command("check", "-", "--log", "/nowhere/log", text=self.saved),
                         (1, "", "wurstlinen: /nowhere/log: No such file or directory\n"))
        self.assertEqual(len(self.frames), sent)


@needs_library
class Logs(OneRig):
    """What fixtures --log writes."""

    def test_what_is_written(self) -> None:
        self.scene({"uid": LEFT}, fails=[9])
        with folder() as place:
            log = place / "fixtures.log"
            log.write_text("old")
            began = now()
            self.assertEqual(self.run_command("fixtures", "--log", str(log))[0], 1)
            lines = log.read_text().splitlines()
            self.assertEqual(json.loads(lines[0]), {
                "entry": "opening", "source": "7ff0:00000001", "budget": 384_008, "search": "quick",
                "discover": "full", "known": []})
            exchanges = [json.loads(line) for line in lines[1:]]
            self.assertEqual([each["number"] for each in exchanges], list(range(10)))
            self.assertEqual([each["operation"] for each in exchanges[:4]], ["unmute"] * 3 + ["branch"])
            self.assertEqual([bytes.fromhex(each["frame"]) for each in exchanges], self.frames[:10])
            for exchange, came in ((exchanges[3], "reply"), (exchanges[9], "failed")):
                self.assertEqual(list(exchange), ["number", "operation", "frame", came, "microseconds"])
            times = [began, *(each["microseconds"] for each in exchanges), now()]
            self.assertEqual(times, sorted(times))
            run = Run("discovery", 0, "s" * 9 + "f", Outcome.FAILED, 0)
            self.assertEqual(len(read_log(io.BytesIO(log.read_bytes()), [run])), 10)
            self.assertEqual(called("trace", str(log))[0], 0)

    def test_an_interrupted_discovery_has_a_log(self) -> None:
        exchange = self.rig.exchange

        def interrupted(frame: bytes) -> bytes:
            if len(self.frames) == 10:
                raise KeyboardInterrupt
            return exchange(frame)
        with folder() as place, mock.patch.object(self.rig, "exchange", interrupted):
            self.assertEqual(self.run_command("fixtures", "--log", str(place / "log"))[0], 130)
            self.assertEqual(len((place / "log").read_text().splitlines()), 10)

    def test_a_disk_that_is_full(self) -> None:
        self.assertEqual(self.run_command("fixtures", "--log", "/dev/full"),
                         (1, "", "wurstlinen: /dev/full: No space left on device\n"))

    def test_pieces(self) -> None:
        written: List[bytes] = []

        class Slow(io.BytesIO):
            def write(self, data: Any) -> int:
                written.append(bytes(data[:3]))
                return len(written[-1])
        with mock.patch.object(discovery_log, "open", lambda *words, **keys: Slow(), create=True):
            with discovery_log.sink_of("x") as sink:
                assert sink is not None
                sink("abcdefgh\n")
        self.assertEqual(b"".join(written), b"abcdefgh\n")

    def test_slow_devices_are_no_matter(self) -> None:
        with folder() as place:
            self.assertEqual(self.run_command("fixtures", "--log", str(place / "log"))[2],
                             f"wurstlinen: {SLOW} asks for 0.3 s\n")
            self.assertEqual(len((place / "log").read_text().splitlines()), 79)
