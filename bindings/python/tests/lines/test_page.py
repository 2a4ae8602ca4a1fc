"""The page of explain: what is drawn of a log, and what happens if something fails on the way."""
from __future__ import annotations

import base64
import errno
import io
import json
import os
import re
import signal
import stat
import subprocess
import sys
import time
import zlib
from dataclasses import replace
from pathlib import Path
from typing import Any, Dict, List, Mapping, Optional, Sequence
from unittest import mock

from common import PACKAGE, ROOT, TestCase, folder, scene
from page_logs import (
    DISCOVERY_OPENING, FEW_CLIENTS, HEAD, SOURCE, discovered, document, exchange_line, finding, found_in,
    session_of,
)
from wurstlinen.front import page, page_findings, page_frames, page_log
from wurstlinen.front.frames import Parts, answer_text, command_of
from wurstlinen.front.page_frames import Asked, Came
from wurstlinen.front.trace import exchanges
from wurstlinen.lines.numbers import ResponseType
from wurstlinen.lines.packets import Packet, decode_packet, encode_branch_reply
from wurstlinen.lines.uids import ALL_DEVICES, parse_uid
from wurstlinen.tool import explaining

LOGS = ROOT / "cases/logs.txt"
UNDECIDED = "It isn't decided whether the discovery is complete."
RUNS = [page_findings.Run("discovery", 0, "s" * 9, page_findings.Outcome.COMPLETE, 0)]
COMMAND = [sys.executable, "-m", "wurstlinen.tool"]
LEFT, RIGHT, SILENT = "1234:00000001", "1234:00000002", "1234:00000009"
# It prints what the file `lines` beside it has, and ends with the status in `status`, after what `script` does.
STAND_IN = """\
#!{python}
import os, signal, sys, time
from pathlib import Path
place = Path(__file__).parent
(place / "called").write_text("\\n".join(sys.argv[1:]))
sys.stdout.write((place / "lines").read_text())
sys.stdout.flush()
exec((place / "script").read_text())
sys.exit(int((place / "status").read_text()))
"""


def columns_in(text: str, log: Dict[str, Any]) -> Dict[str, List[int]]:
    """The columns of a page."""
    data = zlib.decompress(base64.b64decode(element(text, "columns")))
    count = log["count"]
    uids = [int.from_bytes(data[at:at + 6], "big") for at in range(0, 18 * count, 6)]
    masks = [int.from_bytes(data[at:at + 2], "little") for at in range(18 * count, 22 * count, 2)]
    return {"low": uids[:count], "high": uids[count:2 * count], "spelled": uids[2 * count:],
            "served": masks[:count], "waiting": masks[count:], "asked": list(data[22 * count:23 * count]),
            "came": list(data[23 * count:])}


def element(text: str, name: str) -> str:
    """The text of an element of a page."""
    found = re.search(rf'<script type="[^"]*" id="{name}">(.*?)</script>', text, re.S)
    assert found, name
    return found[1]


def head_in(text: str) -> Dict[str, Any]:
    """What a page knows at once."""
    found: Dict[str, Any] = json.loads(element(text, "head"))
    return found


def details_in(text: str) -> List[List[Optional[str]]]:
    """What a page shows of each exchange."""
    count = len(re.findall(r'id="piece\d+"', text))
    return [each for number in range(count)
            for each in json.loads(zlib.decompress(base64.b64decode(element(text, f"piece{number}"))))]


def page_text(log: str, *findings: Dict[str, Any], name: str = "log", counts: Sequence[int] = (),
              labels: Mapping[int, str] = {}, **found: Any) -> str:
    """The page of a log, whose runs have so many exchanges; the last one has these findings."""
    text = json.loads(found_in(log, *counts, findings=findings))
    read = page_findings.findings_in(json.dumps({**text, **found}).encode())
    return page.page_of(name, io.BytesIO(log.encode()), read, labels)


class Frames(TestCase):
    """What is drawn of a frame and its reply."""

    def test_what_is_asked(self) -> None:
        low, high = bytes.fromhex("123400000001"), bytes.fromhex("1234000000ff")
        target = parse_uid(LEFT)
        for packet, wanted in (
                (Packet(ALL_DEVICES, 1, 7, 1, 0, 0, 0x10, 1, low + high), (Asked.BRANCH, low, high)),
                (Packet(target, 1, 7, 1, 0, 0, 0x10, 2), (Asked.MUTE, low, low)),
                (Packet(ALL_DEVICES, 1, 7, 1, 0, 0, 0x10, 3), (Asked.UNMUTE, b"\xff" * 6, b"\xff" * 6)),
                (Packet(target, 1, 7, 1, 0, 0, 0x20, 0x82), (Asked.GET, low, low)),
                (Packet(target, 1, 7, 1, 0, 0, 0x30, 0x82, b"x"), (Asked.SET, low, low)),
                (Packet(target, 1, 7, 1, 0, 0, 0x10, 9), (Asked.OTHER, low, low)),
                (Packet(ALL_DEVICES, 1, 7, 1, 0, 0, 0x10, 1, low), (Asked.OTHER, b"\xff" * 6, b"\xff" * 6))):
            found = page_frames.command_in(packet.encode())
            self.assertEqual((found.asked, found.low, found.high), wanted)
            self.assertEqual(found.text, command_of(packet.encode()))
        for frame in (b"", b"\xcc", packet.encode()[:-1] + b"\x00"):
            self.assertEqual(page_frames.command_in(frame).asked, Asked.OTHER)

    def test_what_came(self) -> None:
        branch = Packet(ALL_DEVICES, 1, 7, 1, 0, 0, 0x10, 1, bytes(6) + b"\xff" * 6)
        mute = Packet(parse_uid(LEFT), 1, 7, 1, 0, 0, 0x10, 2)
        get = Packet(parse_uid(LEFT), 1, 7, 1, 0, 0, 0x20, 0x82)
        uid = parse_uid(LEFT).to_bytes(6, "big")
        spelled = encode_branch_reply(parse_uid(LEFT))

        def said(command: Packet, kind: ResponseType, data: bytes = b"") -> bytes:
            return command.answer(parse_uid(LEFT), kind, data).encode()
        for command, reply, wanted in (
                (branch, b"", (Came.SILENCE, bytes(6))), (branch, spelled, (Came.ONE, uid)),
                (branch, spelled[:-1], (Came.COLLISION, bytes(6))), (branch, None, (Came.FAILED, bytes(6))),
                (mute, b"", (Came.SILENCE, bytes(6))), (mute, said(mute, ResponseType.ACK, b"\0\0"), (3, uid)),
                (mute, b"\xff", (Came.DAMAGED, bytes(6))), (mute, spelled, (Came.DAMAGED, bytes(6))),
                (get, said(get, ResponseType.ACK, b"Left"), (Came.ACKNOWLEDGED, uid)),
                (get, said(get, ResponseType.ACK_OVERFLOW, b"Left"), (Came.ACKNOWLEDGED, uid)),
                (get, said(get, ResponseType.NACK_REASON, b"\0\0"), (Came.OTHER_RESPONSE, uid)),
                (get, said(get, ResponseType.ACK_TIMER, b"\0\x03"), (Came.OTHER_RESPONSE, uid))):
            frame = command.encode()
            found = page_frames.answer_to(page_frames.command_in(frame), frame, reply)
            self.assertEqual((found.came, found.uid), wanted)
            self.assertEqual(found.text, answer_text(command.encode(), Parts().joined(command.encode(), reply)))

    def test_only_an_acknowledgement_of_the_frame_is_shown_as_one(self) -> None:
        # A mute is acknowledged by a packet from the muted device to the controller, with its number and 2 or 8 bytes.
        mute = Packet(parse_uid(LEFT), 1, 7, 1, 0, 0, 0x10, 2)
        right = mute.answer(parse_uid(LEFT), ResponseType.ACK, b"\0\0")
        get = Packet(parse_uid(LEFT), 1, 7, 1, 0, 3, 0x20, 0x82)
        value = get.answer(parse_uid(LEFT), ResponseType.ACK, b"Left")
        queued = Packet(parse_uid(LEFT), 1, 7, 1, 0, 0, 0x20, 0x20, b"\x04")
        for command, response, is_acknowledged in (
                (mute, right, True), (mute, right._replace(data=bytes(8)), True),
                (mute, right._replace(source=parse_uid(RIGHT)), False), (mute, right._replace(destination=2), False),
                (mute, right._replace(transaction=8), False), (mute, right._replace(pid=3), False),
                (mute, right._replace(data=b""), False), (mute, right._replace(data=bytes(3)), False),
                (mute, right._replace(port_or_type=ResponseType.NACK_REASON), False),
                (mute, right._replace(port_or_type=ResponseType.ACK_OVERFLOW), False),
                (mute, right._replace(command_class=0x21), False),
                (get, value, True), (get, value._replace(sub_device=0), False), (get, value._replace(pid=0x60), False),
                (get, value._replace(command_class=0x31), False), (get, value._replace(transaction=6), False),
                (get._replace(sub_device=0xffff), value, True), (queued, value._replace(command_class=0x31), True)):
            frame = command.encode()
            found = page_frames.answer_to(page_frames.command_in(frame), frame, response.encode())
            self.assertEqual(found.came, Came.ACKNOWLEDGED if is_acknowledged else Came.OTHER_RESPONSE)

    def test_texts_do_not_depend_on_transaction_numbers(self) -> None:
        packet = Packet(parse_uid(LEFT), 1, 7, 1, 0, 0, 0x20, 0x82)
        other = Packet(parse_uid(LEFT), 1, 250, 1, 0, 0, 0x20, 0x82)
        self.assertIs(page_frames.command_in(packet.encode()), page_frames.command_in(other.encode()))
        self.assertEqual(decode_packet(page_frames.unnumbered(other.encode())),
                         Packet(parse_uid(LEFT), 1, 0, 1, 0, 0, 0x20, 0x82))
        # What is no whole packet stays as it is.
        for data in (b"", packet.encode()[:-1], packet.encode() + b"\x00", packet.encode()[:-1] + b"\x00"):
            self.assertEqual(page_frames.unnumbered(data), data)


class Logs(TestCase):
    """What is read of a log."""

    def test_texts_are_those_of_trace(self) -> None:
        log = discovered(scene(devices=[{"uid": LEFT}, {"uid": RIGHT}, {"uid": "9abc:00000002"}]))
        found = details_in(page_text(log))
        wanted = list(exchanges("log", io.StringIO(log)))
        self.assertGreater(len(wanted), 50)
        self.assertEqual(
            [[frame, reply, command, answer] for _, frame, reply, command, answer in found],
            [[frame.hex(), None if reply is None else reply.hex(), command_of(frame),
              answer_text(frame, Parts().joined(frame, reply))] for frame, reply, _ in wanted])
        self.assertEqual([each[0] for each in found], [f"exchange {number}" for number in range(len(found))])

    def test_every_log_of_the_cases(self) -> None:
        text = LOGS.read_text(encoding="utf-8").partition("text exchanges\n")[2].partition("\n\n")[0]
        lines = [line.strip() for line in text.splitlines()]
        self.assertEqual(head_in(page_text("\n".join(lines)))["count"], len(lines))
        logs = re.findall(r"^log\n((?:    \{\".*\n)+)", LOGS.read_text(encoding="utf-8"), re.M)
        self.assertGreater(len(logs), 8)
        for log in logs:
            page_text(log)

    def test_a_discovery(self) -> None:
        low, high = parse_uid("1234:00000000"), parse_uid("1234:ffffffff")
        branch = Packet(ALL_DEVICES, SOURCE, 1, 1, 0, 0, 0x10, 1, low.to_bytes(6, "big") + high.to_bytes(6, "big"))
        mute = Packet(parse_uid(LEFT), SOURCE, 2, 1, 0, 0, 0x10, 2)
        log = "".join([
            DISCOVERY_OPENING, exchange_line(0, "branch", branch.encode(), encode_branch_reply(parse_uid(LEFT))),
            exchange_line(1, "mute", mute.encode(), mute.answer(parse_uid(LEFT), ResponseType.ACK, b"\0\0").encode()),
            exchange_line(2, "branch", branch.encode(), None)])
        text = page_text(log, name="a log", broken=True)
        head = head_in(text)
        self.assertEqual((head["name"], head["count"], head["verdict"], head["rows"], head["clients"]),
                         ("a log", 3, ["A rule was broken.", UNDECIDED], [LEFT], []))
        self.assertEqual(head["runs"], [{"name": "discovery", "first": 0, "count": 3}])
        found = columns_in(text, head)
        uid = parse_uid(LEFT)
        self.assertEqual(found, {"low": [low, uid, low], "high": [high, uid, high], "spelled": [uid, 0, 0],
                                 "served": [0] * 3, "waiting": [0] * 3, "asked": [0, 1, 0], "came": [1, 3, 6]})

    def test_clients(self) -> None:
        head, found = self.session()
        self.assertEqual(head["clients"], [0, 1, 2])
        self.assertEqual(found["served"], FEW_CLIENTS.served)
        self.assertEqual(found["waiting"], FEW_CLIENTS.waiting)
        self.assertEqual(head["runs"], FEW_CLIENTS.runs)

    def session(self) -> Any:
        """The page of a session with three clients."""
        text = page_text(session_of(FEW_CLIENTS.entries), counts=(2, 1))
        head = head_in(text)
        self.assertEqual([each[0] for each in details_in(text)], FEW_CLIENTS.names)
        return head, columns_in(text, head)

    def test_numbers_of_big_machines(self) -> None:
        columns = page_log.Columns(asked=bytearray(1), came=bytearray(1), low=bytearray(6), high=bytearray(6),
                                   spelled=bytearray(6))
        columns.served.append(0x0102)
        columns.waiting.append(0x0304)
        wanted = bytes(18) + b"\x02\x01\x04\x03" + bytes(2)
        self.assertEqual(columns.data(), wanted if sys.byteorder == "little" else None)
        swapped = bytes(18) + b"\x01\x02\x03\x04" + bytes(2)
        with mock.patch.object(sys, "byteorder", "big"):
            self.assertEqual(columns.data(), swapped)

    def test_what_is_no_log(self) -> None:
        good = exchange_line(0, "unmute", b"\xcc", b"")
        for line in ("", "x", "[]", "5", '"operation"', "null", "{}", '{"entry":"nothing"}', '{"entry":[]}',
                     '{"entry":"send","run":1}', '{"entry":"send","run":-1,"frame":""}', '{"entry":"send","frame":""}',
                     '{"entry":"send","run":true,"frame":""}', '{"entry":"send","run":1.5,"frame":""}',
                     '{"entry":"join","client":16,"places":1}', '{"entry":"accept","client":0}',
                     '{"entry":"opening","places":5}', '{"operation":"branch","number":0,"frame":"c","reply":""}',
                     '{"operation":"branch","number":0,"frame":"zz","reply":""}',
                     '{"operation":"branch","number":0,"frame":5,"reply":""}',
                     '{"operation":"branch","number":0,"frame":"cc","reply":null}',
                     '{"operation":"branch","number":0,"frame":"cc"}', "[" * 100_000, "{" * 200,
                     '{"number":' + "1" * 5_000 + "}", '{"entry":"' + "x" * page_log.MOST_LINE):
            with self.assertRaisesRegex(page_log.NoLog, "line 2 isn't an entry of a log"):
                page_log.read_log(io.BytesIO(f"{good}{line}\n{good}".encode()), RUNS)
        for data in (b"\xff\n", b"\x00\n", bytes(range(256)), b'{"entry":"pause"}\x80\n', "{}".encode("utf-16")):
            with self.assertRaisesRegex(page_log.NoLog, "line 1 "):
                page_log.read_log(io.BytesIO(data), RUNS)

    def test_a_log_with_other_exchanges(self) -> None:
        lines = [exchange_line(number, "unmute", b"\xcc", b"") for number in range(3)]
        session = session_of(['{"entry":"send","run":1,"frame":"cc"}', '{"entry":"came","reply":""}'])
        for log, counts in (("".join(lines), (2,)), ("".join(lines), (2, 2)), ("".join(lines), (1,)), ("", (1,)),
                            (session, (2,))):
            runs = [page_findings.Run("run 1", sum(counts[:number]), "s" * count, page_findings.Outcome.COMPLETE, 0)
                    for number, count in enumerate(counts)]
            with self.assertRaisesRegex(page_log.OtherLog, "it has other exchanges than were explained"):
                page_log.read_log(io.BytesIO(log.encode()), runs)
        with self.assertRaises(page_log.OtherLog):
            page_log.read_log(io.BytesIO("".join(lines).encode()), [])

    def test_what_the_program_heard_is_drawn(self) -> None:
        # The page colours an answer as the program read it, whatever it is.
        branch = Packet(ALL_DEVICES, SOURCE, 1, 1, 0, 0, 0x10, 1, bytes(6) + b"\xff" * 6).encode()
        mute = Packet(parse_uid(LEFT), SOURCE, 2, 1, 0, 0, 0x10, 2)
        ack = mute.answer(parse_uid(LEFT), ResponseType.ACK, b"\0\0").encode()
        spelled = encode_branch_reply(parse_uid(LEFT))
        for frame, reply, heard, came in (
                (branch, spelled, "n", Came.COLLISION), (branch, spelled, "o", Came.ONE),
                (branch, b"", "f", Came.FAILED),
                (mute.encode(), ack, "n", Came.OTHER_RESPONSE), (mute.encode(), ack, "a", Came.ACKNOWLEDGED),
                (mute.encode(), b"\xff", "n", Came.DAMAGED), (mute.encode(), b"\xff", "a", Came.ACKNOWLEDGED),
                (mute.encode(), b"", "s", Came.SILENCE)):
            log = exchange_line(0, "branch", frame, reply)
            run = page_findings.Run("discovery", 0, heard, page_findings.Outcome.COMPLETE, 0)
            self.assertEqual(page_log.read_log(io.BytesIO(log.encode()), [run]).columns.came[0], came)

    def test_a_log_that_is_too_long(self) -> None:
        line = exchange_line(0, "unmute", b"\xcc", b"").encode()
        with mock.patch.object(page_log, "MOST_ENTRIES", 3):
            self.assertEqual(len(page_log.read_log(io.BytesIO(line * 3), [replace(RUNS[0], heard="sss")])), 3)
            self.assertRaisesRegex(page_log.NoLog, "^more than 3 entries$",
                                   page_log.read_log, io.BytesIO(line * 4), RUNS)

    def test_a_log_that_ends_within_an_exchange(self) -> None:
        log = session_of(['{"entry":"send","run":1,"frame":"cc"}', '{"entry":"came","reply":""}',
                          '{"entry":"send","run":1,"frame":"cc"}'])
        head = head_in(page_text(log))
        self.assertEqual((head["count"], head["runs"]), (1, [{"name": "run 1", "first": 0, "count": 1}]))
        # A log may begin there, too.
        self.assertEqual(head_in(page_text('{"entry":"came","reply":""}\n' + log))["count"], 1)
        self.assertEqual(head_in(page_text(""))["count"], 0)

    def test_runs_of_two_sessions(self) -> None:
        sent = ['{"entry":"send","run":1,"frame":"cc"}', '{"entry":"came","reply":""}']
        ended = [*sent, '{"entry":"answer","number":0,"run":1,"fault":3}']
        ask = '{"entry":"ask","client":2,"number":0,"discover":"full"}'
        later = [line.replace('"run":1', '"run":2') for line in sent]
        for entries, served in (
                ([ask, *ended, ask, *ended], [4, 4]), ([ask, *ended, *ended], [4, 0]), ([ask, *later, *sent], [4, 0]),
                ([ask, *sent, *sent], [4, 4]),
                ([ask, *sent, ask.replace('"number":0', '"number":1'), *later], [4, 4])):
            text = page_text("".join(f"{entry}\n" for entry in entries))
            self.assertEqual(columns_in(text, head_in(text))["served"], served, entries)

    def test_runs_of_a_log_with_gaps(self) -> None:
        lines = [exchange_line(number, "unmute", b"\xcc", b"") for number in (7, 8, 10, 0, 1)]
        text = page_text("".join(lines), finding("failure", "exchange 1 failed", exchange=1), counts=(2, 1, 2))
        head = head_in(text)
        self.assertEqual([(run["first"], run["count"]) for run in head["runs"]], [(0, 2), (2, 1), (3, 2)])
        self.assertEqual([each[0] for each in details_in(text)], [f"exchange {number}" for number in (7, 8, 10, 0, 1)])
        self.assertEqual([finding["place"] for finding in head["findings"]], [None, None, None, 4])

    def test_rows_have_a_limit(self) -> None:
        entries = []
        for number in range(1, 40):
            get = Packet(number, SOURCE, 0, 1, 0, 0, 0x20, 0x82)
            entries += [f'{{"entry":"send","request":{number},"frame":"{get.encode().hex()}"}}',
                        f'{{"entry":"came","reply":"{get.answer(number, ResponseType.ACK, b"").encode().hex()}"}}']
        with mock.patch.object(page, "MOST_ROWS", 10):
            rows = head_in(page_text(
                session_of(entries), passing=[finding("passing", "it comes", uid=SILENT)]))["rows"]
        self.assertEqual((len(rows), SILENT in rows, rows), (10, True, sorted(rows)))


class Html(TestCase):
    """The page as a file that needs nothing else, and runs no script but its own."""

    SCRIPT = "</script><script>alert(1)</script><img src=x onerror=alert(1)>&amp;'\"\u2028"

    def test_each_finding_is_shown(self) -> None:
        text = page_text(exchange_line(0, "unmute", b"\xcc", b""), finding("who knows", "who knows?"),
                         finding("broke", "it hides", uid=SILENT, exchange=0))
        head = head_in(text)
        self.assertEqual([each["text"] for each in head["findings"]], [HEAD["sentence"], "who knows?", "it hides"])
        self.assertEqual([each["place"] for each in head["findings"]], [None, None, 0])
        self.assertEqual(head["rows"], [SILENT])

    def test_texts_are_no_script(self) -> None:
        text = page_text(exchange_line(0, "unmute", b"\xcc", b""), finding("gap", self.SCRIPT, uid=LEFT),
                         name=self.SCRIPT, labels={parse_uid(LEFT): self.SCRIPT, 1: "Other"})
        self.assertNotIn("alert(1)</script>", text)
        self.assertNotIn("<img", text)
        self.assertEqual((head_in(text)["name"], head_in(text)["labels"]), (self.SCRIPT, [self.SCRIPT]))
        self.assertEqual(head_in(text)["findings"][1]["text"], self.SCRIPT)
        # Texts of a log are packed, so they have no such characters.
        for number in range(2):
            self.assertRegex(element(text, ["columns", "piece0"][number]), r"\A[A-Za-z0-9+/=]+\Z")

    def test_it_names_no_other_file(self) -> None:
        text = page_text("")
        self.assertEqual(re.findall(r"(?:https?:)?//\w|\b(?:src|href|url|import|fetch)\b *[=(]", text), [])
        self.assertEqual(len(re.findall("<script>", text)), 1)
        self.assertIn("default-src &#x27;none&#x27;; script-src &#x27;sha256-", text)
        self.assertEqual(text.count("</script>"), text.count("<script"))

    def test_names_of_any_bytes(self) -> None:
        name = os.fsdecode(b"log\xff\x01<b>")
        page_text("", name=name).encode()
        self.assertEqual(head_in(page_text("", name=name))["name"], "log\\udcff\x01<b>")


class Command(TestCase):
    """The command, with a stand-in for the proved program."""

    FINDINGS = (finding("found", f"{LEFT} was found, and followed the rules", uid=LEFT),
                finding("broke", f"{SILENT} was never heard: exchange 5 is the fifth", uid=SILENT, exchange=5))
    LINES = "".join(f"{each['sentence']}\n" for each in (HEAD, *FINDINGS))

    def setUp(self) -> None:
        context = folder()
        self.place = context.__enter__()
        self.addCleanup(context.__exit__, None, None, None)
        self.log, self.page = self.place / "log", self.place / "page.html"
        self.log.write_text(discovered(scene(devices=[{"uid": LEFT}])))
        self.program = self.place / "program"
        self.program.write_text(STAND_IN.format(python=sys.executable))
        self.program.chmod(0o755)
        self.stand_in(self.printed(3), 3)

    def printed(self, status: int) -> str:
        """What the program prints as JSON."""
        return json.dumps({**json.loads(found_in(self.log.read_text(), findings=self.FINDINGS)), "broken": status == 3})

    def stand_in(self, lines: str, status: int, script: str = "") -> None:
        """What the program does."""
        for name, text in (("lines", lines), ("status", str(status)), ("script", script)):
            (self.place / name).write_text(text)

    def started(self, *words: str, **keys: Any) -> "subprocess.Popen[str]":
        """The command, which runs."""
        environment = {**os.environ, "PYTHONPATH": str(PACKAGE), "PYTHONDONTWRITEBYTECODE": "1",
                       "WURSTLINEN_PROGRAM": str(self.program)}
        streams = {"stdout": subprocess.PIPE, "stderr": subprocess.PIPE, **keys}
        return subprocess.Popen([*COMMAND, "explain", *words], text=True, env=environment, cwd=self.place, **streams)

    def called(self, *words: str, **keys: Any) -> Any:
        """The status of the command, its output and its errors."""
        with self.started(*words, **keys) as child:
            out, errors = child.communicate()
        return child.returncode, out, errors

    def assert_nothing(self) -> None:
        """There is no page, and no file that would have become one."""
        self.assertEqual([each.name for each in self.place.iterdir() if "page" in each.name], [])

    def test_a_page(self) -> None:
        for status in (3, 0):
            self.stand_in(self.printed(status), status)
            self.assertEqual(self.called("log", "--page", "page.html"), (status, self.LINES, ""))
            head = head_in(self.page.read_text(encoding="utf-8"))
            self.assertEqual("A rule was broken." in head["verdict"], status == 3)
            self.assertEqual([each["text"] for each in head["findings"]], self.LINES.splitlines())
            self.assertEqual(head["count"], self.log.read_text().count("\n") - 1)
        self.assertEqual(stat.S_IMODE(self.page.stat().st_mode) & 0o600, 0o600)
        self.assertEqual((self.place / "called").read_text(), "explain\n--json\nlog")
        self.assertEqual(self.called("log", "--json", "--page", "page.html"), (0, self.printed(0), ""))
        self.assertEqual((self.place / "called").read_text(), "explain\nlog\n--json")

    def test_the_words_of_the_program(self) -> None:
        for words, wanted in (
                (["--page=page.html", "--present", LEFT, "log", "--present", RIGHT, "--rig=rig"],
                 ["--present", LEFT, "log", "--present", RIGHT, "--rig=rig"]),
                (["--present", LEFT, "--page", "page.html", "--", "log"], ["--present", LEFT, "--", "log"])):
            self.assertEqual(self.called(*words)[0], 3)
            self.assertEqual((self.place / "called").read_text().split("\n")[2:], wanted)
            self.page.unlink()

    def test_labels_of_a_file(self) -> None:
        rig = self.place / "rig.csv"
        rig.write_text(f"uid,label\n{LEFT},Front left\n{SILENT},(empty)\n")
        self.assertEqual(self.called("log", "--names", "rig.csv", "--page", "page.html"), (3, self.LINES, ""))
        self.assertEqual((self.place / "called").read_text(), "explain\n--json\nlog")
        self.assertEqual(head_in(self.page.read_text(encoding="utf-8"))["labels"], ["Front left", ""])
        self.page.unlink()
        rig.write_text("label\nx\n")
        self.assertIn("one of them is uid", self.called("log", "--names", "rig.csv", "--page", "page.html")[2])
        self.assert_nothing()
        self.assertEqual(self.called("log", "--page", "rig.csv", "--names", "rig.csv")[0], 2)

    def test_a_log_with_times(self) -> None:
        """The program reads the log itself, and so does the page."""
        self.log.write_text(self.log.read_text().replace('"}\n', '","microseconds":17}\n'))
        self.assertEqual(self.called("log"), (3, self.printed(3), ""))
        self.assertEqual((self.place / "called").read_text(), "explain\nlog")
        self.assertEqual(self.called("log", "--page", "page.html"), (3, self.LINES, ""))
        self.assertEqual((self.place / "called").read_text(), "explain\n--json\nlog")
        self.assertEqual(head_in(self.page.read_text(encoding="utf-8"))["count"], self.log.read_text().count("\n") - 1)

    def test_without_a_page_it_is_the_program(self) -> None:
        self.assertEqual(self.called("log", "--present", LEFT), (3, self.printed(3), ""))
        self.assertEqual((self.place / "called").read_text(), f"explain\nlog\n--present\n{LEFT}")
        self.assert_nothing()
        status, out, errors = self.called("--help")
        self.assertEqual((status, errors, "--page FILE" in out), (0, "", True))

    def test_faults_of_the_program(self) -> None:
        stopped = document([], fault="line 7").decode()
        for status, printed, lines in (
                (1, "fault: file\n", "fault: file\n"), (1, stopped, "fault: line 7\n"),
                (2, "fault: command line\n", "fault: command line\n"), (125, "", "")):
            self.stand_in(printed, status, "sys.stderr.write('wurstlinen: why\\n')")
            self.assertEqual(self.called("log", "--page", "page.html"), (status, lines, "wurstlinen: why\n"))
            self.assert_nothing()
            self.page.write_text("old")
            self.assertEqual(self.called("log", "--page", "page.html")[0], status)
            self.assertEqual(self.page.read_text(), "old")
            self.page.unlink()

    def test_a_program_that_is_killed(self) -> None:
        self.stand_in(self.printed(0), 0, "os.kill(os.getpid(), signal.SIGKILL)")
        self.assertEqual(self.called("log", "--page", "page.html"),
                         (137, "", "wurstlinen: the program was ended by signal 9\n"))
        self.assert_nothing()

    def test_a_program_that_is_not_there(self) -> None:
        self.program.chmod(0o644)
        if os.geteuid() == 0 or not os.access(self.program, os.X_OK):
            status, out, errors = self.called("log", "--page", "page.html")
            self.assertEqual((status, out), (127, ""))
            self.assertIn("Permission denied", errors)
        self.program.unlink()
        self.assertEqual(self.called("log", "--page", "page.html")[0], 127)
        self.assert_nothing()

    def test_wrong_words(self) -> None:
        for words in (["log", "--page"], ["log", "--page="]):
            status, out, errors = self.called(*words)
            self.assertEqual((status, out), (2, "fault: command line\n"))
            self.assertIn("argument --page: expected one argument", errors)
        self.assertEqual(self.called("log", "--page", "-")[0], 2)
        # Other words are the program's to judge.
        self.stand_in("fault: command line\n", 2)
        for words in (["--page", "page.html"], ["log", "log", "--page=page.html"], ["log", "--page=a", "--page=b"]):
            self.assertEqual(self.called(*words)[:2], (2, "fault: command line\n"))
        self.assert_nothing()

    def test_a_page_that_would_replace_what_is_read(self) -> None:
        before = self.log.read_text()
        (self.place / "link").symlink_to("log")
        os.link(self.log, self.place / "hard")
        (self.place / "rig").write_text("{}")
        for words in (["log", "--page", "log"], ["log", "--page", "link"], ["link", "--page", "./log"],
                      ["log", "--page", "hard"], ["log", "--rig", "rig", "--page", "rig"]):
            status, out, errors = self.called(*words)
            self.assertEqual((status, out), (2, ""), words)
            self.assertIn("the page would replace ", errors)
        self.assertEqual((self.log.read_text(), (self.place / "rig").read_text()), (before, "{}"))
        self.assertFalse((self.place / "called").exists())

    def test_places_that_are_not_there(self) -> None:
        (self.place / "folder").mkdir()
        for name, reason in (("none/page.html", "No such file or directory"), ("log/page.html", "Not a directory"),
                             ("folder", "Is a directory")):
            self.assertEqual(self.called("log", "--page", name), (1, "", f"wurstlinen: {name}: {reason}\n"))
        self.assertFalse((self.place / "called").exists())

    def test_a_full_disk(self) -> None:
        self.assertEqual(self.called("log", "--page", "/dev/full"),
                         (1, self.LINES, "wurstlinen: /dev/full: No space left on device\n"))
        self.page.write_text("old")
        full = OSError(errno.ENOSPC, os.strerror(errno.ENOSPC))
        with mock.patch("os.fsync", side_effect=full), mock.patch("sys.stdout", io.TextIOWrapper(io.BytesIO())):
            with self.assertRaisesRegex(Exception, "No space left on device"):
                explaining.explain(self.program, ["explain", str(self.log)], str(self.page), [str(self.log)])
        self.assertEqual(self.page.read_text(), "old")
        self.assertEqual([each.name for each in self.place.glob(".page*")], [])

    def test_an_output_that_is_full_or_gone(self) -> None:
        with open("/dev/full", "w") as full:
            status, _, errors = self.called("log", "--page", "page.html", stdout=full)
        self.assertEqual((status, errors), (1, "wurstlinen: No space left on device\n"))
        self.assert_nothing()
        gone, to_gone = os.pipe()
        os.close(gone)
        self.assertEqual(self.called("log", "--page", "page.html", stdout=to_gone)[0::2], (1, ""))
        os.close(to_gone)
        self.assert_nothing()

    def test_a_log_that_changes(self) -> None:
        for script in ("open('log', 'a').write('{}\\n')", "os.truncate('log', 500)", "os.unlink('log')",
                       "os.rename('log', 'old'); Path('log').write_bytes(Path('old').read_bytes())",
                       "os.utime('log', (1, 1))", "open('log', 'r+b').write(b'x')"):
            self.log.write_text(discovered(scene(devices=[{"uid": LEFT}])))
            self.stand_in(self.printed(0), 0, script)
            status, out, errors = self.called("log", "--page", "page.html")
            self.assertEqual((status, out), (1, self.LINES), script)
            self.assertRegex(errors, "^wurstlinen: log.*, so no page is written\n$")
            self.assert_nothing()

    def test_a_log_that_only_the_program_understands(self) -> None:
        for data in (b"\xff\x00\n", b'{"entry":"new"}\n', b"<script>alert(1)</script>\n"):
            self.log.write_bytes(data)
            self.assertEqual(self.called("log", "--page", "page.html"), (1, self.LINES, (
                "wurstlinen: log: line 1 isn't an entry of a log, so no page is written\n")))
            self.assert_nothing()

    def test_a_log_that_can_be_read_once(self) -> None:
        os.mkfifo(self.place / "pipe")
        for name in ("pipe", "/dev/null"):
            status, out, errors = self.called(name, "--page", "page.html")
            self.assertEqual((status, out), (2, ""))
            self.assertIn("is no file on a disk, and --page has to read it twice", errors)
        self.assertFalse((self.place / "called").exists())
        self.assert_nothing()

    def test_a_log_that_is_not_there(self) -> None:
        self.stand_in("fault: file\n", 1)
        self.assertEqual(self.called("none", "--page", "page.html"), (1, "fault: file\n", ""))
        self.assertEqual(self.called(".", "--page", "page.html"), (1, "fault: file\n", ""))
        self.assert_nothing()

    def test_interrupts(self) -> None:
        for number, wanted in ((signal.SIGINT, 130), (signal.SIGTERM, 143), (signal.SIGHUP, 129)):
            self.stand_in(self.printed(0), 0, "Path('pid').write_text(str(os.getpid())); time.sleep(50)")
            with self.started("log", "--page", "page.html") as child:
                while not (self.place / "pid").exists() or not (self.place / "pid").read_text():
                    time.sleep(0.01)
                program = int((self.place / "pid").read_text())
                child.send_signal(number)
                self.assertEqual((child.wait(), child.communicate()), (wanted, ("", "")))
            self.assertFalse(Path(f"/proc/{program}").exists())
            (self.place / "pid").unlink()
            self.assert_nothing()

    def test_what_is_no_json(self) -> None:
        self.stand_in("", 0, "sys.stdout.buffer.write(b'\\xff\\x00 exchange 1\\n')")
        found = self.called("log", "--page", "page.html", encoding="utf-8", errors="replace")
        self.assertEqual(found, (1, "\ufffd\x00 exchange 1\n", ""))
        self.assert_nothing()
