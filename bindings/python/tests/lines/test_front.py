"""The front: its arguments, pids, get, set, and what it shows of frames."""
from __future__ import annotations

import contextlib
import io
import itertools
import json
import os
import signal
import subprocess
import sys
import time
from typing import Any, List, Optional
from unittest import mock

from common import PACKAGE, ROOT, TestCase, folder, needs_library
from fronts import FIVE, LEFT, SLOW, OneRig, called
from wurstlinen import Session, Uid, commands, entries
from wurstlinen.front import files, frames, naming, pids
from wurstlinen.front.output import Output
from wurstlinen.lines import open_line
from wurstlinen.lines.numbers import ResponseType
from wurstlinen.lines.packets import decode_packet
from wurstlinen.parameters import STANDARD, Parameter, ola
from wurstlinen.parameters.fields import Message, Number, SubDevices

FIVE_LINE = f"rig:{FIVE}"
LOGS = ROOT / "cases/logs.txt"
FORMATS = ROOT / "docs/FORMATS.md"
COMMAND = [sys.executable, "-m", "wurstlinen.front"]
# As most users have it, Python keeps output in a buffer.
ENVIRONMENT = {**os.environ, "PYTHONPATH": str(PACKAGE), "PYTHONDONTWRITEBYTECODE": "1", "PYTHONUNBUFFERED": ""}


class Pids(TestCase):
    """The table, which needs no C library."""

    def test_all(self) -> None:
        status, out, errors = called("pids")
        lines = out.splitlines()
        self.assertEqual((status, errors, len(lines)), (0, "", len(naming.standard().parameters)))
        self.assertIn("0x0082  E1.20    device_label                                get set", lines)
        self.assertIn("0x0002  E1.20    disc_mute                                   discovery", lines)

    def test_a_part_of_names(self) -> None:
        found = [line.split()[2] for line in called("pids", "Sensor")[1].splitlines()]
        self.assertEqual(found, ["sensor_definition", "sensor_value", "record_sensors"])

    def test_one(self) -> None:
        wanted = """\
dmx_start_address (0x00f0, E1.20): the first DMX slot of the device
get, for sub-devices 0 to 512
  returns dmx_start_address: none or from 1 to 512
set, for sub-devices 0 to 512, or 65535 for all
  takes dmx_start_address: from 1 to 512
"""
        for word in ("dmx_start_address", "DMX-START-ADDRESS", "0x00f0", "240"):
            self.assertEqual(called("pids", word), (0, wanted, ""), word)

    def test_each_can_be_explained(self) -> None:
        for parameter in STANDARD.parameters:
            status, out, _ = called("pids", parameter.name)
            self.assertEqual((status, out.splitlines()[0].partition(" ")[0]), (0, parameter.name))

    def test_unknown_ones(self) -> None:
        for word, wanted in (
                ("device_lable", "there is no parameter 'device_lable'; did you mean device_label?"),
                ("0x9999", "no parameter of the standards has the number 0x9999"),
                ("0082", "'0082' can be read in two ways: write 82 for the decimal number, or 0x0082 for the "
                         "hexadecimal one, which is 130")):
            self.assertEqual(called("pids", word), (2, "", f"wurstlinen: {wanted}\n"))

    def test_json(self) -> None:
        found = [json.loads(line) for line in called("pids", "--json")[1].splitlines()]
        self.assertEqual(sorted(each["parameter"] for each in found),
                         sorted(each.name for each in naming.standard().parameters))
        label = next(each for each in found if each["parameter"] == "device_label")
        self.assertEqual((label["pid"], label["standard"]), ("0x0082", "E1.20"))
        self.assertEqual(label["set"], {"sub_devices": "0 to 512, or 65535 for all",
                                        "takes": ["label: 0 to 32 characters"], "returns": []})
        self.assertEqual(json.loads(called("pids", "zzz", "--json")[1])["error"]["reason"], "parameter")


class Arguments(TestCase):
    """Arguments that are wrong are refused before any line is opened."""

    def test_each_is_said_on_one_line(self) -> None:
        for arguments, wanted in (
                (["gett"], "there is no command 'gett'; did you mean get?; try 'wurstlinen --help'"),
                (["get", "1234"], "argument UID|all: '1234' isn't a UID, such as 7a70:00000001; "
                                  "try 'wurstlinen get --help'"),
                (["get", LEFT, "device_label", "--wait", "-1"],
                 "argument --wait: '-1' isn't a number of seconds from 0 to 3600; try 'wurstlinen get --help'"),
                (["get", LEFT, "device_label", "--wait", "nan"],
                 "argument --wait: 'nan' isn't a number of seconds from 0 to 3600; try 'wurstlinen get --help'"),
                (["get", LEFT, "device_lable"], "there is no parameter 'device_lable'; did you mean device_label? "
                                                "'wurstlinen pids' lists those of the standards"),
                (["get", LEFT, "zzz"], "there is no parameter 'zzz'; 'wurstlinen pids' lists those of the standards"),
                (["get", LEFT, "f0"],
                 "'f0' isn't a decimal number; as a hexadecimal one it is written 0xf0, and is 240"),
                (["get", LEFT, "0001"], "'0001' has a leading zero: write 1"),
                (["get", LEFT], "the following arguments are required: PARAMETER; try 'wurstlinen get --help'"),
                (["set", LEFT, "device_label", "-x"], "unrecognized arguments: -x; a value that begins with - comes "
                                                      "after --; try 'wurstlinen set --help'"),
                (["set", LEFT, "240", "17", "--ra"], "unrecognized arguments: --ra; a value that begins with - comes "
                                                     "after --; try 'wurstlinen set --help'"),
                (["set", LEFT, "dmx_fail_mode", "off", "6553.5", "0", "255"],
                 "loss_of_signal_delay: 6553.5 would be 'infinite', and is written like that"),
                (["get", LEFT, "0082"], "'0082' can be read in two ways: write 82 for the decimal number, or 0x0082 "
                                        "for the hexadecimal one, which is 130"),
                (["set", LEFT, "dmx_start_address", "00f0"],
                 "dmx_start_address: '00f0' isn't a decimal number; as a hexadecimal one it is written 0x00f0, "
                 "and is 240"),
                (["set", LEFT, "dmx_start_address", "513"], "dmx_start_address: 513 is not from 1 to 512"),
                (["set", LEFT, "manufacturer_label", "x"], "manufacturer_label has no SET; it has GET"),
                (["get", LEFT, "device_label", "--sub", "513"], "device_label is for sub-devices 0 to 512, not 513"),
                (["get", "ffff:ffffffff", "device_label"],
                 "ffff:ffffffff is no device's own UID, and nobody answers a GET to it"),
                (["identify"], "identify takes a UID, or else --each"),
                (["identify", LEFT, "--each"], "identify takes a UID, or else --each")):
            words = [*arguments, *(["--line", "none:x"] if len(arguments) > 2 else [])]
            self.assertEqual(called(*words), (2, "", f"wurstlinen: {wanted}\n"), arguments)
            status, out, errors = called(*words, "--json")
            error = json.loads(out)["error"]
            self.assertEqual((status, error["text"], errors), (2, wanted, ""), arguments)
            self.assertTrue(error["reason"], arguments)

    @needs_library
    def test_a_line_that_is_not_there(self) -> None:
        with mock.patch.dict(os.environ):
            os.environ.pop("WURSTLINEN_LINE", None)
            self.assertEqual(called("get", LEFT, "device_label"),
                             (2, "", "wurstlinen: which line? --line LINE or WURSTLINEN_LINE says it\n"))
            os.environ["WURSTLINEN_LINE"] = FIVE_LINE
            self.assertEqual(called("get", LEFT, "device_label"), (0, "Front left\n", ""))
        self.assertEqual(called("get", LEFT, "device_label", "--line", "wire:x")[0], 2)
        status, out, errors = called("get", LEFT, "device_label", "--line", "rig:/nowhere/rig.json")
        self.assertEqual((status, out, errors), (1, "", "wurstlinen: /nowhere/rig.json: No such file or directory\n"))
        status, out, errors = called("get", LEFT, "device_label", "--line", "enttec:/nowhere", "--json")
        self.assertEqual((status, errors, json.loads(out)["error"]["reason"]), (1, "", "line"))

    def test_faults_of_the_system(self) -> None:
        with mock.patch.object(pids, "run_pids", side_effect=OSError(5, "Input/output error")):
            self.assertEqual(called("pids"), (1, "", "wurstlinen: Input/output error\n"))
            status, out, errors = called("pids", "--json")
        self.assertEqual((status, errors), (1, ""))
        self.assertEqual(json.loads(out), {"error": {"text": "Input/output error", "reason": "system"}})

    def test_help_has_an_example(self) -> None:
        for name in ("get", "set", "identify", "pids", "fixtures", "save", "apply", "trace"):
            status, out, errors = called(name, "--help")
            self.assertEqual((status, errors), (0, ""))
            self.assertIn(f"example: wurstlinen {name}", out)


@needs_library
class Requests(OneRig):
    def test_get_and_set(self) -> None:
        self.assertEqual(self.run_command("get", LEFT, "device_label"), (0, "Front left\n", ""))
        self.assertEqual(self.run_command("set", LEFT, "dmx_start_address", "17"), (0, "", ""))
        self.assertEqual(self.run_command("get", LEFT, "dmx_start_address"), (0, "17\n", ""))
        self.assertEqual(self.run_command("get", LEFT, "0xf0"), (0, "17\n", ""))
        self.assertEqual(self.run_command("get", "454e:0a000017", "sensor_definition", "0")[1].splitlines()[:2],
                         ["sensor_number: 0", "type: temperature"])
        self.assertEqual(len(self.frames), 7)

    def test_a_value_that_begins_like_an_option(self) -> None:
        self.assertEqual(self.run_command("get", LEFT, "device_label"), (0, "Front left\n", ""))
        self.assertEqual(called("set", LEFT, "device_label", "--line", "rig:it", "--", "-x"), (0, "", ""))
        self.assertEqual(self.run_command("get", LEFT, "device_label"), (0, "-x\n", ""))

    def test_a_wait_is_said(self) -> None:
        self.assertEqual(self.run_command("get", SLOW, "device_label"),
                         (0, "House lights\n", f"wurstlinen: {SLOW} asks for 0.3 s\n"))

    def test_a_wait_that_is_too_short(self) -> None:
        status, out, errors = self.run_command("get", SLOW, "device_label", "--wait", "0.1")
        self.assertEqual((status, out), (1, ""))
        self.assertIn(f"wurstlinen: {SLOW} didn't answer within 0.1 s, since it needs more time\n", errors)

    def test_what_was_queued_is_said(self) -> None:
        self.run_command("get", SLOW, "device_label", "--wait", "0")
        self.run_command("get", SLOW, "manufacturer_label", "--wait", "0.4")
        self.run_command("get", SLOW, "sensor_value", "0", "--wait", "0")
        self.run_command("set", SLOW, "device_label", "House", "--wait", "0")
        status, out, errors = self.run_command("get", SLOW, "dmx_start_address")
        self.assertEqual((status, out), (0, "1\n"))
        self.assertIn(f"wurstlinen: {SLOW} had queued device_label: done\n", errors)
        self.run_command("get", SLOW, "device_label", "--wait", "0")
        out = self.run_command("get", SLOW, "dmx_start_address", "--json")[1]
        found = [json.loads(line) for line in out.splitlines()]
        self.assertEqual(found[0], {"queued": {"uid": SLOW, "parameter": "device_label", "pid": "0x0082",
                                               "values": {"label": "House"}}})

    def test_a_refusal(self) -> None:
        self.assertEqual(self.run_command("get", LEFT, "lamp_hours"),
                         (3, "", f"wurstlinen: {LEFT} refused it: unknown pid (NACK 0x0000)\n"))
        self.assertEqual(self.run_command("set", LEFT, "dmx_personality", "9"),
                         (3, "", f"wurstlinen: {LEFT} refused it: data out of range (NACK 0x0006)\n"))
        status, out, _ = self.run_command("get", LEFT, "lamp_hours", "--json")
        self.assertEqual((status, json.loads(out)), (3, {"error": {
            "text": f"{LEFT} refused it: unknown pid (NACK 0x0000)", "uid": LEFT, "reason": "nack",
            "nack": "unknown_pid"}}))

    def test_refusals_of_another_form(self) -> None:
        for reason, wanted in (("", "malformed reason (NACK 0x)"), ("7777", "unknown reason (NACK 0x7777)"),
                               ("000600", "malformed reason (NACK 0x000600)")):
            self.answers[0x0082] = (ResponseType.NACK_REASON, bytes.fromhex(reason))
            self.assertEqual(self.run_command("get", LEFT, "device_label"),
                             (3, "", f"wurstlinen: {LEFT} refused it: {wanted}\n"))
            status, out, _ = self.run_command("fixtures")
            self.assertIn(f"refuses device_label ({wanted.partition(' (')[0].replace(' ', '_')})", out)

    def test_a_message_says_of_which_parameter_it_is(self) -> None:
        for wanted in ("device_label: House lights", "status_messages: nothing"):
            self.run_command("get", SLOW, "device_label", "--wait", "0")
            if wanted.startswith("device"):
                time.sleep(0.4)
            self.assertEqual(self.run_command("get", SLOW, "queued_message", "error"), (0, f"{wanted}\n", ""))
        self.run_command("get", SLOW, "device_label", "--wait", "0")
        time.sleep(0.4)
        out = self.run_command("get", SLOW, "queued_message", "error", "--json")[1]
        self.assertEqual(json.loads(out), {"uid": SLOW, "parameter": "device_label", "pid": "0x0082",
                                           "values": {"label": "House lights"}})

    def test_an_output_for_people_that_is_full(self) -> None:
        full = io.StringIO()
        with mock.patch.object(full, "write", side_effect=OSError(28, "No space left on device")):
            output = Output(False, io.StringIO(), full)
            output.note("a")
            output.frame("b")
            output.remark("c")

    def test_nobody(self) -> None:
        self.assertEqual(self.run_command("get", "1234:00000009", "device_label"),
                         (1, "", "wurstlinen: 1234:00000009: no answer\n"))

    def test_an_answer_that_breaks_off(self) -> None:
        self.scene({"uid": LEFT, "params": [{"pid": "0082", "parts": ["4c61", "6d70"]}]}, losses=[1])
        self.assertEqual(self.run_command("get", LEFT, "device_label"),
                         (1, "", f"wurstlinen: {LEFT}: the answer broke off after a part of it\n"))
        self.scene({"uid": LEFT, "params": [{"pid": "0082", "parts": ["4c61", "6d70"]}]}, losses=[1])
        error = json.loads(self.run_command("get", LEFT, "device_label", "--json")[1])["error"]
        self.assertEqual(error["reason"], "incomplete")

    def test_a_line_that_fails(self) -> None:
        self.scene({"uid": LEFT}, fails=[0])
        self.assertEqual(self.run_command("get", LEFT, "device_label", "--frames"),
                         (1, "", f"0000  GET {LEFT} device_label  -> the line failed\n"
                                 "wurstlinen: the rig's file lets this exchange fail\n"))

    def test_a_broadcast(self) -> None:
        self.assertEqual(self.run_command("set", "ffff:ffffffff", "identify_device", "on"), (0, "", ""))

    def test_json(self) -> None:
        status, out, errors = self.run_command("get", LEFT, "dmx_personality", "--json")
        self.assertEqual((status, errors, json.loads(out)), (0, "", {
            "uid": LEFT, "parameter": "dmx_personality", "pid": "0x00e0",
            "values": {"current_personality": 1, "personality_count": 2}}))
        status, out, errors = self.run_command("set", LEFT, "device_label", "x", "--json")
        self.assertEqual((status, errors, json.loads(out)), (0, "", {
            "uid": LEFT, "parameter": "device_label", "pid": "0x0082", "done": True}))

    def test_values_that_do_not_fit(self) -> None:
        self.scene({"uid": LEFT, "params": [{"pid": "00f0", "parts": ["11"]}]})
        self.assertEqual(self.run_command("get", LEFT, "dmx_start_address"),
                         (0, "0x11\n", f"wurstlinen: {LEFT}: this doesn't fit dmx_start_address: the data ends in "
                                       "dmx_start_address\n"))
        found = json.loads(self.run_command("get", LEFT, "dmx_start_address", "--json")[1])
        self.assertEqual((found["raw"], "values" in found), ("0x11", False))

    def test_frames_are_shown(self) -> None:
        self.assertEqual(self.run_command("set", LEFT, "dmx_start_address", "17", "--frames"),
                         (0, "", f"0000  SET {LEFT} dmx_start_address 17  -> ACK\n"))
        shown = self.run_command("get", SLOW, "device_label", "--frames")[2].splitlines()
        self.assertEqual(shown[1:], [f"wurstlinen: {SLOW} asks for 0.3 s",
                                     f"0001  GET {SLOW} queued_message error  -> ACK device_label House lights",
                                     f"0002  GET {SLOW} queued_message error  -> ACK status_messages"])

    def test_raw_is_as_it_was(self) -> None:
        for arguments in (["get", LEFT, "0082"], ["set", LEFT, "00f0", "0017"], ["get", LEFT, "0400"],
                          ["get", "1234:00000009", "0082"]):
            out, errors = io.StringIO(), io.StringIO()
            with contextlib.redirect_stdout(out), contextlib.redirect_stderr(errors):
                status = commands.main([*arguments, "--line", FIVE_LINE])
            self.assertEqual(called(*arguments, "--raw", "--line", FIVE_LINE),
                             (status, out.getvalue(), errors.getvalue()))
        with mock.patch.dict(os.environ, {"WURSTLINEN_LINE": FIVE_LINE}):
            self.assertEqual(called("get", "--raw", LEFT, "0082"), (0, "0 00 46726f6e74206c656674\n", ""))

    def test_a_parameter_that_the_device_describes(self) -> None:
        described = "800102050300150300000001000003e800000000" + b"Fan speed".hex()
        self.scene({"uid": LEFT, "params": [{"pid": "0051", "parts": [described]}, {"pid": "8001", "parts": ["00fa"]}]})
        self.assertEqual(self.run_command("get", LEFT, "0x8001"), (0, "0.25 second\n", ""))
        self.assertEqual(self.run_command("set", LEFT, "0x8001", "0.5"), (0, "", ""))
        self.assertEqual(self.frames[-1][24:26].hex(), "01f4")
        self.assertEqual(self.run_command("set", LEFT, "0x8001", "2"),
                         (2, "", "wurstlinen: value: 2 is not from 0.001 to 1.000 second\n"))

    def test_descriptions_that_are_of_no_use(self) -> None:
        for description in ("800202050300150300000001000003e800000000", "8001"):
            self.scene({"uid": LEFT, "params": [{"pid": "0051", "parts": [description]},
                                                {"pid": "8001", "parts": ["00fa"]}]})
            self.assertEqual(self.run_command("get", LEFT, "0x8001"), (0, "0x00fa\n", ""))
        self.scene()
        self.assertEqual(self.run_command("get", LEFT, "0x8001"), (1, "", f"wurstlinen: {LEFT}: no answer\n"))
        self.assertEqual(len(self.frames), 1)

    def test_files_of_ola_that_cannot_be_read(self) -> None:
        for fault in (ola.FileFault("x"), FileNotFoundError("x"), PermissionError("x")):
            with mock.patch.object(ola, "manufacturers", side_effect=fault):
                self.assertEqual(naming.manufacturers.__wrapped__(), {})

    def test_a_parameter_of_which_nothing_is_known(self) -> None:
        self.scene({"uid": LEFT, "params": [{"pid": "8001", "parts": ["00fa"]}, {"pid": "7001", "parts": ["01"]}]})
        self.assertEqual(self.run_command("get", LEFT, "0x8001"), (0, "0x00fa\n", ""))
        self.assertEqual(self.run_command("get", LEFT, "0x7001"), (0, "0x01\n", ""))
        self.assertEqual(self.run_command("set", LEFT, "0x8001", "0x0102"), (0, "", ""))
        self.assertEqual(self.frames[-1][24:26].hex(), "0102")
        self.assertEqual(self.run_command("set", LEFT, "0x8001", "1")[0], 2)

    def test_a_parameter_that_ola_knows(self) -> None:
        speed = Number("speed", 2)
        message = Message((), (speed,), SubDevices.ROOT_OR_ONE)
        maker = ola.Manufacturer(0x1234, "Some", (Parameter("fan_speed", 0x8001, "", message),))
        self.scene({"uid": LEFT, "params": [{"pid": "8001", "parts": ["00fa"]}]})
        with mock.patch.object(naming, "manufacturers", lambda: {0x1234: maker}):
            for word in ("fan_speed", "0x8001"):
                self.assertEqual(self.run_command("get", LEFT, word), (0, "250\n", ""))
            self.assertEqual(len(self.frames), 2)
            self.assertEqual(self.run_command("get", "1235:00000001", "fan_speed")[0], 2)

    def test_each_frame_goes_through_the_queue(self) -> None:
        sessions: List[Session] = []

        class Logged(Session):
            def __init__(self, source: Uid, places: int, **keys: Any) -> None:
                super().__init__(source, 100_000, places, **keys)
                sessions.append(self)

            def dispose(self) -> None:
                pass
        with mock.patch("wurstlinen._queue.Controller", Logged), folder() as place:
            for arguments in (["fixtures"], ["get", SLOW, "device_label"], ["set", LEFT, "dmx_start_address", "3"],
                              ["save", str(place / "rig.csv")], ["apply", str(place / "rig.csv")], ["identify", LEFT],
                              ["identify", "--each"], ["get", LEFT, "0x8001", "--wait", "1"]):
                self.frames.clear()
                status = self.run_command(*arguments, text="\n" * 5)[0]
                self.assertEqual(status, 3 if "0x8001" in arguments else 0)
                logged = [sessions[-1].entry(index) for index in range(sessions[-1].entry_count())]
                sent = [entry.frame for entry in logged if isinstance(entry, entries.Send)]
                self.assertEqual(sent, self.frames, arguments)
                self.assertGreater(len(sent), 0)


def shown(number: int, frame: bytes, reply: Optional[bytes]) -> str:
    """The text of an exchange."""
    return frames.exchange_text(number, frame, frames.Parts().joined(frame, reply))


def keys_of(frame: bytes, reply: Optional[bytes]) -> Any:
    """The same for JSON."""
    return frames.answer_keys(frame, frames.Parts().joined(frame, reply))


class Frames(TestCase):
    def test_texts(self) -> None:
        scene = open_line(FIVE_LINE)
        for frame, wanted in (
                ("cc0118 ffffffffffff 7ff000000001 00 01 00 0000 10 0003 00", "UNMUTE ffff:ffffffff  -> silence"),
                ("cc0124 ffffffffffff 7ff000000001 00 01 00 0000 10 0001 0c 000000000000 fffffffffffe",
                 "BRANCH 0000:00000000-ffff:fffffffe  -> collision, 24 bytes"),
                ("cc0124 ffffffffffff 7ff000000001 00 01 00 0000 10 0001 0c 123400000001 123400000001",
                 f"BRANCH {LEFT}-{LEFT}  -> {LEFT}"),
                (f"cc0118 {LEFT.replace(':', '')} 7ff000000001 00 01 00 0000 10 0002 00",
                 f"MUTE {LEFT}  -> ACK 0x0000"),
                (f"cc0118 {LEFT.replace(':', '')} 7ff000000001 00 01 00 0000 20 0082 00",
                 f"GET {LEFT} device_label  -> ACK device_label Front left"),
                (f"cc0118 {LEFT.replace(':', '')} 7ff000000001 00 01 00 0007 20 0082 00",
                 f"GET {LEFT}/7 device_label  -> NACK sub_device_out_of_range"),
                (f"cc0118 {SLOW.replace(':', '')} 7ff000000001 00 01 00 0000 20 0082 00",
                 f"GET {SLOW} device_label  -> ACK_TIMER 0.3 s"),
                ("cc0118 454e0a000017 7ff000000001 00 01 00 0000 20 0060 00",
                 "GET 454e:0a000017 device_info  -> ACK_OVERFLOW, 8 bytes")):
            data = bytes.fromhex(frame)
            data += (sum(data) % 0x10000).to_bytes(2, "big")
            self.assertEqual(shown(7, data, scene.exchange(data)), f"0007  {wanted}")
        frame = bytes.fromhex(f"cc0118{LEFT.replace(':', '')}7ff0000000010001000000200082 00")
        frame += (sum(frame) % 0x10000).to_bytes(2, "big")
        command = decode_packet(frame)
        assert command is not None
        for kind, data, wanted in ((7, b"\x08", "response type 0x07, 0x08"), (2, b"\0\6\0", "NACK 0x000600"),
                                   (2, b"\0\6", "NACK data_out_of_range")):
            reply = command.answer(command.destination, ResponseType.ACK, data)._replace(port_or_type=kind)
            self.assertEqual(shown(0, frame, reply.encode()),
                             f"0000  GET {LEFT} device_label  -> {wanted}")
        self.assertEqual(shown(0, b"\x01", b"\x02"), "0000  0x01  -> damaged, 0x02")
        self.assertEqual(shown(0, b"\x01", None), "0000  0x01  -> the line failed")

    def test_the_log_of_a_discovery(self) -> None:
        # These frames are written by hand.
        text = LOGS.read_text(encoding="utf-8").partition("text exchanges\n")[2].partition("\n\n")[0]
        wanted = [f"{number:04d}  UNMUTE ffff:ffffffff  -> silence" for number in range(3)]
        branch = "BRANCH 0000:00000000-ffff:ffffffff  -> "
        wanted += [f"0003  {branch}{LEFT}", f"0004  MUTE {LEFT}  -> ACK 0x0002123400000005"]
        wanted += [f"{number:04d}  {branch}silence" for number in range(5, 10)]
        with folder() as place:
            file = place / "log"
            file.write_text(text)
            self.assertEqual(called("trace", str(file)), (0, "\n".join(wanted) + "\n", ""))

    def test_the_log_of_a_session(self) -> None:
        example = FORMATS.read_text(encoding="utf-8").partition('```text\n{"entry":"accept"')[2].partition("```")[0]
        get = "cc01181234000000017a70000001000001000000200060000298"
        self.assertIn(get, example)
        text = f"""{{"entry":"accept"{example}{{"entry":"send","request":1,"frame":"{get}"}}
{{"entry":"came","reply":""}}
{{"entry":"send","request":2,"frame":"{get}"}}
"""
        self.assertEqual(called("trace", "-", text=text), (0, f"0000  GET {LEFT} device_info  -> the line failed\n"
                                                              f"0001  GET {LEFT} device_info  -> silence\n", ""))
        found = [json.loads(line) for line in called("trace", "-", "--json", text=text)[1].splitlines()]
        self.assertEqual(found, [
            {"number": 0, "text": f"GET {LEFT} device_info", "frame": get, "answer": {"text": "the line failed"},
             "failed": True},
            {"number": 1, "text": f"GET {LEFT} device_info", "frame": get, "answer": {"text": "silence"},
             "reply": ""}])

    def test_times(self) -> None:
        get = "cc01181234000000017a70000001000001000000200060000298"
        text = (f'{{"frame":"{get}"}}\n{{"reply":"","microseconds":1700000000}}\n'
                f'{{"frame":"{get}","reply":"","microseconds":1701250001}}\n{{"frame":"{get}","reply":""}}\n')
        wanted = [f"{it}  GET {LEFT} device_info  -> silence" for it in ("0000  0.000000", "0001  1.250001", "0002")]
        self.assertEqual(called("trace", "-", text=text), (0, "\n".join(wanted) + "\n", ""))
        printed = called("trace", "-", "--json", text=text)[1].splitlines()
        self.assertEqual([json.loads(line).get("microseconds") for line in printed], [1700000000, 1701250001, None])

    def test_answers_as_json(self) -> None:
        scene = open_line(FIVE_LINE)
        label = {"uid": LEFT, "parameter": "device_label", "pid": "0x0082"}
        for head, wanted in (
                (f"{LEFT} 20 0082 00", {"text": "ACK device_label Front left", **label,
                                        "values": {"label": "Front left"}}),
                (f"{LEFT} 20 00f0 00", {"text": "ACK dmx_start_address 1", "uid": LEFT, "pid": "0x00f0",
                                        "parameter": "dmx_start_address", "values": {"dmx_start_address": 1}}),
                (f"{LEFT} 30 0082 01 41", {"text": "ACK", **label, "values": {}}),
                (f"{LEFT} 20 8001 00", {"text": "NACK unknown_pid", "uid": LEFT, "nack": "unknown_pid"}),
                (f"{SLOW} 20 0082 00", {"text": "ACK_TIMER 0.3 s", "uid": SLOW}),
                ("9999:00000001 20 0082 00", {"text": "silence"})):
            uid, _, rest = head.partition(" ")
            data = bytes.fromhex(f"{uid.replace(':', '')} 7ff000000001 00 01 00 0000 {rest}")
            data = bytes([0xcc, 1, len(data) + 3]) + data
            data += (sum(data) % 0x10000).to_bytes(2, "big")
            self.assertEqual(keys_of(data, scene.exchange(data)), wanted, head)

    def test_other_answers_as_json(self) -> None:
        get = bytes.fromhex("cc01181234000000017a70000001000001000000200060000298")
        command = decode_packet(get)
        assert command is not None
        reply = command.answer(command.destination, ResponseType.ACK, b"\x08")
        wanted = {"text": "ACK device_info 0x08", "uid": LEFT, "parameter": "device_info", "pid": "0x0060",
                  "raw": "0x08", "misfit": "this doesn't fit device_info: the data ends in protocol_version_minor"}
        self.assertEqual(keys_of(get, reply.encode()), wanted)
        self.assertEqual(keys_of(get, b"\1"), {"text": "damaged, 0x01"})
        self.assertEqual(keys_of(get, None), {"text": "the line failed"})
        reply = command.answer(command.destination, ResponseType.NACK_REASON, b"\0\6\0")
        self.assertEqual(keys_of(get, reply.encode()),
                         {"text": "NACK 0x000600", "uid": LEFT, "nack": "malformed_reason"})
        with_branch = LOGS.read_text(encoding="utf-8").partition("text exchanges\n")[2].partition("\n\n")[0]
        printed = called("trace", "-", "--json", text=with_branch)[1]
        found = [json.loads(line)["answer"] for line in printed.splitlines()]
        self.assertEqual(found[2:6], [{"text": "silence"}, {"text": LEFT, "uid": LEFT},
                                      {"text": "ACK 0x0002123400000005", "uid": LEFT}, {"text": "silence"}])

    def test_files_that_are_no_logs(self) -> None:
        for text in ("[" * 100_000, "x\n", "7\n", "null\n", "[]\n",
                     '{"frame":"0"}\n', '{"frame":7}\n', '{"frame":"00","reply":[]}\n', "\n",
                     *(f'{{"frame":"00","reply":"","microseconds":{each}}}\n' for each in ("1e3", "-1", 1 << 63))):
            self.assertEqual(called("trace", "-", text=text),
                             (2, "", "wurstlinen: -: line 1 isn't an entry of a log\n"), text)
        for text in ('["failed"]', '"failed"'):
            self.assertEqual(called("trace", "-", text=f'{{"frame":"00"}}\n{text}\n'),
                             (2, "", "wurstlinen: -: line 2 isn't an entry of a log\n"))
        self.assertEqual(called("trace", "-", text="{}".ljust(262_142) + "\n"), (0, "", ""))
        for name, text in (("-", "{}".ljust(262_143) + "\n"), ("/dev/zero", "")):
            self.assertEqual(called("trace", name, text=text),
                             (2, "", f"wurstlinen: {name}: line 1 isn't an entry of a log\n"))
        self.assertEqual(called("trace", "/nowhere.log"),
                         (2, "", "wurstlinen: /nowhere.log: No such file or directory\n"))


class Files(TestCase):
    def test_an_interrupt_of_the_last_step(self) -> None:
        replaced = os.replace

        def replace_late(made: str, path: str) -> None:
            replaced(made, path)
            raise KeyboardInterrupt

        with folder() as place, mock.patch("os.replace", replace_late):
            with self.assertRaises(KeyboardInterrupt), files.file_of(str(place / "rig.csv")) as file:
                file.write("whole")
            self.assertEqual([(each.name, each.read_text()) for each in place.iterdir()], [("rig.csv", "whole")])


class Processes(TestCase):
    """Commands in processes of their own."""

    def run_command(self, *arguments: str, stdout: Optional[int] = None,
                    module: str = "front") -> "subprocess.CompletedProcess[bytes]":
        """A command's end."""
        command = [sys.executable, "-m", f"wurstlinen.{module}"]
        return subprocess.run([*command, *arguments], stdout=stdout or subprocess.PIPE, stderr=subprocess.PIPE,
                              env=ENVIRONMENT, check=False)

    def test_a_command_loads_what_it_needs(self) -> None:
        code = ("import sys; from wurstlinen.tool import main; main(sys.argv[1:]); "
                "print(' '.join(name for name in sys.modules))")
        for words in (["pids", "device_label"], ["get", LEFT, "device_label", "--line", "enttec:/nowhere"]):
            done = subprocess.run([sys.executable, "-c", code, *words], stdout=subprocess.PIPE, env=ENVIRONMENT,
                                  stderr=subprocess.DEVNULL, check=False, encoding="utf-8")
            loaded = set(done.stdout.splitlines()[-1].split())
            self.assertIn("wurstlinen.front.main", loaded)
            rest = {"rig", "scene", "text", "emulator"}
            self.assertEqual(loaded & {*(f"wurstlinen.lines.{name}" for name in rest), "wurstlinen.front.page",
                                       "wurstlinen.tool.serving", "wurstlinen.entries", "wurstlinen.front.csv_files"},
                             set())

    def test_a_reader_that_is_gone(self) -> None:
        reading, writing = os.pipe()
        os.close(reading)
        for module in ("front", "tool"):
            done = self.run_command("pids", stdout=writing, module=module)
            self.assertEqual((done.returncode, done.stderr), (1, b""))
        os.close(writing)

    def test_output_that_is_full(self) -> None:
        with open("/dev/full", "wb") as full:
            for words, module in itertools.product((["pids"], ["pids", "--json"]), ("front", "tool")):
                done = self.run_command(*words, stdout=full.fileno(), module=module)
                self.assertEqual((done.returncode, done.stderr), (1, b"wurstlinen: No space left on device\n"))

    def test_without_the_library(self) -> None:
        with mock.patch.dict(ENVIRONMENT, {"WURSTLINEN_LIBRARY": "/nowhere"}):
            done = self.run_command("get", LEFT, "device_label", "--line", FIVE_LINE)
        self.assertEqual(done.returncode, 1)
        self.assertIn(b"wurstlinen: the C library is needed for this: ", done.stderr)
        self.assertEqual(len(done.stderr.splitlines()), 1)

    @needs_library
    def test_signals_during_a_wait(self) -> None:
        with folder() as place:
            file = place / "rig.json"
            file.write_text(json.dumps({"source": "7ff0:00000001", "devices": [{"uid": LEFT, "rig": {"timer": 300}}]}))
            for ending in (signal.SIGINT, signal.SIGTERM):
                command = [*COMMAND, "get", LEFT, "device_label", "--wait", "60", "--line", f"rig:{file}"]
                with subprocess.Popen(command, stderr=subprocess.PIPE, env=ENVIRONMENT) as process:
                    assert process.stderr is not None
                    self.assertEqual(process.stderr.readline(), f"wurstlinen: {LEFT} asks for 30 s\n".encode())
                    process.send_signal(ending)
                    self.assertEqual((process.stderr.read(), process.wait(10)), (b"", 130))
