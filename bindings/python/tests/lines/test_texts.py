"""What commands say about frames and bytes, and about arguments that can't be right."""
from __future__ import annotations

import contextlib
import importlib
import io
import json
import os
import subprocess
import sys
import time
from pathlib import Path
from typing import Any, Dict, List, Tuple
from unittest import mock

from common import ROOT, ListLine, LongTestCase, TestCase, folder, needs_library
from fronts import FIVE, LEFT, OneRig, called
from servers import SECONDS, Program, environment, serve
from stand_in import program_in
from wurstlinen import tool
from wurstlinen._times import now
from wurstlinen.front.frames import Parts, command_of
from wurstlinen.front.output import Failure, Output
from wurstlinen.front.watched import WatchedLine
from wurstlinen.line import LineFailed
from wurstlinen.lines import open_line
from wurstlinen.lines.keys import SceneFault
from wurstlinen.lines.numbers import CommandClass, Pid, ResponseType
from wurstlinen.lines.packets import Packet
from wurstlinen.lines.uids import uid_text
from wurstlinen.tool import manual

DEVICE, OTHER, SOURCE = 0x123400000001, 0x123400000002, 0x7FF000000001
GET = Packet(DEVICE, SOURCE, 0, 1, 0, 0, CommandClass.GET, Pid.DEVICE_LABEL)
COMMANDS = ["doctor", "adapters", "fixtures", "show", "identify", "save", "check", "patch", "apply", "get", "set"]


def answer(kind: ResponseType, data: bytes, command: Packet = GET) -> bytes:
    """A device's answer."""
    return command.answer(command.destination, kind, data).encode()


def of_tool(*words: str, **environment: str) -> Tuple[int, str, str]:
    """The status of the whole command, its standard output, and what it says is wrong."""
    out, errors = io.StringIO(), io.StringIO()
    with contextlib.redirect_stdout(out), contextlib.redirect_stderr(errors), mock.patch.dict(os.environ, environment):
        try:
            status = tool.main(words)
        except Failure as failure:
            return failure.status, out.getvalue(), str(failure)
    return status, out.getvalue(), errors.getvalue()


class Readers(LongTestCase):
    """Who reads what a command prints, and goes."""

    def test_of_a_program_that_prints_much(self) -> None:
        """The program mustn't wait for anybody then, nor the command for the program."""
        with folder() as place:
            program = place / "program"
            program.write_text("#!/bin/sh\ni=0\nwhile [ $i -lt 20000 ] && echo \"client 0 request $i: 0 00 -\"; do\n"
                               "    i=$((i + 1))\ndone\n")
            program.chmod(0o755)
            variables = {**environment(place), "WURSTLINEN_PROGRAM": str(program)}
            with subprocess.Popen([sys.executable, "-m", "wurstlinen.tool", "run", "--json", "file"], env=variables,
                                  stdout=subprocess.PIPE, stderr=subprocess.PIPE) as command:
                assert command.stdout is not None
                self.assertEqual(json.loads(command.stdout.readline())["request"], 0)
                command.stdout.close()
                try:
                    self.assertEqual(command.wait(SECONDS), 1)
                finally:
                    command.kill()


    def test_a_command_that_is_ended_ends_its_program(self) -> None:
        with folder() as place:
            program, number = place / "program", place / "number"
            program.write_text(f"#!/bin/sh\necho $$ > {number}.new\nmv {number}.new {number}\nexec sleep 100\n")
            program.chmod(0o755)
            variables = {**environment(place), "WURSTLINEN_PROGRAM": str(program)}
            with subprocess.Popen([sys.executable, "-m", "wurstlinen.tool", "run", "--json", "file"],
                                  env=variables) as command:
                while not number.exists():
                    time.sleep(0.01)
                # Until it reads what the program prints.
                time.sleep(0.5)
                command.terminate()
                self.assertNotEqual(command.wait(SECONDS), 0)
            with self.assertRaises(ProcessLookupError):
                os.kill(int(number.read_text()), 0)

    def test_of_what_is_wrong(self) -> None:
        """A status doesn't depend on whether anybody reads why."""
        with folder() as place:
            program, log = place / "program", place / "log"
            # Like the program, it doesn't end if nobody reads.
            program.write_text("#!/bin/sh\ntrap '' PIPE\necho wrong >&2\nexit 2\n")
            program.chmod(0o755)
            log.write_text('{"entry":"opening"}\n{"number":0,"microseconds":5}\n')
            reading, writing = os.pipe()
            os.close(reading)
            done = subprocess.run([sys.executable, "-m", "wurstlinen.tool", "explain", str(log)], stderr=writing,
                                  env={**environment(place), "WURSTLINEN_PROGRAM": str(program)}, check=False)
            os.close(writing)
            self.assertEqual(done.returncode, 2)


class Joined(TestCase):
    """Answers in parts."""

    def traced(self, *exchanges: Tuple[Packet, bytes]) -> List[str]:
        """The answers of a log with these exchanges."""
        log = "".join(json.dumps({"frame": frame.encode().hex(), "reply": reply.hex()}) + "\n"
                      for frame, reply in exchanges)
        return [line.partition("-> ")[2] for line in called("trace", "-", text=log)[1].splitlines()]

    def test_the_last_part_has_all(self) -> None:
        more, next_one = (answer(ResponseType.ACK_OVERFLOW, data) for data in (b"Lam", b"p"))
        last = answer(ResponseType.ACK, b" 1")
        self.assertEqual(self.traced((GET, more), (GET, next_one), (GET, last), (GET, last)), [
            "ACK_OVERFLOW, 3 bytes", "ACK_OVERFLOW, 1 bytes", "ACK device_label Lamp 1 (3 parts)",
            "ACK device_label  1"])

    def test_parts_of_others_are_not_mixed(self) -> None:
        other = Packet(OTHER, SOURCE, 0, 1, 0, 0, CommandClass.GET, Pid.DEVICE_LABEL)
        more, last = answer(ResponseType.ACK_OVERFLOW, b"Lam"), answer(ResponseType.ACK, b" 1")
        self.assertEqual(self.traced((GET, more), (other, answer(ResponseType.ACK, b"x", other)), (GET, last))[1:],
                         ["ACK device_label x", "ACK device_label  1 (may lack its first parts)"])
        # A GET ends with a reply that is lost or damaged. What comes then is the answer to another one.
        self.assertEqual(self.traced((GET, more), (GET, b""), (GET, b"\1"), (GET, last))[3],
                         "ACK device_label  1 (may lack its first parts)")
        self.assertEqual(self.traced((GET, more), (GET, answer(ResponseType.NACK_REASON, b"\0\0")), (GET, last))[2],
                         "ACK device_label  1 (may lack its first parts)")

    def test_json(self) -> None:
        log = "".join(json.dumps({"frame": GET.encode().hex(), "reply": answer(kind, data).hex()}) + "\n"
                      for kind, data in ((ResponseType.ACK_OVERFLOW, b"La"), (ResponseType.ACK, b"mp")))
        found = [json.loads(line) for line in called("trace", "-", "--json", text=log)[1].splitlines()]
        self.assertEqual(found[1]["answer"]["values"], {"label": "Lamp"})
        self.assertEqual(bytes.fromhex(found[1]["reply"])[24:26], b"mp")

    def test_a_branch_is_no_part(self) -> None:
        branch = Packet(0xFFFFFFFFFFFF, SOURCE, 0, 1, 0, 0, CommandClass.DISCOVERY, Pid.DISC_UNIQUE_BRANCH, bytes(12))
        parts = Parts()
        parts.joined(GET.encode(), answer(ResponseType.ACK_OVERFLOW, b"Lam"))
        self.assertIsNone(parts.joined(branch.encode(), answer(ResponseType.ACK, b"")).response)

    def test_an_answer_that_broke_off_is_in_no_other(self) -> None:
        for came in (b"", None, answer(ResponseType.ACK, b"p 1")[:-1]):
            parts = Parts()
            parts.joined(GET.encode(), answer(ResponseType.ACK_OVERFLOW, b"Lam"))
            parts.joined(GET.encode(), came)
            parts.joined(GET.encode(), answer(ResponseType.ACK_OVERFLOW, b"Lam"))
            found = parts.joined(GET.encode(), answer(ResponseType.ACK, b"p 1"))
            self.assertEqual((found.response and found.response.data, found.parts), (b"Lamp 1", 2))

    def test_an_answer_that_may_be_a_rest(self) -> None:
        # A device goes on where it stopped: E1.20, ACK_OVERFLOW.
        part, last = answer(ResponseType.ACK_OVERFLOW, b"La"), answer(ResponseType.ACK, b"mp")
        other = GET._replace(pid=0x0080).encode()
        for between in ((GET.encode(), b""), (GET.encode(), None), (GET.encode(), last[:-1]), (other, b"")):
            exchanges = (GET.encode(), part), between, (GET.encode(), last), (GET.encode(), part), (GET.encode(), last)
            log = "".join(json.dumps({"frame": frame.hex(), **({"failed": True} if reply is None else
                                                               {"reply": reply.hex()})}) + "\n"
                          for frame, reply in exchanges)
            said = [line.partition("  -> ")[2] for line in called("trace", "-", text=log)[1].splitlines()]
            self.assertEqual(said[2:], ["ACK device_label mp (may lack its first parts)",
                                        "ACK_OVERFLOW, 2 bytes", "ACK device_label Lamp (2 parts)"])
            found = [json.loads(line)["answer"] for line in called("trace", "-", "--json", text=log)[1].splitlines()]
            self.assertEqual([each.get("may_be_incomplete") for each in found[2:]], [True, None, None])


class Bytes(TestCase):
    def test_of_data_that_does_not_fit(self) -> None:
        for data, text in ((b"\0\x11", "17"), (b"\x11", "0x11"), (b"\2\1", "0x0201"), (b"\0\x11\0", "0x001100")):
            frame = Packet(DEVICE, SOURCE, 0, 1, 0, 0, CommandClass.SET, Pid.DMX_START_ADDRESS, data).encode()
            self.assertEqual(command_of(frame), f"SET 1234:00000001 dmx_start_address {text}")

    def test_below_each_exchange(self) -> None:
        errors = io.StringIO()
        reply = answer(ResponseType.ACK, b"Front left, upper row")
        line = WatchedLine(ListLine(reply, b""), Output(False, io.StringIO(), errors), "hex")
        line.exchange(GET.encode())
        line.exchange(GET.encode())
        self.assertEqual(errors.getvalue().splitlines(), [
            f"0000  GET {uid_text(DEVICE)} device_label  -> ACK device_label Front left, upper row",
            f"      > {GET.encode().hex(' ')}", f"      < {reply[:32].hex(' ')}", f"      < {reply[32:].hex(' ')}",
            f"0001  GET {uid_text(DEVICE)} device_label  -> silence", f"      > {GET.encode().hex(' ')}"])

    def test_of_a_log(self) -> None:
        log = json.dumps({"frame": GET.encode().hex(), "failed": True}) + "\n"
        self.assertEqual(called("trace", "-", "--frames=hex", text=log)[1].splitlines()[1:],
                         [f"      > {GET.encode().hex(' ')}"])
        self.assertEqual(len(called("trace", "-", text=log)[1].splitlines()), 1)
        self.assertEqual(called("trace", "--frames=hexa", "-", text=log)[0], 2)


@needs_library
class OfCommands(OneRig):
    def test_frames(self) -> None:
        for words, wanted in ((["--frames"], 1), (["--frames=hex"], 4)):
            self.assertEqual(len(self.run_command("get", LEFT, *words, "device_label")[2].splitlines()), wanted)
        self.assertEqual(called("set", LEFT, "device_label", "--line", "rig:it", "--", "--frames=hex"), (0, "", ""))
        self.assertEqual(self.run_command("get", LEFT, "device_label")[1], "--frames=hex\n")


class Lines(TestCase):
    """Lines that can't be opened, or whose kind isn't named."""

    def test_a_rig_says_which_file_is_wrong(self) -> None:
        name = str(ROOT / "examples/two_programs.json")
        with self.assertRaises(SceneFault) as caught:
            open_line(f"rig:{name}")
        self.assertEqual(str(caught.exception), f"{name}: source: the key is missing")

    def test_a_device_is_an_adapter(self) -> None:
        with self.assertRaisesRegex(Exception, "/dev/null can't be opened: Inappropriate ioctl"):
            open_line("/dev/null")
        for text in ("/dev/ttyUSB99", "enttec:/dev/ttyUSB99"):
            with self.assertRaisesRegex(LineFailed, "^/dev/ttyUSB99 can't be opened: No such file or directory$"):
                open_line(text)
        for text in ("/nowhere", str(FIVE), "foo", "a\0b", ""):
            with self.assertRaisesRegex(ValueError, "names no line; a line is enttec:DEVICE, "):
                open_line(text)

    def test_of_a_discovery(self) -> None:
        with folder() as place:
            program = place / "program"
            program.write_text("")
            status, out, error = of_tool("discover", "--line", "foo", WURSTLINEN_PROGRAM=str(program))
            self.assertEqual((status, out), (2, "fault: command line\n"))
            self.assertIn("'foo' names no line; a line is enttec:DEVICE, ", error)
            status, out, error = of_tool("discover", "--line", "/dev/null", WURSTLINEN_PROGRAM=str(program))
            self.assertEqual((status, out, error),
                             (1, "", "/dev/null can't be opened: Inappropriate ioctl for device"))
            words = ["discover", f"--line=rig:{FIVE}", "--frames=x"]
            status, out, error = of_tool(*words, WURSTLINEN_PROGRAM=str(program))
            self.assertEqual((status, out, error), (2, "fault: command line\n", "argument --frames: 'x' isn't hex"))
            # What has a source is another program's stream.
            with mock.patch.object(importlib.import_module("wurstlinen.tool.main"), "become", return_value=7):
                self.assertEqual(of_tool("discover", "--line", "foo", "--source", LEFT,
                                         WURSTLINEN_PROGRAM=str(program))[0], 7)


    def test_its_log_has_times(self) -> None:
        with folder() as place:
            before = now()
            words = ["discover", f"--line=rig:{FIVE}", "--log", str(place / "log")]
            self.assertEqual(of_tool(*words, WURSTLINEN_PROGRAM=program_in(place))[0], 0)
            opening, *lines = map(json.loads, (place / "log").read_text().splitlines())
            times = [each["microseconds"] for each in lines]
            self.assertEqual((list(opening), times), (["entry"], sorted(times)))
            self.assertTrue(before <= times[0] and times[-1] <= now())


class Names(TestCase):
    @needs_library
    def test_who_has_a_line_is_named(self) -> None:
        with folder() as made, serve(made, "--line", f"rig:{FIVE}") as server:
            self.assertEqual(Path(f"/proc/{server.pid}/comm").read_text(), "wurstlinen\n")


class Completion(TestCase):
    SCRIPT = 'COMP_WORDS=("$@"); COMP_CWORD=$(($# - 1)); _wurstlinen; echo "${COMPREPLY[@]}"'

    @needs_library
    def test_of_uids_that_a_server_has_found(self) -> None:
        with folder() as made, serve(made, "--line", f"rig:{FIVE}") as server:
            tool_here = made / "command"
            tool_here.write_text(f'#!/bin/sh\nexec {sys.executable} -m wurstlinen.tool "$@"\n')
            tool_here.chmod(0o755)
            self.assertEqual(self.completed(made, "get", ""), "\n")
            with Program(server.socket) as program:
                program.say({"do": "discover"})
                program.next("devices")
            for words, wanted in ((["get", "12"], "1234:00000001 1234:00000002"),
                                  (["show", "1234", ":"], "00000001 00000002"),
                                  (["set", "9abc", ":", "00000002"], "00000002"), (["pids", "12"], ""),
                                  (["identify", "9abc", ":", "00000002", "o"], "on off"),
                                  # E1.20's states of a lamp; an address has no names.
                                  (["set", "9abc", ":", "00000002", "lamp_state", "s"], "strike standby"),
                                  (["set", "9abc:00000002", "identify_device", ""], "no yes"),
                                  (["set", "9abc", ":", "00000002", "dmx_start_address", ""], "")):
                self.assertEqual(self.completed(made, *words), f"{wanted}\n", words)

    def completed(self, made: Path, *words: str) -> str:
        """What completes the last of these words."""
        done = subprocess.run(["bash", "-c", manual.completion() + self.SCRIPT, "bash", made / "command", *words],
                              env={**environment(made), "WURSTLINEN_LINE": f"rig:{FIVE}"}, check=True,
                              capture_output=True, text=True)
        self.assertEqual(done.stderr, "")
        return done.stdout

    def test_hidden_arguments_are_in_no_page(self) -> None:
        for text in (manual.page(), manual.completion()):
            for hidden in ("SUPPRESS", "--also", "--frames-as-bytes"):
                self.assertNotIn(hidden, text)


class Words(TestCase):
    def test_raw_arguments(self) -> None:
        for words, wanted in ((["get", LEFT, "device_label"], "argument PID: 'device_label' isn't at most 231 bytes in "
                                                              "hexadecimal"),
                              (["set", LEFT, "00f0"], "the following arguments are required: BYTES")):
            self.assertEqual(called(*words, "--raw", "--line", f"rig:{FIVE}"), (
                2, "", f"wurstlinen: {wanted}; with --raw, a PID and its data are bytes in hexadecimal\n"))

    def test_the_order_of_commands(self) -> None:
        text = io.StringIO()
        with contextlib.redirect_stdout(text), self.assertRaises(SystemExit):
            tool.main(["--help"])
        found = [line.split()[0] for line in text.getvalue().splitlines() if line.startswith("    ") and line[4] != " "]
        self.assertEqual(found[:len(COMMANDS)], COMMANDS)

    def explained(self, place: Path, text: str) -> Dict[str, Any]:
        """What is said before a log is explained."""
        log = place / "a.log"
        log.write_text(text)
        program = place / "program"
        program.write_text("")
        with mock.patch.object(importlib.import_module("wurstlinen.tool.main"), "become", return_value=7):
            status, out, errors = of_tool("explain", str(log), WURSTLINEN_PROGRAM=str(program))
        return {"status": status, "out": out, "errors": errors.replace(str(log), "LOG")}

    def test_the_other_log_of_olas_library(self) -> None:
        record = '{"microseconds":1,"monotonic":2,"adapter":"x","frame":"00"}\n'
        with folder() as place:
            wanted = ("wurstlinen: LOG is the log of WURSTLINEN_LOG, which 'wurstlinen trace' reads; explain reads the "
                      "file of WURSTLINEN_RUNS\n")
            self.assertEqual(self.explained(place, record), {"status": 7, "out": "", "errors": wanted})
            for text in ('{"entry":"opening"}\n', "", "x" * 9000 + '"monotonic":\n'):
                self.assertEqual(self.explained(place, text), {"status": 7, "out": "", "errors": ""})
            os.mkfifo(place / "fifo")
            with mock.patch.object(importlib.import_module("wurstlinen.tool.main"), "become", return_value=7):
                for name in (str(place / "fifo"), "/nowhere.log"):
                    self.assertEqual(of_tool("explain", name, WURSTLINEN_PROGRAM=str(place / "program")), (7, "", ""))
