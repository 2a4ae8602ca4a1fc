"""The command as a whole: which part gets which arguments, lines that it serves, adapters, and its installation."""
from __future__ import annotations

import contextlib
import io
import json
import os
import pty
import re
import signal
import subprocess
import sys
import tempfile
import time
import unittest
from pathlib import Path
from typing import IO, Iterator, List, Tuple
from unittest import mock

from clone import ROOT, Clone, compile_c, is_alive, new_clone, wait_for

sys.path.insert(0, str(ROOT / "bindings/python"))
from wurstlinen.front.output import Failure, Output  # noqa: E402
from wurstlinen.lines import open_line  # noqa: E402
from wurstlinen.lines.emulator import Emulator, Widget  # noqa: E402
from wurstlinen.tool import adapters, arguments, main, manual  # noqa: E402
from wurstlinen.tool.main import has_file, option, without  # noqa: E402

FIXTURES = ROOT / "bindings/examples/five_fixtures.json"
# A program that prints its words; with a line it sends a frame, and prints the reply.
PROGRAM = """#!/bin/sh
echo "$*" | sed 's|/dev/fd/[0-9]*|FD|g'
[ "$2" = --line ] || exit 4
exec 3> "$3" 4< "$5"
echo {frame} >&3
read -r reply <&4
echo "$reply"
exit 5
"""
# The same, with lines on both streams.
TALKING = """#!/bin/sh
exec 3> "$3" 4< "$5"
echo {frame} >&3
read -r reply <&4
echo one
printf 'wurstlinen: 12 exchanges after 2 seconds\nwurstlinen: two\n' >&2
echo three
exit 5
"""
NO_ADAPTER = "wurstlinen: no adapter is plugged in; --line LINE or WURSTLINEN_LINE names another line\n"
# Unmutes all devices, which none answers: the source is 7ff0:00000001.
FRAME = "cc0118ffffffffffff7ff000000001000100000010000300"
# The program waits for a reply that doesn't come, or for nothing, and says that it has begun.
SLOW = '#!/bin/sh\nexec 3> "$3" 4< "$5"\necho $$ > "{note}"\n{more}\nread -r reply <&4\nexit 9\n'


def read_all(terminal: IO[bytes]) -> bytes:
    """What was written to a terminal, whose writers are gone."""
    found = b""
    with contextlib.suppress(OSError):
        while data := terminal.read(4096):
            found += data
    return found


def with_sum(text: str) -> str:
    """A packet with its checksum."""
    data = bytes.fromhex(text)
    return (data + sum(data).to_bytes(2, "big")).hex()


class Place(unittest.TestCase):
    def setUp(self) -> None:
        place = tempfile.TemporaryDirectory(prefix="scripts.")
        self.addCleanup(place.cleanup)
        self.folder = Path(place.name).resolve()

    def put_program(self, text: str) -> None:
        (self.folder / "program").write_text(text)
        (self.folder / "program").chmod(0o755)

    def environment(self, **more: str) -> "dict[str, str]":
        return {"PATH": os.environ["PATH"], "PYTHONPATH": str(ROOT / "bindings/python"), "PYTHONDONTWRITEBYTECODE": "1",
                "WURSTLINEN_PROGRAM": str(self.folder / "program"), **more}

    def call(self, *words: str, **more: str) -> "subprocess.CompletedProcess[str]":
        return subprocess.run([sys.executable, "-m", "wurstlinen.tool", *words], env=self.environment(**more),
                              text=True, check=False, capture_output=True, timeout=300, cwd=self.folder, input="",
                              errors="surrogateescape")

    def expect(self, words: List[str], status: int, out: str, err: str = "", **more: str) -> None:
        done = self.call(*words, **more)
        self.assertEqual((done.returncode, done.stdout, done.stderr), (status, out, err), words)


class Commands(Place):
    def setUp(self) -> None:
        super().setUp()
        self.note = self.folder / "note"
        self.put_program(PROGRAM.format(frame=with_sum(FRAME)))

    def test_the_program_gets_its_words_as_they_are(self) -> None:
        self.put_program('#!/bin/sh\nprintf "%s|" "$@"\nexit 4\n')
        line = "rig:none.json"
        for words in (["decode", "zz"], ["run", "file", "--line", "out", "--replies", "in"], ["run", "--", "--help"],
                      ["discover", "a", "--quick"], ["decode", "--version"], ["discover", "--line=out", "--source=a"],
                      ["run"], ["run", "a", "--log", f"--line={line}"], ["encode", "\udcff ä"]):
            self.expect(words, 4, "".join(f"{word}|" for word in words))

    def test_lines_are_served(self) -> None:
        for words in (["--line", f"rig:{FIXTURES}", "--source", "7ff0:00000001"],
                      [f"--line=rig:{FIXTURES}", "--source=7ff0:00000001"]):
            done = self.call("discover", *words)
            self.assertEqual((done.returncode, done.stderr), (5, ""))
            self.assertRegex(done.stdout, r"^discover --line FD --replies FD --quick --source.7ff0:00000001\n\n$")
        done = self.call("run", "a b", "--log", "c", "--line", f"rig:{FIXTURES}")
        self.assertEqual((done.returncode, done.stdout), (5, "run --line FD --replies FD a b --log c\n\n"))

    def test_a_discovery_has_the_lines_own_source(self) -> None:
        for words, more in (([], " --quick"), (["--steady"], "")):
            done = self.call("discover", *words, WURSTLINEN_LINE=f"rig:{FIXTURES}")
            self.assertEqual((done.returncode, done.stderr), (5, ""))
            self.assertRegex(done.stdout, rf"^discover --line FD --replies FD --source 7ff0:00000001{more}\n")

    @unittest.skipIf(adapters.chips(), "an adapter is plugged in")
    def test_a_discovery_without_a_line(self) -> None:
        for words in (["discover"], ["discover", "--quick"], ["discover", "--log", "x"]):
            self.expect(words, 2, "fault: command line\n", NO_ADAPTER)
        # These name one, even if there is none.
        for words in (["discover", "--quick", "--line"], ["discover", "--quick", "--line="]):
            self.expect(words, 4, " ".join(words) + "\n", WURSTLINEN_LINE=f"rig:{FIXTURES}")

    def test_the_program_has_signals_as_if_it_were_called_itself(self) -> None:
        self.put_program("#!/bin/sh\ngrep SigIgn /proc/self/status\n")
        alone = subprocess.run([self.folder / "program"], check=True, capture_output=True, text=True)
        for words in (["decode", "00"], ["run", "x", "--line", f"rig:{FIXTURES}"]):
            self.expect(words, 0, alone.stdout)

    def test_frames_are_shown(self) -> None:
        wanted = "0000  UNMUTE ffff:ffffffff  -> silence\n"
        for words in (["discover", "--frames"], ["discover", "--line", f"rig:{FIXTURES}", "--frames"],
                      ["run", "--frames", "x", f"--line=rig:{FIXTURES}"]):
            done = self.call(*words, WURSTLINEN_LINE=f"rig:{FIXTURES}")
            self.assertEqual((done.returncode, done.stderr), (5, wanted), words)
            self.assertNotIn("--frames", done.stdout)
        # These have no line that is served here.
        self.expect(["discover", "x", "--frames"], 4, "discover x --frames\n")

    def test_progress_on_a_terminal(self) -> None:
        self.put_program(TALKING.format(frame=with_sum(FRAME)))
        words = ["discover", "--line", f"rig:{FIXTURES}"]
        hidden = "0 found, 1 frames"
        shown = f"\r{hidden}\r{' ' * len(hidden)}\rone\r\nwurstlinen: two\r\nthree\r\n"
        self.assertEqual(self.on_terminal(words, "out", "err"), (shown, ""))
        # Standard output that is no terminal gets its bytes as they are.
        terminal, out = self.on_terminal(words, "err")
        self.assertEqual((terminal, out), (f"\r{hidden}\r{' ' * len(hidden)}\rwurstlinen: two\r\n", "one\nthree\n"))
        # Nothing but a discovery on a line that is served here has progress.
        plain = "one\r\nwurstlinen: 12 exchanges after 2 seconds\r\nwurstlinen: two\r\nthree\r\n"
        self.assertEqual(self.on_terminal(["run", "x", *words[1:]], "out", "err"), (plain, ""))
        self.assertNotIn("found", self.on_terminal([*words, "--frames"], "out", "err")[0])
        done = self.call(*words)
        self.assertEqual((done.stdout, done.stderr),
                         ("one\nthree\n", "wurstlinen: 12 exchanges after 2 seconds\nwurstlinen: two\n"))

    def on_terminal(self, words: List[str], *streams: str) -> Tuple[str, str]:
        """What a command writes to a terminal, which has these of its streams, and to its standard output elsewhere."""
        ours, theirs = pty.openpty()
        with os.fdopen(ours, "rb", 0) as terminal:
            process = subprocess.Popen([sys.executable, "-m", "wurstlinen.tool", *words], env=self.environment(),
                                       stdout=theirs if "out" in streams else subprocess.PIPE, stderr=theirs)
            os.close(theirs)
            out = process.communicate()[0] or b""
            self.assertEqual(process.returncode, 5)
            return read_all(terminal).decode(), out.decode()

    def test_a_program_that_opens_nothing(self) -> None:
        self.put_program("#!/bin/sh\ncat\nexit 7\n")
        self.expect(["run", "x", "--line", f"rig:{FIXTURES}"], 7, "")

    def test_a_line_that_fails(self) -> None:
        done = self.call("run", "x", "--line", "exec:false")
        self.assertEqual((done.returncode, done.stdout.split("\n")[1:]), (5, ["failed", ""]))
        self.assertRegex(done.stderr, r"^wurstlinen: the far end .*\n$")
        self.expect(["run", "x", "--line", "enttec:/nowhere"], 1, "",
                    "wurstlinen: /nowhere can't be opened: No such file or directory\n")
        self.expect(["run", "x", "--line", "rig:nowhere"], 1, "", "wurstlinen: nowhere: No such file or directory\n")
        self.expect(["run", "x", "--line", "exec:"], 2, "", "wurstlinen: 'exec:' names no line; a line is "
                    "enttec:DEVICE, text:FRAMES[,REPLIES], exec:COMMAND, rig:FILE or ola:UNIVERSE\n")

    def test_signals_end_both(self) -> None:
        for more in ("", "trap '' TERM INT HUP"):
            for number, status in ((signal.SIGTERM, 143), (signal.SIGINT, 130), (signal.SIGHUP, 129)):
                self.put_program(SLOW.format(note=self.note, more=more))
                self.end_by(number, status)

    def end_by(self, number: int, status: int) -> None:
        """Sends a signal to the command while the program waits for a reply."""
        self.note.unlink(missing_ok=True)
        command = [sys.executable, "-m", "wurstlinen.tool", "run", "x", "--line", f"rig:{FIXTURES}"]
        with subprocess.Popen(command, env=self.environment(), stderr=subprocess.PIPE, text=True) as process:
            wait_for(lambda: self.note.exists() and self.note.read_text().strip())
            began = time.monotonic()
            process.send_signal(number)
            errors = process.communicate()[1]
        self.assertEqual((process.returncode, errors), (status, ""))
        self.assertLess(time.monotonic() - began, 10)
        self.assertFalse(is_alive(int(self.note.read_text())))

    def test_a_command_that_is_killed_ends_the_program(self) -> None:
        self.put_program(SLOW.format(note=self.note, more=""))
        command = [sys.executable, "-m", "wurstlinen.tool", "run", "x", "--line", f"rig:{FIXTURES}"]
        with subprocess.Popen(command, env=self.environment()) as process:
            wait_for(lambda: self.note.exists() and self.note.read_text().strip())
            process.kill()
        wait_for(lambda: not is_alive(int(self.note.read_text())))

    def test_help_is_the_fronts(self) -> None:
        for command in arguments.COMMANDS:
            for words in ([command, "--help"], ["help", command]):
                done = self.call(*words)
                self.assertEqual((done.returncode, done.stderr), (0, ""), command)
                self.assertTrue(done.stdout.startswith("usage: "), command)
        for command in arguments.COMMANDS:
            self.assertIn(f"\nexample: wurstlinen {command}", self.call(command, "--help").stdout, command)

    def test_wrong_arguments_are_one_line(self) -> None:
        self.expect(["fixturs"], 2, "", "wurstlinen: there is no command 'fixturs'; did you mean fixtures?; try "
                    "'wurstlinen --help'\n")
        for words in (["fixtures", "x"], ["rig", "a", "b"], ["bridge", "--lien", "x"], ["rig", "--firmware", "x"],
                      ["rig"]):
            done = self.call(*words)
            self.assertEqual((done.returncode, done.stderr.count("\n")), (2, 1), words)
            self.assertRegex(done.stderr, r"^wurstlinen: .*; try 'wurstlinen( [a-z]+)? --help'\n$")
        for words in (["fixturs"], ["fixtures", "x"], ["get"], ["adapters", "x"]):
            done = self.call(*words, "--json")
            self.assertEqual((done.returncode, done.stderr), (2, ""), words)
            self.assertEqual(json.loads(done.stdout)["error"]["reason"], "arguments")

    def test_the_commands_for_lines_as_json(self) -> None:
        wanted = {"error": {"text": "nowhere: No such file or directory", "reason": "line"}}
        for words in (["rig", "nowhere"], ["rig", "--line", "rig:nowhere"], ["bridge", "--line", "rig:nowhere"]):
            done = self.call(*words, "--json")
            # Standard output of bridge is for replies.
            text, other = (done.stderr, done.stdout) if "bridge" in words else (done.stdout, done.stderr)
            self.assertEqual((done.returncode, other, json.loads(text)), (1, "", wanted), words)
        for command in ("rig", "bridge"):
            done = self.call(command, "--json")
            text, other = (done.stderr, done.stdout) if command == "bridge" else (done.stdout, done.stderr)
            self.assertEqual((done.returncode, other, json.loads(text)["error"]["reason"]), (2, "", "arguments"))

    def test_keys_of_json_are_on_the_page(self) -> None:
        page = (ROOT / "bindings/python/COMMANDS.md").read_text().partition("## JSON")[2]
        out = io.StringIO()
        adapters.show([adapters.Adapter(Path("/dev/x"), fault="none")], Output(True, out))
        text = out.getvalue() + "".join(self.call(*words, "--json").stdout for words in
                                        (["doctor"], ["completion", "bash"], ["rig", "nowhere"]))
        for line in text.splitlines():
            self.assertEqual([key for key in json.loads(line) if f"`{key}`" not in page], [], line)

    def test_the_line_of_a_rig_as_json(self) -> None:
        command = [sys.executable, "-m", "wurstlinen.tool", "rig", str(FIXTURES), "--json"]
        with subprocess.Popen(command, env=self.environment(), stdout=subprocess.PIPE, text=True) as process:
            assert process.stdout is not None
            self.assertRegex(json.loads(process.stdout.readline())["line"], "^enttec:/dev/pts/[0-9]+$")
            process.send_signal(signal.SIGINT)
            self.assertEqual(process.wait(10), 0)

    def test_streams_that_are_full_or_closed(self) -> None:
        command = [sys.executable, "-m", "wurstlinen.tool"]
        with open("/dev/full", "wb") as full:
            done = subprocess.run([*command, "--version"], stdout=full, stderr=subprocess.PIPE, check=False, text=True,
                                  env=self.environment())
        self.assertEqual((done.returncode, done.stderr), (1, "wurstlinen: No space left on device\n"))
        for words, status in ((["trace", "-"], 0), (["apply", "-", "--line", f"rig:{FIXTURES}"], 2)):
            done = subprocess.run(["sh", "-c", 'exec "$@" <&-', "sh", *command, *words], env=self.environment(),
                                  capture_output=True, check=False, text=True)
            self.assertEqual((done.returncode, "Traceback" in done.stderr), (status, False), done.stderr)

    def test_options_come_after_the_command(self) -> None:
        self.expect(["--hlep"], 2, "", "wurstlinen: there is no option '--hlep'; options come after the command; try "
                    "'wurstlinen --help'\n")

    def test_an_interrupt_of_the_commands_for_bytes(self) -> None:
        with mock.patch("wurstlinen.commands.run_bridge", side_effect=KeyboardInterrupt):
            self.assertEqual(main(["bridge", "--line", "rig:x"]), 130)

    def test_no_program(self) -> None:
        (self.folder / "program").unlink()
        self.expect(["decode", "00"], 127, "", "wurstlinen: 'decode' needs the proved program, which isn't installed "
                    "here: it is in the Debian package wurstlinen, in the wheel and in the .tar.gz; "
                    "WURSTLINEN_PROGRAM may name it\n")

    def test_words(self) -> None:
        self.assertEqual(option(["run", "a", "--line", "b"], "--line"), "b")
        self.assertEqual(option(["run", "--line=b=c"], "--line"), "b=c")
        self.assertEqual(option(["run", "--", "--line", "b"], "--line"), None)
        self.assertEqual(option(["run", "--line"], "--line"), None)
        self.assertEqual(option(["run", "--log", "--line=a"], "--line"), None)
        self.assertEqual(without(["run", "--line", "b", "c"], "--line"), ["run", "c"])
        self.assertEqual(without(["run", "--line=b", "c"], "--line"), ["run", "c"])
        for words, wanted in ((["x", "--log", "a"], False), (["x", "a"], True), (["x", "--quick"], False),
                              (["x", "--log=a", "b"], True), (["x", "--", "b"], True)):
            self.assertEqual(has_file(words), wanted, words)


class Adapters(Place):
    def setUp(self) -> None:
        super().setUp()
        self.sys, self.dev, self.locks = (self.folder / name for name in ("sys", "dev", "locks"))
        for folder in (self.dev, self.locks, self.sys / "class/tty"):
            folder.mkdir(parents=True)

    def plug(self, name: str, vendor: str = "0403", product: str = "6001", to: str = "") -> Path:
        """A serial device as /sys shows it, which is the device `to`."""
        usb = self.sys / "devices/usb1" / f"1-{name}"
        (usb / f"1-{name}:1.0" / name / "tty" / name).mkdir(parents=True)
        (usb / "idVendor").write_text(f"{vendor}\n")
        (usb / "idProduct").write_text(f"{product}\n")
        (self.sys / "class/tty" / name).mkdir()
        (self.sys / "class/tty" / name / "device").symlink_to(usb / f"1-{name}:1.0" / name)
        if to:
            (self.dev / name).symlink_to(to)
        return self.dev / name

    @contextlib.contextmanager
    def emulated(self, **widget: object) -> Iterator[str]:
        """An emulated adapter's device."""
        with open_line(f"rig:{FIXTURES}") as line, Emulator(line, Widget(**widget)) as emulator:
            yield emulator.path

    def test_only_chips_of_adapters_are_found(self) -> None:
        self.plug("ttyUSB1")
        self.plug("ttyUSB0")
        self.plug("ttyUSB2", product="6015")
        self.plug("ttyACM0", vendor="2341")
        (self.sys / "class/tty/ttyS0").mkdir()
        (self.sys / "class/tty/ttyS1").mkdir()
        (self.sys / "class/tty/ttyS1/device").symlink_to("/nowhere")
        self.assertEqual(adapters.chips(self.sys, self.dev), [self.dev / "ttyUSB0", self.dev / "ttyUSB1"])
        self.assertEqual(adapters.chips(self.folder / "none", self.dev), [])

    def test_what_is_said(self) -> None:
        with self.emulated() as path:
            found = adapters.look_at(self.plug("ttyUSB0", to=path), self.locks)
            self.assertEqual(found.fault, None)
            self.assertRegex(found.text, r"^Enttec USB Pro, serial [0-9a-f]{8}, firmware 2\.4, RDM$")
            self.assertEqual(list(self.locks.iterdir()), [])
            out = io.StringIO()
            self.assertEqual(adapters.show([found], Output(False, out)), 0)
            self.assertEqual(out.getvalue(), f"enttec:{self.dev}/ttyUSB0  {found.text}\n")
        with self.emulated(firmware=(1, 44)) as path:
            found = adapters.look_at(self.plug("ttyUSB1", to=path), self.locks)
            self.assertIn("has firmware 1.44; RDM needs 2.4 or later", found.text)
            self.assertEqual(adapters.show([found], Output(True, io.StringIO())), 1)

    def test_a_locked_device_is_not_opened(self) -> None:
        # Opening a FIFO would wait.
        os.mkfifo(self.folder / "ttyUSB0")
        path = self.plug("ttyUSB0", to=str(self.folder / "ttyUSB0"))
        (self.locks / "LCK..ttyUSB0").write_text(f"{os.getppid():10d}\n")
        found = adapters.look_at(path, self.locks)
        self.assertRegex(found.fault or "", rf"{path} is used by process {os.getppid()} \(\S.*\): {self.locks}/LCK")

    @unittest.skipUnless(os.geteuid(), "root may open everything")
    def test_no_permission(self) -> None:
        path = self.plug("ttyUSB0")
        path.touch(mode=0)
        self.assertIn("add yourself to the group", adapters.look_at(path, self.locks).text)

    def test_the_line_without_an_argument(self) -> None:
        with self.assertRaisesRegex(Failure, "^no adapter is plugged in; "):
            adapters.choose([])
        self.assertEqual(adapters.choose([Path("/dev/a")]), "enttec:/dev/a")
        with self.assertRaisesRegex(Failure, "says it: enttec:/dev/a, enttec:/dev/b$"):
            adapters.choose([Path("/dev/a"), Path("/dev/b")])


class Repository(unittest.TestCase):
    def setUp(self) -> None:
        context = new_clone()
        self.clone: Clone = context.__enter__()
        self.addCleanup(context.__exit__, None, None, None)

    def test_commands_are_the_same_as_the_fronts(self) -> None:
        text = (ROOT / "tools/front.bash").read_text()
        found = {word for words in re.findall(r"^with(?:out)?_library=\((.*)\)$", text, re.M) for word in words.split()}
        self.assertEqual(found, set(arguments.COMMANDS) - set(arguments.PROVED))

    def test_what_needs_nothing_builds_nothing(self) -> None:
        for words in (["pids", "label"], ["fixtures", "--help"], ["decode", "--help"], ["run", "-h"]):
            done = self.clone.run("./wurstlinen", *words)
            self.assertEqual((done.returncode, done.stderr), (0, ""), words)
        done = self.clone.run("./wurstlinen", "save", "--help")
        self.assertTrue(done.stdout.startswith("usage: wurstlinen save"))
        self.assertEqual(self.clone.rt_calls(), [])
        self.assertEqual(list(self.clone.root.rglob("__pycache__")), [])

    def test_the_callers_folder_has_no_modules(self) -> None:
        (self.clone.folder / "queue.py").write_text("raise SystemExit('another queue')\n")
        done = self.clone.run("clone/wurstlinen", "pids", "device_label", cwd=self.clone.folder)
        self.assertEqual((done.returncode, done.stderr), (0, ""))

    def test_wrong_words_build_nothing(self) -> None:
        rig, uid = f"--line=rig:{FIXTURES}", "1234:00000001"
        for words, status, reason in (
                (["get", "foo", rig], 2, "'foo' isn't a UID"), (["fixtures", "--line"], 2, "argument --line: "),
                (["fixtures", "--lin"], 2, "unrecognized arguments: --lin; "),
                (["set", uid, "dmx_start_address", "0017", rig], 2, "'0017' can be read in two ways"),
                (["get", uid, "device_lable", rig], 2, "did you mean device_label?"),
                (["get", "--raw", rig], 2, "required: "),
                (["get", "--raw", uid, "0082", "--line=rig:no"], 1, "no: No such file"),
                (["save", "/no/x", rig], 1, "/no/x: No such file"),
                (["apply", "/nope.csv", rig], 2, "/nope.csv: No such file"), (["identify", rig], 2, "takes a UID"),
                (["save", "x", "--line", "enttec:/dev/nope"], 1, "/dev/nope can't be opened: No such file"),
                (["fixtures", "--line", "exec:no-such-command x"], 1, "can't be started"),
                (["fixtures", "--line", "text:/no/out,/no/in"], 1, "can't be opened"),
                (["fixtures", "--line", "exec:'"], 2, "can't be split"), (["serve", rig, "--idle=x"], 2, "'x' isn't"),
                (["discover", "--line", "enttec:/dev/nope"], 1, "/dev/nope can't be opened: No such file"),
                (["discover", rig, "--quik"], 2, "unrecognized arguments: --quik")):
            done = self.clone.run("./wurstlinen", *words)
            self.assertEqual((done.returncode, reason in done.stderr), (status, True), (words, done.stderr))
            self.assertEqual(done.stdout, "fault: command line\n" if "--quik" in words else "", words)
        self.assertEqual(self.clone.rt_calls(), [])

    def test_words_are_checked_without_an_effect(self) -> None:
        note, rows, rig = self.clone.folder / "note", self.clone.folder / "rows", f"--line=rig:{FIXTURES}"
        for words in (["fixtures", "--line", f"exec:touch {note}"], ["apply", str(rows), rig], ["apply", "-", rig],
                      ["check", str(rows), rig, "--log", str(note)], ["save", str(rows), rig], ["save", str(note), rig],
                      ["fixtures", "--line", f"text:{rows}"], ["fixtures", "--line", f"rig:{rows}"],
                      ["serve", rig, "--log", str(note)], ["explain", str(FIXTURES), "--page", str(note)]):
            if not rows.exists():
                os.mkfifo(rows)
            done = self.clone.run("tools/check_words", *words)
            self.assertEqual((done.returncode, done.stdout, done.stderr), (0, "", ""), words)
        self.assertFalse(note.exists())
        # After the check comes the build.
        done = self.clone.run("./wurstlinen", "save", "x", f"--line=rig:{FIXTURES}")
        self.assertIn("proving and building the C library", done.stderr)

    def test_a_word_that_is_no_command(self) -> None:
        reason = "wurstlinen: there is no command 'fixturs'; did you mean fixtures?; try 'wurstlinen --help'\n"
        done = self.clone.run("./wurstlinen", "fixturs", "--frames")
        self.assertEqual((done.returncode, done.stdout, done.stderr), (2, "fault: command line\n", reason))
        done = self.clone.run("./wurstlinen", "fixturs", "--json")
        self.assertEqual((done.returncode, json.loads(done.stdout)["error"]["reason"]), (2, "arguments"))
        with open("/dev/full", "w") as full:
            done = self.clone.run("./wurstlinen", "fixturs", capture_output=False, stdout=full, stderr=-1)
        self.assertEqual(done.returncode, 1)
        self.assertEqual(self.clone.rt_calls(), [])

    def test_help_for_a_command(self) -> None:
        for command in ("get", "decode", "adapters"):
            done = self.clone.run("./wurstlinen", "help", command)
            self.assertEqual((done.returncode, done.stderr), (0, ""))
            self.assertTrue(done.stdout.startswith(f"usage: wurstlinen {command}"))
        self.assertEqual(self.clone.run("./wurstlinen", "help", "fixturs").returncode, 2)
        self.assertEqual(self.clone.rt_calls(), [])

    def test_the_doctor_builds_nothing(self) -> None:
        done = self.clone.run("./wurstlinen", "doctor")
        self.assertEqual((done.returncode, done.stderr), (0, ""))
        lines = ("kit        kit-of-tests logic 1", "program    its first command proves and builds it: about 80",
                 "C library  its first command proves and builds it: about 10 minutes", "adapter    ")
        for line in lines:
            self.assertIn(f"\n{line}", f"\n{done.stdout}")
            self.assertEqual(f"\n{done.stdout}".count(f"\n{line.partition('  ')[0]}  "), 1, line)
        done = self.clone.run("./wurstlinen", "doctor", env={**self.clone.environment, "WURSTLINEN_LIBRARY": "/no.so"})
        self.assertIn("\nC library  fixtures by names need it: libwurstlinen.so.0 is not at /no.so", done.stdout)
        self.assertEqual(self.clone.rt_calls(), [])
        self.assertEqual(self.clone.run("./wurstlinen", "decode", "00").returncode, 0)
        self.assertIn("\nprogram    there\n", self.clone.run("./wurstlinen", "doctor").stdout)
        done = self.clone.run("./wurstlinen", "doctor", "--json")
        found = [json.loads(line) for line in done.stdout.splitlines()]
        self.assertIn({"part": "kit", "text": "kit-of-tests logic 1"}, found)
        self.assertIn({"part": "C library", "text": "its first command proves and builds it: about 10 minutes"}, found)

    def test_the_library_is_built_once(self) -> None:
        part = self.clone.folder / "part.o"
        compile_c("int one;\n", part, ["-c", "-fPIC"])
        subprocess.run(["ar", "rcs", str(self.clone.archive), str(part)], check=True)
        for built in (True, False):
            done = self.clone.run("./wurstlinen", "get", "1234:00000001", "device_label", "--line", f"rig:{FIXTURES}")
            self.assertEqual(done.returncode, 1)
            self.assertEqual("proving and building the C library" in done.stderr, built)
            self.assertIn("the C library is needed for this: the library has no call", done.stderr)
        self.assertEqual([call.split(" ", 1)[1] for call in self.clone.rt_calls()], ["lib"])
        (self.clone.root / "bindings/c/heap.c").write_text("\n")
        done = self.clone.run("./wurstlinen", "get", "1234:00000001", "device_label", "--line", f"rig:{FIXTURES}")
        self.assertIn("proving and building the C library", done.stderr)

    def test_wrong_arguments_build_nothing(self) -> None:
        line = ["--line", f"rig:{FIXTURES}"]
        for words, wanted in ((["get", "1234", "device_label", *line], "argument UID|all: '1234' isn't a UID"),
                              (["get", "1234:00000001", "device_lable", *line], "did you mean device_label?"),
                              (["set", "1234:00000001", "dmx_start_address", "0017", *line], "in two ways"),
                              (["fixtures", "--lien", "x"], "unrecognized arguments: --lien x")):
            done = self.clone.run("./wurstlinen", *words)
            self.assertEqual((done.returncode, done.stdout, done.stderr.count("\n")), (2, "", 1), words)
            self.assertIn(wanted, done.stderr)
            self.assertEqual(json.loads(self.clone.run("./wurstlinen", *words, "--json").stdout).keys(), {"error"})
        self.assertEqual(self.clone.rt_calls(), [])

    @unittest.skipIf(adapters.chips(), "an adapter is plugged in")
    def test_no_line_builds_nothing(self) -> None:
        self.clone.environment.pop("WURSTLINEN_LINE", None)
        done = self.clone.run("./wurstlinen", "fixtures")
        self.assertEqual((done.returncode, done.stdout), (2, ""))
        self.assertIn("no adapter is plugged in", done.stderr)
        self.assertEqual(self.clone.rt_calls(), [])

    def test_a_line_is_served(self) -> None:
        (self.clone.root / "x").write_text("{}")
        done = self.clone.run("./wurstlinen", "run", "x", "--line", f"rig:{FIXTURES}")
        self.assertEqual(done.returncode, 0, done.stderr)
        self.assertRegex(done.stdout, r"^the program: run --line /dev/fd/\d+ --replies /dev/fd/\d+ x\n$")
        done = self.clone.run("./wurstlinen", "run", "x", "--line", "out")
        self.assertEqual(done.stdout, "the program: run x --line out\n")
        done = self.clone.run("./rdm_port", "run", "--line", "rig:x")
        self.assertEqual(done.stdout, "the program: run --line rig:x\n")

    def test_a_discovery_takes_the_line_that_is_there(self) -> None:
        self.clone.environment.update(WURSTLINEN_LINE=f"rig:{FIXTURES}")
        for more in ([], ["--quick"], ["--log", "x"]):
            done = self.clone.run("./wurstlinen", "discover", *more)
            self.assertEqual(done.returncode, 0, done.stderr)
            wanted = " ".join(["the program: discover --line FD --replies FD --source 7ff0:00000001 --quick",
                               *(each for each in more if each != "--quick")])
            self.assertEqual(re.sub(r"/dev/fd/\d+", "FD", done.stdout), f"{wanted}\n")
        for words in (["discover", "VERSION"], ["discover", "--line=out", "--source=a"], ["discover", "--", "VERSION"]):
            self.assertEqual(self.clone.run("./wurstlinen", *words).stdout, f"the program: {' '.join(words)}\n")
        self.assertEqual(self.clone.run("./rdm_port", "discover").stdout, "the program: discover\n")

    @unittest.skipIf(adapters.chips(), "an adapter is plugged in")
    def test_a_discovery_without_a_line(self) -> None:
        self.clone.environment.pop("WURSTLINEN_LINE", None)
        self.assertEqual(self.clone.run("./wurstlinen", "decode", "00").returncode, 0)
        done = self.clone.run("./wurstlinen", "discover")
        self.assertEqual((done.returncode, done.stdout), (2, "fault: command line\n"))
        self.assertEqual(done.stderr, NO_ADAPTER)
        self.assertEqual(self.clone.run("./rdm_port", "discover").stdout, "the program: discover\n")

    def test_the_version_says_what_was_proved(self) -> None:
        version = (ROOT / "VERSION").read_text().strip()
        self.assertEqual(self.clone.run("./wurstlinen", "decode", "00").returncode, 0)
        calls = self.clone.rt_calls()
        self.expect_version(f"wurstlinen {version} (proved with kit-of-tests, commit unknown)\n")
        (self.clone.root / "crates/rdm_wire/src/lib.rt").write_text("pub fn two() {}\n")
        changed = "changed since it was proved with kit-of-tests"
        self.expect_version(f"wurstlinen {version} ({changed}, commit unknown)\n")
        user = ["-c", "user.name=a", "-c", "user.email=a"]
        for words in (["init", "-q"], ["add", "VERSION"], [*user, "commit", "-qma"]):
            self.assertEqual(self.clone.run("git", *words).returncode, 0)
        head = self.clone.run("git", "rev-parse", "HEAD").stdout
        self.expect_version(f"wurstlinen {version} ({changed}, commit {head[:8]})\n")
        self.assertEqual(self.clone.rt_calls(), calls)

    def test_an_unknown_kit_is_no_proof(self) -> None:
        version = (ROOT / "VERSION").read_text().strip()
        self.assertEqual(self.clone.run("./wurstlinen", "decode", "00").returncode, 0)
        (self.clone.root / "out/wurstlinen.kit").unlink()
        wanted = f"wurstlinen {version} (it isn't known what built it, commit unknown)\n"
        self.expect_version(wanted)
        target = self.clone.folder / "bin dir"
        self.assertEqual(self.clone.run("./wurstlinen", "--install", str(target)).returncode, 0)
        self.assertEqual(self.clone.run(str(target / "wurstlinen"), "--version").stdout, wanted)

    def expect_version(self, wanted: str) -> None:
        done = self.clone.run("./wurstlinen", "--version")
        self.assertEqual((done.returncode, done.stdout, done.stderr), (0, wanted, ""))

    def test_the_completion_is_printed(self) -> None:
        done = self.clone.run("./wurstlinen", "completion", "bash")
        self.assertEqual((done.returncode, done.stdout, done.stderr), (0, manual.completion(), ""))
        script = '. /dev/stdin; COMP_WORDS=(wurstlinen fi); COMP_CWORD=1; _wurstlinen; echo "${COMPREPLY[@]}"'
        shown = subprocess.run(["bash", "-c", script], input=done.stdout, check=True, capture_output=True, text=True)
        self.assertEqual((shown.stdout, shown.stderr), ("fixtures\n", ""))
        text = self.clone.run("./wurstlinen", "completion", "bash", "--json").stdout
        self.assertEqual(json.loads(text), {"shell": "bash", "completion": manual.completion()})
        self.assertEqual(self.clone.run("./wurstlinen", "completion", "fish").returncode, 2)
        self.assertEqual(self.clone.rt_calls(), [])

    def test_what_is_installed(self) -> None:
        target = self.clone.folder / "a b/bin"
        done = self.clone.run("./wurstlinen", "--install", str(target))
        self.assertEqual(done.returncode, 0, done.stderr)
        self.assertEqual({path.name for path in target.iterdir()}, {"wurstlinen", "rdm_port"})
        self.assertEqual(os.readlink(target / "rdm_port"), "../libexec/wurstlinen/wurstlinen")
        for words, wanted in ((["decode", "00"], "the program: decode 00\n"), (["pids", "device_lab"], "0x0082"),
                              (["--version"], "(proved with kit-of-tests, commit ")):
            done = self.clone.run(str(target / "wurstlinen"), *words, cwd="/")
            self.assertEqual((done.returncode, done.stderr), (0, ""))
            self.assertIn(wanted, done.stdout)
        done = self.clone.run(str(target / "wurstlinen"), "fixtures", "--line", f"rig:{FIXTURES}")
        self.assertIn(f"libwurstlinen.so.0 is not at {self.clone.folder}/a b/lib/libwurstlinen.so.0; './wurstlinen "
                      "--install-library PREFIX' in the repository makes it", done.stderr)


if __name__ == "__main__":
    unittest.main()
