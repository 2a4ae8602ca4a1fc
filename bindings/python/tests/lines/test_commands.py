"""`python3 -m wurstlinen`, and the script that puts the proved program on one of these lines."""
from __future__ import annotations

import contextlib
import io
import os
import re
import resource
import shutil
import signal
import subprocess
import sys
import threading
from pathlib import Path
from typing import Iterator, List, Optional, Tuple
from unittest import mock

from common import PACKAGE, ROOT, TestCase, folder, needs_library
from search import Controller, discover
from stand_in import program_in
from wurstlinen import commands
from wurstlinen.line import LineFailed
from wurstlinen.lines import EnttecPro, Rig, enttec, open_line
from wurstlinen.lines.emulator import Emulator
from wurstlinen.lines.uids import parse_uid

FIVE = ROOT / "bindings/examples/five_fixtures.json"
ADAPTER = ROOT / "bindings/examples/adapter.sh"
STAND_IN = Path(__file__).resolve().parent / "stand_in.py"
UIDS = ["1234:00000001", "1234:00000002", "454e:0a000017", "9abc:00000002", "9abc:00000003"]
LEFT = parse_uid(UIDS[0])
COMMAND = [sys.executable, "-m", "wurstlinen"]
# The module that the page's skeleton of a bridge imports: an adapter over a rig.
MY_ADAPTER = """
from wurstlinen.lines import Rig

class Port:
    def __init__(self, file):
        self.rig, self.reply = Rig(file), b""
    def drop_what_has_come(self):
        self.reply = b""
    def send_with_break(self, frame):
        self.reply = self.rig.exchange(frame)
    def receive(self, wait, until_quiet):
        return self.reply

open = Port
"""
ENVIRONMENT = {**os.environ, "PYTHONPATH": str(PACKAGE), "PYTHONDONTWRITEBYTECODE": "1"}


def run(*arguments: str, text: str = "") -> "subprocess.CompletedProcess[str]":
    """Runs a command in a process of its own."""
    command = [*COMMAND, *arguments]
    return subprocess.run(command, input=text, capture_output=True, text=True, env=ENVIRONMENT, check=False)


def called(*arguments: str) -> Tuple[int, str, str]:
    """The same in this process: the status, standard output and standard error."""
    out, errors = io.StringIO(), io.StringIO()
    with contextlib.redirect_stdout(out), contextlib.redirect_stderr(errors):
        try:
            status = commands.main(arguments)
        except SystemExit as end:
            status = int(end.code or 0)
    return status, out.getvalue(), errors.getvalue()


def run_adapter(*arguments: str, program: Optional[str] = None) -> "subprocess.CompletedProcess[str]":
    environment = {**ENVIRONMENT, "WURSTLINEN": program or str(STAND_IN)}
    return subprocess.run([str(ADAPTER), *arguments], capture_output=True, text=True, env=environment, check=False)


class Arguments(TestCase):
    def test_wrong_arguments_end_with_2(self) -> None:
        line = f"rig:{FIVE}"
        for arguments in ([], ["find"], ["discover"], ["get", "--line", line], ["get", UIDS[0], "0060"], ["rig"],
                          ["get", "1234:0001", "0060", "--line", line], ["get", UIDS[0], "60", "--line", line],
                          ["get", UIDS[0], "0060", "0", "--line", line], ["set", UIDS[0], "0060", "--line", line],
                          ["get", UIDS[0], "0060", "--sub", "65536", "--line", line],
                          ["discover", "--source", "1234:ffffffff", "--line", line],
                          ["discover", "--budget", "0", "--line", line], ["bridge"], ["rig", "a", "--line", line],
                          ["rig", str(FIVE), "--firmware", "2"], ["rig", str(FIVE), "--firmware", "2.4.x"],
                          ["rig", str(FIVE), "--firmware", "2.256"], ["bridge", "--seconds", "0", "--line", line],
                          ["rig", str(FIVE), "--seconds", "86401"], ["rig", str(FIVE), "--seconds", "1" * 5_000]):
            self.assertEqual(called(*arguments)[:2], (2, ""), arguments)
            self.assertIn("usage:", called(*arguments)[2])
        self.assertIn("isn't a number from 1 to 86400", called("rig", str(FIVE), "--seconds", "1" * 5_000)[2])
        self.assertEqual(run("find").returncode, 2)

    def test_a_line_that_is_not_there_ends_with_1(self) -> None:
        for line, reason in (("enttec:/dev/none", "/dev/none can't be opened"), ("rig:/none", "No such file"),
                             ("text:/none", "/none can't be opened"), ("exec:/none", "can't be started"),
                             ("exec: ", "'exec:' without a command names no line"),
                             ("serial:/dev/none", "'serial' is no kind of line"),
                             (f"rig:{ROOT}/README.md", "isn't JSON")):
            status, out, reasons = called("bridge", "--line", line)
            self.assertEqual((status, out), (1, ""))
            self.assertRegex(reasons, f"^wurstlinen: .*{reason}")
        self.assertEqual(run("bridge", "--line", "rig:/none").returncode, 1)

    def test_help(self) -> None:
        for arguments in (["--help"], ["discover", "--help"], ["rig", "--help"]):
            self.assertEqual(called(*arguments)[0], 0)


class Bridges(TestCase):
    def test_a_bridge_answers_each_line(self) -> None:
        frame = "cc0118" "123400000001" "7ff000000001" "0001000000" "20" "0082" "00"
        frame += f"{sum(bytes.fromhex(frame)):04x}"
        result = run("bridge", "--line", f"rig:{FIVE}", text=f"{frame}\nnonsense\n{frame}\n")
        self.assertEqual((result.returncode, result.stderr), (0, ""))
        first, second, third = result.stdout.splitlines()
        self.assertEqual((second, third), ("failed", first))
        self.assertIn(b"Front left".hex(), first)

    def test_a_bridge_over_a_bridge(self) -> None:
        command = f"{sys.executable} -m wurstlinen bridge --line rig:{FIVE}"
        os.environ["PYTHONPATH"] = str(PACKAGE)
        with open_line(f"exec:{command}") as line:
            self.assertEqual(Controller(line).get(LEFT, 0x0082).data, b"Front left")
            self.assertEqual(len(discover(line)), 5)

    def test_the_skeleton_on_the_page_is_a_bridge(self) -> None:
        page = (PACKAGE / "LINES.md").read_text(encoding="utf-8")
        (skeleton,) = re.findall(r"^```python\n(.*?)^```$", page, re.DOTALL | re.MULTILINE)
        os.environ["PYTHONPATH"] = str(PACKAGE)
        with folder() as directory:
            (directory / "my_bridge.py").write_text(skeleton)
            (directory / "my_adapter.py").write_text(MY_ADAPTER)
            with open_line(f"exec:{sys.executable} {directory}/my_bridge.py {FIVE}") as line:
                self.assertEqual(len(discover(line)), 5)
                self.assertEqual(Controller(line).get(LEFT, 0x0082).data, b"Front left")

    def test_a_bridge_whose_reader_is_gone_ends_quietly(self) -> None:
        frame = "00" * 26 + "\n"
        with subprocess.Popen([*COMMAND, "bridge", "--line", f"rig:{FIVE}"], stdin=subprocess.PIPE, text=True,
                              stdout=subprocess.PIPE, stderr=subprocess.PIPE, env=ENVIRONMENT) as bridge:
            assert bridge.stdin is not None and bridge.stdout is not None and bridge.stderr is not None
            bridge.stdin.write(frame)
            bridge.stdin.flush()
            self.assertEqual(bridge.stdout.readline(), "\n")
            bridge.stdout.close()
            try:
                for _ in range(3):
                    bridge.stdin.write(frame)
                    bridge.stdin.flush()
            except BrokenPipeError:
                pass
            self.assertEqual(bridge.wait(), 0)
            self.assertEqual(bridge.stderr.read(), "")


class Rigs(TestCase):
    @contextlib.contextmanager
    def start(self, *arguments: str) -> Iterator["subprocess.Popen[str]"]:
        """A rig that is ended with the test, also if that fails."""
        command = [*COMMAND, "rig", *arguments]
        with subprocess.Popen(command, stdout=subprocess.PIPE, text=True, env=ENVIRONMENT) as rig:
            try:
                yield rig
            finally:
                rig.terminate()

    def test_a_rig_is_an_adapter_on_a_pseudo_terminal(self) -> None:
        for arguments in ([str(FIVE)], ["--line", f"rig:{FIVE}", "--firmware", "4.15"]):
            for end in (signal.SIGINT, signal.SIGTERM, signal.SIGHUP):
                with folder() as locks, self.start(*arguments) as rig:
                    assert rig.stdout is not None
                    kind, _, path = rig.stdout.readline().strip().partition(":")
                    self.assertEqual(kind, "enttec")
                    with EnttecPro(path, locks) as driver:
                        self.assertEqual(Controller(driver).get(LEFT, 0x0082).data, b"Front left")
                        self.assertEqual(len(discover(driver)), 5)
                    rig.send_signal(end)
                    self.assertEqual(rig.wait(), 0)

    def test_a_hangup_that_is_ignored(self) -> None:
        """A rig under nohup outlives its terminal."""
        ignored = mock.patch.dict(globals(), COMMAND=["nohup", *COMMAND])
        with folder() as locks, ignored, self.start(str(FIVE)) as rig:
            assert rig.stdout is not None
            path = rig.stdout.readline().strip().partition(":")[2]
            rig.send_signal(signal.SIGHUP)
            with EnttecPro(path, locks) as driver:
                self.assertEqual(len(discover(driver)), 5)
            rig.send_signal(signal.SIGINT)
            self.assertEqual(rig.wait(), 0)

    def test_a_line_that_raises_anything_ends_the_rig(self) -> None:
        broken = mock.patch("wurstlinen.lines.rig.Rig.exchange", side_effect=ZeroDivisionError("broken"))
        with folder() as locks, broken:
            reading, writing = os.pipe()
            out = os.fdopen(writing, "w")

            def drive() -> None:
                with os.fdopen(reading) as names:
                    path = names.readline().strip().partition(":")[2]
                with self.assertRaises(LineFailed), EnttecPro(path, locks) as driver:
                    driver.exchange(bytes(26))

            driver = threading.Thread(target=drive)
            driver.start()
            errors = io.StringIO()
            with out, contextlib.redirect_stdout(out), contextlib.redirect_stderr(errors):
                status = commands.main(["rig", str(FIVE)])
            driver.join()
        self.assertEqual(status, 1)
        self.assertEqual(errors.getvalue(), "wurstlinen: the adapter has ended: ZeroDivisionError('broken')\n")

    def test_an_adapter_above_1024_descriptors(self) -> None:
        resource.setrlimit(resource.RLIMIT_NOFILE, (4096, resource.getrlimit(resource.RLIMIT_NOFILE)[1]))
        with contextlib.ExitStack() as stack:
            for _ in range(1100):
                stack.enter_context(open(os.devnull, "rb"))
            locks = stack.enter_context(folder())
            emulator = stack.enter_context(Emulator(Rig(FIVE)))
            driver = stack.enter_context(EnttecPro(emulator.path, locks))
            self.assertEqual(Controller(driver).get(LEFT, 0x0082).data, b"Front left")

    def test_an_adapter_behind_an_adapter(self) -> None:
        with folder() as locks, self.start(str(FIVE)) as first:
            assert first.stdout is not None
            bridge = f"{sys.executable} -m wurstlinen bridge --line {first.stdout.readline().strip()}"
            with self.start("--line", f"exec:{bridge}") as second:
                assert second.stdout is not None
                path = second.stdout.readline().strip().partition(":")[2]
                # An exchange passes three other processes, which get their turn late on a busy machine.
                with mock.patch.object(enttec, "EXCHANGE_SECONDS", 30.0), EnttecPro(path, locks, 30.0) as driver:
                    self.assertEqual(len(discover(driver)), 5)


class Adapters(TestCase):
    def test_the_program_on_a_rig(self) -> None:
        with folder() as directory:
            program = program_in(directory)
            result = run_adapter(f"rig:{FIVE}", "discover", program=program)
            self.assertEqual((result.returncode, result.stderr), (0, ""))
            self.assertEqual(result.stdout.splitlines(), UIDS)

    def test_wrong_arguments_leave_no_bridge(self) -> None:
        with folder() as directory:
            self.assertEqual(run_adapter(f"rig:{FIVE}", "nonsense", program=program_in(directory)).returncode, 2)
        self.assertEqual(run_adapter(f"rig:{FIVE}").returncode, 2)

    def test_a_program_that_opens_nothing(self) -> None:
        for status in (0, 1):
            result = run_adapter(f"rig:{FIVE}", "x", program=["/bin/true", "/bin/false"][status])
            self.assertGreaterEqual(result.returncode, status)

    def test_a_line_that_cannot_be_opened(self) -> None:
        with folder() as directory:
            result = run_adapter("enttec:/dev/none", "discover", program=program_in(directory))
            self.assertNotEqual(result.returncode, 0)
            self.assertIn("wurstlinen: /dev/none can't be opened", result.stderr)


class WithoutProof(TestCase):
    def test_an_unproved_run_has_no_line(self) -> None:
        with folder() as directory:
            for name in ("wurstlinen", "crates.txt"):
                shutil.copy(ROOT / name, directory)
            shutil.copytree(ROOT / "tools", directory / "tools")
            # The script wants this command, but refuses before it is called.
            rt = directory / "rt"
            rt.write_text("#!/bin/sh\nexit 1\n")
            rt.chmod(0o755)
            environment = {**os.environ, "PATH": f"{directory}:{os.environ['PATH']}"}
            for option, words in (("--line", ["--line", "out"]), ("--line", ["--line=out"]), ("--log", ["--log=l"])):
                arguments = ["discover", "--source", UIDS[0], *words]
                command = [str(directory / "wurstlinen"), "--with", "kit", "--unproved", *arguments]
                result = subprocess.run(command, capture_output=True, text=True, env=environment, check=False)
                self.assertEqual((result.returncode, result.stdout), (125, ""))
                proved = " ".join([str(directory / "wurstlinen"), *arguments])
                reason = f"an unproved run can't use {option}; the proved one can: {proved}"
                self.assertEqual(result.stderr, f"wurstlinen: {reason}\n")


@needs_library
class WithTheLibrary(TestCase):
    def lines(self, *arguments: str) -> List[str]:
        result = run(*arguments, "--line", f"rig:{FIVE}")
        self.assertEqual(result.returncode, 0, result.stderr)
        return result.stdout.splitlines()

    def test_discover(self) -> None:
        *devices, frames = self.lines("discover")
        self.assertEqual(devices, [*UIDS[:4], f"{UIDS[4]} 0002 {UIDS[3]}"])
        self.assertEqual(frames, "frames 525")
        self.assertEqual(self.lines("discover", "--quick")[:-1], devices)
        known = [word for uid in UIDS for word in ("--known", uid)]
        *again, fewer = self.lines("discover", "--incremental", *known)
        self.assertEqual(again, devices)
        self.assertLess(int(fewer.split()[1]), int(frames.split()[1]))

    def test_a_fault(self) -> None:
        result = run("discover", "--budget", "5", "--line", f"rig:{FIVE}")
        self.assertEqual((result.returncode, result.stdout), (1, "fault 3\nframes 5\n"))
        self.assertRegex(result.stderr, "^wurstlinen: the run has used up its budget of frames; ")

    def test_get_and_set(self) -> None:
        self.assertEqual(self.lines("get", UIDS[0], "0082"), [f"0 00 {b'Front left'.hex()}"])
        self.assertEqual(self.lines("get", UIDS[2], "0082"), [f"0 00 {b'Back truss'.hex()}"])
        self.assertEqual(self.lines("get", UIDS[3], "0082"), ["0 01 0003"])
        self.assertEqual(self.lines("get", UIDS[0], "8000"), ["0 02 0000"])
        self.assertEqual(self.lines("get", UIDS[0], "00e1", "02"), [f"0 00 02000e{b'Extended'.hex()}"])
        self.assertEqual(self.lines("get", UIDS[0], "0082", "--sub", "1"), ["0 02 0009"])
        self.assertEqual(self.lines("set", UIDS[0], "00f0", "0005"), ["0 00 -"])
        self.assertEqual(self.lines("set", "ffff:ffffffff", "1000", "01"), ["1"])

    def test_an_absent_device(self) -> None:
        result = run("get", "1234:00000009", "0060", "--line", f"rig:{FIVE}")
        self.assertEqual((result.returncode, result.stdout), (1, "3\n"))
        self.assertRegex(result.stderr, "^wurstlinen: timeout$")

    def test_a_line_that_fails(self) -> None:
        for arguments, printed in ((["get", UIDS[0], "0060"], "2\n"), (["discover"], "fault 4\nframes 1\n")):
            result = run(*arguments, "--line", f"exec:{sys.executable} -c ''")
            self.assertEqual((result.returncode, result.stdout), (1, printed))
            self.assertRegex(result.stderr, "^wurstlinen: the far end")
