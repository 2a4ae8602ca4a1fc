"""Signals at each step of the commands that write: no half file, no adapter that stays locked, a second try works."""
from __future__ import annotations

import atexit
import fcntl
import os
import signal
import sys
import termios
import weakref
from typing import Any, Callable, List, Optional, Tuple
from unittest import mock

from common import ENTTEC, SEEDS, LongTestCase, folder, needs_library, one
from page_logs import found_in
from stand_in import program_in
from test_page import STAND_IN
from test_text import get
from wurstlinen import tool
from wurstlinen.lines import EnttecPro, Rig
from wurstlinen.lines.emulator import Emulator, Widget
from wurstlinen.lines.packets import decode_packet

UID = "1234:00000001"
OLD = f"uid,label\n{UID},Old\n"
NEW = "uid,label,address,personality,model,slots\n1234:00000001,Lamp,1,1,Simulated fixture,1\n"
WANTED = f"uid,label\n{UID},Front\n"
UNPATCHED, PATCHED = f"uid,address,slots\n{UID},7,3\n", f"uid,address,slots\n{UID},1,3\n"
LOG = '{"number":0,"operation":"unmute","frame":"cc","reply":""}\n'
SIGNALS = (signal.SIGKILL, signal.SIGINT)
# Each step gets one of these, too; with checks/lines --all, each of them.
OTHERS = (signal.SIGTERM, signal.SIGHUP, signal.SIGPIPE)
# What a command does to files and devices, as Python reports it, and calls that it doesn't report.
EVENTS = {"open", "os.rename", "os.remove", "os.link", "os.chmod", "os.chown", "fcntl.flock", "fcntl.ioctl",
          "subprocess.Popen", "os.mkdir", "os.truncate", "socket.bind"}
CALLS = ((os, "write"), (os, "fsync"), (termios, "tcsetattr"))
MODULES = (".py", ".pyc", ".so")
# The first step of each kind is tried, and the last one; with --all, so many of them.
TIMES = 1 if SEEDS == 3 else 1000
ANSWER_SECONDS = 5.0
KILLED = -signal.SIGKILL


class Steps:
    """The steps of a process, with a signal to itself before one of them."""

    def __init__(self, note: Callable[[str], None]) -> None:
        self._note = note

    def watch(self) -> None:
        """Watches from now on. It can't be ended, so it is for a process of its own."""
        sys.addaudithook(self._audit)
        for module, name in CALLS:
            setattr(module, name, self._stepping(name, getattr(module, name)))

    def _audit(self, event: str, arguments: Any) -> None:
        if event in EVENTS and not (event == "open" and str(arguments[0]).endswith(MODULES)):
            self._note(event)

    def _stepping(self, name: str, call: Callable[..., Any]) -> Callable[..., Any]:
        def made(*arguments: Any) -> Any:
            self._note(name)
            return call(*arguments)
        return made


class Signals(LongTestCase):
    """Each command runs in a fork of this process, on an adapter that this process emulates."""

    def setUp(self) -> None:
        context = folder()
        self.place = context.__enter__()
        self.addCleanup(context.__exit__, None, None, None)
        self.locks = self.place / "locks"
        self.locks.mkdir()
        self.file = self.place / "files" / "file"
        self.file.parent.mkdir()
        widget = Widget(manufacturer=ENTTEC, ends_branches=True, ends_responses=True, takes_time=True)
        self.emulator = Emulator(Rig(one()), widget)
        self.emulator.__enter__()
        self.addCleanup(self.emulator.__exit__, None, None, None)

    def run_command(self, words: List[str], step: Optional[int] = None, number: int = 0) -> Tuple[int, List[str]]:
        """The status of a command, which gets a signal before this step, and its steps."""
        reading, writing = os.pipe()
        child = os.fork()
        if not child:
            self._be_command(words, writing, step, number)
        os.close(writing)
        try:
            with open(reading, encoding="ascii") as steps:
                names = steps.read().split()
            return os.waitstatus_to_exitcode(os.waitpid(child, 0)[1]), names
        except BaseException:
            os.kill(child, signal.SIGKILL)
            raise

    def _be_command(self, words: List[str], report: int, step: Optional[int], number: int) -> None:
        """Becomes the command, without an end of its own."""
        status = 99
        try:
            # What the test removes at its end isn't this process's.
            for finalizer in list(weakref.finalize._registry):
                finalizer.atexit = False
            count, write = [0], os.write

            def note(name: str) -> None:
                write(report, f"{name}\n".encode())
                count[0] += 1
                if count[0] - 1 == step:
                    os.kill(os.getpid(), number)

            null = os.open(os.devnull, os.O_RDWR)
            for stream in range(3):
                os.dup2(null, stream)
            EnttecPro.__init__.__defaults__ = (self.locks, ANSWER_SECONDS)
            sys.stdin, sys.stdout, sys.stderr = (open(each, mode) for each, mode in ((0, "r"), (1, "w"), (2, "w")))
            sys.argv = ["wurstlinen", *words]
            Steps(note).watch()
            status = tool.run()
        except SystemExit as end:
            status = int(end.code or 0)
        except BaseException:
            status = 98
        finally:
            # As at the end of a process.
            atexit._run_exitfuncs()
            os._exit(status)

    def each(self, words: List[str], begin: Callable[[], None], check: Callable[[int], None]) -> None:
        """Sends each signal before each step. `check` gets the status, -9 if the command was killed."""
        begin()
        status, names = self.run_command(words)
        self.assertEqual(status, 0)
        check(status)
        steps = {at for at, name in enumerate(names) if names[:at].count(name) < TIMES}
        steps.update(len(names) - 1 - names[::-1].index(name) for name in names)
        self.assertGreater(len(steps), 5)
        for step in sorted(steps):
            for number in (*SIGNALS, *(OTHERS if TIMES > 1 else OTHERS[step % len(OTHERS)::len(OTHERS)])):
                # A lock that was being made when its process was killed has no effect.
                for path in self.locks.glob(".LCK..*"):
                    path.unlink()
                begin()
                status, _ = self.run_command(words, step, number)
                try:
                    self.assertIn(status, (0, KILLED, 130, 128 + number))
                    if status == KILLED:
                        # A real adapter is no longer exclusive when its process has ended; the emulator keeps it open.
                        fcntl.ioctl(self.emulator._files.other.fileno(), termios.TIOCNXCL)
                    else:
                        self.assertEqual(os.listdir(self.locks), [])
                        self.assertIn(os.listdir(self.file.parent), ([], ["file"]))
                    check(status)
                    self.assertEqual(self.run_command(words)[0], 0)
                    check(0)
                except AssertionError as why:
                    name = signal.Signals(number).name
                    raise AssertionError(f"{name} before {names[step]}, step {step}: {why}") from why

    @needs_library
    def test_save(self) -> None:
        def begin() -> None:
            for path in self.file.parent.iterdir():
                path.unlink()
            self.file.write_text(OLD)
            self.emulator.line = Rig(one(label="Lamp"))

        def check(status: int) -> None:
            self.assertIn(self.file.read_text(), (NEW,) if status == 0 else (OLD, NEW))

        self.each(["save", str(self.file), "--line", f"enttec:{self.emulator.path}"], begin, check)

    def each_of_set(self, *words: str) -> None:
        """Sets a label."""
        def begin() -> None:
            self.file.write_text(WANTED)
            self.emulator.line = Rig(one(label="Lamp"))

        def check(status: int) -> None:
            reply = decode_packet(self.emulator.line.exchange(get(0)))
            assert reply is not None
            self.assertIn(reply.data, (b"Front",) if status == 0 else (b"Lamp", b"Front"))
            self.assertEqual(self.file.read_text(), WANTED)

        self.each([*words, "--line", f"enttec:{self.emulator.path}"], begin, check)

    @needs_library
    def test_apply(self) -> None:
        self.each_of_set("apply", str(self.file))

    @needs_library
    def test_set(self) -> None:
        self.each_of_set("set", UID, "device_label", "Front")

    def each_of_log(self, *words: str) -> None:
        """Writes a log."""
        def begin() -> None:
            for path in self.file.parent.iterdir():
                path.unlink()

        def check(status: int) -> None:
            text = self.file.read_text() if self.file.exists() else ""
            self.assertTrue(text.endswith("\n") or (status and not text), text[-20:])
            self.assertTrue(status or UID.replace(":", "") in text)

        with mock.patch.dict(os.environ, WURSTLINEN_PROGRAM=program_in(self.place)):
            self.each([*words, "--log", str(self.file), "--line", f"enttec:{self.emulator.path}"], begin, check)

    @needs_library
    def test_fixtures(self) -> None:
        self.each_of_log("fixtures")

    @needs_library
    def test_discover(self) -> None:
        self.each_of_log("discover")

    @needs_library
    def test_run(self) -> None:
        self.each_of_log("run", "file")

    @needs_library
    def test_serve(self) -> None:
        runtime = self.place / "run"
        runtime.mkdir(mode=0o700)

        def begin() -> None:
            for path in self.file.parent.iterdir():
                path.unlink()

        def check(status: int) -> None:
            text = self.file.read_text() if self.file.exists() else ""
            self.assertTrue(text.endswith("\n") if status == 0 else text.endswith("\n") or not text)
            if status != KILLED:
                self.assertEqual(list(runtime.rglob("*.socket")), [])

        with mock.patch.dict(os.environ, XDG_RUNTIME_DIR=str(runtime)):
            words = ["serve", "--line", f"enttec:{self.emulator.path}", "--idle", "0", "--log", str(self.file)]
            self.each(words, begin, check)

    def test_patch(self) -> None:
        def begin() -> None:
            for path in self.file.parent.iterdir():
                path.unlink()
            self.file.write_text(UNPATCHED)

        def check(status: int) -> None:
            self.assertIn(self.file.read_text(), (PATCHED,) if status == 0 else (UNPATCHED, PATCHED))

        self.each(["patch", str(self.file), "--from", "1"], begin, check)

    def test_a_page(self) -> None:
        program, log = self.place / "program", self.place / "log"
        log.write_text(LOG)
        program.write_text(STAND_IN.format(python=sys.executable))
        program.chmod(0o755)
        for name, text in (("lines", found_in(LOG)), ("status", b"0"), ("script", b"")):
            (self.place / name).write_bytes(text)
        os.environ["WURSTLINEN_PROGRAM"] = str(program)
        self.addCleanup(os.environ.pop, "WURSTLINEN_PROGRAM")

        def begin() -> None:
            for path in self.file.parent.iterdir():
                path.unlink()
            self.file.write_text(OLD)

        def check(status: int) -> None:
            text = self.file.read_text()
            self.assertTrue((status and text == OLD) or text.endswith("</html>\n"), text[-20:])

        self.each(["explain", str(log), "--page", str(self.file)], begin, check)
