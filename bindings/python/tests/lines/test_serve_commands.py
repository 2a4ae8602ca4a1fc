"""The command serve as a process, and the other commands with it and without it."""
from __future__ import annotations

import argparse
import contextlib
import io
import json
import os
import shutil
import signal
import socket
import subprocess
import sys
import threading
import time
import unittest
from pathlib import Path
from typing import Any, Dict, Iterator, Tuple
from unittest import mock

from common import ENTTEC, ROOT, LongTestCase, folder, needs_library, scene
from fronts import called
from servers import HELLO, SECONDS, SOURCE, TOOL, Program, command, environment, here, runtime, serve
from test_serve import FIVE, FOUND, GET, LABEL, LEFT, TIMEOUT, Gate, five
from wurstlinen import MOST_CLIENTS, LineFailed, OutcomeKind, RunFaultKind, Status, Unserved, connect, tool
from wurstlinen._types import kind_of
from wurstlinen.front.output import Failure, Output
from wurstlinen.lines import EnttecPro, Rig, TextLine
from wurstlinen.lines.emulator import Emulator, Widget
from wurstlinen.lines.uids import uid_text
from wurstlinen.shared import peer, place, server, worker
from wurstlinen.shared.listening import Passed, Place
from wurstlinen.tool import adapters, doctor, places, sharing

LINE = f"rig:{FIVE}"
WIDGET = Widget(manufacturer=ENTTEC)
# No program listens on it.
NO_PORT = 1


class Plug(Rig):
    """A rig that can be unplugged, or fail."""

    def __init__(self, source: str = "7ff0:00000001") -> None:
        super().__init__(scene(source=source, devices=[{"uid": LEFT, "rig": {"label": "Front left"}}]))
        self.is_plugged, self.failure = True, ""

    @property
    def is_there(self) -> bool:
        return self.is_plugged

    def exchange(self, frame: bytes) -> bytes:
        if self.failure:
            raise LineFailed(self.failure)
        return super().exchange(frame)


@needs_library
class Commands(LongTestCase):
    """Each command uses a server that runs for its line."""

    def test_what_commands_print_is_the_same_with_a_server(self) -> None:
        rows = [["get", LEFT, "device_label"], ["get", LEFT, "device_label", "dmx_start_address"],
                ["get", "all", "device_label"], ["set", LEFT, "device_label", "Lamp"], ["fixtures"],
                ["show", "454e:0a000017"], ["get", LEFT, "0x9999"], ["identify", LEFT],
                ["get", "9abc:00000002", "device_label"], ["get", LEFT, "device_label", "--frames"]]
        for words in rows:
            with here(five, name=LINE):
                with_server = called(*words, "--line", LINE)
            with runtime():
                alone = called(*words, "--line", LINE)
            self.assertEqual([with_server[0], *map(self.counted, with_server[1:])],
                             [alone[0], *map(self.counted, alone[1:])], words)

    def test_bytes_by_a_server(self) -> None:
        with here(five, name=LINE) as made:
            with Program(made.place.path) as program:
                for words in (["set", LEFT, "0082", "41"], ["get", LEFT, "0082"]):
                    status, out, _ = called(*words[:1], "--raw", *words[1:], "--line", LINE)
                self.assertEqual((status, out), (0, "0 00 41\n"))
                program.ask(GET)
                self.assertEqual(program.read()["data"], "41")

    @staticmethod
    def counted(text: str) -> str:
        """A text without what depends on how often a slow device was asked, and on the numbers of frames."""
        return "\n".join(line.partition(" frames;")[0].rpartition(",")[0] if " frames;" in line else
                         line.partition("  GET")[2] or line for line in text.splitlines())

    def test_a_discovery(self) -> None:
        with folder() as place, here(five, name=LINE):
            log = place / "log"
            status, _, errors = called("fixtures", "--line", LINE, "--log", str(log))
            self.assertEqual(status, 0, errors)
            entries = [json.loads(line) for line in log.read_text().splitlines()]
            self.assertEqual((entries[0]["entry"], entries[0]["search"]), ("opening", "quick"))
            self.assertEqual([entry["number"] for entry in entries[1:]], list(range(len(entries) - 1)))
            self.assertEqual(entries[1]["operation"], "unmute")
            mutes = {uid_text(int(entry["frame"][6:18], 16)) for entry in entries[1:]
                     if entry["operation"] == "mute" and entry["reply"]}
            self.assertEqual(mutes, {device["uid"] for device in FOUND})

    def test_discover(self) -> None:
        with folder() as place, here(five, name=LINE):
            made_out, errors = io.StringIO(), io.StringIO()

            def discovered(*words: str) -> int:
                with contextlib.redirect_stdout(made_out), contextlib.redirect_stderr(errors), \
                        mock.patch.object(places, "program", lambda: "/nowhere/program"):
                    return tool.main(["discover", "--line", LINE, *words])
            self.assertEqual(discovered("--quick", "--log", str(place / "log")), 0)
            frames = len((place / "log").read_text().splitlines()) - 1
            self.assertEqual(made_out.getvalue().splitlines(), [
                *(each["uid"] for each in FOUND[:-1]), f"{FOUND[-1]['uid']}  part of 9abc:00000002, has sub-devices",
                f"5 devices, {frames} frames; discovery without a fault"])
            made_out.truncate(made_out.seek(0))
            self.assertEqual(discovered("--json"), 0)
            self.assertEqual([json.loads(line) for line in made_out.getvalue().splitlines()],
                             [*FOUND, {"devices": 5, "frames": frames, "fault": None}])
            for words in (["--budget", "9"], ["--known", LEFT], ["--source", "7a70:00000001"], ["--steady"]):
                with self.assertRaises(Failure) as raised:
                    discovered(*words)
                self.assertEqual((raised.exception.status, str(raised.exception)), (
                    2, f"process {os.getpid()} (7ff0:00000001) has this line, and searches it in its own way: leave "
                       f"out {words[0]}"))

    def test_the_log_has_its_own_run_alone(self) -> None:
        with folder() as place, here(five, name=LINE) as made, Program(made.place.path) as other:
            for _ in range(3):
                other.say({"do": "discover"})
            status, _, errors = called("fixtures", "--line", LINE, "--log", str(place / "log"))
            self.assertEqual(status, 0, errors)
            numbers = [json.loads(line).get("number") for line in (place / "log").read_text().splitlines()]
            self.assertEqual(numbers, [None, *range(len(numbers) - 1)])

    def test_a_log_has_no_gaps(self) -> None:
        tell, told = peer.Peer.tell, []

        def miss(program: peer.Peer, event: Dict[str, Any]) -> None:
            told.append(event)
            if len(told) == 5:
                program._missed += 1
            else:
                tell(program, event)
        note = "wurstlinen: 1 frames are neither shown nor counted: they weren't read in time\n"
        with folder() as place, here(five, name=LINE), mock.patch.object(peer.Peer, "tell", miss):
            status, out, errors = called("fixtures", "--line", LINE, "--log", str(place / "log"))
            self.assertEqual((status, out, errors),
                             (1, "", f"{note}wurstlinen: 1 frames weren't read in time, so there is no log\n"))
            self.assertEqual((place / "log").read_text().count("\n"), 1)
            told.clear()
            status, out, errors = called("get", LEFT, "device_label", "--line", LINE)
            self.assertEqual((status, out, errors), (0, "Front left\n", ""))

    def test_another_source_is_refused(self) -> None:
        with here(five, name=LINE):
            for words in (["fixtures"], ["get", "--raw", LEFT, "0082"]):
                status, _, errors = called(*words, "--line", LINE, "--source", "7a70:00000001")
                self.assertEqual((status, errors), (1, f"wurstlinen: process {os.getpid()} (7ff0:00000001) has this "
                                                       "line: leave out --source\n"))
            self.assertEqual(called("fixtures", "--line", LINE, "--source", "7ff0:00000001")[0], 0)

    def test_a_paused_queue(self) -> None:
        with here(five, name=LINE) as made, Program(made.place.path) as operator:
            operator.say({"do": "pause", "id": 1})
            operator.next("id")
            for words, what in ((["get", LEFT, "device_label"], "request"), (["fixtures"], "discovery")):
                status, _, errors = called(*words, "--line", LINE, "--wait", "0.2")
                text = f"the {what} has no result so far, and is only sent if it was its turn: the queue is paused"
                self.assertEqual((status, errors), (1, f"wurstlinen: {text}\n"))

    def test_a_line_with_too_much_to_do(self) -> None:
        gate = Gate()
        with here(lambda: gate, name=LINE) as made, Program(made.place.path) as other:
            other.ask({"do": "discover"})
            text = "has no result so far, and is only sent if it was its turn: the line has too much to do\n"
            for words, what in ((["get", LEFT, "device_label"], "request"), (["fixtures"], "discovery")):
                status, _, errors = called(*words, "--line", LINE, "--wait", "0.2")
                self.assertEqual((status, errors), (1, f"wurstlinen: the {what} {text}"))
            with connect(LINE) as client:
                self.assertRaises(Unserved, client.ask, LEFT, 0x82, wait=0.2)

    def test_a_long_discovery_is_awaited(self) -> None:
        class Slow(Rig):
            def exchange(self, frame: bytes) -> bytes:
                time.sleep(0.02)
                return super().exchange(frame)
        with here(lambda: Slow(FIVE), name=LINE):
            status, out, _ = called("fixtures", "--line", LINE, "--wait", "0.4")
            self.assertEqual((status, out.count("\n")), (0, 7))

    def test_a_queue_that_is_closed(self) -> None:
        with here(five, name=LINE) as made:
            made.session.close()
            for words in (["get", LEFT, "device_label"], ["get", "--raw", LEFT, "0082"], ["fixtures"]):
                status, out, errors = called(*words, "--line", LINE)
                self.assertEqual((status, out, errors), (1, "", "wurstlinen: the queue is closed\n"), words)

    def test_a_folder_that_is_not_safe_is_named_and_not_used(self) -> None:
        with runtime() as made:
            (made / "wurstlinen").mkdir()
            (made / "wurstlinen").chmod(0o755)
            Path(place.path_of(str(made / "wurstlinen"), LINE)).write_text("")
            text = f"wurstlinen: {made}/wurstlinen isn't used: it isn't this user's own, with mode 0700\n"
            self.assertEqual(called("get", LEFT, "device_label", "--line", LINE), (0, "Front left\n", text))
            done = command(made, "serve", "--line", LINE)
            self.assertEqual((done.returncode, done.stderr), (1, text))

    def test_a_server_that_dies_amid_a_command(self) -> None:
        with folder() as made, serve(made, "--line", LINE) as server, Program(server.socket) as operator:
            operator.say({"do": "pause", "id": 1})
            operator.next("id")
            waiting = subprocess.Popen([*TOOL, "get", LEFT, "device_label", "--line", LINE], env=environment(made),
                                       stdout=subprocess.PIPE, stderr=subprocess.PIPE, text=True)
            while operator.ask({"do": "status"})["outstanding"] < 1:
                time.sleep(0.02)
            server.kill()
            self.assertEqual(waiting.communicate(timeout=SECONDS), (
                "", f"wurstlinen: the server of {LINE} has ended\n"))
            self.assertEqual(waiting.returncode, 1)
            # What it has left behind is in nobody's way.
            self.assertEqual(command(made, "get", LEFT, "device_label", "--line", LINE).stdout, "Front left\n")
            with serve(made, "--line", LINE):
                pass


@needs_library
@unittest.skipUnless(shutil.which("cc"), "needs cc")
class Example(LongTestCase):
    """The protocol in C."""

    def test_share(self) -> None:
        with folder() as place, here(five) as made:
            flags = ["-std=c11", "-Wall", "-Wextra", "-Werror", "-pedantic"]
            subprocess.run(["cc", *flags, ROOT / "bindings/examples/share.c", "-o", place / "share"], check=True)
            for words, wanted in (([LEFT], (0, "Front left\n", "")), (["1234:00000009"], (1, "", '"status":3')),
                                  (["9abc:00000002"], (1, "", '"ack":1')),
                                  (["x"], (1, "", "uid isn't a UID")), ([], (2, "", "usage"))):
                done = subprocess.run([place / "share", made.place.path, *words], check=False, capture_output=True,
                                      text=True, timeout=SECONDS)
                self.assertEqual((done.returncode, done.stdout), wanted[:2])
                self.assertIn(wanted[2], done.stderr)


@needs_library
class Adapters(LongTestCase):
    """An adapter that several commands want, and one that is unplugged."""

    @contextlib.contextmanager
    def adapter(self, made: Path) -> Iterator[Tuple[str, Emulator]]:
        """An emulated adapter behind a link, as those of /dev/serial/by-id are."""
        with Emulator(Rig(FIVE), WIDGET) as emulator:
            link = made / "adapter"
            link.unlink(missing_ok=True)
            link.symlink_to(emulator.path)
            yield f"enttec:{link}", emulator

    def test_two_commands_at_once(self) -> None:
        with folder() as made, self.adapter(made) as (line, _):
            for serves in (False, True):
                with serve(made, "--line", line) if serves else contextlib.nullcontext():
                    # On a busy machine the first one takes longer than the usual wait.
                    words = ["fixtures", "--line", line, "--wait-line", str(SECONDS)]
                    running = [subprocess.Popen([*TOOL, *words], env=environment(made), stdout=subprocess.PIPE,
                                                stderr=subprocess.PIPE, text=True)
                               for _ in range(2)]
                    for each in running:
                        out, errors = each.communicate(timeout=SECONDS)
                        self.assertEqual((each.returncode, out.count("\n")), (0, 7), errors)

    def test_who_waits_says_for_whom(self) -> None:
        with runtime() as made, self.adapter(made) as (line, emulator), EnttecPro(emulator.path):
            name = Path(f"/proc/{os.getpid()}/comm").read_text().strip()
            who = f"process {os.getpid()} ({name})"
            for words, seconds in ((["fixtures"], "0.2"), (["get", "--raw", LEFT, "0082"], "0.2"), (["fixtures"], "0")):
                status, _, errors = called(*words, "--line", line, "--wait-line", seconds)
                said = [f"wurstlinen: waiting for {who}"] if seconds != "0" else []
                fault = f"wurstlinen: {line.partition(':')[2]} is used by {who}: "
                self.assertEqual((status, errors.splitlines()[:-1]), (1, said), words)
                self.assertTrue(errors.splitlines()[-1].startswith(fault), errors)

    def test_what_adapters_says_of_a_shared_one(self) -> None:
        with folder() as made, mock.patch.object(worker, "LOOK_SECONDS", 0.05), \
                self.adapter(made) as (line, emulator), here(
                    lambda: EnttecPro(str(made / "adapter"), made), name=line) as served:
            shared = f"shared by process {os.getpid()}, "
            found = adapters.look_at(Path(line.partition(":")[2]))
            told = f"it sends as {SOURCE}; its firmware can't be asked meanwhile"
            self.assertEqual((found.text, found.fault), (f"{shared}0 programs; no discovery so far; {told}", None))
            with Program(served.place.path) as program:
                program.ask({"do": "discover"})
                count = len(program.next("devices")["devices"])
                program.ask({"do": "pause"})
                wanted = f"{shared}1 program; a program has paused it; {count} devices found; {told}"
                self.assertEqual(doctor.adapters(line)[0], ("adapter", f"{line}: {wanted}"))
                emulator.__exit__(None, None, None)
                self.assertFalse(program.next("there")["there"])
                self.assertRegex(adapters.sharing(line) or "", f"^{shared}1 program; .*adapter.*; {count} devices")

    def test_what_the_doctor_says_of_a_line(self) -> None:
        with here(five, name=LINE) as served:
            self.assertRegex(doctor.state_of(LINE), f"^shared by process {os.getpid()}, 0 programs; .* as {SOURCE}$")
            with contextlib.ExitStack() as stack:
                for _ in range(MOST_CLIENTS):
                    stack.enter_context(Program(served.place.path))
                self.assertEqual(doctor.state_of(LINE),
                                 f"the server of {LINE} refused it: sixteen clients have joined")
        with runtime() as made, self.adapter(made) as (line, _):
            self.assertEqual(doctor.adapters(LINE)[-1], ("line", f"{LINE}: {doctor.NOT_SHARED}"))
            self.assertIn(", firmware 2.4, RDM", doctor.adapters(line)[0][1])
            for text, said in (("foo", "it names no line; "), ("ola:x", "'ola:x' names no universe"),
                               (f"ola:1:{NO_PORT}", "olad doesn't listen"), ("enttec:/nope", "No such file")):
                self.assertTrue(any(said in found for _, found in doctor.adapters(text)), text)

    def test_an_adapter_that_is_unplugged_is_waited_for(self) -> None:
        with folder() as made:
            with self.adapter(made) as (line, emulator), mock.patch.object(worker, "LOOK_SECONDS", 0.05):
                stack = contextlib.ExitStack()
                served = stack.enter_context(here(lambda: EnttecPro(str(made / "adapter"), made), name=line))
                program = stack.enter_context(Program(served.place.path))
                program.ask(GET)
                self.assertEqual(program.read()["data"], LABEL)
                emulator.__exit__(None, None, None)
                self.assertEqual(program.read(), {"event": "line", "there": False, "reason": "the adapter is gone"})
                program.ask(GET)
                self.assertFalse(program.ask({"do": "status"})["there"])
                with self.adapter(made):
                    # The request has waited for it.
                    self.assertEqual(program.read(), {"event": "line", "there": True})
                    self.assertEqual(program.read()["data"], LABEL)
                    stack.close()

    def test_another_adapter_in_its_place_is_not_used(self) -> None:
        plugged = [Plug(), Plug(source="7ff0:00000002")]
        first, other = plugged
        broadcast = {"do": "set", "uid": "ffff:ffffffff", "pid": "1000", "data": "01"}
        with mock.patch.object(worker, "LOOK_SECONDS", 0.02), here(lambda: plugged[0]) as made, \
                Program(made.place.path) as program:
            plugged.pop(0)
            first.is_plugged = False
            self.assertFalse(program.next("there")["there"])
            program.ask(broadcast)
            while program.ask({"do": "status"})["reason"] != "another adapter is in its place":
                time.sleep(0.01)
            plugged[0] = Plug()
            self.assertTrue(program.next("there")["there"])
            # FORMATS: 1 is WasBroadcast.
            self.assertEqual(program.read(), {"request": 0, "status": 1})
            self.assertEqual((other.exchanges, plugged[0].exchanges), (0, 1))

    def test_the_reason_is_that_of_now(self) -> None:
        plug = Plug()
        with mock.patch.object(worker, "LOOK_SECONDS", 0.02), here(lambda: plug) as made, \
                Program(made.place.path) as program:
            plug.failure = "the adapter didn't end an exchange"
            program.ask(GET)
            self.assertEqual(program.read()["reason"], "the adapter didn't end an exchange")
            plug.failure = ""
            plug.is_plugged = False
            self.assertEqual(program.next("there")["reason"], "the adapter is gone")

    def test_a_far_end_that_has_ended_is_started_again(self) -> None:
        # It answers once: nobody has said anything.
        with mock.patch.object(worker, "LOOK_SECONDS", 0.02), \
                here(lambda: TextLine.run(["sh", "-c", "read frame; echo"])) as made, \
                Program(made.place.path) as program:
            for _ in range(2):
                program.say(GET)
                said = [program.next("status", "there") for _ in range(3)]
                self.assertEqual([each["status"] for each in said if "status" in each], [TIMEOUT])
                self.assertEqual([each["there"] for each in said if "there" in each], [False, True])

    def test_requests_do_not_wait_for_it_for_ever(self) -> None:
        with folder() as made, mock.patch.object(worker, "LOOK_SECONDS", 0.05), \
                mock.patch.object(worker, "GRACE_SECONDS", 0.2):
            with self.adapter(made) as (line, emulator), \
                    here(lambda: EnttecPro(str(made / "adapter"), made), name=line), connect(line) as client:
                emulator.__exit__(None, None, None)
                began = time.monotonic()
                client.get(LEFT, 0x82)
                client.discover()
                while len(client.queue.outcomes) < 2 and time.monotonic() < began + SECONDS:
                    client.queue._sleep(0.05)
                ends = {kind_of(each): each for each in client.queue.outcomes}
                self.assertIs(ends[OutcomeKind.REQUEST].status, Status.FAILED_TO_SEND)
                self.assertIs(ends[OutcomeKind.DISCOVERY].fault.kind, RunFaultKind.LINE_FAILED)


@needs_library
class Ends(LongTestCase):
    """Signals, time, and systemd."""

    def test_a_signal_answers_everybody(self) -> None:
        hangs = f"exec:{sys.executable} -c 'import time; time.sleep(99)'"
        with folder() as made, serve(made, "--line", hangs) as server:
            path = server.socket
            with Program(path) as first, Program(path) as second:
                first.ask(GET)
                second.ask(GET)
                second.ask({"do": "discover"})
                server.send_signal(signal.SIGTERM)
                said = first.rest(), second.rest()
            # FORMATS: 2 is FailedToSend. Of a discovery, 4 is LineFailed, and 5 is Aborted.
            self.assertEqual([each.get("status") for one in said for each in one if "status" in each], [2, 2])
            self.assertIn([each["fault"] for each in said[1] if "fault" in each], ([4], [5]))
            self.assertEqual([one[-1]["error"] for one in said], ["Closed", "Closed"])
            self.assertEqual(server.wait(SECONDS), 0)
            self.assertFalse(os.path.lexists(path))

    def test_other_signals(self) -> None:
        for number in (signal.SIGINT, signal.SIGHUP):
            with folder() as made, serve(made, "--line", LINE) as server, Program(server.socket) as program:
                server.send_signal(number)
                self.assertEqual([each["error"] for each in program.rest()], ["Closed"])
                self.assertEqual(server.wait(SECONDS), 0)

    def test_an_idle_server(self) -> None:
        with folder() as made, serve(made, "--line", LINE, "--idle", "0.1") as server:
            self.assertEqual(server.wait(SECONDS), 0)

    @staticmethod
    def started(made: Path, listener: socket.socket, *words: str) -> "subprocess.Popen[str]":
        """A server that systemd starts when somebody connects: it passes the socket as the descriptor 3."""
        code = ("import os, sys; os.dup2(int(sys.argv[1]), 3); os.environ.update(LISTEN_FDS='1', "
                "LISTEN_PID=str(os.getpid())); os.execv(sys.executable, [sys.executable, *sys.argv[2:]])")
        return subprocess.Popen([sys.executable, "-c", code, str(listener.fileno()), *TOOL[1:], "serve", *words],
                                env=environment(made), pass_fds=[listener.fileno()], stdout=subprocess.PIPE,
                                stderr=subprocess.PIPE, text=True)

    def test_a_socket_of_systemd_without_an_adapter(self) -> None:
        with folder() as made, socket.socket(socket.AF_UNIX) as listener:
            listener.bind(str(made / "socket"))
            listener.listen()
            listener.settimeout(0)
            with Program(made / "socket", None) as first, Program(made / "socket", None) as second:
                first.say(HELLO)
                out, errors = self.started(made, listener, "--line", "enttec:/dev/nowhere").communicate()
                text = "/dev/nowhere can't be opened: No such file or directory"
                self.assertEqual((out, errors), ("", f"wurstlinen: {text}\n"))
                said = [each.rest() for each in (first, second)]
                self.assertEqual(said, [[{"error": "NoLine", "text": text}]] * 2)
            # Nobody is left for whom systemd would start another one.
            self.assertRaises(BlockingIOError, listener.accept)

    def test_a_command_that_comes_while_the_server_ends(self) -> None:
        gate = Gate()
        with here(lambda: gate, name=LINE) as made, mock.patch.object(server, "ENDING_SECONDS", 20.0), \
                Program(made.place.path) as program:
            program.ask(GET)
            gate.began.acquire()
            with mock.patch.object(server.Server, "_accept", lambda served: None):
                late = Program(made.place.path, None)
                made.server.end()
                while made.place.path.exists():
                    time.sleep(0.01)
            # It isn't lost in the queue of the socket, and others don't find that any more.
            self.assertEqual([each["error"] for each in late.rest()], ["Closed"])
            late.close()
            self.assertEqual(called("get", LEFT, "device_label", "--line", LINE), (0, "Front left\n", ""))
            gate.is_open.set()
            self.assertEqual(program.next("data")["data"], LABEL)

    def test_a_command_that_comes_while_a_server_begins(self) -> None:
        with runtime():
            found = Place(LINE)
            # The server waits for the line, and nobody waits for the server.
            self.assertEqual(called("get", LEFT, "device_label", "--line", LINE), (0, "Front left\n", ""))
            found.close()

    def test_commands_wait_for_a_server_that_has_too_many_programs(self) -> None:
        with here(five, name=LINE) as made:
            programs = [Program(made.place.path) for _ in range(16)]
            who = f"the server of {LINE}"
            status, _, errors = called("get", LEFT, "device_label", "--line", LINE, "--wait-line", "0.1")
            self.assertEqual(errors.splitlines()[0], f"wurstlinen: waiting for {who}")
            self.assertEqual((status, len(errors.splitlines())), (1, 2))
            threading.Timer(0.3, programs[0].close).start()
            self.assertEqual(called("get", LEFT, "device_label", "--line", LINE),
                             (0, "Front left\n", f"wurstlinen: waiting for {who}\n"))
            for each in programs[1:]:
                each.close()

    def test_a_server_that_ends_before_it_answers_is_waited_for(self) -> None:
        with runtime():
            found = Place(LINE)
            found.listen()
            threading.Timer(0.3, found.close).start()
            status, out, errors = called("get", LEFT, "device_label", "--line", LINE)
            self.assertEqual((status, out, errors),
                             (0, "Front left\n", f"wurstlinen: waiting for the server of {LINE}\n"))

    def test_a_place_that_cannot_be_used_is_named(self) -> None:
        with folder() as made, socket.socket(socket.AF_UNIX) as listener:
            (made / "wurstlinen").mkdir(mode=0o700)
            lock = Path(place.path_of(str(made / "wurstlinen"), LINE)).with_suffix(".lock")
            lock.symlink_to(made / "elsewhere")
            done = command(made, "serve", "--line", LINE)
            self.assertEqual((done.returncode, done.stderr),
                             (1, f"wurstlinen: {lock} can't be used: Too many levels of symbolic links\n"))
            listener.bind(str(made / "socket"))
            listener.listen()
            text = "the socket that systemd passes has a group already: leave out --group"
            _, errors = self.started(made, listener, "--line", LINE, "--group", "nogroup").communicate(timeout=SECONDS)
            self.assertEqual(errors, f"wurstlinen: {text}\n")

    def test_no_server_takes_a_socket_on_which_somebody_listens(self) -> None:
        with folder() as made, socket.socket(socket.AF_UNIX) as listener:
            (made / "wurstlinen").mkdir(mode=0o700)
            path = place.path_of(str(made / "wurstlinen"), LINE)
            listener.bind(path)
            listener.listen()
            done = command(made, "serve", "--line", LINE)
            self.assertEqual((done.returncode, done.stderr),
                             (1, f"wurstlinen: {LINE} is served already: another program listens on {path}\n"))
            with Program(path, None):
                pass

    def test_a_socket_of_systemd(self) -> None:
        with folder() as made, socket.socket(socket.AF_UNIX) as listener:
            (made / "wurstlinen").mkdir(mode=0o700)
            path = place.path_of(str(made / "wurstlinen"), LINE)
            listener.bind(path)
            listener.listen()
            with Program(path, None) as program:
                server = self.started(made, listener, "--line", LINE, "--idle", "0.1")
                self.assertEqual(program.ask(HELLO)["line"], LINE)
                program.ask(GET)
                self.assertEqual(program.read()["data"], LABEL)
                self.assertEqual(command(made, "get", LEFT, "device_label", "--line", LINE).stdout, "Front left\n")
            self.assertEqual(server.communicate(timeout=SECONDS)[0], f"{LINE} is shared at {path}\n")
            # The socket is systemd's, and stays.
            self.assertEqual((server.returncode, os.path.lexists(path)), (0, True))

    def test_a_line_that_breaks(self) -> None:
        class Broken(Rig):
            def exchange(self, frame: bytes) -> bytes:
                raise ZeroDivisionError("no reply")
        chosen = argparse.Namespace(line=LINE, source=None, log=None, idle=None, group=None)
        with runtime(), mock.patch.object(sharing, "end_by"):
            found = Place(LINE)
            found.listen()
            asking = threading.Thread(target=self.ask, args=(found.path,), daemon=True)
            asking.start()
            output = Output(False, io.StringIO(), io.StringIO())
            with self.assertRaises(Failure) as raised:
                sharing.serve(chosen, output, Broken(FIVE), found)
            text = f"{LINE} has ended the server: ZeroDivisionError('no reply')"
            self.assertEqual((raised.exception.status, str(raised.exception)), (1, text))
            asking.join(SECONDS)
            found.close()

    @staticmethod
    def ask(path: Path) -> None:
        """Has a frame sent."""
        with Program(path) as program:
            program.ask(GET)
            program.rest()

    def test_a_wrong_socket(self) -> None:
        for kind in (socket.AF_INET, socket.AF_UNIX):
            text = "isn't one that listens on a path"
            with socket.socket(kind) as listener, self.assertRaisesRegex(LineFailed, text):
                Passed(listener)

    def test_two_servers_of_a_line(self) -> None:
        with folder() as made, serve(made, "--line", LINE) as server:
            done = command(made, "serve", "--line", LINE)
            self.assertEqual((done.returncode, done.stderr),
                             (1, f"wurstlinen: {LINE} is served by process {server.pid}\n"))

    def test_what_cannot_be_served(self) -> None:
        with folder() as made:
            rows = ((["--line", "rig:/nowhere"], "wurstlinen: /nowhere: No such file or directory\n"),
                    (["--line", LINE, "--log", "/nowhere/log"],
                     "wurstlinen: /nowhere/log: No such file or directory\n"),
                    (["--line", LINE, "--group", "no such"], "wurstlinen: there is no group no such\n"))
            for words, text in rows:
                done = command(made, "serve", *words)
                self.assertEqual((done.returncode, done.stderr), (1, text))
                self.assertEqual(list(made.glob("wurstlinen/*.socket")), [])
