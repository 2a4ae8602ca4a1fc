"""Programs that do a server harm, and places that aren't what they should be: refused by name, and nobody is hurt."""
from __future__ import annotations

import contextlib
import errno
import os
import random
import socket
import stat
import threading
import time
import unittest
from pathlib import Path
from typing import Any, Dict, Iterator, List, Optional, Tuple
from unittest import mock

from common import TestCase, folder, needs_library
from moments import held
from servers import HELLO, SECONDS, Here, Program, here, runtime
from test_serve import GET, LABEL, Gate, five
from wurstlinen import Completion, LogFull, Request, Status, Uid
from wurstlinen.shared import journal, listening, peer, place, server, worker
from wurstlinen.shared.lane import Call, Lane
from wurstlinen.shared.listening import Place
from wurstlinen.shared.place import BadPlace

NOBODY = 65534
# These tests may run as nobody, too.
SOMEBODY_ELSE = os.geteuid() + 1
GIGABYTE = 1 << 30
PIECE = 1 << 16


@needs_library
class Hostile(TestCase):
    """While a program does harm, another one is served."""

    @contextlib.contextmanager
    def served(self) -> Iterator[Tuple[Here, Program]]:
        """A server with a good program, which is served at the end as at the beginning."""
        with here(five) as made, Program(made.place.path) as good:
            self.check(good)
            yield made, good
            self.check(good)

    def check(self, good: Program) -> None:
        began = time.monotonic()
        good.say(GET)
        self.assertEqual(good.next("data")["data"], LABEL)
        self.assertLess(time.monotonic() - began, 2.0)

    def test_garbage(self) -> None:
        chance = random.Random(1)
        for says in (HELLO, None):
            with self.served() as (made, good), Program(made.place.path, says) as bad:
                with contextlib.suppress(OSError):
                    for _ in range(200):
                        bad.write(chance.randbytes(chance.randrange(1, 2000)))
                said = bad.rest()
                self.assertIn(said[-1]["error"], ("TooManyFaults", "LineTooLong"))
                self.assertLessEqual(len(said), peer.MOST_FAULTS + 1)

    def test_a_request_that_is_nested_deeply(self) -> None:
        with self.served() as (made, good):
            # What json reads, it may not be able to write.
            for form in (b'{"do":"status","id":@}', b'{"do":@}', b'{"do":"get","uid":@}', b'{"do":"subscribe","to":@}'):
                for depth in range(900, 1000, 1 if b"id" in form else 9):
                    with Program(made.place.path) as bad:
                        bad.write(form.replace(b"@", b"[" * depth + b"]" * depth) + b"\n")
                        self.assertEqual(bad.read()["error"], "BadRequest")

    def test_a_fault_of_the_server_ends_one_program_alone(self) -> None:
        def status(*_: object) -> None:
            raise ZeroDivisionError("by a test")
        with self.served() as (made, good), mock.patch.dict(server.ANSWERS, status=status), \
                Program(made.place.path) as bad:
            bad.say({"do": "status"})
            self.assertEqual(bad.rest(), [{"error": "ServerFault",
                                           "text": "the server has a fault: ZeroDivisionError('by a test')"}])

    def test_faults_count_if_they_are_in_a_row(self) -> None:
        with self.served() as (made, good), Program(made.place.path) as bad:
            for _ in range(2 * peer.MOST_FAULTS):
                self.assertIn("error", bad.ask({"do": "typo"}))
                self.assertIn("line", bad.ask({"do": "status"}))

    def test_many_requests_at_once_keep_nobody_waiting(self) -> None:
        def devices(*_: object) -> Dict[str, Any]:
            time.sleep(0.004)
            return {"devices": "x" * 5000}
        with mock.patch.dict(server.ANSWERS, devices=devices), self.served() as (made, good):
            bad = [Program(made.place.path) for _ in range(3)]
            for each in bad:
                each.write(b'{"do":"devices"}\n' * 240)
            for _ in range(3):
                self.check(good)
            # Nothing is made that they don't read.
            time.sleep(0.5)
            self.assertLess(max(len(each._unread) for each in made.server._peers), peer.MOST_UNREAD_BYTES + 6000)
            self.assertEqual([len([each.read() for _ in range(240)]) for each in bad], [240] * 3)
            for each in bad:
                each.close()

    def test_who_waits_for_a_client_keeps_nobody_busy(self) -> None:
        turns: List[float] = []
        turn = server.Server._turn

        def counted(served: server.Server, seconds: float) -> None:
            turns.append(time.monotonic())
            turn(served, seconds)
        gate = Gate()
        with mock.patch.object(server.Server, "_turn", counted), here(lambda: gate) as made:
            for _ in range(16):
                with Program(made.place.path) as dead:
                    dead.ask(GET)
            waiting, gone = Program(made.place.path, None), Program(made.place.path, None)
            for each in (waiting, gone):
                each.say(HELLO)
            time.sleep(0.2)
            waiting.say(GET)
            gone.close()
            began = len(turns)
            time.sleep(0.5)
            self.assertLess(len(turns) - began, 10)
            gate.is_open.set()
            self.assertEqual(waiting.next("data")["data"], LABEL)
            waiting.close()

    def test_who_fills_the_log(self) -> None:
        gate = Gate()
        with mock.patch("servers.CAPACITY", 64), mock.patch.object(worker, "ROOM", 32), \
                mock.patch.object(journal, "FULL_ENOUGH", 16), here(lambda: gate) as made, \
                Program(made.place.path) as bad, Program(made.place.path) as good:
            good.ask(GET)
            gate.began.acquire()
            # Nothing is collected or sent meanwhile.
            for _ in range(50):
                bad.say({"do": "pause", "id": 1})
                self.assertEqual(bad.next("id"), {"id": 1, "paused": True})
                bad.say({"do": "resume", "id": 2})
                self.assertEqual(bad.next("id"), {"id": 2, "paused": False})
            good.say(GET)
            self.assertEqual(good.next("request"), {"request": 1})
            gate.is_open.set()
            self.assertEqual([good.next("data")["request"] for _ in range(2)], [0, 1])

    def test_what_is_refused_changes_nothing_later(self) -> None:
        def full() -> None:
            raise LogFull
        with self.served() as (made, good), Program(made.place.path) as operator:
            for name, paused in (("pause", False), ("resume", True)):
                with mock.patch.object(made.session, name, full):
                    operator.say({"do": name, "id": 1})
                    self.assertEqual(operator.next("id")["error"], "LogFull")
                for _ in range(3):
                    operator.say({"do": "status", "id": 2})
                    self.assertIs(operator.next("id")["paused"], paused)
                operator.say({"do": "pause" if not paused else "resume", "id": 3})
                operator.next("id")

    def test_a_result_that_nobody_awaits_reaches_nobody(self) -> None:
        class Foreign:
            def __init__(self) -> None:
                self.outcomes = [Completion(7, Status.TIMEOUT, None, b""), Completion(3, Status.TIMEOUT, None, b"")]

            def submit(self, request: object) -> int:
                return 3

            def next_outcome(self) -> Optional[Completion]:
                return self.outcomes.pop(0)
        foreign: Any = Foreign()
        lane = Lane(foreign)
        lane.submit(Call(lane, 9, Request(Uid(0x1234, 1), 0x0082)))
        self.assertEqual([each.number for each in lane.collected()], [9])

    def test_a_line_without_an_end(self) -> None:
        with self.served() as (made, good), Program(made.place.path) as bad:
            sent = 0
            try:
                while sent < GIGABYTE:
                    bad.write(bytes(PIECE))
                    sent += PIECE
            except OSError:
                pass
            self.assertLess(sent, 1 << 22)
            self.assertEqual(bad.read(), {"error": "LineTooLong", "text": "a line has more than 4096 bytes"})

    def test_half_a_request(self) -> None:
        with mock.patch.object(peer, "HELLO_SECONDS", 0.3), mock.patch.object(server, "HOUSEKEEPING_SECONDS", 0.05), \
                self.served() as (made, good):
            with Program(made.place.path, None) as bad, Program(made.place.path) as other:
                bad.write(b'{"do":"hel')
                other.write(b'{"do":"get","uid":"1234:')
                self.assertEqual([each["error"] for each in bad.rest()], ["NoHello"])
                # One that has begun may take its time.
                other.write(b'00000001","pid":"0082"}\n')
                self.assertEqual(other.next("data")["data"], LABEL)

    def test_who_reads_nothing(self) -> None:
        with mock.patch.object(peer, "STALL_SECONDS", 0.5), mock.patch.object(server, "HOUSEKEEPING_SECONDS", 0.05), \
                self.served() as (made, good), Program(made.place.path) as bad:
            bad.ask({"do": "subscribe", "to": ["frames"]})
            bad.socket.settimeout(0.2)
            with contextlib.suppress(OSError):
                while True:
                    bad.say({"do": "devices", "id": 1})
            for _ in range(50):
                self.check(good)
            time.sleep(0.7)
            self.check(good)
            self.assertEqual(good.ask({"do": "status"})["clients"], 1)

    def test_who_reads_slowly_misses_events_and_no_result(self) -> None:
        with mock.patch.object(peer, "MOST_UNREAD_BYTES", 2000), self.served() as (made, good), \
                Program(made.place.path) as slow:
            slow.ask({"do": "subscribe", "to": ["frames"]})
            slow.ask(GET)
            # The socket itself takes some hundred kilobytes.
            while not any(each._missed for each in made.server._peers):
                self.check(good)
            found = [slow.read()]
            while "count" not in found[-1]:
                self.check(good)
                found.append(slow.read())
            self.assertGreater(found[-1]["count"], 0)
            self.assertEqual(sum("data" in each for each in found), 1)

    def test_thousands_of_connections_at_once(self) -> None:
        with self.served() as (made, good):
            held = []
            try:
                for _ in range(3000):
                    bad = Program(made.place.path, None)
                    held.append(bad)
                    if len(held) == 200:
                        self.check(good)
                        for each in held:
                            each.close()
                        held.clear()
            finally:
                for each in held:
                    each.close()

    def test_too_many_connections_are_refused_by_name(self) -> None:
        with self.served() as (made, good):
            held = [Program(made.place.path, None) for _ in range(server.MOST_CONNECTIONS - 1)]
            with Program(made.place.path, None) as bad:
                self.assertEqual(bad.read(), {"error": "TooManyConnections", "text": "64 programs are connected"})
            for each in held:
                each.close()

    def test_who_says_nothing_has_to_leave(self) -> None:
        with mock.patch.object(peer, "HELLO_SECONDS", 0.2), mock.patch.object(server, "HOUSEKEEPING_SECONDS", 0.05), \
                self.served() as (made, good), Program(made.place.path, None) as bad:
            self.assertEqual([each["error"] for each in bad.rest()], ["NoHello"])

    def test_a_flood_of_requests(self) -> None:
        with self.served() as (made, good):
            def flood() -> None:
                with contextlib.suppress(OSError, AssertionError), Program(made.place.path) as bad:
                    end = time.monotonic() + 1.0
                    while time.monotonic() < end:
                        bad.ask({"do": "status"})
            threads = [threading.Thread(target=flood) for _ in range(4)]
            for thread in threads:
                thread.start()
            for _ in range(20):
                self.check(good)
            for thread in threads:
                thread.join(SECONDS)

    def test_no_descriptors_are_left(self) -> None:
        accept = socket.socket.accept
        faults = iter([OSError(errno.EMFILE, "too many open files"), OSError(errno.ENOBUFS, "no room")])

        def scarce(listener: socket.socket) -> Any:
            for fault in faults:
                raise fault
            return accept(listener)
        with self.served() as (made, good), mock.patch.object(server, "HOUSEKEEPING_SECONDS", 0.05), \
                mock.patch.object(socket.socket, "accept", scarce), Program(made.place.path) as program:
            self.check(program)
            self.assertIsNone(next(faults, None))

    def test_another_user_is_refused(self) -> None:
        with here(five, users=frozenset({SOMEBODY_ELSE})) as made, Program(made.place.path, None) as program:
            self.assertEqual(program.read(), {"error": "OtherUser", "text": "this line is another user's"})


class Places(TestCase):
    """The folder and the socket: made with these modes, and refused if they aren't what they should be."""

    def test_modes(self) -> None:
        with runtime() as made:
            found = Place("rig:/it")
            self.assertEqual(found.path.parent, made / "wurstlinen")
            self.assertEqual([stat.S_IMODE(os.lstat(path).st_mode) for path in (found.path.parent, found.path)],
                             [0o700, 0o600])
            found.close()
            self.assertFalse(found.path.exists())

    def test_no_other_threads_file_gets_another_mode(self) -> None:
        with runtime(), mock.patch("os.umask", side_effect=AssertionError("it is that of all threads")):
            Place("rig:/it").close()

    def test_what_cannot_be_made_leaves_nothing_open(self) -> None:
        for call in ("fcntl.flock", "os.truncate", "os.write", "os.fchmod"):
            before = held()
            with runtime(), mock.patch(call, side_effect=OSError(errno.ENOSPC, "no space")):
                self.assertRaisesRegex(OSError, "no space", Place, "rig:/it")
            self.assertEqual(held(), before, call)

    def test_what_systemd_does_not_say(self) -> None:
        for count in ("", "x", "-1", "\u00b2", "1" * 5_000):
            with mock.patch.dict(os.environ, LISTEN_PID=str(os.getpid()), LISTEN_FDS=count):
                self.assertEqual(list(listening.activated()), [])

    def test_modes_whatever_the_umask_is(self) -> None:
        before = os.umask(0o377)
        try:
            self.test_modes()
        finally:
            os.umask(before)

    def test_names(self) -> None:
        def name_of(line: str) -> str:
            return Path(place.path_of("/run", line)).name
        self.assertEqual(name_of("enttec:/dev/ttyUSB0"), "dev-ttyUSB0.socket")
        # As `systemd-escape --path` has it.
        self.assertEqual(name_of("enttec:/dev/a-b/ü"), "dev-a\\x2db-\\xc3\\xbc.socket")
        with folder() as made:
            (made / "link").symlink_to(made / "rig.json")
            self.assertEqual(name_of(f"rig:{made}/link"), name_of(f"rig:{made}/x/../rig.json"))
        self.assertNotEqual(name_of("exec:one"), name_of("exec:two"))
        before = os.getcwd()
        try:
            os.chdir("/usr")
            elsewhere = name_of("exec:sh far_end")
        finally:
            os.chdir(before)
        self.assertNotEqual(elsewhere, name_of("exec:sh far_end"))
        self.assertEqual(name_of("text:/a-b,/c"), "text@-a\\x2db\\x2c-c.socket")
        # `printf %s LONG | sha256sum`, where LONG is what comes after the kind.
        for line, wanted in ((f"enttec:/{'x' * 100}", "enttec@e50e7828cbafcbee.socket"),
                             (f"rig:/{'x' * 100}", "rig@e50e7828cbafcbee.socket")):
            self.assertEqual(name_of(line), wanted)

    def test_an_adapter_keeps_its_name(self) -> None:
        with folder() as made, mock.patch.object(place, "BY_ID", str(made / "by-id")):
            device, other, link = (f"enttec:{made / name}" for name in ("ttyUSB0", "ttyUSB1", "by-id/usb-Pro"))
            self.assertEqual(place.canonical(device), device)
            (made / "by-id").mkdir()
            (made / "by-id/usb-Pro").symlink_to(made / "ttyUSB0")
            self.assertEqual([place.canonical(line) for line in (device, link, other)], [link, link, other])
            # Now it has another number.
            (made / "by-id/usb-Pro").unlink()
            self.assertEqual(place.canonical(link), link)
            (made / "by-id/usb-Pro").symlink_to(made / "ttyUSB1")
            self.assertEqual([place.canonical(line) for line in (device, link, other)], [device, link, link])

    def test_without_a_runtime_folder(self) -> None:
        with folder() as made, mock.patch.object(place, "TEMPORARY_FOLDER", str(made)):
            for runtime_folder in ("", "relative", "/nowhere", str(made / "file")):
                with mock.patch.dict(os.environ, {"XDG_RUNTIME_DIR": runtime_folder}):
                    self.assertEqual(place.own_folder(), str(made / f"wurstlinen-{os.geteuid()}"))
            open_to_all = made / "open"
            open_to_all.mkdir()
            open_to_all.chmod(0o777)
            with mock.patch.dict(os.environ, {"XDG_RUNTIME_DIR": str(open_to_all)}):
                self.assertEqual(os.path.dirname(place.own_folder()), str(made))
                found = Place("rig:/it")
                self.assertEqual(stat.S_IMODE(os.lstat(found.path.parent).st_mode), 0o700)
                found.close()

    def test_a_hostile_folder(self) -> None:
        with runtime() as made:
            target = made / "wurstlinen"
            other = made / "other"
            other.mkdir(mode=0o700)
            own = "isn't used: it isn't this user's own, with mode 0700"
            def make_anothers() -> None:
                target.mkdir(mode=0o700)
                os.chown(target, NOBODY, -1)
            made_by = [(lambda: target.symlink_to(other), "isn't used: it is no folder"),
                       (lambda: target.write_text(""), "isn't used: it is no folder"),
                       (lambda: (target.mkdir(), target.chmod(0o750)), own),
                       (lambda: (target.mkdir(), target.chmod(0o500)), own),
                       *([(make_anothers, own)] if os.geteuid() == 0 else [])]
            for make, text in made_by:
                make()
                with self.assertRaises(BadPlace) as raised:
                    Place("rig:/it")
                self.assertEqual(str(raised.exception), f"{target} {text}")
                self.assertRaisesRegex(BadPlace, text, place.connected, "rig:/it")
                target.rmdir() if target.is_dir() and not target.is_symlink() else target.unlink()

    def test_what_is_in_the_place_of_the_socket(self) -> None:
        with runtime() as made:
            (made / "wurstlinen").mkdir(mode=0o700)
            path = Path(place.path_of(str(made / "wurstlinen"), "rig:/it"))
            for make, text in ((lambda: path.symlink_to("/elsewhere"), "it is a link"),
                               (lambda: path.write_text("kept"), "it is no socket"), (path.mkdir, "it is no socket")):
                make()
                for call in (Place, place.connected):
                    with self.assertRaises(BadPlace) as raised:
                        call("rig:/it")
                    self.assertEqual(str(raised.exception), f"{path} isn't used: {text}")
                self.assertTrue(os.path.lexists(path))
                path.rmdir() if path.is_dir() and not path.is_symlink() else path.unlink()

    def test_a_socket_that_was_left_behind(self) -> None:
        with runtime():
            first = Place("rig:/it")
            first.listener.close()
            os.close(first._lock)
            self.assertIsNone(place.connected("rig:/it"))
            second = Place("rig:/it")
            second.listen()
            with contextlib.closing(place.connected("rig:/it")) as connection:
                self.assertEqual(place.user_of(connection), os.geteuid())
            second.close()

    def test_two_servers(self) -> None:
        with runtime():
            first = Place("rig:/it")
            with self.assertRaises(BadPlace) as raised:
                Place("rig:/it")
            self.assertEqual(str(raised.exception), f"rig:/it is served by process {os.getpid()}")
            Place("rig:/other").close()
            first.close()
            Place("rig:/it").close()

    def test_a_socket_is_removed_only_by_its_own_server(self) -> None:
        with runtime():
            first = Place("rig:/it")
            # As a cleaner of /tmp does it.
            first.path.with_suffix(".lock").unlink()
            second = Place("rig:/it")
            first.close()
            second.listen()
            second.path.with_suffix(".lock").unlink()
            with self.assertRaisesRegex(BadPlace, "rig:/it is served already"):
                Place("rig:/it")
            with contextlib.closing(place.connected("rig:/it")):
                pass
            second.close()
            self.assertFalse(second.path.exists())

    def test_a_long_name(self) -> None:
        with folder() as made:
            long = made / ("x" * 90)
            long.mkdir(mode=0o700)
            with mock.patch.dict(os.environ, {place.RUNTIME_VARIABLE: str(long)}), \
                    self.assertRaisesRegex(BadPlace, "is longer than the 107 bytes"):
                Place("rig:/it")

    def test_another_users_server(self) -> None:
        with runtime():
            made = Place("rig:/it")
            made.listen()
            with mock.patch.object(place, "user_of", lambda connection: SOMEBODY_ELSE):
                self.assertRaisesRegex(BadPlace, "another user's program has it", place.connected, "rig:/it")
            made.close()

    @unittest.skipUnless(os.geteuid() == 0, "needs root")
    def test_the_socket_is_nobody_elses(self) -> None:
        with runtime() as made:
            found = Place("rig:/it")
            found.listen()
            made.chmod(0o755)
            found.path.parent.chmod(0o755)
            child = os.fork()
            if not child:
                try:
                    os.setuid(NOBODY)
                    socket.socket(socket.AF_UNIX).connect(str(found.path))
                except PermissionError:
                    os._exit(0)
                finally:
                    os._exit(1)
            self.assertEqual(os.waitpid(child, 0)[1], 0)
            found.close()

    @unittest.skipUnless(os.geteuid() == 0, "needs root")
    def test_a_group(self) -> None:
        with folder() as made:
            made.chmod(0o755)
            with mock.patch.object(place, "SYSTEM_FOLDER", str(made / "wurstlinen")), \
                    mock.patch.object(listening, "SYSTEM_FOLDER", str(made / "wurstlinen")), runtime():
                found = Place("rig:/it", "nogroup")
                modes = [(stat.S_IMODE(each.st_mode), each.st_gid)
                         for each in map(os.lstat, (found.path.parent, found.path))]
                self.assertEqual(modes, [(0o750, NOBODY), (0o660, NOBODY)])
                self.assertIsNone(found.users)
                found.listen()
                with contextlib.closing(place.connected("rig:/it")):
                    pass
                found.path.parent.chmod(0o777)
                self.assertRaisesRegex(BadPlace, "others may write to it", place.connected, "rig:/it")
                found.close()
                self.assertRaisesRegex(BadPlace, "there is no group none", Place, "rig:/it", "none")
                found.path.parent.chmod(0o750)
                text = f"{found.path.parent} isn't used: it isn't the group daemon's, with mode 0750"
                self.assertRaisesRegex(BadPlace, text, Place, "rig:/it", "daemon")
