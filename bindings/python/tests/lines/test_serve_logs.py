"""The log of a server: whole lines of a session's log, in a file that doesn't grow for ever."""
from __future__ import annotations

import errno
import json
import os
import resource
import threading
import time
from typing import Any, List
from unittest import mock

from common import LongTestCase, TestCase, folder, needs_library
from moments import Trial
from servers import SECONDS, Program, command, serve
from test_serve import FIVE, GET
from wurstlinen import (
    Closed, Full, Kind, NoPlaces, OutOfMemory, Request, RequestClass, RunFault, RunFaultKind, Status, TooManyClients,
    Uid, UnknownClient,
)
from wurstlinen.entries import Answer, CallKind, Came, Finish, Refuse
from wurstlinen.shared.journal import CAPACITY, Journal, entry_keys, entry_line
from wurstlinen.shared.log_file import LogFile, LogWriter

LINE = f"rig:{FIVE}"
LABEL = Request(Uid(0x1234, 1), 0x0082, b"AB", 3, RequestClass.SET)


@needs_library
class Logs(LongTestCase):
    """The log of a server."""

    def test_it_is_a_sessions_log(self) -> None:
        with folder() as made:
            log = made / "log"
            with serve(made, "--line", LINE, "--log", str(log)) as server, Program(server.socket) as program:
                program.ask({"do": "discover"})
                program.ask(GET)
                program.next("data")
            entries = [json.loads(line) for line in log.read_text().splitlines()]
            self.assertEqual([each["entry"] for each in entries[:17]], ["opening", *["join"] * 16])
            self.assertEqual(list(entries[-1].items())[0], ("entry", "close"))
            times = [each["microseconds"] for each in entries[1:] if each["entry"] in ("send", "came")]
            self.assertEqual((times, "microseconds" in entries[0]), (sorted(times), False))
            self.assertGreater(len(set(times)), len(times) // 2)
            self.assertEqual(sum(each["entry"] == "accept" for each in entries),
                             sum(each["entry"] == "finish" for each in entries))
            done = command(made, "trace", str(log))
            self.assertEqual((done.returncode, done.stdout.count("\n")),
                             (0, sum(each["entry"] == "send" for each in entries)))

    def test_a_server_says_that_its_disk_is_full(self) -> None:
        with folder() as made:
            with serve(made, "--line", LINE, "--log", "/dev/full") as server:
                pass
            self.assertRegex(server.said, "^wurstlinen: /dev/full: .*; the log goes on when it can be written again\n$")

    def test_a_log_goes_on_though_nobody_hears_of_a_full_disk(self) -> None:
        """Standard error is a pipe whose reader has gone."""
        with folder() as made:
            log = made / "log"
            with serve(made, "--line", LINE, "--log", str(log)) as server, Program(server.socket) as program:
                assert server.stderr is not None
                server.stderr.close()
                program.ask(GET)
                program.next("data")
                log.unlink()
                log.symlink_to("/dev/full")
                program.ask(GET)
                program.next("data")
                # Now it has been tried.
                time.sleep(0.5)
                log.unlink()
                until = time.monotonic() + SECONDS
                while not log.exists() or not log.stat().st_size:
                    self.assertLess(time.monotonic(), until, "the log doesn't go on")
                    program.ask(GET)
                    program.next("data")

    def test_it_does_not_grow_for_ever(self) -> None:
        with folder() as made:
            said: List[str] = []
            log = LogFile(str(made / "log"), said.append, 100)
            log.open()
            for number in range(50):
                log.add([b"%09d\n" % number] * 2)
            log.close()
            self.assertEqual([(made / name).stat().st_size for name in ("log", "log.1")], [100, 100])
            self.assertEqual((made / "log").read_bytes()[-10:], b"000000049\n")
            self.assertEqual((said, sorted(each.name for each in made.iterdir())), ([], ["log", "log.1"]))

    def test_it_goes_on_in_a_new_file_if_it_is_moved(self) -> None:
        with folder() as made:
            log = LogFile(str(made / "log"), self.fail)
            log.add([b"1\n"])
            (made / "log").rename(made / "old")
            log.add([b"2\n"])
            (made / "log").unlink()
            log.add([b"3\n"])
            log.close()
            self.assertEqual(((made / "old").read_bytes(), (made / "log").read_bytes()), (b"1\n", b"3\n"))

    def test_a_disk_that_takes_half_a_line(self) -> None:
        with folder() as made:
            said: List[str] = []
            log = LogFile(str(made / "log"), said.append)
            log.add([b"first\n"])
            limits = resource.getrlimit(resource.RLIMIT_FSIZE)
            resource.setrlimit(resource.RLIMIT_FSIZE, (10, limits[1]))
            try:
                log.add([b"second\n"])
            finally:
                resource.setrlimit(resource.RLIMIT_FSIZE, limits)
            self.assertEqual((made / "log").read_bytes(), b"first\n")
            log.add([b"third\n"])
            log.close()
            self.assertEqual((made / "log").read_bytes(), b"first\nthird\n")
            self.assertEqual([text.rpartition("; ")[2] for text in said], [
                "the log goes on when it can be written again", f"{made / 'log'}: the log goes on after 1 lost lines"])

    def test_a_full_disk_is_reported_once_and_loses_no_half_line(self) -> None:
        with folder() as made:
            said: List[str] = []
            log = LogFile(str(made / "log"), said.append)
            log.add([b"first\n"])
            full = LogFile("/dev/full", said.append)
            full.open()
            file, log._file = log._file, None
            with mock.patch.object(log, "_name", "/dev/full"):
                log.add([b"lost\n"])
                log.add([b"lost\n", b"too\n"])
            file.close()
            log.add([b"last\n"])
            log.close()
            full.close()
            self.assertEqual((made / "log").read_bytes(), b"first\nlast\n")
            self.assertEqual(len(said), 2, said)
            self.assertTrue(said[0].endswith("the log goes on when it can be written again"), said)
            self.assertTrue(said[1].endswith("the log goes on after 3 lost lines"), said)

    def test_a_disk_that_hangs_stops_nobody(self) -> None:
        with folder() as made:
            os.mkfifo(made / "log")
            # Nobody reads, so a write waits as soon as the FIFO is full.
            held = os.open(made / "log", os.O_RDWR | os.O_NONBLOCK)
            with serve(made, "--line", LINE, "--log", str(made / "log")) as server, Program(server.socket) as program:
                for _ in range(300):
                    program.ask(GET)
                    program.next("data")
                began = time.monotonic()
                server.terminate()
                self.assertEqual(server.wait(SECONDS), 0)
                self.assertLess(time.monotonic() - began, 20.0)
            # It is as full as the size of a line allows.
            self.assertGreater(len(os.read(held, 1 << 20)), 50_000)
            os.close(held)

    def test_what_a_disk_that_hangs_loses_is_reported(self) -> None:
        with folder() as made:
            said: List[str] = []
            file, goes_on, has_begun = LogFile(str(made / "log"), said.append), threading.Event(), threading.Event()
            write = file._write

            def hanging(data: bytes) -> None:
                has_begun.set()
                goes_on.wait(SECONDS)
                write(data)
            with mock.patch.object(file, "_write", hanging):
                log = LogWriter(file, 20)
                log.add([b"first\n"])
                has_begun.wait(SECONDS)
                for _ in range(3):
                    log.add([b"123456789\n"])
                goes_on.set()
                while log._waiting:
                    time.sleep(0.01)
                log.add([b"last\n"])
                log.end(SECONDS)
            self.assertEqual((made / "log").read_bytes(), b"first\n123456789\nlast\n")
            self.assertEqual(said, [f"{made / 'log'}: the disk hangs; the log goes on when it can be written again",
                                    f"{made / 'log'}: the log goes on after 2 lost lines"])


class Texts(TestCase):
    """What a log says of an entry, by the page of formats."""

    def test_refusals(self) -> None:
        for causes, entry, text in (
                ((Closed, TooManyClients, NoPlaces, OutOfMemory),
                 lambda cause: Refuse(CallKind.JOIN, cause, places=5), '"places":5'),
                ((Closed, UnknownClient, Full), lambda cause: Refuse(CallKind.SUBMIT, cause, 7, request=LABEL),
                 '"client":7,"set":"1234:00000001","pid":"0082","sub":3,"param":"4142"'),
                ((Closed, UnknownClient, Full),
                 lambda cause: Refuse(CallKind.DISCOVER, cause, 7, kind=Kind.INCREMENTAL),
                 '"client":7,"discover":"incremental"')):
            for number, cause in enumerate(causes, 1):
                self.assertEqual(entry_line(entry_keys(entry(cause), 9)).decode(),
                                 f'{{"entry":"refuse",{text},"cause":{number},"microseconds":9}}\n')

    def test_ends(self) -> None:
        for entry, text in (
                (Came(None), '"came","failed":true'), (Came(b""), '"came","reply":""'),
                (Finish(0, Status.FAILED_TO_SEND, 0), '"finish","number":0,"status":2,"length":0'),
                (Answer(1, 2, None), '"answer","number":1,"run":2'),
                (Answer(1, 0, RunFault(RunFaultKind.ABORTED)), '"answer","number":1,"run":0,"fault":5'),
                (Answer(1, 2, RunFault(RunFaultKind.CORRUPT, LABEL.target)),
                 '"answer","number":1,"run":2,"fault":1,"uid":"1234:00000001"')):
            self.assertEqual(entry_line(entry_keys(entry, 9)).decode(), f'{{"entry":{text},"microseconds":9}}\n')

    def test_without_memory_for_a_page_nothing_is_lost(self) -> None:
        class Stored:
            """A session that stores entries."""

            def entry_count(self) -> int:
                return CAPACITY

            def entries(self, first: int) -> List[int]:
                return list(range(first, CAPACITY))

            def drain(self, entries: int) -> None:
                raise OutOfMemory()

        made = Journal(Stored())  # type: ignore[arg-type]
        self.assertEqual((made.drain(), len(made.new()), made.drain(), made.new()), ([], CAPACITY, [], []))


class Worst(TestCase):
    """What the thread that writes meets, which nobody would start again."""

    def test_an_exception_at_each_line_of_a_write(self) -> None:
        with folder() as made:
            def make() -> LogFile:
                (made / "log").unlink(missing_ok=True)
                log = LogFile(str(made / "log"), lambda text: None)
                log.add([b"first\n"])
                return log

            def check(log: LogFile, returned: List[Any]) -> None:
                log.add([b"last\n"])
                log.close()
                self.assertIn((made / "log").read_bytes(), (b"first\nlast\n", b"first\nsecond\nlast\n"))

            self.assertGreater(Trial(make, lambda log: log.add([b"second\n"]), check).run(), 10)

    def test_whatever_a_write_raises_the_next_lines_are_written(self) -> None:
        with folder() as made:
            said: List[str] = []
            file = LogFile(str(made / "log"), said.append)
            with mock.patch.object(file, "_write", side_effect=ZeroDivisionError("wrong")):
                log = LogWriter(file)
                log.add([b"lost\n"])
                while log._waiting:
                    time.sleep(0.01)
            log.add([b"next\n"])
            log.end(SECONDS)
            self.assertEqual((made / "log").read_bytes(), b"next\n")
            self.assertEqual(said, [
                f"{made / 'log'}: ZeroDivisionError('wrong'); the log goes on when it can be written again",
                f"{made / 'log'}: the log goes on after 1 lost lines"])

    def test_a_disk_that_fails_when_the_file_is_closed(self) -> None:
        with folder() as made:
            said: List[str] = []
            log = LogFile(str(made / "log"), said.append)

            class Failing:
                """A file of a server that is away."""

                def fileno(self) -> int:
                    raise OSError(errno.EIO, "away")

                def close(self) -> None:
                    raise OSError(errno.EIO, "away")

            for _ in range(2):
                log._file = Failing()  # type: ignore[assignment]
                log.add([b"lost\n"])
            log.add([b"next\n"])
            log._file.close()  # type: ignore[union-attr]
            log._file = Failing()  # type: ignore[assignment]
            log.end()
            self.assertEqual((made / "log").read_bytes(), b"next\n")
            self.assertEqual([text.partition(": ")[2] for text in said], [
                "away; the log goes on when it can be written again", "the log goes on after 2 lost lines",
                "away; the end of the log may be lost"])
