"""A universe of olad as a line: its messages, which Google's protobuf made for these tests, and daemons that misbehave.

`bindings/ola/tests/test_line.py` has the same with olad itself.
"""
from __future__ import annotations

import contextlib
import itertools
import socket
import threading
from pathlib import Path
from typing import Callable, Iterator, List, Optional, Tuple
from unittest import mock

from common import LongTestCase, TestCase, folder, needs_library
from fronts import called
from moments import FAULTS, SECONDS, Trace, Trial, elsewhere
from test_closing import Waiting
from wurstlinen import (
    AckType, Completion, Discovery, Kind, LineFailed, ReplyHead, Request, RequestClass, ResponseClass, RunFaultKind,
    Status, Uid,
)
from wurstlinen.olad import client, rpc
from wurstlinen.olad.client import OlaClient, universe_of
from wurstlinen.olad.rpc import Daemon, NoDaemon
from wurstlinen.olad.wire import BadMessage, Fixed, decode, encode, messages_in
from wurstlinen.tool import adapters

# A SET of IDENTIFY_DEVICE of the device 9abc:fffffffe, all sub-devices, in universe 1.
REQUEST = bytes.fromhex("2b000010080110011a0a52444d436f6d6d616e64"
                        "22190801120908bcb50215feffffff18ffff032080202a01013001")
# Its response with code 0, an ACK with the data 0102.
RESPONSE = bytes.fromhex("2400001008021001221e08001000180322020102288020300138ffff034a07080115020000005809")
REFUSED = bytes.fromhex("1c000010080410012216556e69766572736520646f65736e2774206578697374")
# A list of 9abc:00000002 and 1234:00000001.
UIDS = bytes.fromhex("0801120908bcb5021502000000120808b4241501000000")
FOUND = [0x123400000001, 0x9ABC00000002]
# A device with a port of RDM in universe 3, one of RDM without a universe, and one without RDM in universe 4.
DEVICES = bytes.fromhex("0a3f080110051a0350726f2a1408001000180320012a0853657269616c203140012a0c080110002a046e6f6e65"
                        "40012a0b0802100018042a03646d783203352d31")
IDENTIFY = Request(Uid.from_number(0x9ABCFFFFFFFE), 0x1000, b"\x01", 0xFFFF, RequestClass.SET)


def answer(number: int, fields: bytes, kind: int = 2) -> bytes:
    """A message of olad's, which answers the call of this number."""
    message = encode([(1, kind), (2, number), (4, fields)])
    return len(message).to_bytes(3, "little") + b"\x10" + message


# The only universe is 1.
UNIVERSES = answer(1, encode([(1, encode([(1, 1)]))]))


class Wire(TestCase):
    """Protocol Buffers, encoding."""

    def test_numbers(self) -> None:
        # The examples of the encoding's public description.
        self.assertEqual(encode([(1, 150)]).hex(), "089601")
        self.assertEqual(encode([(2, "testing")]).hex(), "120774657374696e67")
        self.assertEqual(decode(bytes.fromhex("1a03089601")), {3: [bytes.fromhex("089601")]})
        self.assertEqual(encode([(2, Fixed(0xFFFFFFFE))]).hex(), "15feffffff")
        self.assertEqual(decode(bytes.fromhex("09010000000000000015020000000803")), {1: [1, 3], 2: [2]})

    def test_what_is_no_message(self) -> None:
        for text in ("08", "0880", "12", "1205", "120561", "1501", "0b", "08" + "80" * 10 + "01", "0f"):
            self.assertRaises(BadMessage, decode, bytes.fromhex(text))
        self.assertRaises(BadMessage, messages_in, decode(b"\x08\x01"), 1)


class Script:
    """A daemon that answers each call with the next of these bytes, and keeps what it was asked. None ends it."""

    def __init__(self, *answers: Optional[bytes]) -> None:
        self.asked: List[bytes] = []
        self._answers = list(answers)
        self._listener = socket.create_server(("127.0.0.1", 0))
        self.port = self._listener.getsockname()[1]
        self.thread = threading.Thread(target=self._serve, daemon=True)
        self.thread.start()

    def _serve(self) -> None:
        with contextlib.suppress(OSError), self._listener.accept()[0] as connection:
            for answer_ in self._answers:
                self.asked.append(connection.recv(4096))
                if answer_ is None:
                    return
                connection.sendall(answer_)
            connection.recv(1)

    def __enter__(self) -> Script:
        return self

    def __exit__(self, *why: object) -> None:
        # A thread may wait for somebody.
        with contextlib.suppress(OSError):
            self._listener.shutdown(socket.SHUT_RDWR)
        self._listener.close()


@contextlib.contextmanager
def on(*answers: Optional[bytes]) -> Iterator[Tuple[Script, Daemon]]:
    """A connection to such a daemon."""
    with Script(*answers) as script, contextlib.closing(Daemon(script.port)) as daemon:
        yield script, daemon


@contextlib.contextmanager
def script_and_client() -> Iterator[Tuple[Script, OlaClient]]:
    """A client of such a daemon, whose first discovery has ended."""
    answers = [answer(number, UIDS) for number in range(2, 6)]
    with Script(UNIVERSES, *answers) as script, OlaClient(f"ola:1:{script.port}") as ola:
        ola.discover(Kind.FULL)
        ola.queue.run()
        yield script, ola


class Worst(LongTestCase):
    """Exceptions at any place, and a close from another thread."""

    def test_an_exception_at_each_line_of_a_call(self) -> None:
        lists = [answer(number, UIDS) for number in (1, 2, 3)]
        with on(lists[0]) as (_, daemon):
            trace = Trace()
            trace.run(lambda: daemon.uids(1))
        self.assertGreater(len(trace.moments()), 50)
        for moment, fault in zip(trace.moments(), itertools.cycle(FAULTS)):
            with on(*lists) as (_, daemon):
                with contextlib.suppress(KeyboardInterrupt, MemoryError):
                    Trace(moment, fault).run(lambda: daemon.uids(1))
                self.assertIn(elsewhere(lambda: asked(daemon)), (FOUND, None), str(moment))

    def test_an_exception_loses_no_outcome(self) -> None:
        def client_on(script: Script) -> OlaClient:
            ola = OlaClient(f"ola:1:{script.port}")
            ola.submit(IDENTIFY)
            ola.discover(Kind.FULL)
            return ola
        answers = UNIVERSES, answer(2, RESPONSE[10:]), answer(3, UIDS)
        with Script(*answers) as script, client_on(script) as ola:
            trace = Trace()
            trace.run(ola.queue.run)
        for moment, fault in zip(trace.moments(), itertools.cycle(FAULTS)):
            with Script(*answers) as script, client_on(script) as ola:
                with contextlib.suppress(KeyboardInterrupt, MemoryError):
                    Trace(moment, fault).run(ola.queue.run)
                elsewhere(ola.queue.run)
                kinds = [type(outcome) for outcome in iter(ola.next_outcome, None)]
                self.assertEqual(kinds, [Completion, Discovery], str(moment))

    def test_an_exception_at_each_line_of_a_clients_calls(self) -> None:
        """Each call that waits has an outcome of its own, and each answer is the right one's."""
        calls: List[Callable[[OlaClient], object]] = [
            lambda ola: ola.submit(IDENTIFY), lambda ola: ola.discover(Kind.FULL), OlaClient.oldest,
            OlaClient.next_outcome, OlaClient.next_discovery, lambda ola: ola.queue.bad_uids(),
            lambda ola: ola.queue.bad_uids_run(), OlaClient.close]
        for call in calls:
            with script_and_client() as (_, ola):
                trace = Trace()
                trace.run(lambda: call(ola))
            for moment, fault in zip(trace.moments(), itertools.cycle(FAULTS)):
                with script_and_client() as (_, ola):
                    returned: List[object] = []
                    with contextlib.suppress(KeyboardInterrupt, MemoryError):
                        returned.append(Trace(moment, fault).run(lambda: call(ola)))
                    self.check_outcomes(ola, returned, str(moment))

    def check_outcomes(self, ola: OlaClient, returned: List[object], moment: str) -> None:
        """The discovery that was made first has its outcome, once, and what was submitted has one of its own."""
        waiting = len(ola.queue.calls)
        elsewhere(lambda: ola.queue.run() + 1)
        outcomes = [*(each for each in returned if isinstance(each, (Completion, Discovery))),
                    *iter(ola.next_outcome, None)]
        self.assertEqual(len(outcomes), waiting + (len(outcomes) - waiting > 0), moment)
        self.assertEqual([each.number for each in outcomes if isinstance(each, Discovery)][:1], [0], moment)
        kinds = [(type(each), each.number) for each in outcomes]
        self.assertEqual(len(kinds), len(set(kinds)), moment)

    def test_opening_a_client(self) -> None:
        def whole(script: Script) -> None:
            with OlaClient(f"ola:1:{script.port}"):
                pass

        def check(script: Script, returned: List[None]) -> None:
            script.__exit__()
            script.thread.join(SECONDS)

        self.assertGreater(Trial(lambda: Script(UNIVERSES), whole, check).run(), 50)

    def test_a_close(self) -> None:
        with on(b"") as (_, daemon):
            Waiting(lambda: daemon.uids(1)).ends(self, daemon.close, LineFailed, "the connection to olad is closed")
            self.assertRaisesRegex(LineFailed, "the connection to olad is closed", daemon.uids, 1)

    def test_threads_take_turns(self) -> None:
        found: List[List[int]] = []
        with on(*(answer(number, UIDS) for number in range(1, 41))) as (_, daemon):
            threads = [threading.Thread(target=lambda: found.extend(daemon.uids(1) for _ in range(10)))
                       for _ in range(4)]
            for thread in threads:
                thread.start()
            for thread in threads:
                thread.join()
        self.assertEqual(found, [FOUND] * 40)


def asked(daemon: Daemon) -> Optional[List[int]]:
    """The devices that a daemon knows; None if the connection has ended."""
    try:
        return daemon.uids(1)
    except LineFailed:
        return None


class Calls(TestCase):
    """Each call, and what may come instead of its answer."""

    def test_a_request(self) -> None:
        with on(RESPONSE) as (script, daemon):
            reply = daemon.request(1, IDENTIFY.target.number, 0xFFFF, 0x1000, b"\x01", True)
            self.assertEqual(script.asked, [REQUEST])
            head = ReplyHead(AckType.ACK, ResponseClass.SET, 0x1000, 0xFFFF)
            self.assertEqual(client.completion_of(7, reply), Completion(7, Status.COMPLETED, head, b"\x01\x02"))

    def test_lists(self) -> None:
        with on(answer(1, UIDS), answer(2, UIDS), answer(3, b""), answer(4, DEVICES)) as (script, daemon):
            self.assertEqual((daemon.uids(1), daemon.discover(1, True), daemon.uids(1)), (FOUND, FOUND, []))
            self.assertEqual(daemon.ports(), [("Pro", "Serial 1", 3), ("Pro", "none", None)])

    def test_refusals_and_other_messages(self) -> None:
        with on(REFUSED) as (_, daemon):
            self.assertRaisesRegex(LineFailed, "olad refused it: Universe doesn't exist", daemon.uids, 1)
        # A late answer to another call is left out, and a message may come in pieces.
        with on(answer(9, b"\xff") + RESPONSE[:10]) as (_, daemon), mock.patch.object(rpc, "CALL_SECONDS", 0.2):
            self.assertRaisesRegex(LineFailed, "olad didn't answer within", daemon.uids, 1)
        with on(answer(1, b"", 6)) as (_, daemon):
            self.assertRaisesRegex(LineFailed, "olad has ended the connection", daemon.uids, 1)

    def test_who_isnt_olad(self) -> None:
        for said in (b"HTTP/1.1 400 Bad Request\r\n\r\n", b"\x00\x00\x00\x10", b"\xff\xff\xff\x1f",
                     answer(1, b"\x08"), answer(1, b"", 5), answer(1, b"\x12\x01\x08"), answer(1, b"\x10\x05"),
                     RESPONSE[:4] + b"\xff" * 36):
            with on(said) as (_, daemon), mock.patch.object(rpc, "CALL_SECONDS", 0.2):
                self.assertRaises(LineFailed, daemon.uids, 1)
        with on(None) as (_, daemon):
            self.assertRaisesRegex(LineFailed, "olad has ended the connection", daemon.uids, 1)

    def test_names_may_be_anybodys(self) -> None:
        names = encode([(1, encode([(3, b"Pro\x1b]0;\xe2\x80\xae\xff"), (5, encode([(5, "B\xfchne\r"), (8, 1)]))]))])
        with on(answer(1, names)) as (_, daemon):
            self.assertEqual(daemon.ports(), [("Pro\\x1b]0;\\u202e\\xff", "B\xfchne\\r", None)])
        with on(answer(1, b"\x1b[2Jno", 4)) as (_, daemon):
            self.assertRaisesRegex(LineFailed, r"olad refused it: \\x1b\[2Jno", daemon.uids, 1)

    def test_no_daemon(self) -> None:
        with Script() as script:
            pass
        self.assertRaisesRegex(NoDaemon, f"olad doesn't listen on port {script.port}", Daemon, script.port)
        self.assertEqual(adapters.universes(script.port), [])


@needs_library
class Clients(TestCase):
    """A client of olad, and commands by it."""

    def test_names(self) -> None:
        self.assertEqual([universe_of(text) for text in ("ola:0", "ola:4294967295:9011")],
                         [(0, 9010), (4294967295, 9011)])
        for text in ("ola:", "ola:x", "ola:1:", "ola:1:65536", "ola:4294967296", "ola:1:2:3", "ola:٣", "ola:-1"):
            self.assertRaisesRegex(ValueError, "names no universe of olad, such as ola:1", universe_of, text)
            self.assertEqual(called("get", "all", "device_label", "--line", text)[0], 2)

    def test_codes(self) -> None:
        # OLA's response codes, and statuses of FORMATS.
        codes = [0, 1, 2, 3, 4, 3, 10, 13, 14, 15, 16, 7, 5, 8, 9, 11, 17, 12, 2, 4]
        for code, wanted in enumerate(codes):
            found = client.completion_of(0, decode(encode([(1, code), (2, 0), (6, 0), (5, 0x60)])))
            self.assertEqual((int(found.status), found.head is not None), (wanted, code == 0), code)
        for fields in ([(1, 20)], [(1, 0), (2, 3)], [(1, 0), (6, 3)], [(1, b"")], [(1, 0), (4, 1)]):
            self.assertRaises(ValueError, client.completion_of, 0, decode(encode(fields)))

    def test_calls(self) -> None:
        with Script(UNIVERSES, answer(2, RESPONSE[10:]), answer(3, b"", 4), answer(4, b"", 4)) as script:
            with OlaClient(f"ola:1:{script.port}") as ola:
                self.assertEqual((ola.submit(IDENTIFY), ola.submit(IDENTIFY), ola.discover(Kind.FULL)), (0, 1, 0))
                self.assertIsNone(ola.next_outcome())
                ola.queue.run()
                first, second = ola.next_outcome(), ola.next_outcome()
                self.assertEqual((first.data, second.status), (b"\x01\x02", Status.FAILED_TO_SEND))
                self.assertIs(ola.next_discovery().fault.kind, RunFaultKind.LINE_FAILED)

    def test_a_daemon_that_goes_away(self) -> None:
        with Script(UNIVERSES, None) as script:
            status, _, errors = called("get", "1234:00000001", "device_label", "--line", f"ola:1:{script.port}")
            self.assertEqual((status, errors), (1, "wurstlinen: olad has ended the connection\n"))

    def test_what_olad_has_not(self) -> None:
        universes = answer(1, encode([(1, encode([(1, 1)])), (1, encode([(1, 5)]))]))
        for words, status, text in (
                (["get", "all", "device_label", "--frames"], 2, "olad keeps its frames to itself: leave out --frames"),
                (["fixtures", "--log", "/nowhere/log"], 2, "olad keeps its frames to itself: leave out --log"),
                (["fixtures", "--source", "1234:00000001"], 1,
                 "olad is the controller of its lines: leave out --source")):
            with Script(universes) as script:
                found = called(*words, "--line", f"ola:1:{script.port}")
                self.assertEqual((found[0], found[2]), (status, f"wurstlinen: {text}\n"))
        with Script(universes) as script:
            found = called("fixtures", "--line", f"ola:7:{script.port}")
            self.assertEqual((found[0], found[2]), (1, "wurstlinen: olad has no universe 7; it has 1, 5\n"))

    def test_the_only_adapter_is_olads(self) -> None:
        with folder() as locks, mock.patch.object(adapters, "universes", lambda: [adapters.Universe("ola:3", "Pro")]):
            (locks / "LCK..ttyUSB0").write_text("         1\n")
            for name, wanted in (("olad", "ola:3"), ("other", None)):
                with mock.patch("wurstlinen.lines.locks.name_of", lambda process: name):
                    self.assertEqual(adapters.line_of_olad(Path("/dev/ttyUSB0"), locks), wanted)
            self.assertIsNone(adapters.line_of_olad(Path("/dev/ttyUSB1"), locks))
