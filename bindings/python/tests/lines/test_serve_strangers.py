"""The client's end of a connection to a server: servers of another version, and a close from another thread."""
from __future__ import annotations

import contextlib
import itertools
import json
import math
import threading
from typing import Callable, List
from unittest import mock

from common import TestCase, needs_library
from moments import held
from servers import SECONDS, here, runtime
from test_closing import Waiting
from test_serve import FIVE, LEFT, Gate
from wurstlinen import LineBusy, LineFailed, SharedClient, connect
from wurstlinen.lines import OpenLine, Rig
from wurstlinen.shared import connection, peer, worker
from wurstlinen.shared.listening import Place


class Stranger:
    """Another program at the place of the server of rig:/it, which says these lines, and then nothing."""

    def __init__(self, *lines: object) -> None:
        self._place = Place("rig:/it")
        self._place.listen()
        said = (each if isinstance(each, bytes) else json.dumps(each).encode() for each in lines)
        self._said = b"".join(each + b"\n" for each in said)
        self._thread = threading.Thread(target=self._run)
        self._thread.start()

    def _run(self) -> None:
        # Who connects may leave at any time.
        with contextlib.suppress(ConnectionError), self._place.listener.accept()[0] as connection:
            connection.sendall(self._said)
            while connection.recv(4096):
                pass

    def __enter__(self) -> Stranger:
        return self

    def __exit__(self, *why: object) -> None:
        self._thread.join(SECONDS)
        self._place.close()


GREETING = {"id": 1, "version": 1, "line": "rig:/it", "source": "7ff0:00000001", "process": 1, "depth": 16,
            "paused": False, "there": True, "clients": 1, "outstanding": 0}


@needs_library
class Strangers(TestCase):
    """A server of another version, or none at all."""

    def test_a_greeting(self) -> None:
        wrong = [{**GREETING, key: value} for key, value in (
            ("line", None), ("source", 5), ("source", "7ff0"), ("process", "1"), ("depth", None), ("paused", 0),
            ("there", "yes"), ("clients", []), ("client", "x"), ("client", None))]
        lacking = [{key: value for key, value in GREETING.items() if key != name}
                   for name in ("line", "source", "process", "depth", "paused", "there", "clients")]
        for said in (*wrong, *lacking, [1], b"[" * 100_000, b"\xff", b"1" * 5_000, b"\"" * 300_000):
            before = held()
            with runtime(), Stranger(said):
                self.assertRaisesRegex(LineFailed, "says what is no object of the protocol", connect, "rig:/it")
            self.assertEqual(held(), before)

    def test_refusals_that_pass(self) -> None:
        """On a busy machine a hello may be late, too."""
        for name in ("Closed", "NoHello", "TooManyClients", "TooManyConnections"):
            with runtime(), Stranger({"error": name, "text": "not now"}):
                self.assertRaisesRegex(LineBusy, "refused it: not now", connect, "rig:/it")
        with runtime(), Stranger({"error": "OtherUser", "text": "not here"}), self.assertRaises(LineFailed) as caught:
            connect("rig:/it")
        self.assertNotIsInstance(caught.exception, LineBusy)
        # A program waits as long as its server does.
        self.assertGreaterEqual(connection.ANSWER_SECONDS, peer.STALL_SECONDS)

    def test_results(self) -> None:
        for said in ({"status": 0}, {"status": 99, "request": 0}, {"status": 0, "request": 0, "ack": 0},
                     {"fault": 9, "discovery": 0, "run": 1, "devices": []}, {"fault": 0, "discovery": 0, "run": 1},
                     {"fault": 0, "discovery": 0, "run": 1, "devices": [{"uid": "1"}]},
                     {"fault": 0, "discovery": 0, "run": 1, "devices": "x"}, {"status": 0, "request": "0"},
                     {"fault": 0, "discovery": 0, "run": None, "devices": []}, {"event": "pause"}, {"event": "line"},
                     {"event": "missed", "count": "x"}):
            with runtime(), Stranger(GREETING, said), connect("rig:/it") as client:
                self.assertRaisesRegex(LineFailed, "says what is no object of the protocol", client.queue._sleep, 1.0)
                self.assertRaisesRegex(LineFailed, "isn't connected any more", client.get, LEFT, 0x82)

    def test_answers(self) -> None:
        def devices(client: SharedClient) -> object:
            return client.queue.devices()
        calls: List[Callable[[SharedClient], object]] = [
            lambda client: client.get(LEFT, 0x82), SharedClient.discover, lambda client: client.queue.pause(),
            lambda client: client.queue.resume(), devices, lambda client: client.queue.devices_run()]
        infinite = {"id": 2, **dict.fromkeys(("request", "discovery", "run"), math.inf)}
        for call, said in itertools.product(calls, ({"id": 2}, infinite)):
            with runtime(), Stranger(GREETING, said), connect("rig:/it") as client:
                self.assertRaisesRegex(LineFailed, "says what is no object of the protocol", call, client)


@needs_library
class Closing(TestCase):
    """A close from another thread, where a client waits."""

    def test_a_close_while_an_outcome_is_awaited(self) -> None:
        gate = Gate()
        with here(lambda: gate) as made, connect(made.name) as client, \
                mock.patch("wurstlinen.shared.connection.QUIET_SECONDS", SECONDS):
            client.get(LEFT, 0x82)
            Waiting(client.queue.run).ends(self, client.close, LineFailed, "isn't connected any more")

    def test_a_close_while_an_answer_is_awaited(self) -> None:
        with runtime(), Stranger(GREETING), connect("rig:/it") as client, \
                mock.patch("wurstlinen.shared.connection.ANSWER_SECONDS", SECONDS):
            Waiting(client.discover).ends(self, client.close, LineFailed, "isn't connected any more|has ended")

    def test_an_end_while_the_line_is_being_opened_again(self) -> None:
        class Adapter(Rig):
            """A rig whose adapter is there, or gone."""

            is_there = True
            is_closed = False

            def close(self) -> None:
                self.is_closed = True

        made: List[Adapter] = []
        opens, may_open = threading.Event(), threading.Event()

        def make() -> OpenLine:
            if made:
                opens.set()
                may_open.wait(SECONDS)
            made.append(Adapter(FIVE))
            return made[-1]

        with mock.patch.object(worker, "SOON_SECONDS", 0.0), mock.patch.object(worker, "END_SECONDS", 0.0):
            with here(make) as server:
                made[0].is_there = False
                server.worker.wake()
                self.assertTrue(opens.wait(SECONDS))
            may_open.set()
            server.worker._thread.join(SECONDS)
        self.assertEqual([each.is_closed for each in made], [True, True])
