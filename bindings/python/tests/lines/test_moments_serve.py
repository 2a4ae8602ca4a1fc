"""An exception at each line of each call of a client that shares a line: nothing is lost, and the server goes on."""
from __future__ import annotations

import contextlib
import threading
import time
from typing import Any, Callable, Iterator, List, Tuple

from common import LongTestCase, needs_library
from moments import Trial, elsewhere, held
from servers import SECONDS, Here, here
from test_serve import LEFT, five
from wurstlinen import Answer, Kind, LineFailed, OtherOutcome, SharedClient, connect

RIGHT = "1234:00000002"
Call = Callable[[SharedClient], Any]


def get(client: SharedClient) -> int:
    """Submits a request."""
    return client.get(LEFT, 0x82)


def ask(client: SharedClient) -> Answer:
    """Asks a fixture, however busy the machine is."""
    return client.ask(LEFT, 0x82, wait=SECONDS)


def discover(client: SharedClient) -> int:
    """Submits a discovery."""
    return client.discover(Kind.FULL)


def run(client: SharedClient) -> int:
    """Waits for what is outstanding."""
    return client.queue.run()


class Scene:
    """A client for which these calls were made, and what the server has accepted of it."""

    def __init__(self, made: Here, *begin: Call) -> None:
        self._made, self._before = made, held()
        self.accepted: List[int] = []
        self._accept, made.server._backlog.accept = made.server._backlog.accept, self._accepting  # type: ignore
        self.client = connect(made.name)
        for each in begin:
            each(self.client)

    def _accepting(self, *words: Any) -> int:
        self.accepted.append(self._accept(*words))
        return self.accepted[-1]

    def check(self, returned: List[Any]) -> None:
        """The client has every outcome, and goes on with the right answers, or its connection has ended."""
        def rest() -> Any:
            """All that is left, and another answer."""
            try:
                self.client.queue.resume()
                self.client.queue.run()
                return [*iter(self.client.next_outcome, None), self.client.ask(RIGHT, 0x82, wait=SECONDS)]
            except LineFailed as fault:
                return fault
        found = elsewhere(rest)
        if isinstance(found, LineFailed):
            assert self.client.queue.connection.is_closed, found
            return
        assert found[-1].completion.data == b"Front right", found[-1]
        numbers = sorted(each.number for each in (*outcomes_in(returned), *outcomes_in(found)))
        assert numbers == sorted(self.accepted), (numbers, self.accepted)

    def end(self) -> None:
        """Ends the connection, of which the server keeps nothing."""
        self._made.server._backlog.accept = self._accept  # type: ignore[method-assign]
        self.client.close()
        settle(self._made, self._before)


def outcomes_in(returned: List[Any]) -> Iterator[Any]:
    """The outcomes among what was returned, and those in answers."""
    for each in returned:
        if isinstance(each, Answer):
            yield from (*each.queued, *each.earlier, each.completion)
        elif hasattr(each, "number"):
            yield each


def begun() -> None:
    """Waits until the server, which is in this process, has its thread for the line."""
    until = time.monotonic() + SECONDS
    while all(each.name != "line" for each in threading.enumerate()):
        assert time.monotonic() < until, "the server doesn't begin"
        time.sleep(0.001)


def settle(made: Here, before: Tuple[int, int]) -> None:
    """Waits until the server has ended its connections."""
    until = time.monotonic() + SECONDS
    while made.server._peers or made.server._backlog.outstanding or held() != before:
        assert time.monotonic() < until, "the server keeps something of a program that has gone"
        time.sleep(0.001)


@needs_library
class Calls(LongTestCase):
    """The calls of a client, and of what it knows of the queue."""

    def each(self, call: Call, *begin: Call, least: int = 6) -> None:
        """Makes the call at each moment, at least so many, after these."""
        with here(five) as made:
            begun()
            trial = Trial(lambda: Scene(made, *begin), lambda scene: call(scene.client), Scene.check, Scene.end)
            self.assertGreaterEqual(trial.run(), least)
            self.assertEqual(made.server._status()["outstanding"], 0)

    def test_requests_and_discoveries(self) -> None:
        self.each(get)
        self.each(lambda client: client.set(LEFT, 0x82, b"Front left"))
        self.each(discover)

    def test_outcomes(self) -> None:
        def either(client: SharedClient) -> Any:
            with contextlib.suppress(OtherOutcome):
                return client.next_completion()
            return client.next_discovery()
        for call in (SharedClient.next_outcome, SharedClient.next_completion, either, run, SharedClient.oldest):
            self.each(call, get, get, run)
        self.each(either, discover, run)
        self.each(run, get, get)

    def test_asking(self) -> None:
        self.each(ask)
        self.each(ask, get, discover)

    def test_what_is_known_of_the_queue(self) -> None:
        calls: List[Call] = [
            lambda client: client.queue.pause(), lambda client: client.queue.resume(),
            lambda client: client.queue.is_paused(), lambda client: client.queue.devices(),
            lambda client: client.queue.devices_run(), lambda client: client.queue.status(),
            lambda client: client.queue.clients(), lambda client: client.queue.subscribe(["frames"]),
            lambda client: client.queue.is_idle()]
        for call in calls:
            self.each(call, get)
        for call in (lambda client: client.queue.bad_uids(), lambda client: client.queue.bad_uids_run()):
            self.each(call, discover, run, least=2)

    def test_connections(self) -> None:
        with here(five) as made:
            begun()

            def whole(nothing: None) -> int:
                with connect(made.name) as client:
                    return len(client.queue.clients())

            before = held()

            def check(nothing: None, returned: List[int]) -> None:
                settle(made, before)
                with connect(made.name) as client:
                    self.assertEqual(client.ask(RIGHT, 0x82).completion.data, b"Front right")
                settle(made, before)

            self.assertGreater(Trial(lambda: None, whole, check).run(), 50)
