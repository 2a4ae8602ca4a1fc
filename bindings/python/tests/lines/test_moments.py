"""An exception at each line that a call of the queue runs: nothing is lost, and the next request is served."""
from __future__ import annotations

import itertools
import sys
import threading
from functools import partial
from typing import Any, Callable, List, Optional, Sequence, Tuple, Union

from asking import DEVICE, OTHER_DEVICE, Clock, Device, Queueing, ack
from common import LongTestCase, needs_library, one
from moments import Trace, Trial, elsewhere, raising
import wurstlinen
from wurstlinen import (
    AckType, Answer, Asker, Completion, Controller, Discovery, DiscoveryAgent, Kind, OutcomeKind, ReplyTooLong,
    ResponseClass, RunFaultKind, Session, Uid, Unserved, entries,
)
from wurstlinen.line import LineFailed
from wurstlinen.lines import Rig
from wurstlinen.lines.numbers import Pid

SOURCE = "7a70:00000100"
CONTROLLER = Uid.from_number(0x7A7000000100)
LABEL = Pid.DEVICE_LABEL
# What packets are of.
REQUEST = wurstlinen.Request(DEVICE, LABEL)
RESPONSE = wurstlinen.Response(DEVICE, CONTROLLER, 1, AckType.ACK, ResponseClass.GET, LABEL, b"Lamp")
FOUND = wurstlinen.Device(DEVICE)
LAMP = ack(LABEL, b"Lamp")
HOURS, LAMP_HOURS = 0x0400, 0x0401
PLACES = 4
WAIT_SECONDS = 0.02
# Two requests, and a discovery of one device: unmutes, its reply, its mute and five silences.
EXCHANGES = 2 + 3 + 1 + 1 + 5


class Scene:
    """A session with a client, its line, and all that was returned. The log has all that the library has done."""

    def __init__(self, *begin: Callable[["Scene"], Any]) -> None:
        self.session = Session(SOURCE, 4_000)
        self.line = Rig(one(label="Lamp"))
        self.client = self.session.join(PLACES)
        self.outcomes: List[Any] = []
        self.history: List[Any] = []
        for each in begin:
            each(self)

    def serve(self) -> None:
        """Sends all that waits, from another thread too, which must find no lock held."""
        elsewhere(lambda: self.session.run(self.line))
        self.session.run(self.line)

    def note(self, returned: Any) -> None:
        """Notes the outcomes in what a call has returned."""
        if isinstance(returned, (Completion, Discovery)):
            self.outcomes.append(returned)
        elif isinstance(returned, (Answer, Unserved)):
            self.note([*returned.queued, *returned.earlier])
            self.note(returned.completion if isinstance(returned, Answer) else None)
        elif isinstance(returned, (list, tuple)):
            for each in returned:
                self.note(each)

    def finish(self) -> None:
        """Collects what is there, and compares it with the log. Then another request is served."""
        self.serve()
        self.note(list(iter(self.client.next_outcome, None)))
        self.history += self.session.entries()
        for kind, made, number in ((entries.Accept, Completion, "requests"), (entries.Ask, Discovery, "discoveries")):
            accepted = sorted(each.number for each in self.history if isinstance(each, kind))
            returned = sorted(each.number for each in self.outcomes if isinstance(each, made))
            assert returned == accepted, f"{number} {accepted} were accepted, and {returned} returned"
        wanted = self.client.get(DEVICE, LABEL)
        assert self.client.last_request == wanted
        self.serve()
        done = self.client.next_completion()
        assert done is not None and (done.number, done.data) == (wanted, b"Lamp"), done
        assert self.session.is_idle() and self.client.next_outcome() is None

    def end(self) -> None:
        """Frees the session."""
        elsewhere(self.session.dispose)


def get(scene: Scene) -> int:
    """Submits a request."""
    return scene.client.get(DEVICE, LABEL)


def discover(scene: Scene) -> int:
    """Submits a discovery."""
    return scene.client.discover(Kind.FULL)


def serve(scene: Scene) -> int:
    """Sends what waits."""
    return scene.session.run(scene.line)


def check(scene: Scene, returned: List[Any]) -> None:
    """Nothing is lost, and the next request is served."""
    scene.note(returned)
    scene.finish()


@needs_library
class Calls(LongTestCase):
    """Calls of queues and clients."""

    def each(self, call: Callable[[Scene], Any], *begin: Callable[[Scene], Any],
             then: Callable[[Scene, List[Any]], None] = check) -> None:
        """Makes the call at each moment, after these."""
        self.assertGreater(Trial(lambda: Scene(*begin), call, then, Scene.end).run(), 5)

    def setUp(self) -> None:
        hook = sys.unraisablehook
        self.addCleanup(setattr, sys, "unraisablehook", hook)
        # An exception within a finalizer is ignored by Python, and reported.
        sys.unraisablehook = lambda reported: None

    def test_submit(self) -> None:
        def last_number(scene: Scene, returned: List[Any]) -> None:
            accepted = [each.number for each in scene.session.entries() if isinstance(each, entries.Accept)]
            # The library has accepted the second one, or it wasn't asked for that.
            self.assertIn(scene.client.last_request, (1,) if len(accepted) == 2 else (0, None))
            check(scene, [])

        self.each(get, get, then=last_number)

    def test_discover(self) -> None:
        def last_number(scene: Scene, returned: List[Any]) -> None:
            asked = [each.number for each in scene.session.entries() if isinstance(each, entries.Ask)]
            self.assertEqual([scene.client.last_discovery], asked or [None])
            check(scene, [])

        self.each(discover, then=last_number)

    def test_join(self) -> None:
        def again(scene: Scene, returned: List[Any]) -> None:
            client = returned[0] if returned else scene.session.join(7)
            self.assertEqual(client.number, 1)
            joined = [each.client for each in scene.session.entries() if isinstance(each, entries.Join)]
            self.assertEqual(joined, [0, 1])
            client.get(DEVICE, LABEL)
            scene.serve()
            self.assertEqual(client.next_completion().data, b"Lamp")
            scene.session.drain()
            check(scene, [])

        self.each(lambda scene: scene.session.join(7), then=again)

    def test_run(self) -> None:
        self.each(serve, get, get)
        self.each(serve, discover, get)

    def test_take_and_deliver(self) -> None:
        def exchange(scene: Scene) -> None:
            frame = scene.session.take()
            assert frame is not None
            scene.session.deliver(scene.line.exchange(frame))

        def fail(scene: Scene) -> None:
            scene.session.take()
            scene.session.fail()

        def check_frame(scene: Scene, returned: List[Any]) -> None:
            # Who takes a frame and is interrupted before it is delivered says so, as an exchange that failed.
            if scene.session.awaits() and not scene.session._is_left:
                scene.session.fail()
            check(scene, returned)

        self.each(exchange, get, then=check_frame)
        self.each(fail, get, then=check_frame)

    def test_collects(self) -> None:
        for collect in (lambda scene: scene.client.next_completion(), lambda scene: scene.client.next_outcome()):
            self.each(collect, get, serve)
            self.each(collect, get, get, serve)
        for collect in (lambda scene: scene.client.next_discovery(), lambda scene: scene.client.next_outcome()):
            self.each(collect, discover, get, serve)
        self.each(lambda scene: [scene.client.next_outcome() for _ in range(1)], get, discover, serve)

    def test_a_kept_outcome_is_seen(self) -> None:
        def seen(scene: Scene, returned: List[Any]) -> None:
            if not returned:
                self.assertEqual(scene.client.oldest(), OutcomeKind.REQUEST)
                self.assertFalse(scene.session.is_idle())
            check(scene, returned)

        self.each(lambda scene: scene.client.next_completion(), get, serve, then=seen)

    def test_reads(self) -> None:
        for read in (lambda scene: scene.client.oldest(), lambda scene: scene.session.devices(),
                     lambda scene: scene.session.devices_run(), lambda scene: scene.session.bad_uids(),
                     lambda scene: scene.session.bad_uids_run(), lambda scene: scene.session.is_idle(),
                     lambda scene: scene.session.is_paused(), lambda scene: scene.session.is_closed(),
                     lambda scene: scene.session.awaits(), lambda scene: scene.session.free_entries(),
                     lambda scene: scene.session.entry_count(), lambda scene: scene.session.entry(0),
                     lambda scene: scene.session.entries(), lambda scene: scene.session.pause(),
                     lambda scene: scene.session.resume()):
            self.each(read, discover, get, serve, then=lambda scene, _: (scene.session.resume(), check(scene, []))[1])

    def test_close_and_dispose(self) -> None:
        def closed(scene: Scene, returned: List[Any]) -> None:
            elsewhere(scene.session.close)
            self.assertTrue(scene.session.is_closed())
            self.assertEqual(len(list(iter(scene.client.next_outcome, None))), 2)

        self.each(lambda scene: scene.session.close(), get, discover, then=closed)
        self.each(lambda scene: scene.session.dispose(), get, then=lambda scene, _: None)

    def test_pages_and_logs(self) -> None:
        def drained(scene: Scene, returned: List[Any]) -> None:
            pages = [*returned, scene.session.drain()]
            self.assertEqual(pages[0].first, 0)
            for page in pages:
                self.assertEqual(page.first, len(scene.history))
                scene.history += page
            check(scene, [])

        def rotated(scene: Scene, returned: List[Any]) -> None:
            with returned[0] if returned else scene.session.rotate() as log:
                scene.history += log.entries()
            check(scene, [])

        self.each(lambda scene: scene.session.drain(), get, then=drained)
        self.each(lambda scene: scene.session.rotate(), get, serve,
                  lambda scene: scene.note(scene.client.next_outcome()), then=rotated)

    def test_calls_of_a_log(self) -> None:
        def begin(scene: Scene) -> None:
            scene.note(scene.client.next_outcome())
            scene.log = scene.session.rotate()  # type: ignore[attr-defined]
            scene.history += scene.log.entries()  # type: ignore[attr-defined]

        def read_again(scene: Scene, returned: List[Any]) -> None:
            entries_read = elsewhere(scene.log.entries)  # type: ignore[attr-defined]
            self.assertEqual(list(entries_read), scene.history)
            scene.log.dispose()  # type: ignore[attr-defined]
            check(scene, [])

        def disposed(scene: Scene, returned: List[Any]) -> None:
            elsewhere(lambda: scene.log.dispose() or True)  # type: ignore[attr-defined]
            self.assertRaises(wurstlinen.NotOpen, scene.log.entry, 0)  # type: ignore[attr-defined]
            check(scene, [])

        for read in (lambda scene: scene.log.entry(0), lambda scene: scene.log.entries(),
                     lambda scene: scene.log.entry_count()):
            self.each(read, get, serve, begin, then=read_again)
        self.each(lambda scene: scene.log.dispose(), get, serve, begin, then=disposed)

    def test_entries_of_a_page(self) -> None:
        def whole(scene: Scene, returned: List[Any]) -> None:
            scene.history += [*scene.read, *scene.page]  # type: ignore[attr-defined]
            check(scene, [])

        def begin(scene: Scene) -> None:
            scene.page, scene.read = scene.session.drain(), []  # type: ignore[attr-defined]

        def read(scene: Scene) -> None:
            for _ in range(3):
                scene.read.extend(itertools.islice(scene.page, 1))  # type: ignore[attr-defined]

        self.each(read, get, begin, then=whole)

    def test_whole_queues(self) -> None:
        def whole(line: Rig, make: Callable[[], Union[Controller, Session]]) -> Optional[Completion]:
            with make() as queue:
                client = queue.join(1)
                client.get(DEVICE, LABEL)
                queue.run(line)
                return client.next_completion()

        for make in (lambda: Controller(SOURCE), lambda: Session(SOURCE, 100)):
            Trial(lambda: Rig(one()), partial(whole, make=make), lambda line, returned: None).run()

    def test_agents(self) -> None:
        def make() -> Tuple[DiscoveryAgent, Rig]:
            agent = DiscoveryAgent(SOURCE)
            agent.next()
            return agent, Rig(one())

        def hear(agent: DiscoveryAgent, line: Rig) -> Any:
            asked = agent.next()
            assert asked is not None
            agent.hear(line.exchange(asked[1]))
            return agent.frames(), agent.devices(), agent.bad_uids()

        def check_run(made: Any, returned: List[Any], ends: Sequence[Any] = (None,)) -> None:
            agent, line = made
            found = agent.run(line)
            fault = elsewhere(agent.fault)
            self.assertIn(fault and fault.kind, ends[-1:] if returned else ends)
            self.assertEqual([each.uid for each in found], [DEVICE] if fault is None else [])
            agent.dispose()

        Trial(make, lambda made: made[0].run(made[1]), check_run).run()
        self.assertGreater(Trial(make, lambda made: hear(*made), check_run).run(), 20)
        for call, kind in (("fail", RunFaultKind.LINE_FAILED), ("stop", RunFaultKind.ABORTED)):
            Trial(make, lambda made, call=call: getattr(made[0], call)(), partial(check_run, ends=(None, kind))).run()

    def test_packets(self) -> None:
        """They keep nothing."""
        calls: List[Callable[[], Any]] = [
            lambda: wurstlinen.encode_request(REQUEST, CONTROLLER, 1), lambda: wurstlinen.encode_unmute(CONTROLLER, 1),
            lambda: wurstlinen.encode_mute(DEVICE, CONTROLLER, 1), lambda: wurstlinen.write_branch_reply(DEVICE),
            lambda: wurstlinen.encode_branch(DEVICE, DEVICE, CONTROLLER, 1),
            lambda: wurstlinen.encode_response(RESPONSE), lambda: wurstlinen.encode_mute_ack(FOUND, CONTROLLER, 1),
            lambda: wurstlinen.read_command(wurstlinen.encode_request(REQUEST, CONTROLLER, 1)),
            lambda: wurstlinen.decode_response(wurstlinen.encode_response(RESPONSE)),
            lambda: wurstlinen.read_branch_reply(wurstlinen.write_branch_reply(DEVICE)),
            lambda: wurstlinen.read_mute_ack(DEVICE, CONTROLLER, 1, wurstlinen.encode_mute_ack(FOUND, CONTROLLER, 1))]
        for call in calls:
            wanted = call()
            self.assertIsNotNone(wanted)
            Trial(lambda: None, lambda _, call=call: call(),
                  lambda _, returned, call=call, wanted=wanted: self.assertEqual(call(), wanted)).run()


class Raising(Rig):
    """A line whose first exchange raises an exception that isn't a line's."""

    def exchange(self, frame: bytes) -> bytes:
        if not self.exchanges:
            self.exchanges = 1
            raise RuntimeError("unplugged")
        return super().exchange(frame)


@needs_library
class Threads(LongTestCase):
    """Two threads serve one queue. The line of one raises an exception when the other one is anywhere."""

    def test_run(self) -> None:
        trace = Trace()
        first = Scene(get, get)
        trace.run(lambda: serve(first))
        for moment in trace.moments():
            scene = Scene(get, get)
            other = threading.Thread(target=self.run_raising, args=(scene,))

            def act(other: threading.Thread = other) -> None:
                other.start()
                # It may have to wait until this thread goes on.
                other.join(WAIT_SECONDS)

            Trace(moment, action=act).run(lambda scene=scene: serve(scene))
            # A line that only the first call of all runs isn't reached.
            if other.ident is not None:
                other.join()
            try:
                scene.finish()
            except AssertionError as why:
                raise AssertionError(f"at {moment}: {why}") from None
            scene.end()

    def run_raising(self, scene: Scene) -> None:
        """Serves the queue by a line that raises an exception."""
        try:
            scene.session.run(Raising(one(label="Lamp")))
        except RuntimeError:
            pass


class Interrupts(BaseException):
    """What a caller's callable raises."""


@needs_library
class Callables(LongTestCase):
    """Exceptions of what the caller gives."""

    def test_lines(self) -> None:
        for fault in (Interrupts(), RuntimeError(), OSError(), LineFailed()):
            for at in range(EXCHANGES):
                scene = Scene(get, discover, get)
                scene.line.exchange = raising(scene.line.exchange, at, fault)  # type: ignore[method-assign]
                if isinstance(fault, LineFailed):
                    serve(scene)
                else:
                    self.assertRaises(type(fault), serve, scene)
                scene.finish()
                scene.end()

    def test_a_line_that_returns_too_much(self) -> None:
        class Long:
            def exchange(self, frame: bytes) -> bytes:
                return bytes(258)

        scene = Scene(get)
        self.assertRaises(ReplyTooLong, scene.session.run, Long())
        scene.finish()
        scene.end()

    def test_clocks_sleeps_and_waits(self) -> None:
        for name, at in itertools.product(("clock", "sleep", "on_wait"), range(6)):
            scene, clock, waits = Scene(), Clock(), []
            calls = {"clock": clock.time, "sleep": clock.sleep, "on_wait": waits.append}
            calls[name] = raising(calls[name], at, Interrupts())
            asker = Asker(scene.client, Device(Queueing(3, LAMP)), **calls)  # type: ignore[arg-type]
            try:
                scene.note(asker.get(DEVICE, LABEL))
            except Interrupts:
                pass
            scene.note(Asking.rest_of(asker))
            check_asked(scene, asker)
            scene.end()


class Asking:
    """What an asker still has."""

    @staticmethod
    def rest_of(asker: Asker) -> List[Any]:
        """All that it has kept, which its next answer would hand out."""
        rest = list(asker.kept.outcomes)
        asker.kept.outcomes.clear()
        return rest


def check_asked(scene: Scene, asker: Asker) -> None:
    """All messages with data were returned, once, and the next request is served."""
    scene.serve()
    scene.note(list(iter(scene.client.next_outcome, None)))
    numbers = [each.number for each in scene.outcomes]
    assert len(numbers) == len(set(numbers)), f"returned twice: {numbers}"
    scene.outcomes.clear()
    scene.session.drain()
    scene.finish()


@needs_library
class Asks(LongTestCase):
    """Asking devices, which need time and have queued messages."""

    def trial(self, *messages: Any) -> None:
        wanted = sorted(data for _, _, data, _ in messages)

        def make() -> Any:
            scene, clock = Scene(), Clock()
            return scene, Asker(scene.client, Device(Queueing(3, *messages)), clock=clock.time, sleep=clock.sleep)

        def after(made: Any, returned: List[Any]) -> None:
            scene, asker = made
            scene.note(returned)
            scene.note(Asking.rest_of(asker))
            scene.note(list(iter(scene.client.next_outcome, None)))
            answers = list(asker.line._answer.messages)
            got = sorted([each.data for each in scene.outcomes if each.head and each.head.pid != Pid.STATUS_MESSAGES
                          and each.head.ack != 1] + [data for _, _, data, _ in answers])
            # A message whose exchange was interrupted is still the device's last one, which can be asked for again.
            missing = [data for data in wanted if data not in got]
            assert len(missing) <= (0 if returned else 1), f"{missing} are lost"
            check_asked(scene, asker)

        trial = Trial(make, lambda made: made[1].get(DEVICE, LABEL), after, lambda made: made[0].end())
        self.assertGreater(trial.run(), 50)

    def test_an_answer_in_time(self) -> None:
        self.trial(ack(HOURS, b"\0\0\0\1"), LAMP, ack(LAMP_HOURS, b"\0\0\0\2"))

    def test_earlier_outcomes(self) -> None:
        def ask(scene: Scene) -> Answer:
            return scene.client.ask(DEVICE, LABEL, line=scene.line)

        def again(scene: Scene, returned: List[Any]) -> None:
            scene.note(returned)
            scene.note(scene.client.ask(OTHER_DEVICE, LABEL, line=scene.line))
            scene.finish()

        self.assertGreater(Trial(lambda: Scene(get, discover), ask, again, Scene.end).run(), 50)

    def test_a_paused_queue(self) -> None:
        def ask(scene: Scene) -> Any:
            try:
                return scene.client.ask(DEVICE, LABEL, line=scene.line, wait=0.0)
            except Unserved as fault:
                return fault

        def again(scene: Scene, returned: List[Any]) -> None:
            scene.session.resume()
            scene.note(returned)
            scene.note(scene.client.ask(DEVICE, LABEL, line=scene.line))
            scene.finish()

        Trial(lambda: Scene(get, serve, lambda scene: scene.session.pause()), ask, again, Scene.end).run()
