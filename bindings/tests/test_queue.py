"""Tests of the queue: whole exchanges, with bytes and numbers worked out by hand from E1.20 and docs/FORMATS.md."""

import unittest
from typing import Callable, List, NamedTuple, Optional, Sequence, Tuple, Union

import wurstlinen
from packets import Fixtures, branch_reply, packet
from wurstlinen import (
    DEFAULT_BUDGET, AckType, Client, Completion, Controller, Device, Discovery, Kind, OutcomeKind, ReplyHead,
    ResponseClass, RunFault, RunFaultKind, Search, Session, Status, Uid, entries)

SOURCE = Uid(0x7A70, 0x100)
DEVICE, SECOND, GONE = Uid(0x1234, 1), Uid(0x9ABC, 2), Uid(0x5678, 9)
PID, UNMUTE, MUTE, BRANCH = 0x0060, 3, 2, 1
ACK, OVERFLOW = 0, 3
HEAD = ReplyHead(AckType.ACK, ResponseClass.GET, PID, 0)
ABORTED, EXHAUSTED, LINE_FAILED, TOO_MANY = (
    RunFault(kind) for kind in (RunFaultKind.ABORTED, RunFaultKind.EXHAUSTED, RunFaultKind.LINE_FAILED,
                                RunFaultKind.TOO_MANY))


class Ack(NamedTuple):
    """The acknowledgement of this device's mute, whatever its transaction number."""

    uid: Uid


# What comes after a frame: bytes, an acknowledgement, or None if the line fails.
Came = Union[bytes, Ack, None]

# A run over one device: three unmutes, its reply, its acknowledgement, five silences.
RUN_OF_ONE: List[Came] = [b"", b"", b"", branch_reply(DEVICE), Ack(DEVICE), b"", b"", b"", b"", b""]


def reply(tn: int, port: int = ACK, data: bytes = b"") -> bytes:
    """The device's response to a GET."""
    return packet(SOURCE, DEVICE, tn % 256, port, 0x21, PID, data)


def get_frame(tn: int) -> bytes:
    return packet(DEVICE, SOURCE, tn, 1, 0x20, PID)


def deliver(queue, came: Came, tn: int) -> None:
    """Reports what came after the frame with this transaction number."""
    if came is None:
        queue.fail()
    else:
        queue.deliver(packet(SOURCE, came.uid, tn, 0, 0x11, MUTE, b"\0\0") if isinstance(came, Ack) else came)


class Case(unittest.TestCase):
    def opened(self, places: int = 4, entry_count: int = 5000, **setup) -> Tuple[Session, Client]:
        """A session, with one client that has all places, or 255."""
        session = self.enter(Session(SOURCE, entry_count, places, **setup))
        return session, session.join(min(places, 255))

    def enter(self, queue):
        self.addCleanup(queue.dispose)
        return queue

    def both(self, places: int = 4, **setup) -> list:
        """A session and a controller, each with one client."""
        queues = [Session(SOURCE, 5000, places, **setup), Controller(SOURCE, places, **setup)]
        return [(self.enter(queue), queue.join(places)) for queue in queues]

    def serve(self, queue, first: int, *run: Came) -> None:
        """Makes these exchanges. The first frame has this transaction number."""
        for tn, came in enumerate(run, first):
            self.assertEqual(queue.take()[15], tn % 256)
            deliver(queue, came, tn % 256)

    def next_is(self, queue, pid: int, tn: int, target: Optional[Uid] = None) -> None:
        """The next frame has this PID, this transaction number and this target."""
        frame = queue.take()
        self.assertEqual((frame[21:23], frame[15]), (pid.to_bytes(2, "big"), tn))
        if target is not None:
            self.assertEqual(frame[3:9], target.number.to_bytes(6, "big"))

    def found(self, client: Client, number: int, run: int, *uids: Uid, fault: Optional[RunFault] = None) -> None:
        """The client's next outcome is this discovery's."""
        self.assertEqual(client.next_outcome(), Discovery(number, run, fault, tuple(Device(uid) for uid in uids)))

    def ended(self, client: Client, number: int, status: Status) -> None:
        """The client's next outcome is this request's, without a reply."""
        self.assertEqual(client.next_outcome(), Completion(number, status, None, b""))

    def completed(self, client: Client, number: int, data: bytes) -> None:
        self.assertEqual(client.next_outcome(), Completion(number, Status.COMPLETED, HEAD, data))

    def refused(self, fault: type, *calls: Callable[[], object]) -> None:
        for call in calls:
            with self.assertRaises(fault):
                call()

    def submitted(self, client: Client, *numbers: int) -> None:
        """The client submits as many GETs, which get these numbers."""
        self.assertEqual([client.get(DEVICE, PID) for _ in numbers], [*numbers])


class Requests(Case):
    def test_each_part_is_asked_for_again(self) -> None:
        session, client = self.opened(1)
        self.submitted(client, 0)
        for tn, (port, data, total) in enumerate([(OVERFLOW, b"\x11" * 231, "0298"), (OVERFLOW, b"\x22" * 231, "0299"),
                                                  (ACK, b"\x33" * 3, "029a")]):
            frame = bytes.fromhex(f"cc0118 123400000001 7a7000000100 {tn:02x} 01 00 0000 20 0060 00 {total}")
            self.assertEqual(session.take(), frame)
            session.deliver(reply(tn, port, data))
        self.completed(client, 0, b"\x11" * 231 + b"\x22" * 231 + b"\x33" * 3)
        self.assertTrue(session.is_idle())

    def with_parts(self, count: int, length: int) -> Tuple[Session, Client]:
        """A session with one request, whose answer has had this many parts of this length."""
        session, client = self.opened(1)
        self.submitted(client, 0)
        self.serve(session, 0, *(reply(tn, OVERFLOW, b"\x5a" * length) for tn in range(count)))
        return session, client

    def test_answers_of_each_length(self) -> None:
        lengths = [(0, last) for last in range(232)]
        lengths += [(parts, last) for parts in (1, 2, 3, 17, 18, 255, 256, 257, 283) for last in (0, 1, 2, 162)]
        for parts, last in lengths:
            session, client = self.with_parts(parts, 231)
            self.serve(session, parts, reply(parts, ACK, b"\x5a" * last))
            self.completed(client, 0, b"\x5a" * (231 * parts + last))
            session.dispose()
        # 65,536 bytes are one too many.
        session, client = self.with_parts(283, 231)
        self.serve(session, 283, reply(27, ACK, b"\x5a" * 163))
        self.ended(client, 0, Status.INVALID_RESPONSE)

    def test_the_257th_part_has_the_number_of_the_first(self) -> None:
        session, _ = self.with_parts(256, 0)
        self.assertEqual(session.take(), get_frame(0))

    def test_silence_and_failure_end_a_request(self) -> None:
        for parts, came, status in [(1, b"", Status.TIMEOUT), (0, None, Status.FAILED_TO_SEND)]:
            session, client = self.with_parts(parts, 231)
            self.serve(session, parts, came)
            self.ended(client, 0, status)

    def test_a_pause_between_parts(self) -> None:
        session, _ = self.with_parts(1, 231)
        session.pause()
        self.assertIsNone(session.take())
        session.resume()
        self.assertEqual(session.take(), get_frame(1))

    def test_a_close_while_a_reply_is_awaited(self) -> None:
        for came, first in [(reply(0, OVERFLOW, b"ab"), Completion(0, Status.FAILED_TO_SEND, None, b"")),
                            (reply(0, ACK, b"ab"), Completion(0, Status.COMPLETED, HEAD, b"ab")),
                            (b"", Completion(0, Status.TIMEOUT, None, b""))]:
            session, client = self.opened(3)
            self.submitted(client, 0, 1, 2)
            session.take()
            session.close()
            self.assertTrue(session.awaits())
            self.assertIsNone(client.next_outcome())
            session.deliver(came)
            self.assertEqual(client.next_outcome(), first)
            self.ended(client, 1, Status.FAILED_TO_SEND)
            self.ended(client, 2, Status.FAILED_TO_SEND)
            self.assertIsNone(session.take())
            self.refused(wurstlinen.Closed, lambda: client.get(DEVICE, PID))
            self.refused(wurstlinen.NotAsked, lambda: session.deliver(reply(1, ACK, b"ab")))


class Places(Case):
    def test_a_place_is_held_until_the_outcome_is_collected(self) -> None:
        session, client = self.opened(2)
        other = Client(session, 1)
        self.submitted(client, 0, 1)
        self.refused(wurstlinen.Full, lambda: client.get(DEVICE, PID))
        self.refused(wurstlinen.UnknownClient, lambda: other.get(DEVICE, PID), other.next_outcome)
        self.serve(session, 0, b"")
        self.refused(wurstlinen.Full, lambda: client.get(DEVICE, PID))
        self.ended(client, 0, Status.TIMEOUT)
        for number in range(2, 11):
            self.submitted(client, number)
            self.serve(session, number - 1, b"")
            self.ended(client, number - 1, Status.TIMEOUT)

    def test_each_queue_depth(self) -> None:
        for places in (0, 1, 4, 254, 255):
            session = self.enter(Session(SOURCE, 2000, 255))
            client = session.join(places)
            self.submitted(client, *range(places))
            self.refused(wurstlinen.Full, lambda client=client: client.get(DEVICE, PID))

    def test_clients_share_the_places(self) -> None:
        session = self.enter(Session(SOURCE, 100, 2))
        self.assertEqual(session.join(1).number, 0)
        self.refused(wurstlinen.NoPlaces, lambda: session.join(2))
        self.assertEqual(session.join(1).number, 1)
        session.close()
        self.refused(wurstlinen.Closed, lambda: session.join(0))

    def test_sixteen_clients_with_4080_places(self) -> None:
        session = self.enter(Session(SOURCE, 20_000, 4080))
        clients = [session.join(255) for _ in range(16)]
        self.assertEqual([client.number for client in clients], [*range(16)])
        self.refused(wurstlinen.TooManyClients, lambda: session.join(0), lambda: session.join(1))
        for number in range(4080):
            self.submitted(clients[number % 16], number)
        self.refused(wurstlinen.Full, lambda: clients[15].get(DEVICE, PID))
        session.take()
        session.close()
        self.refused(wurstlinen.Closed, lambda: session.join(1))
        session.deliver(b"")
        self.ended(clients[0], 0, Status.TIMEOUT)
        for number in range(1, 255):
            self.ended(clients[0], number * 16, Status.FAILED_TO_SEND)
        self.assertIsNone(clients[0].next_outcome())
        self.assertFalse(session.is_idle())

    def test_the_oldest_request_of_all_clients_comes_first(self) -> None:
        session = self.enter(Session(SOURCE, 100, 4))
        first, other = session.join(2), session.join(2)
        asked = [(other, 0), (first, 1), (other, 2)]
        for client, number in asked:
            self.submitted(client, number)
        for client, number in asked:
            self.serve(session, number, b"")
            self.ended(client, number, Status.TIMEOUT)
        self.assertTrue(session.is_idle())

    def test_each_budget(self) -> None:
        # On a silent line a run has three unmutes and five branches.
        for budget in (1, 2, 7, 8, 96_008, DEFAULT_BUDGET, (1 << 64) - 1):
            session, client = self.opened(4080, 30, budget=budget)
            client.discover()
            self.serve(session, 0, *[b""] * min(budget, 8))
            self.found(client, 0, 1, fault=EXHAUSTED if budget < 8 else None)

    def test_a_million_free_entries(self) -> None:
        for count in (3, 1_000_000):
            self.assertEqual(self.enter(Session(SOURCE, count, 4080)).free_entries(), count)


class Discoveries(Case):
    def test_one_run_answers_all_that_are_asked(self) -> None:
        session, client = self.opened()
        session.pause()
        self.submitted(client, 0)
        self.assertEqual((client.discover(), client.discover(Kind.INCREMENTAL)), (0, 1))
        self.assertIsNone(session.take())
        session.resume()
        self.serve(session, 0, *RUN_OF_ONE)
        self.assertEqual(session.take(), bytes.fromhex("cc0118 123400000001 7a7000000100 0a01000000 200060 00 02a2"))
        self.found(client, 0, 1, DEVICE)
        self.found(client, 1, 1, DEVICE)
        self.assertEqual((session.devices(), session.devices_run()), ((Device(DEVICE),), 1))
        session.deliver(b"")
        self.ended(client, 0, Status.TIMEOUT)

    def test_a_later_discovery_waits_for_the_next_run(self) -> None:
        session, client = self.opened()
        client.discover()
        self.serve(session, 0, b"")
        self.assertEqual(client.discover(), 1)
        self.serve(session, 1, *RUN_OF_ONE[1:])
        self.found(client, 0, 1, DEVICE)
        self.assertIsNone(client.next_outcome())
        self.assertFalse(session.is_idle())
        self.next_is(session, UNMUTE, 10)
        session.deliver(b"")
        self.serve(session, 11, *RUN_OF_ONE[1:])
        self.found(client, 1, 2, DEVICE)
        self.assertEqual((session.devices_run(), session.is_idle()), (2, True))

    def test_an_incremental_run_mutes_the_known_first(self) -> None:
        session, client = self.opened()
        client.discover(Kind.INCREMENTAL)
        self.serve(session, 0, *RUN_OF_ONE[:5], branch_reply(GONE), Ack(GONE), *RUN_OF_ONE[5:])
        self.found(client, 0, 1, DEVICE, GONE)
        self.assertEqual(client.discover(Kind.INCREMENTAL), 1)
        # The reply to the first mute is lost.
        run = [(UNMUTE, Uid.ALL, b"")] * 3 + [(MUTE, DEVICE, b""), (MUTE, DEVICE, Ack(DEVICE))]
        run += [(MUTE, GONE, b"")] * 5 + [(BRANCH, Uid.ALL, branch_reply(SECOND)), (MUTE, SECOND, Ack(SECOND))]
        run += [(BRANCH, Uid.ALL, b"")] * 5
        for tn, (pid, target, came) in enumerate(run, 12):
            self.next_is(session, pid, tn, target)
            deliver(session, came, tn)
        self.found(client, 1, 2, DEVICE, SECOND)
        self.assertEqual((session.devices(), session.devices_run()), ((Device(DEVICE), Device(SECOND)), 2))
        self.assertIsNone(session.take())
        self.assertTrue(session.is_idle())

    def test_a_request_between_two_parts_goes_first(self) -> None:
        session, client = self.opened()
        self.submitted(client, 0, 1)
        session.take()
        client.discover()
        session.deliver(reply(0, OVERFLOW, b"ab"))
        self.next_is(session, PID, 1)
        session.deliver(reply(1, ACK, b"c"))
        self.completed(client, 0, b"abc")
        self.serve(session, 2, *RUN_OF_ONE)
        self.found(client, 0, 1, DEVICE)
        self.next_is(session, PID, 12)

    def test_a_run_goes_on_in_a_pause(self) -> None:
        session, client = self.opened()
        client.discover()
        self.serve(session, 0, b"")
        session.pause()
        self.assertEqual(client.discover(), 1)
        self.serve(session, 1, b"", b"")
        for tn in range(3, 8):
            self.next_is(session, BRANCH, tn)
            session.deliver(b"")
        self.found(client, 0, 1)
        self.assertEqual(session.devices_run(), 1)
        self.assertIsNone(session.take())
        session.resume()
        self.serve(session, 8, b"")

    def test_a_client_has_four_discoveries_outstanding(self) -> None:
        session, client = self.opened()
        self.assertEqual([client.discover() for _ in range(4)], [0, 1, 2, 3])
        self.refused(wurstlinen.Full, client.discover)
        self.serve(session, 0, *[b""] * 8)
        self.refused(wurstlinen.Full, client.discover)
        self.found(client, 0, 1)
        self.assertEqual(client.discover(), 4)
        self.refused(wurstlinen.UnknownClient, Client(session, 1).discover)

    def test_how_runs_search(self) -> None:
        # Both have three unmutes, a collision, and each device's reply and acknowledgement in its half of all UIDs. A
        # steady run has five silences of each half, a quick one of the whole range.
        for search, frames in [(Search.STEADY, 18), (Search.QUICK, 13)]:
            for queue, client in self.both(search=search):
                client.discover()
                self.assertEqual(queue.run(Fixtures(DEVICE, SECOND)), frames)
                self.assertEqual(client.next_outcome(), Discovery(0, 1, None, (Device(DEVICE, 4), Device(SECOND, 4))))


class Runs(Case):
    def test_a_close_ends_the_run_then_requests_then_discoveries(self) -> None:
        session, client = self.opened()
        client.discover()
        session.take()
        client.discover()
        self.submitted(client, 0)
        session.close()
        self.assertTrue(session.awaits())
        self.assertIsNone(client.next_outcome())
        session.deliver(b"")
        self.found(client, 0, 1, fault=ABORTED)
        self.ended(client, 0, Status.FAILED_TO_SEND)
        self.found(client, 1, 0, fault=ABORTED)
        self.assertEqual(session.devices_run(), 0)
        self.refused(wurstlinen.Closed, client.discover)
        self.assertIsNone(session.take())
        self.assertTrue(session.is_idle())

    def test_a_budget_ends_a_run(self) -> None:
        session, client = self.opened(budget=7)
        client.discover()
        self.submitted(client, 0)
        self.serve(session, 0, *[b""] * 7)
        self.found(client, 0, 1, fault=EXHAUSTED)
        self.assertEqual(session.devices_run(), 0)
        self.next_is(session, PID, 7)

    def test_a_device_too_many_ends_a_run(self) -> None:
        session, client = self.opened()
        client.discover()
        uids = [Uid(0x1234, number) for number in range(1025)]
        self.serve(session, 0, b"", b"", b"", *(came for uid in uids for came in (branch_reply(uid), Ack(uid))))
        # A join, an ask, 2,053 frames with their replies, and the answer.
        self.assertEqual(session.entry_count(), 4109)
        self.found(client, 0, 1, *uids[:1024], fault=TOO_MANY)
        self.assertEqual((session.devices(), session.devices_run(), session.take()), ((), 0, None))

    def test_what_a_device_says_of_itself(self) -> None:
        session, client = self.opened()
        client.discover()
        self.assertEqual(session.take(), bytes.fromhex("cc0118 ffffffffffff 7a7000000100 0001000000 100003 00 07de"))
        session.deliver(b"")
        self.serve(session, 1, b"", b"")
        self.assertEqual(session.take(), bytes.fromhex(
            "cc0124 ffffffffffff 7a7000000100 0301000000 100001 0c 000000000000 ffffffffffff 0df1"))
        session.deliver(bytes.fromhex("fefefefefefefe aa ba57 be75 aa55 aa55 aa55 ab55 ae57 eb55"))
        self.next_is(session, MUTE, 4)
        session.deliver(bytes.fromhex(
            "cc0120 7a7000000100 123400000001 0400000000 110002 08 0002 123400000005 028b"))
        self.serve(session, 5, *[b""] * 5)
        devices = (Device(DEVICE, 2, Uid(0x1234, 5)),)
        self.assertEqual((client.next_outcome(), session.devices()), (Discovery(0, 1, None, devices), devices))


class Outcomes(Case):
    def test_each_kind_in_turn(self) -> None:
        for queue, client in self.both():
            self.assertIsNone(client.oldest())
            self.assertEqual((client.discover(Kind.INCREMENTAL), queue.devices_run(), queue.is_idle()), (0, 0, False))
            self.submitted(client, 0)
            self.serve(queue, 0, *RUN_OF_ONE, reply(10, ACK, b"abc"))
            self.assertEqual((queue.devices(), queue.devices_run()), ((Device(DEVICE),), 1))
            self.assertIsNone(queue.take())
            self.assertFalse(queue.is_idle())
            self.assertEqual(client.oldest(), OutcomeKind.DISCOVERY)
            self.refused(wurstlinen.OtherOutcome, client.next_completion)
            self.assertEqual(client.next_discovery(), Discovery(0, 1, None, (Device(DEVICE),)))
            self.assertEqual(client.oldest(), OutcomeKind.REQUEST)
            self.refused(wurstlinen.OtherOutcome, client.next_discovery)
            self.assertEqual(client.next_completion(), Completion(0, Status.COMPLETED, HEAD, b"abc"))
            self.assertIsNone(client.oldest())
            self.assertTrue(queue.is_idle())
            if isinstance(queue, Session):
                self.assertEqual(queue.entries(27), (entries.Collect(0), entries.Collect(0)))

    def test_each_kind_after_a_close(self) -> None:
        for queue, client in self.both(1):
            other = Client(queue, 1)
            client.discover()
            self.submitted(client, 0)
            self.serve(queue, 0, *RUN_OF_ONE)
            queue.close()
            self.refused(wurstlinen.UnknownClient, other.oldest, other.next_discovery)
            self.refused(wurstlinen.OtherOutcome, client.next_completion)
            self.found(client, 0, 1, DEVICE)
            self.assertEqual(client.oldest(), OutcomeKind.REQUEST)
            self.ended(client, 0, Status.FAILED_TO_SEND)
            self.assertTrue(queue.is_idle())

    def calls(self, session: Session) -> List[Callable[[], object]]:
        """A join, a request and two discoveries, which a pause holds back, their exchanges, and three collects."""
        client = Client(session, 0)
        calls: List[Callable[[], object]] = [
            lambda: session.join(4).number, session.pause, lambda: client.get(DEVICE, PID), client.discover,
            lambda: client.discover(Kind.INCREMENTAL), session.take, session.resume]
        for tn, came in enumerate([*RUN_OF_ONE, reply(10, ACK, b"a")]):
            calls += [session.take, lambda tn=tn, came=came: deliver(session, came, tn)]
        return calls + [client.next_outcome] * 3

    def results(self, calls: Sequence[Callable[[], object]]) -> list:
        """What the calls return; None also for what is refused."""
        made = []
        for call in calls:
            try:
                made.append(call())
            except wurstlinen.Fault:
                made.append(None)
        return made

    def test_a_whole_session(self) -> None:
        session = self.enter(Session(SOURCE, 100, 4))
        made = self.results(self.calls(session))
        self.assertEqual(made[:7], [0, None, 0, 0, 1, None, None])
        self.assertEqual([frame[15] for frame in made[7:29:2]], [*range(11)])
        self.assertEqual(made[27], get_frame(10))
        found = (Device(DEVICE),)
        self.assertEqual(made[29:], [Discovery(0, 1, None, found), Discovery(1, 1, None, found),
                                     Completion(0, Status.COMPLETED, HEAD, b"a")])
        session.close()
        self.assertEqual(session.entry_count(), 35)

    def test_a_close_at_each_point(self) -> None:
        """Each call that was accepted before the close has one outcome, and no frame is sent after it."""
        for at in range(33):
            session = self.enter(Session(SOURCE, 100, 4))
            calls = self.calls(session)
            made = self.results([*calls[:at], session.close, *calls[at:]])
            del made[at]  # what the close returned
            # The submit and the two discovers.
            for index, number, kind in [(2, 0, Completion), (3, 0, Discovery), (4, 1, Discovery)]:
                self.assertEqual(made[index], number if index < at else None)
                outcomes = [one for one in made if isinstance(one, kind) and one.number == number]
                self.assertEqual(len(outcomes), index < at)
            self.assertFalse(any(isinstance(one, bytes) for one in made[at:]))
            self.assertTrue(session.is_closed())
            self.assertTrue(session.is_idle())
            self.assertFalse(session.awaits())


class Logs(Case):
    def test_a_full_log_refuses_and_still_closes(self) -> None:
        session, client = self.opened(1, 3)
        other = Client(session, 1)
        for _ in range(2):
            self.assertEqual(session.free_entries(), 2)
            # The full log is reported, whatever else is wrong.
            self.refused(wurstlinen.LogFull, lambda: client.get(DEVICE, PID), client.discover,
                         lambda: other.get(DEVICE, PID), other.discover, lambda: session.join(2), session.pause,
                         session.resume, session.take)
            session.close()
        self.assertTrue(session.is_closed())
        self.assertEqual(session.entries(), (entries.Join(0, 1), entries.Close()))

    def test_a_fresh_log_of_a_closed_session(self) -> None:
        session, client = self.opened(1, 3)
        self.refused(wurstlinen.LogFull, lambda: client.get(DEVICE, PID))
        session.close()
        with session.rotate(10) as old:
            self.assertEqual(old.entries(), (entries.Join(0, 1), entries.Close()))
        self.assertEqual((session.entries(), session.is_closed(), session.free_entries()), ((), True, 11))
        self.refused(wurstlinen.Closed, lambda: client.get(DEVICE, PID))

    def test_an_uncollected_outcome_keeps_the_log(self) -> None:
        session, client = self.opened(1)
        self.submitted(client, 0)
        self.serve(session, 0, b"")
        self.refused(wurstlinen.NotIdle, lambda: session.rotate(10))
        self.assertEqual(session.entry_count(), 5)
        self.ended(client, 0, Status.TIMEOUT)

    def test_numbers_devices_and_the_search_go_on(self) -> None:
        session, client = self.opened(search=Search.QUICK)
        client.discover()
        self.submitted(client, 0)
        self.serve(session, 0, *RUN_OF_ONE, reply(10, ACK, b"abc"))
        self.found(client, 0, 1, DEVICE)
        self.completed(client, 0, b"abc")
        session.pause()
        with session.rotate(40) as old:
            self.assertEqual(old.entry_count(), 30)
        self.assertEqual((session.is_paused(), session.free_entries()), (True, 40))
        self.assertEqual((session.devices(), session.devices_run()), ((Device(DEVICE),), 1))
        self.refused(wurstlinen.NoPlaces, lambda: session.join(1))
        session.resume()
        self.submitted(client, 1)
        self.assertEqual(session.take(), get_frame(11))
        session.deliver(reply(11))
        self.completed(client, 1, b"")
        self.assertEqual(client.discover(Kind.INCREMENTAL), 1)
        self.serve(session, 12, None)
        self.found(client, 1, 2, fault=LINE_FAILED)
        self.assertEqual((session.devices(), session.devices_run()), ((Device(DEVICE),), 1))
        session.rotate(100).dispose()
        self.assertEqual((client.discover(), session.run(Fixtures(DEVICE, SECOND))), (2, 13))
        self.assertEqual(client.next_outcome(), Discovery(2, 3, None, (Device(DEVICE, 4), Device(SECOND, 4))))

    def test_pages_and_what_is_stored_are_the_whole_history(self) -> None:
        session = self.enter(Session(SOURCE, 50, 2))
        first, second = session.join(1), session.join(1)
        first.discover()
        self.submitted(second, 0)
        asked = wurstlinen.Request(DEVICE, PID)
        unmute = packet(Uid.ALL, SOURCE, 0, 1, 0x10, UNMUTE)
        self.assertEqual(session.take(), unmute)
        page = session.drain(20)
        self.assertEqual((page.first, *page), (
            0, entries.Join(0, 1), entries.Join(1, 1), entries.Ask(0, 0, Kind.FULL), entries.Accept(1, 0, asked),
            entries.Send(None, 1, unmute)))
        session.fail()
        # The memory is for 21 entries, and two are taken. Four are reserved: for a close, for the collect of the
        # discovery, and two for the request. So memory for three, one of them for a close, is too little.
        self.assertEqual(session.free_entries(), 15)
        self.refused(wurstlinen.LogFull, lambda: session.drain(2))
        came, answer = entries.Came(None), entries.Answer(0, 1, LINE_FAILED)
        self.assertEqual((session.entries(), session.free_entries()), ((came, answer), 15))
        frame = session.take()
        page = session.drain(20)
        self.assertEqual(frame, get_frame(1))
        self.assertEqual((page.first, *page), (5, came, answer, entries.Send(0, None, frame)))
        session.deliver(reply(1, ACK, b"\x77\x77"))
        self.completed(second, 0, b"\x77\x77")
        self.found(first, 0, 1, fault=LINE_FAILED)
        ends = (entries.Came(reply(1, ACK, b"\x77\x77")), entries.Finish(0, Status.COMPLETED, 2), entries.Collect(1),
                entries.Collect(0))
        self.assertEqual(session.entries(), ends)
        page = session.drain()
        self.assertEqual((page.first, *page), (8, *ends))
        self.assertEqual(session.drain().first, 12)
