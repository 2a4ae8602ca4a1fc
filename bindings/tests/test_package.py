"""Tests of the Python package, with packets that are made according to E1.20."""

import gc
import os
import subprocess
import sys
import threading
import unittest

import wurstlinen
from packets import Fixtures, branch_reply, packet
from wurstlinen import (
    DEFAULT_BUDGET, AckType, BranchReply, BranchReplyKind, Command, CommandKind, Completion, Controller, Device,
    Discovery, DiscoveryAgent, Kind, MuteAck, Operation, OutcomeKind, ReplyHead, Request, RequestClass, Response,
    ResponseClass, RunFault, RunFaultKind, Search, Session, Status, Uid, entries)

SOURCE = Uid(0x7A70, 1)
DEVICE = Uid(0x1234, 7)
# The controller and the device of packets that are written out.
HOST, FIXTURE = Uid(0x7A70, 0x100), Uid(0x1234, 1)


class Uids(unittest.TestCase):
    def test_texts(self) -> None:
        self.assertEqual(str(Uid.parse("7A70:0000000A")), "7a70:0000000a")
        self.assertEqual(Uid.parse("1234:00000007"), DEVICE)
        self.assertEqual(repr(DEVICE), "Uid.parse('1234:00000007')")
        for text, fault in [("7a70", wurstlinen.UidLength), ("7a70.00000001", wurstlinen.UidSeparator),
                            ("7a70:0000000g", wurstlinen.UidDigit)]:
            with self.assertRaises(fault) as raised:
                Uid.parse(text)
            self.assertIsInstance(raised.exception, ValueError)

    def test_numbers(self) -> None:
        self.assertEqual((DEVICE.number, DEVICE.manufacturer, DEVICE.device), (0x123400000007, 0x1234, 7))
        self.assertTrue(Uid.ALL.is_broadcast and not DEVICE.is_broadcast and DEVICE < SOURCE)
        self.assertEqual(len({DEVICE, Uid(0x1234, 7)}), 1)
        self.assertEqual((Uid.from_number(0x7A7000000001), Uid(0x7A70, 1).number), (Uid(0x7A70, 1), 0x7A7000000001))
        self.assertEqual(Uid.from_number((1 << 48) - 1), Uid.ALL)
        with self.assertRaises(wurstlinen.BadUid):
            Uid.from_number(1 << 48)
        with self.assertRaises(ValueError):
            Uid(0x10000, 0)
        with self.assertRaises(AttributeError):
            DEVICE.number = 3


class Wire(unittest.TestCase):
    def test_commands(self) -> None:
        request = Request(DEVICE, 0x0082, b"Front", 3, RequestClass.SET)
        frames = {
            wurstlinen.encode_request(request, SOURCE, 9):
                packet(DEVICE, SOURCE, 9, 1, 0x30, 0x0082, b"Front", sub_device=3),
            wurstlinen.encode_unmute(SOURCE, 1): packet(Uid.ALL, SOURCE, 1, 1, 0x10, 3),
            wurstlinen.encode_mute(DEVICE, SOURCE, 2): packet(DEVICE, SOURCE, 2, 1, 0x10, 2),
            wurstlinen.encode_branch(Uid(0, 0), DEVICE, SOURCE, 3):
                packet(Uid.ALL, SOURCE, 3, 1, 0x10, 1, bytes(6) + DEVICE.number.to_bytes(6, "big")),
        }
        for frame, wanted in frames.items():
            self.assertEqual(frame, wanted)
        kinds = [wurstlinen.read_command(frame).kind for frame in frames]
        self.assertEqual(kinds, [CommandKind.REQUEST, CommandKind.UNMUTE, CommandKind.MUTE, CommandKind.BRANCH])
        read = wurstlinen.read_command(list(frames)[0])
        self.assertEqual((read.request, read.source, read.tn, read.target), (request, SOURCE, 9, DEVICE))
        read = wurstlinen.read_command(list(frames)[3])
        self.assertEqual((read.lo, read.hi), (Uid(0, 0), DEVICE))
        self.assertIsNone(wurstlinen.read_command(b"noise"))

    def test_commands_in_bytes(self) -> None:
        get, label = Request(FIXTURE, 0x0060), Request(Uid.ALL, 0x1000, b"\1", 0xFFFF, RequestClass.SET)
        for digits, command in [
                ("cc0118ffffffffffff7a700000010000010000001000030007de", Command(CommandKind.UNMUTE, HOST, 0)),
                ("cc0124ffffffffffff7a700000010003010000001000010c000000000000ffffffffffff0df1",
                 Command(CommandKind.BRANCH, HOST, 3, lo=Uid(0, 0), hi=Uid.ALL)),
                ("cc01181234000000017a7000000100040100000010000200022e", Command(CommandKind.MUTE, HOST, 4, FIXTURE)),
                ("cc01181234000000017a70000001000a010000002000600002a2",
                 Command(CommandKind.REQUEST, HOST, 10, FIXTURE, request=get)),
                ("cc0119ffffffffffff7a7000000100ff0100ffff30100001010b0b",
                 Command(CommandKind.REQUEST, HOST, 255, Uid.ALL, request=label))]:
            self.assertEqual(wurstlinen.read_command(bytes.fromhex(digits)), command)

    def test_responses(self) -> None:
        wire = packet(SOURCE, DEVICE, 9, 2, 0x21, 0x0060, b"\0\6", count=4)
        read = wurstlinen.decode_response(wire + b"more")
        self.assertEqual(read, Response(DEVICE, SOURCE, 9, AckType.NACK, ResponseClass.GET, 0x60, b"\0\6", 0, 4))
        self.assertEqual(wurstlinen.encode_response(read), wire)
        for bytes_, fault in [(wire[:25], wurstlinen.TooShort), (b"\0" + wire[1:], wurstlinen.WrongStart),
                              (b"\xcc\0" + wire[2:], wurstlinen.WrongSubStart),
                              (wire[:-1], wurstlinen.LengthMismatch), (wire[:-1] + b"\0", wurstlinen.WrongChecksum)]:
            with self.assertRaises(fault):
                wurstlinen.decode_response(bytes_)
        with self.assertRaises(wurstlinen.InvalidClass):
            wurstlinen.decode_response(packet(SOURCE, DEVICE, 9, 0, 0x20, 0x0060))
        with self.assertRaises(wurstlinen.InvalidResponseType):
            wurstlinen.decode_response(packet(SOURCE, DEVICE, 9, 4, 0x21, 0x0060))

    def test_responses_in_bytes(self) -> None:
        for digits, response in [
                ("cc011a7a7000000100123400000001000300000021006002010202a2",
                 Response(FIXTURE, HOST, 0, AckType.OVERFLOW, ResponseClass.GET, 0x0060, b"\1\2")),
                ("cc011a7a700000010012340000000104000000001100020200000232",
                 Response(FIXTURE, HOST, 4, AckType.ACK, ResponseClass.DISCOVERY, 0x0002, b"\0\0")),
                ("cc011a7a7000000100123400000001070209123431abcd0200060422",
                 Response(FIXTURE, HOST, 7, AckType.NACK, ResponseClass.SET, 0xABCD, b"\0\6", 0x1234, 9))]:
            self.assertEqual(wurstlinen.decode_response(bytes.fromhex(digits)), response)
            self.assertEqual(wurstlinen.encode_response(response).hex(), digits)
        with self.assertRaises(wurstlinen.TooShort):
            wurstlinen.decode_response(b"")

    def test_discovery(self) -> None:
        self.assertEqual(wurstlinen.write_branch_reply(DEVICE), branch_reply(DEVICE))
        self.assertEqual(wurstlinen.read_branch_reply(branch_reply(DEVICE, 3)),
                         BranchReply(BranchReplyKind.ONE, DEVICE))
        self.assertEqual(wurstlinen.read_branch_reply(b""), BranchReply(BranchReplyKind.SILENT))
        self.assertEqual(wurstlinen.read_branch_reply(b"\0" * 300), BranchReply(BranchReplyKind.COLLISION))
        acked = Device(DEVICE, 4, Uid(0x1234, 1))
        wire = packet(SOURCE, DEVICE, 5, 0, 0x11, 2, b"\0\4" + (0x123400000001).to_bytes(6, "big"))
        self.assertEqual(wurstlinen.encode_mute_ack(acked, SOURCE, 5), wire)
        self.assertEqual(wurstlinen.read_mute_ack(DEVICE, SOURCE, 5, wire), MuteAck(4, Uid(0x1234, 1)))
        self.assertIsNone(wurstlinen.read_mute_ack(DEVICE, SOURCE, 6, wire))

    def test_ranges(self) -> None:
        with self.assertRaises(ValueError):
            wurstlinen.encode_request(Request(DEVICE, 70000), SOURCE, 0)
        with self.assertRaises(wurstlinen.DataTooLong):
            wurstlinen.encode_request(Request(DEVICE, 0x82, bytes(232)), SOURCE, 0)
        with self.assertRaises(wurstlinen.BroadcastUid):
            wurstlinen.encode_mute(Uid.ALL, SOURCE, 0)
        with self.assertRaises(wurstlinen.BadRange):
            wurstlinen.encode_branch(SOURCE, DEVICE, SOURCE, 0)


class Queue(unittest.TestCase):
    def test_a_request(self) -> None:
        with Controller(SOURCE, 10) as controller:
            client = controller.join(2)
            self.assertEqual((client.get(DEVICE, 0x0060), client.set(Uid(0x1234, 8), 0x0082, b"x")), (0, 1))
            self.assertFalse(controller.is_idle())
            frame = controller.take()
            self.assertEqual(frame, packet(DEVICE, SOURCE, 0, 1, 0x20, 0x0060))
            self.assertTrue(controller.awaits() and controller.take() is None)
            with self.assertRaises(wurstlinen.ReplyTooLong):
                controller.deliver(bytes(258))
            controller.deliver(packet(SOURCE, DEVICE, 0, 0, 0x21, 0x0060, b"four"))
            self.assertEqual(controller.run(Fixtures(DEVICE)), 1)
            self.assertEqual(client.oldest(), OutcomeKind.REQUEST)
            with self.assertRaises(wurstlinen.OtherOutcome):
                client.next_discovery()
            head = ReplyHead(AckType.ACK, ResponseClass.GET, 0x60, 0)
            self.assertEqual(client.next_completion(), Completion(0, Status.COMPLETED, head, b"four"))
            self.assertEqual(client.next_outcome(), Completion(1, Status.TIMEOUT, None, b""))
            self.assertIsNone(client.next_outcome())
            self.assertTrue(controller.is_idle())

    def test_long_data(self) -> None:
        with Controller(SOURCE) as controller:
            client = controller.join(1)
            client.get(DEVICE, 0x0050)
            for tn in range(5):
                self.assertEqual(controller.take()[15], tn)
                controller.deliver(packet(SOURCE, DEVICE, tn, 0 if tn == 4 else 3, 0x21, 0x50, bytes([tn]) * 231))
            data = client.next_completion().data
            self.assertEqual(data, b"".join(bytes([tn]) * 231 for tn in range(5)))

    def test_discoveries(self) -> None:
        line = Fixtures(DEVICE, Uid(0x1234, 8), Uid(0x4321, 1))
        for search in Search:
            with Controller(SOURCE, search=search) as controller:
                client = controller.join(0)
                self.assertEqual(client.discover(), 0)
                controller.run(line)
                found = client.next_outcome()
                devices = tuple(Device(uid, 4) for uid in sorted(line.muted))
                self.assertEqual(found, Discovery(0, 1, None, devices))
                self.assertEqual((controller.devices(), controller.devices_run()), (devices, 1))
                line.failing = True
                client.discover(Kind.INCREMENTAL)
                controller.run(line)
                line.failing = False
                self.assertEqual(client.next_discovery().fault, RunFault(RunFaultKind.LINE_FAILED))

    def test_refusals(self) -> None:
        for fault, made in [(wurstlinen.BroadcastUid, lambda: Controller(Uid.ALL)),
                            (wurstlinen.TooManyPlaces, lambda: Controller(SOURCE, 4081)),
                            (wurstlinen.NoBudget, lambda: Controller(SOURCE, budget=0)),
                            (ValueError, lambda: Controller(SOURCE, -1))]:
            with self.assertRaises(fault):
                made()
        controller = Controller(SOURCE, 1)
        with self.assertRaises(wurstlinen.NoPlaces):
            controller.join(2)
        client = controller.join(1)
        with self.assertRaises(wurstlinen.NotAsked):
            controller.fail()
        client.get(DEVICE, 1)
        with self.assertRaises(wurstlinen.Full) as raised:
            client.get(DEVICE, 1)
        text = "the client's places or four discoveries are taken, or no number is left"
        self.assertEqual((raised.exception.code, str(raised.exception)), (20, text))
        controller.pause()
        self.assertTrue(controller.is_paused() and controller.take() is None)
        controller.resume()
        controller.close()
        self.assertTrue(controller.is_closed())
        self.assertEqual(client.next_completion().status, Status.FAILED_TO_SEND)
        with self.assertRaises(wurstlinen.Closed):
            client.get(DEVICE, 1)
        controller.dispose()
        controller.dispose()
        with self.assertRaises(wurstlinen.NotOpen):
            controller.take()

    def test_other_exceptions_pass(self) -> None:
        class Broken:
            def exchange(self, frame: bytes) -> bytes:
                raise OSError("gone")

        with Controller(SOURCE) as controller:
            controller.join(1).get(DEVICE, 1)
            with self.assertRaises(OSError):
                controller.run(Broken())
            self.assertTrue(controller.awaits())
            controller.fail()

    def share(self, controller) -> None:
        """Two threads ask, and a third one serves the line."""
        with controller:
            clients = [controller.join(4) for _ in range(2)]
            finished, over = [0, 0], threading.Event()

            def ask(at: int) -> None:
                asked = 0
                while finished[at] < 300:
                    if asked < 300:
                        try:
                            clients[at].get(DEVICE, 0x0060)
                            asked += 1
                        except wurstlinen.Full:
                            pass
                    done = clients[at].next_completion()
                    finished[at] += done is not None and done.data == b"four"

            def serve() -> None:
                line = Fixtures(DEVICE)
                while not over.is_set():
                    controller.run(line)

            threads = [threading.Thread(target=ask, args=(at,)) for at in range(2)]
            server = threading.Thread(target=serve)
            for thread in threads + [server]:
                thread.start()
            for thread in threads:
                thread.join()
            over.set()
            server.join()
            self.assertEqual(finished, [300, 300])

    def test_two_threads(self) -> None:
        self.share(Controller(SOURCE))

    def test_two_threads_of_a_session(self) -> None:
        self.share(Session(SOURCE, wurstlinen.MOST_ENTRIES))


class Sessions(unittest.TestCase):
    """The log, worked out by hand from docs/FORMATS.md and the comments in crates/rdm_log/src."""

    def test_a_request(self) -> None:
        label = Request(DEVICE, 0x8123, b"xyz", 0x0203, RequestClass.SET)
        with Session(SOURCE, 100, 10) as session:
            self.assertEqual((session.free_entries(), session.entry_count(), session.entries()), (100, 0, ()))
            client = session.join(2)
            with self.assertRaises(wurstlinen.NoPlaces):
                session.join(9)
            with self.assertRaises(wurstlinen.UnknownClient):
                wurstlinen.Client(session, 5).submit(label)
            self.assertEqual(client.submit(label), 0)
            session.pause()
            session.resume()
            sent = packet(DEVICE, SOURCE, 0, 1, 0x30, 0x8123, b"xyz", sub_device=0x0203)
            reply = packet(SOURCE, DEVICE, 0, 0, 0x31, 0x8123, b"four", sub_device=0x0203)
            self.assertEqual(session.take(), sent)
            session.deliver(reply)
            self.assertEqual(client.next_completion().data, b"four")
            self.assertEqual(session.entries(), (
                entries.Join(0, 2),
                entries.Refuse(entries.CallKind.JOIN, wurstlinen.NoPlaces, places=9),
                entries.Refuse(entries.CallKind.SUBMIT, wurstlinen.UnknownClient, 5, request=label),
                entries.Accept(0, 0, label),
                entries.Pause(),
                entries.Resume(),
                entries.Send(0, None, sent),
                entries.Came(reply),
                entries.Finish(0, Status.COMPLETED, 4),
                entries.Collect(0)))
            self.assertEqual(session.entry(9), entries.Collect(0))
            with self.assertRaises(wurstlinen.NoEntry):
                session.entry(10)

    def test_a_discovery(self) -> None:
        line = Fixtures(DEVICE)
        line.failing = True
        with Session(SOURCE, 100) as session:
            client = session.join(0)
            with self.assertRaises(wurstlinen.UnknownClient):
                wurstlinen.Client(session, 9).discover(Kind.INCREMENTAL)
            client.discover(Kind.INCREMENTAL)
            session.run(line)
            session.close()
            with self.assertRaises(wurstlinen.Closed):
                client.discover()
            self.assertEqual(session.entries(1), (
                entries.Refuse(entries.CallKind.DISCOVER, wurstlinen.UnknownClient, 9, kind=Kind.INCREMENTAL),
                entries.Ask(0, 0, Kind.INCREMENTAL),
                entries.Send(None, 1, packet(Uid.ALL, SOURCE, 0, 1, 0x10, 3)),
                entries.Came(None),
                entries.Answer(0, 1, RunFault(RunFaultKind.LINE_FAILED)),
                entries.Close(),
                entries.Refuse(entries.CallKind.DISCOVER, wurstlinen.Closed, 0, kind=Kind.FULL)))
            self.assertEqual(client.next_discovery().fault, RunFault(RunFaultKind.LINE_FAILED))

    def test_a_full_log(self) -> None:
        with Session(SOURCE, 3) as session:
            client = session.join(1)
            for call in (lambda: client.get(DEVICE, 1), client.discover, session.pause, session.resume, session.take):
                with self.assertRaises(wurstlinen.LogFull):
                    call()
            session.rotate(10).dispose()
            self.assertEqual((session.free_entries(), client.get(DEVICE, 1)), (10, 0))
        with self.assertRaises(wurstlinen.TooManyEntries):
            Session(SOURCE, wurstlinen.MOST_ENTRIES + 1)

    def test_rotation(self) -> None:
        with Session(SOURCE) as session:
            client = session.join(1)
            client.discover()
            session.run(Fixtures(DEVICE))
            for entry_count, fault in [(1_000_001, wurstlinen.TooManyEntries), (2, wurstlinen.LogFull),
                                       (3, wurstlinen.NotIdle)]:
                with self.assertRaises(fault):
                    session.rotate(entry_count)
            client.next_discovery()
            old = session.entries()
            log = session.rotate(20)
            self.assertEqual((session.entry_count(), session.free_entries(), log.entries()), (0, 20, old))
            self.assertEqual((session.devices(), session.devices_run()), ((Device(DEVICE, 4),), 1))
            self.assertEqual((client.get(DEVICE, 1), session.entry(0).number), (0, 0))
        self.assertEqual((log.entry_count(), log.entry(0)), (len(old), entries.Join(0, 1)))
        log.dispose()
        for held in (session, log):
            with self.assertRaises(wurstlinen.NotOpen):
                held.entry_count()


    def test_drains(self) -> None:
        with Session(SOURCE, 100) as session:
            client = session.join(2)
            client.get(DEVICE, 1)
            for entry_count, fault in [(1, wurstlinen.LogFull), (1_000_001, wurstlinen.TooManyEntries)]:
                with self.assertRaises(fault):
                    session.drain(entry_count)
            waiting = session.entries()
            page = session.drain(50)
            self.assertEqual((page.first, page.entry_count(), page.entries()), (0, 2, waiting))
            self.assertEqual((session.entry_count(), session.free_entries()), (0, 48))
            session.take()
            sent = session.drain()
            session.fail()
            with session.drain(50) as failed:
                self.assertEqual((sent.first, failed.first), (2, 3))
                self.assertEqual([type(entry) for entry in (*page, *sent, *failed)], [
                    entries.Join, entries.Accept, entries.Send, entries.Came, entries.Finish])
            self.assertEqual((list(page), list(failed)), ([], []))
            with self.assertRaises(wurstlinen.NotOpen):
                page.entry_count()
            self.assertEqual(client.next_completion().status, wurstlinen.Status.FAILED_TO_SEND)
            self.assertEqual([(rest.first, list(rest)) for rest in (session.drain(),)], [(5, [entries.Collect(0)])])
            left = session.drain()
        self.assertEqual((left.first, list(left)), (6, []))

    def test_a_session_without_a_log(self) -> None:
        with Session(SOURCE, 0, without_log=True) as session:
            client, line = session.join(2), Fixtures(DEVICE)
            for number in range(200):
                self.assertEqual(client.get(DEVICE, 0x0060), number)
                session.run(line)
                client.next_completion()
            self.assertEqual((session.entry_count(), session.entries()), (0, ()))
            page = session.drain(40)
            self.assertEqual((page.first, list(page)), (1 + 200 * 5, []))
            session.pause()
            self.assertEqual(session.entries(), (entries.Pause(),))

    def test_a_session_that_never_ends(self) -> None:
        with Session(SOURCE, 40) as session:
            client, line, pages = session.join(2), Fixtures(DEVICE), []
            for number in range(200):
                self.assertEqual(client.get(DEVICE, 0x0060), number)
                pages.append(session.drain(40))
                session.run(line)
                client.next_completion()
            pages.append(session.drain(40))
            numbered = [(page.first + index, entry) for page in pages for index, entry in enumerate(page)]
            self.assertEqual([number for number, _ in numbered], list(range(1 + 200 * 5)))
            accepts = [entry.number for _, entry in numbered if isinstance(entry, entries.Accept)]
            self.assertEqual(accepts, list(range(200)))


class Agents(unittest.TestCase):
    def test_a_run(self) -> None:
        line = Fixtures(DEVICE, Uid(0x4321, 1))
        with DiscoveryAgent(SOURCE, first_tn=255) as agent:
            self.assertEqual(agent.next(), (Operation.UNMUTE, packet(Uid.ALL, SOURCE, 255, 1, 0x10, 3)))
            with self.assertRaises(wurstlinen.NotEnded):
                agent.fault()
            agent.hear(b"")
            self.assertEqual(agent.next()[1][15], 0)
            self.assertEqual(agent.run(line), (Device(DEVICE, 4), Device(Uid(0x4321, 1), 4)))
            self.assertIsNone(agent.fault())
            with self.assertRaises(wurstlinen.HasEnded):
                agent.hear(b"")

    def test_known(self) -> None:
        with DiscoveryAgent(SOURCE, Kind.INCREMENTAL, [DEVICE]) as agent:
            self.assertEqual(agent.run(Fixtures(DEVICE)), (Device(DEVICE, 4),))
            # Three unmutes, a mute and five silences.
            self.assertEqual(agent.frames(), 9)
        with self.assertRaises(wurstlinen.TooManyDevices):
            DiscoveryAgent(SOURCE, Kind.INCREMENTAL, [Uid(1, device) for device in range(1025)])

    def test_ends(self) -> None:
        with DiscoveryAgent(SOURCE, budget=2) as agent:
            self.assertEqual(agent.run(Fixtures()), ())
            self.assertEqual(agent.fault(), RunFault(RunFaultKind.EXHAUSTED))
        with DiscoveryAgent(SOURCE) as agent:
            agent.stop()
            self.assertEqual(agent.fault(), RunFault(RunFaultKind.ABORTED))
        with DiscoveryAgent(SOURCE) as agent:
            agent.fail()
            self.assertEqual((agent.next(), agent.fault().kind), (None, RunFaultKind.LINE_FAILED))

    def test_the_first_of_several_faults(self) -> None:
        # A budget, how many unmutes are sent, whether the next frame fails, and why the run ends. A stop changes no
        # other fault.
        exhausted, line_failed, aborted = RunFaultKind.EXHAUSTED, RunFaultKind.LINE_FAILED, RunFaultKind.ABORTED
        for budget, unmutes, fails, kind in [
                (0, 0, False, exhausted), (1, 1, False, exhausted), (2, 1, True, line_failed),
                (DEFAULT_BUDGET, 3, True, line_failed), (DEFAULT_BUDGET, 3, False, aborted)]:
            with DiscoveryAgent(SOURCE, budget=budget) as agent:
                for _ in range(unmutes):
                    agent.hear(b"")
                if fails:
                    agent.fail()
                elif kind == aborted:
                    agent.stop()
                for _ in range(2):
                    self.assertEqual((agent.next(), agent.frames()), (None, unmutes + fails))
                    self.assertEqual((agent.fault(), agent.devices()), (RunFault(kind), ()))
                    agent.stop()


class Memory(unittest.TestCase):
    def test_objects_free_themselves(self) -> None:
        def used() -> int:
            gc.collect()
            with open("/proc/self/statm", encoding="ascii") as file:
                return int(file.read().split()[1])

        def make(count: int) -> None:
            for _ in range(count):
                Controller(SOURCE).join(100)
                Session(SOURCE).rotate()
                DiscoveryAgent(SOURCE)

        make(50)
        before = used()
        make(500)
        self.assertLess(used() - before, 1000)


class Loading(unittest.TestCase):
    def load(self, library: str) -> str:
        done = subprocess.run([sys.executable, "-c", "import wurstlinen; wurstlinen.Uid.parse('1234:00000001')"],
                              env={**os.environ, "WURSTLINEN_LIBRARY": library}, capture_output=True, text=True)
        return done.stderr.strip().splitlines()[-1] if done.returncode else ""

    def test_no_library(self) -> None:
        self.assertIn("LibraryNotFound: libwurstlinen.so.0 is not at /nowhere", self.load("/nowhere"))

    def test_a_file_that_is_no_library(self) -> None:
        own = os.path.abspath(__file__)
        self.assertIn(f"LibraryNotFound: {own} can't be loaded: ", self.load(own))

    def test_another_library(self) -> None:
        self.assertIn("VersionDiffers: the library has no call wurst_version", self.load(ctypes_library()))


def ctypes_library() -> str:
    """A library that isn't ours."""
    with open("/proc/self/maps", encoding="ascii") as file:
        return next(line.split()[-1] for line in file if "/libc" in line or "/libm" in line)
