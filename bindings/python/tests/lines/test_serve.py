"""The server of a line: its protocol, its clients, and what ends them."""
from __future__ import annotations

import contextlib
import itertools
import json
import os
import re
import threading
import time
from pathlib import Path
from typing import Any, Dict, Iterable, List, Set
from unittest import mock

from common import PACKAGE, ROOT, TestCase, needs_library, scene
from moments import FAULTS, Trace, elsewhere, raising
from servers import HELLO, SECONDS, SOURCE, Program, here
from wurstlinen import (
    AckType, BadUids, Completion, Device, Discovery, Full, Kind, LineFailed, NotServed, OtherOutcome, OutcomeKind,
    ReplyHead, ResponseClass, SharedClient, Status, Uid, connect,
)
from wurstlinen.lines import OpenLine, Rig
from wurstlinen.lines.numbers import CommandClass, Pid
from wurstlinen.lines.packets import decode_packet
from wurstlinen.lines.uids import uid_text
from wurstlinen.shared import peer, server, words

FIVE = ROOT / "bindings/examples/five_fixtures.json"
LEFT = "1234:00000001"
GET = {"do": "get", "uid": LEFT, "pid": "0082"}
SET = {"do": "set", "uid": LEFT, "pid": "00f0", "data": "0011"}
# FORMATS, the status of a request.
COMPLETED, FAILED_TO_SEND, TIMEOUT = 0, 2, 3
LABEL = b"Front left".hex()
FOUND = [{"uid": "1234:00000001", "control": "0000"}, {"uid": "1234:00000002", "control": "0000"},
         {"uid": "454e:0a000017", "control": "0000"}, {"uid": "9abc:00000002", "control": "0000"},
         {"uid": "9abc:00000003", "control": "0002", "binding": "9abc:00000002"}]


def five() -> OpenLine:
    """The rig of five fixtures."""
    return Rig(FIVE)


class Gate(Rig):
    """A rig that makes no exchange before it is opened, and knows the start addresses that were set."""

    def __init__(self) -> None:
        super().__init__(FIVE)
        self.addresses: List[int] = []
        self.is_open = threading.Event()
        self.began = threading.Semaphore(0)

    def exchange(self, frame: bytes) -> bytes:
        self.began.release()
        if not self.is_open.wait(SECONDS):
            raise LineFailed("the test doesn't open it")
        command = decode_packet(frame)
        if command is not None and (command.command_class, command.pid) == (CommandClass.SET, Pid.DMX_START_ADDRESS):
            self.addresses.append(int.from_bytes(command.data, "big"))
        return super().exchange(frame)

    def close(self) -> None:
        self.is_open.set()


@needs_library
class Protocol(TestCase):
    """What bindings/python/SERVER.md says, word by word."""

    def test_hello(self) -> None:
        with here(five) as made, Program(made.place.path, {**HELLO, "id": 5, "name": "console"}) as program:
            self.assertEqual(program.hello, {
                "id": 5, "version": 1, "source": SOURCE, "process": os.getpid(), "depth": 16, "client": 0,
                "line": "rig:/it", "there": True, "paused": False, "clients": 1, "outstanding": 0})

    def test_clients(self) -> None:
        with here(five) as made, Program(made.place.path) as first, \
                Program(made.place.path, {**HELLO, "name": "console"}) as second:
            second.ask({"do": "pause"})
            first.say(GET)
            first.next("request")
            own = {"process": os.getpid()}
            second.say({"do": "clients"})
            self.assertEqual(second.next("clients"), {"clients": [
                {"client": 0, "outstanding": 1, "name": "", **own, "paused": False},
                {"client": 1, "outstanding": 0, "name": "console", **own, "paused": True}]})
            first.close()
            # What it hadn't had sent is gone with it.
            while len(found := second.ask({"do": "clients"})["clients"]) > 1:
                self.assertEqual(found[0]["client"], 0)
            self.assertEqual([each["client"] for each in found], [1])

    def test_a_get_and_a_set(self) -> None:
        with here(five) as made, Program(made.place.path) as program:
            self.assertEqual(program.ask({**GET, "id": 1}), {"id": 1, "request": 0})
            self.assertEqual(program.read(), {"request": 0, "status": 0, "ack": 0, "response": "get", "pid": "0082",
                                              "sub": 0, "data": LABEL})
            self.assertEqual(program.ask({"do": "set", "uid": LEFT, "pid": "00F0", "data": "0011", "sub": 0}),
                             {"request": 1})
            self.assertEqual(program.read(), {"request": 1, "status": 0, "ack": 0, "response": "set", "pid": "00f0",
                                              "sub": 0, "data": ""})
            program.ask({**GET, "pid": "0123"})
            # A NACK whose reason is that the PID is unknown.
            self.assertEqual(program.read(), {"request": 2, "status": 0, "ack": 2, "response": "get", "pid": "0123",
                                              "sub": 0, "data": "0000"})
            program.ask({**GET, "uid": "1234:00000009"})
            self.assertEqual(program.read(), {"request": 3, "status": TIMEOUT})

    def test_a_discovery_and_the_devices(self) -> None:
        with here(five) as made, Program(made.place.path) as program:
            self.assertEqual(program.ask({"do": "devices", "id": 1}), {"id": 1, "run": 0, "devices": []})
            self.assertEqual(program.ask({"do": "subscribe", "to": ["devices"]}), {"to": ["devices"]})
            self.assertEqual(program.ask({"do": "discover", "id": 2}), {"id": 2, "discovery": 0})
            self.assertEqual(program.read(), {"discovery": 0, "run": 1, "fault": 0, "devices": FOUND})
            self.assertEqual(program.read(), {"event": "devices", "run": 1})
            self.assertEqual(program.ask({"do": "devices"}), {"run": 1, "devices": FOUND})
            program.ask({"do": "discover", "kind": "incremental"})
            self.assertEqual(program.read(), {"discovery": 1, "run": 2, "fault": 0, "devices": FOUND})

    def test_a_fault_of_a_discovery(self) -> None:
        liar = scene(devices=[{"uid": LEFT, "rig": {"lies": ["ignores mutes"]}}])
        with here(lambda: Rig(liar)) as made, Program(made.place.path) as program:
            program.ask({"do": "discover"})
            # FORMATS, the report of a discovery: 1 is Corrupt.
            self.assertEqual(program.read(), {"discovery": 0, "run": 1, "fault": 1, "uid": LEFT, "devices": [],
                                              "bad": [LEFT]})

    def test_all_bad_uids_of_a_discovery(self) -> None:
        bad = [f"1234:{number:08x}" for number in range(17, 0, -1)]
        for count, keys in ((3, {"bad": bad[-3:]}), (17, {"bad": bad[-16:], "more_bad": True})):
            liars = scene(devices=[{"uid": uid, "rig": {"lies": ["wrong sum"]}} for uid in bad[-count:]])
            with here(lambda: Rig(liars)) as made, Program(made.place.path) as program:
                program.ask({"do": "discover"})
                self.assertEqual(program.read(), {"discovery": 0, "run": 1, "fault": 1, "uid": LEFT, "devices": [],
                                                  **keys})

    def test_a_pause(self) -> None:
        with here(five) as made, Program(made.place.path) as operator, Program(made.place.path) as program:
            self.assertEqual(operator.ask({"do": "pause", "id": 1}), {"event": "pause", "paused": True})
            self.assertEqual(operator.read(), {"id": 1, "paused": True})
            self.assertEqual(program.read(), {"event": "pause", "paused": True})
            program.ask(GET)
            self.assertEqual(program.ask({"do": "status"}), {
                "line": "rig:/it", "there": True, "paused": True, "clients": 2, "outstanding": 1})
            operator.say({"do": "resume", "id": 2})
            self.assertEqual(operator.next("id"), {"id": 2, "paused": False})
            self.assertEqual(program.read(), {"event": "pause", "paused": False})
            self.assertEqual(program.read()["data"], LABEL)

    def test_a_pause_ends_with_its_operator(self) -> None:
        with here(five) as made, Program(made.place.path) as program:
            for _ in range(2):
                operator = Program(made.place.path)
                operator.say({"do": "pause"})
                self.assertTrue(program.next("event")["paused"])
                program.ask(GET)
                operator.close()
                self.assertEqual(program.next("data")["data"], LABEL)

    def test_two_operators(self) -> None:
        with here(five) as made, Program(made.place.path) as first, Program(made.place.path) as second:
            first.say({"do": "pause", "id": 1})
            first.next("id")
            second.say({"do": "pause", "id": 1})
            second.next("id")
            first.say({"do": "resume", "id": 2})
            self.assertEqual(first.next("id"), {"id": 2, "paused": True})
            second.say({"do": "resume", "id": 2})
            self.assertEqual(second.next("id"), {"id": 2, "paused": False})

    def test_frames(self) -> None:
        with here(five) as made, Program(made.place.path) as program, Program(made.place.path) as other:
            program.ask({"do": "subscribe", "to": ["frames"]})
            other.ask(GET)
            frame = program.read()
            self.assertEqual((frame["event"], frame["request"], frame["client"]), ("frame", 0, 1))
            command, reply = decode_packet(bytes.fromhex(frame["frame"])), decode_packet(bytes.fromhex(frame["reply"]))
            self.assertEqual((uid_text(command.destination), command.pid, reply.data.hex()), (LEFT, 0x82, LABEL))
            self.assertEqual(other.read()["data"], LABEL)
            program.ask({"do": "discover"})
            seen = list(iter(lambda: program.next("event", "devices").get("frame"), None))
            # E1.20: a discovery begins with an unmute of all devices.
            self.assertEqual(decode_packet(bytes.fromhex(seen[0])).pid, 3)
            self.assertGreater(len(seen), 10)

    def test_bad_requests(self) -> None:
        rows: List[Any] = [
            (b"x", "the line isn't JSON"), (b"[1]", "the line isn't a JSON object"), (b"", "the line isn't JSON"),
            (b"\xff", "the line isn't JSON"), (b"[" * 4000, "the line isn't JSON"),
            ({}, "there is nothing to do that is called 'None'"),
            ({"do": 5}, "there is nothing to do that is called '5'"),
            ({"do": "x" * 99}, f"there is nothing to do that is called '{'x' * 64}..'"),
            ({"do": "get", "id": "a"}, f"id isn't a whole number from 0 to {2 ** 53}"),
            ({"do": "get", "id": True}, f"id isn't a whole number from 0 to {2 ** 53}"),
            ({"do": "get"}, "uid isn't a UID such as 1234:00000001"),
            ({"do": "get", "uid": 5}, "uid isn't a UID such as 1234:00000001"),
            ({"do": "get", "uid": LEFT + "\n"}, "uid isn't a UID such as 1234:00000001"),
            ({"do": "get", "uid": LEFT}, "pid isn't four hexadecimal digits"),
            ({**GET, "data": "f"}, "data isn't bytes in hexadecimal"),
        ]
        self.refused(rows)
        self.refused([
            ({**GET, "data": "00" * 232}, "data has more than 231 bytes"),
            ({**GET, "sub": 65536}, "sub isn't a whole number from 0 to 65535"),
            ({**GET, "sub": 1.0}, "sub isn't a whole number from 0 to 65535"),
            ({**GET, "line": 1}, "there is no key 'line' here"),
            ({"do": "discover", "kind": "quick"}, "kind isn't one of full, incremental"),
            ({"do": "discover", "kind": []}, "kind isn't one of full, incremental"),
            ({"do": "subscribe"}, "to isn't a list of devices and frames"),
            ({"do": "subscribe", "to": ["all"]}, "to isn't a list of devices and frames"),
            ({"do": "subscribe", "to": [[]]}, "to isn't a list of devices and frames"),
            ({"do": "pause", "for": 5}, "there is no key 'for' here"),
        ])
        self.refused([(HELLO, "the first request is hello, and only that one")], "NoHello")

    def refused(self, rows: List[Any], name: str = "BadRequest") -> None:
        """Each of these is refused with its text, and the program is served afterwards."""
        with here(five) as made, Program(made.place.path) as program:
            for says, text in rows:
                program.write(says + b"\n") if isinstance(says, bytes) else program.say(says)
                answer = program.read()
                self.assertEqual((answer["error"], answer["text"]), (name, text), says)
            program.ask(GET)
            self.assertEqual(program.read()["data"], LABEL)

    def test_each_word_is_on_the_page(self) -> None:
        page = (PACKAGE / "SERVER.md").read_text(encoding="utf-8")
        on_page: Dict[str, Set[str]] = {}
        for row in page.partition("| `do` |")[2].partition("\n\n")[0].splitlines()[2:]:
            _, names, keys, _ = row.split("|", 3)
            on_page.update(dict.fromkeys(re.findall(r'"(\w+)"', names), set(re.findall(r"`(\w+)`", keys))))
        accepted: Dict[str, Set[str]] = {}

        def check(keys: words.Keys, known: Iterable[str]) -> None:
            """Notes which keys a request may have."""
            accepted[keys["do"]] = set(known)
        with mock.patch.object(server, "check_keys", check), mock.patch.object(words, "check_keys", check), \
                here(five) as made, Program(made.place.path) as program:
            for number, name in enumerate(server.ANSWERS):
                program.say({"do": name, "id": number})
            while program.next("id")["id"] != number:
                pass
        self.assertEqual(accepted, on_page)
        source = "".join(path.read_text(encoding="utf-8") for path in Path(words.__file__).parents[1].rglob("*.py"))
        named = {*re.findall(r'BadRequest\(.*"(\w+)"\)', source), *re.findall(r'"event": ("\w+")', source)}
        self.assertEqual({name for name in named if f"`{name}`" not in page}, set())

    def test_the_id_of_a_bad_request(self) -> None:
        with here(five) as made, Program(made.place.path) as program:
            self.assertEqual(program.ask({"do": "get", "id": 7})["id"], 7)

    def test_the_first_request_is_hello(self) -> None:
        for says, name in ((GET, "NoHello"), ({"do": "hello"}, "BadVersion"),
                           ({"do": "hello", "version": 2}, "BadVersion"),
                           ({"do": "hello", "version": 1, "x": 1}, "BadRequest")):
            with here(five) as made, Program(made.place.path, says) as program:
                self.assertEqual(program.hello["error"], name)
                self.assertEqual(program.ask(HELLO)["version"], 1)

    def test_lines_in_one_piece_and_in_many(self) -> None:
        with here(five) as made, Program(made.place.path, None) as program:
            lines = json.dumps(HELLO) + "\n" + json.dumps(GET) + "\r\n" + json.dumps(GET) + "\n"
            program.write(lines.encode())
            self.assertEqual([program.next("data")["request"] for _ in range(2)], [0, 1])
            for byte in (json.dumps(GET) + "\n").encode():
                program.write(bytes([byte]))
            self.assertEqual(program.next("data")["request"], 2)

    def test_a_client_may_have_sixteen_requests_and_four_discoveries(self) -> None:
        gate = Gate()
        with here(lambda: gate) as made, Program(made.place.path) as program, Program(made.place.path) as other:
            self.assertEqual([program.ask(GET).get("request") for _ in range(16)], list(range(16)))
            self.assertEqual(program.ask({**GET, "id": 3}), {"id": 3, "error": "Full", "text": str(Full())})
            self.assertEqual([program.ask({"do": "discover"}).get("discovery") for _ in range(4)], list(range(4)))
            self.assertEqual(program.ask({"do": "discover"})["error"], "Full")
            # The other one has its own.
            self.assertEqual(other.ask(GET), {"request": 16})
            gate.is_open.set()
            self.assertEqual(other.read()["data"], LABEL)
            self.assertEqual(sum("data" in program.read() for _ in range(20)), 16)


@needs_library
class Clients(TestCase):
    """`wurstlinen.connect`, and the calls of its client."""

    def test_requests(self) -> None:
        with here(five) as made, connect(made.name) as client:
            numbers = [client.get(LEFT, 0x82), client.set(LEFT, "dmx_start_address", b"\x00\x11"),
                       client.get(LEFT, "dmx_start_address")]
            self.assertEqual((numbers, client.last_request), ([0, 1, 2], 2))
            client.queue.run()
            self.assertIs(client.oldest(), OutcomeKind.REQUEST)
            get = ReplyHead(AckType.ACK, ResponseClass.GET, 0x82, 0)
            self.assertEqual(client.next_completion(), Completion(0, Status.COMPLETED, get, b"Front left"))
            self.assertEqual(client.next_completion().head.response_class, ResponseClass.SET)
            self.assertEqual(client.next_outcome().data, b"\x00\x11")
            self.assertIsNone(client.next_outcome())
            self.assertTrue(client.queue.is_idle())

    def test_a_discovery(self) -> None:
        with here(five) as made, connect(made.name) as client:
            self.assertEqual((client.discover(), client.discover(Kind.INCREMENTAL), client.last_discovery), (0, 1, 1))
            client.queue.run()
            self.assertRaises(OtherOutcome, client.next_completion)
            found = client.next_discovery()
            part = Device(Uid.parse("9abc:00000003"), 2, Uid.parse("9abc:00000002"))
            self.assertEqual(found, Discovery(0, 1, None, (
                *(Device(Uid.parse(uid)) for uid in (LEFT, "1234:00000002", "454e:0a000017", "9abc:00000002")), part)))
            self.assertEqual(client.queue.devices(), found.devices)
            self.assertEqual(client.queue.devices_run(), client.next_discovery().run)

    def test_bad_uids(self) -> None:
        liar = scene(devices=[{"uid": LEFT, "rig": {"lies": ["ignores mutes"]}}])
        with here(lambda: Rig(liar)) as made, connect(made.name) as client:
            queue = client.queue
            self.assertEqual((queue.bad_uids(), queue.bad_uids_run()), (BadUids(), 0))
            client.discover()
            queue.run()
            self.assertEqual((queue.bad_uids(), queue.bad_uids_run()), (BadUids((Uid.parse(LEFT),)), 1))

    def test_an_answer_that_takes_time(self) -> None:
        with here(five) as made, connect(made.name) as client:
            self.assertEqual(client.ask("9abc:00000002", "device_label").values, {"label": "House lights"})

    def test_long_answers(self) -> None:
        data = bytes(range(256)) * 8
        long = scene(devices=[{"uid": LEFT, "params": [{"pid": "8001", "parts": [
            data[at:at + 128].hex() for at in range(0, len(data), 128)]}]}])
        with here(lambda: Rig(long)) as made, connect(made.name) as client:
            self.assertEqual(client.ask(LEFT, 0x8001).completion.data, data)

    def test_faults_of_the_queue(self) -> None:
        gate = Gate()
        with here(lambda: gate) as made, connect(made.name) as client:
            for _ in range(client.queue.depth):
                client.get(LEFT, 0x82)
            self.assertRaises(Full, client.get, LEFT, 0x82)
            self.assertIsNone(client.last_request)

    def test_a_pause(self) -> None:
        with here(five) as made, connect(made.name) as operator, connect(made.name) as client:
            operator.queue.pause()
            self.assertTrue(client.queue.is_paused())
            client.get(LEFT, 0x82)
            self.assertEqual(client.queue.run(), 0)
            operator.queue.resume()
            while client.queue.is_paused():
                time.sleep(0.01)
            client.queue.run()
            self.assertEqual(client.next_completion().data, b"Front left")

    def test_no_server(self) -> None:
        with here(five):
            text = "no server runs for rig:/other: 'wurstlinen serve --line rig:/other' starts one"
            self.assertRaisesRegex(NotServed, text, connect, "rig:/other")

    def test_a_server_that_ends(self) -> None:
        gate = Gate()
        with here(lambda: gate) as made:
            client = connect(made.name)
            for _ in range(3):
                client.get(LEFT, 0x82)
            gate.began.acquire()
            made.server.end()
            while not made.session.is_closed():
                time.sleep(0.01)
            gate.is_open.set()
            client.queue.run()
            outcomes = [client.next_completion() for _ in range(3)]
            # What was under way is answered, and the others weren't sent.
            self.assertEqual([each.status for each in outcomes],
                             [Status.COMPLETED, Status.FAILED_TO_SEND, Status.FAILED_TO_SEND])
            self.assertRaisesRegex(LineFailed, "the server ends", client.queue._sleep, SECONDS)
            self.assertRaisesRegex(LineFailed, "the server ends", client.next_completion)
            client.close()

    def test_a_server_that_hangs(self) -> None:
        with here(five) as made, connect(made.name) as client:
            client.get(LEFT, 0x82)
            client.queue.run()
            with mock.patch("wurstlinen.shared.connection.ANSWER_SECONDS", 0.1), \
                    mock.patch.object(server, "ANSWERS", {**server.ANSWERS, "get": lambda *_: None}):
                self.assertRaisesRegex(LineFailed, "doesn't answer", client.get, LEFT, 0x82)


@needs_library
class Worst(TestCase):
    """Other threads, and exceptions at any place."""

    def test_threads_share_a_client(self) -> None:
        with here(five) as made, connect(made.name) as client:
            numbers: List[int] = []

            def ask() -> None:
                for _ in range(20):
                    try:
                        numbers.append(client.get(LEFT, 0x82))
                    except Full:
                        time.sleep(0.001)
            threads = [threading.Thread(target=ask) for _ in range(4)]
            for thread in threads:
                thread.start()
            found = []
            while any(thread.is_alive() for thread in threads) or client.queue.outstanding or client.queue.outcomes:
                client.queue.run()
                found += iter(client.next_outcome, None)
            self.assertEqual(sorted(each.number for each in found), sorted(numbers))
            self.assertEqual({each.data for each in found}, {b"Front left"})

    def test_an_exception_at_each_line_of_a_call(self) -> None:
        with here(five) as made:
            with connect(made.name) as client:
                trace = Trace()
                trace.run(lambda: client.ask(LEFT, 0x82))
            # The first time of each line.
            moments = trace.moments()[::2]
            self.assertGreater(len(moments), 80)
            for moment, fault in zip(moments, itertools.cycle(FAULTS)):
                with connect(made.name) as client:
                    with contextlib.suppress(KeyboardInterrupt, MemoryError):
                        Trace(moment, fault).run(lambda: client.ask(LEFT, 0x82))
                    self.check(client, str(moment))
            self.assertEqual(made.server._status()["outstanding"], 0)

    def test_who_is_told_of_a_failure_and_raises_loses_no_outcome(self) -> None:
        class Unplugged(Rig):
            def exchange(self, frame: bytes) -> bytes:
                raise LineFailed("unplugged")

        for fault in (LineFailed("wrong"), Full(), ZeroDivisionError(), KeyboardInterrupt()):
            with here(lambda: Unplugged(FIVE)) as made, connect(made.name) as client:
                client.queue.on_failure = raising(lambda reason: None, 0, fault)
                number = client.get(LEFT, 0x82)
                self.assertRaises(type(fault), client.queue.run)
                self.assertEqual(client.queue.outstanding, set())
                done = client.next_completion()
                self.assertEqual((done.number, done.status), (number, Status.FAILED_TO_SEND))

    def check(self, client: SharedClient, moment: str) -> None:
        """The client goes on with the right answers, or its connection has ended."""
        def asked() -> Any:
            try:
                return client.ask("1234:00000002", 0x82)
            except LineFailed as fault:
                return fault
        answer = elsewhere(asked)
        if isinstance(answer, LineFailed):
            self.assertTrue(client.queue.connection.is_closed, f"{moment}: {answer}")
            return
        self.assertEqual(answer.completion.data, b"Front right", moment)
        self.assertLessEqual({each.data for each in answer.earlier}, {b"Front left"}, moment)


@needs_library
class Lending(TestCase):
    """A queue has sixteen clients for life, which connections borrow."""

    def test_sixteen_programs(self) -> None:
        with here(five) as made:
            programs = [Program(made.place.path) for _ in range(16)]
            for number, program in enumerate(programs):
                self.assertEqual(program.ask(GET), {"request": number})
                self.assertEqual(program.read()["data"], LABEL)
            with Program(made.place.path, {**HELLO, "id": 5}) as other:
                self.assertEqual((other.hello["error"], other.hello["id"], other.read()), ("TooManyClients", 5, None))
            programs[3].close()
            while True:
                with Program(made.place.path) as other:
                    if "error" not in other.hello:
                        break
            self.assertEqual(other.hello["clients"], 16)
            for program in programs:
                program.close()

    def test_what_a_dead_program_had_outstanding_is_dropped(self) -> None:
        gate = Gate()
        with here(lambda: gate) as made:
            dead = [Program(made.place.path) for _ in range(16)]
            for program in dead:
                program.ask(GET)
                program.ask({"do": "discover"})
                program.close()
            waiting = Program(made.place.path, None)
            waiting.say(HELLO)
            waiting.say({**GET, "uid": "1234:00000002"})
            gate.is_open.set()
            # It gets a client of the queue when one has nothing outstanding, and no result of another program.
            self.assertEqual(waiting.read()["version"], 1)
            number = waiting.read()
            self.assertEqual(waiting.read()["request"], number["request"])
            waiting.close()

    def test_what_a_program_that_has_gone_had_not_sent_is_not_sent(self) -> None:
        gate = Gate()
        with here(lambda: gate) as made, Program(made.place.path) as good:
            good.ask(GET)
            gate.began.acquire()
            with Program(made.place.path) as dead:
                for number in range(8):
                    dead.ask({**SET, "data": f"{number + 1:04x}"})
            while good.ask({"do": "status"})["clients"] > 1:
                time.sleep(0.01)
            gate.is_open.set()
            good.next("data")
            good.say(GET)
            # The queue had the first already, and its program's results go to nobody.
            self.assertEqual([good.next("data")["request"], gate.addresses], [9, [1]])

    def test_a_pause_keeps_back_what_can_be_dropped(self) -> None:
        gate = Gate()
        gate.is_open.set()
        with here(lambda: gate) as made, Program(made.place.path) as operator:
            operator.ask({"do": "pause"})
            with Program(made.place.path) as dead, Program(made.place.path) as good:
                dead.ask(SET)
                good.ask(GET)
                dead.close()
                left = 2
                while left > 1:
                    operator.say({"do": "status"})
                    left = operator.next("outstanding")["outstanding"]
                operator.say({"do": "resume"})
                self.assertEqual((good.next("data")["request"], gate.addresses), (1, []))

    def test_nobody_waits_for_a_client_for_ever(self) -> None:
        gate = Gate()
        with mock.patch.object(peer, "HELLO_SECONDS", 0.2), mock.patch.object(server, "HOUSEKEEPING_SECONDS", 0.05), \
                here(lambda: gate) as made:
            for _ in range(16):
                with Program(made.place.path) as program:
                    program.ask({"do": "discover"})
            with Program(made.place.path, None) as program:
                program.say(HELLO)
                self.assertEqual([each["error"] for each in program.rest()], ["TooManyClients"])

    def test_an_idle_server_ends(self) -> None:
        with mock.patch.object(server, "HOUSEKEEPING_SECONDS", 0.05), here(five, idle=0.3) as made:
            with Program(made.place.path):
                time.sleep(0.5)
                self.assertTrue(made.thread.is_alive())
            made.thread.join(SECONDS)
            self.assertFalse(made.thread.is_alive() or made.place.path.exists())

    def test_a_line_that_raises_anything_ends_the_server(self) -> None:
        class Broken(Rig):
            def exchange(self, frame: bytes) -> bytes:
                raise ZeroDivisionError
        with here(lambda: Broken(FIVE)) as made:
            with Program(made.place.path) as program:
                program.ask(GET)
                said = program.rest()
            self.assertEqual([said[0]["status"], said[-1]["error"]], [FAILED_TO_SEND, "Closed"])
            text = "the line has ended the server: ZeroDivisionError()"
            self.assertEqual([said[0]["reason"], said[-1]["text"]], [text, text])
            made.thread.join(SECONDS)
            self.assertIsInstance(made.failure, ZeroDivisionError)
