"""The page's program without a browser: what it answers, fixtures that are slow, refuse or vanish, its server's end."""
from __future__ import annotations

import contextlib
import io
import json
import os
import shutil
import signal
import subprocess
import sys
import threading
import time
import unittest
from pathlib import Path
from typing import Any
from unittest import mock
from urllib.request import urlopen

import servers
from common import LongTestCase, TestCase, folder, needs_library, scene
from web_pages import BACK, FIVE, HOUSE, LEFT, RIGHT, SECOND, Events, Moody, five, web_on
from wurstlinen import LineFailed, connect
from wurstlinen.front.output import Failure
from wurstlinen.lines.numbers import Pid
from wurstlinen.lines.packets import decode_packet
from wurstlinen.web import running
from wurstlinen.web.hands import Board, Hands
from wurstlinen.web.plans import Plans
from wurstlinen.web.rig import Rig
from wurstlinen.web.watcher import LOOK_SECONDS

ALL = [LEFT, RIGHT, BACK, HOUSE, SECOND]


@needs_library
class Changes(TestCase):
    """Values in the table, undo, identify and files."""

    def test_a_change_is_read_back_and_shown_to_all(self) -> None:
        with five() as (web, _), web.follow() as one, web.follow() as other:
            answer = web.call("change", uid=LEFT, column="label", value="Wash 1")
            self.assertEqual((answer["made"], answer["failures"]), (1, []))
            for events in (one, other):
                events.until(lambda parts: parts.get(f"fixture/{LEFT}", {}).get("label") == "Wash 1")

    def test_what_overlaps_isnt_done_unless_it_is_wanted(self) -> None:
        with five() as (web, _), web.follow() as events:
            answer = web.call("change", uid=RIGHT, column="address", value="97")
            self.assertEqual(answer["made"], 0)
            self.assertEqual(answer["problems"],
                             [f"after this, {RIGHT} “Front right” 97-103 overlaps {BACK} “Back truss” 100"])
            answer = web.call("change", uid=RIGHT, column="address", value="97", force=True)
            self.assertEqual(answer["made"], 1)
            parts = events.until(lambda parts: any(each["uid"] == RIGHT for each in parts.get("problems", [])))
            self.assertEqual(parts[f"fixture/{RIGHT}"]["last"], 103)
            self.assertEqual(web.call("change", uid=RIGHT, column="address", value="510")["problems"],
                             [f"after this, {RIGHT} “Front right” 510-516 ends after 512"])

    def test_a_personality_changes_slots(self) -> None:
        with five() as (web, _), web.follow() as events:
            events.until(lambda parts: len(parts.get(f"fixture/{LEFT}", {}).get("personalities", [])) == 2)
            # Front right begins at 8.
            answer = web.call("change", uid=LEFT, column="personality", value="2")
            self.assertIn(f"after this, {LEFT} “Front left” 1-14 overlaps {RIGHT} “Front right” 8-14",
                          answer["problems"])
            web.call("change", uid=LEFT, column="personality", value="2", force=True)
            parts = events.until(lambda parts: parts[f"fixture/{LEFT}"]["slots"] == 14)
            self.assertEqual(parts[f"fixture/{LEFT}"]["personality_name"], "Extended")

    def test_undo(self) -> None:
        with five() as (web, _), web.follow() as events:
            web.call("change", uid=BACK, column="address", value="200")
            web.call("change", uid=BACK, column="label", value="")
            events.until(lambda parts: parts.get("undo", {}).get("count") == 2)
            answer = web.call("undo", text=f"{BACK}  address  100 -> 200")
            self.assertIn("another change is the last one by now", answer["error"])
            self.assertEqual(web.call("undo")["made"], 1)
            self.assertEqual(web.call("undo", text=f"{BACK}  address  100 -> 200")["made"], 1)
            parts = events.until(lambda parts: parts.get("undo") is None)
            back = parts[f"fixture/{BACK}"]
            self.assertEqual((back["label"], back["address"]), ("Back truss", 100))
            self.assertEqual(web.call("undo"), {"error": "there is no change to take back"})

    def test_undo_asks_if_somebody_else_has_the_slots_by_now(self) -> None:
        with five() as (web, _), web.follow() as events:
            web.call("change", uid=BACK, column="address", value="200")
            with servers.Program(servers.place.path_of(servers.place.own_folder(), "rig:/it")) as program:
                program.say({"do": "set", "uid": RIGHT, "pid": "00f0", "data": "0064"})
                program.next("status")
            events.until(lambda parts: parts.get(f"fixture/{RIGHT}", {}).get("address") == 100)
            answer = web.call("undo")
            self.assertEqual((answer["made"], answer["problems"]),
                             (0, [f"after this, {RIGHT} “Front right” 100-106 overlaps {BACK} “Back truss” 100"]))
            self.assertEqual(web.call("undo", force=True)["made"], 1)
            events.until(lambda parts: parts[f"fixture/{BACK}"]["address"] == 100 and parts.get("undo") is None)

    def test_undo_of_what_somebody_else_has_changed_since(self) -> None:
        with five() as (web, _), web.follow() as events:
            web.call("change", uid=BACK, column="address", value="200")
            with servers.Program(servers.place.path_of(servers.place.own_folder(), "rig:/it")) as program:
                program.say({"do": "set", "uid": BACK, "pid": "00f0", "data": "012c"})
                program.next("status")
            events.until(lambda parts: parts.get(f"fixture/{BACK}", {}).get("address") == 300)
            self.assertIn("has address 300 by now", web.call("undo")["error"])

    def test_wrong_values(self) -> None:
        with five() as (web, _):
            for column, value, said in (("address", "0", "is not from 1 to 512"), ("address", "x", "isn't a number"),
                                        ("label", "B\u00fchne", "isn't printable ASCII"),
                                        ("label", "x" * 33, "32 are possible"),
                                        ("personality", "3", "refused it"), ("colour", "1", "there is no column")):
                answer = web.call("change", uid=LEFT, column=column, value=value)
                self.assertIn(said, json.dumps(answer), (column, value))
            self.assertIn("isn't among the fixtures", web.call("identify", uid="1234:00000099", on=True)["error"])

    def test_identify(self) -> None:
        with five() as (web, _), web.follow() as events:
            web.call("identify", uid=LEFT, on=True)
            events.until(lambda parts: parts.get(f"fixture/{LEFT}", {}).get("identifies"))
            web.call("identify", uid=RIGHT, on=True, only=True)
            parts = events.until(lambda parts: parts[f"fixture/{RIGHT}"]["identifies"])
            events.until(lambda parts: parts[f"fixture/{LEFT}"]["identifies"] is False)
            self.assertEqual([uid for uid in ALL if parts[f"fixture/{uid}"]["identifies"]], [RIGHT])

    def test_all_that_a_fixture_supports(self) -> None:
        with five() as (web, rig), web.follow() as events:
            web.call("show", uid=BACK)
            parts = events.until(lambda parts: parts.get(f"details/{BACK}", {}).get("is_over"))
            sections = parts[f"details/{BACK}"]["sections"]
            self.assertEqual(sections["sensors"][0][0], "0 Head")
            self.assertIn("41 \u00b0C", sections["sensors"][0][1])
            self.assertEqual(parts[f"details/{BACK}"]["forms"]["record sensors"]["acts"], True)
            # What is asked again stays until the answers come, so that nobody loses the place.
            rig.delay = 0.02
            asking = threading.Thread(target=web.call, args=("show",), kwargs={"uid": BACK})
            asking.start()
            counts = set()
            while asking.is_alive():
                counts.add(len(events.next().get(f"details/{BACK}", parts[f"details/{BACK}"])["sections"]))
            self.assertEqual(counts, {len(sections)})
            rig.delay = 0.0
            self.assertEqual(web.call("set", uid=BACK, parameter="device_label", words=["Beam"]), {})
            events.until(lambda parts: parts[f"fixture/{BACK}"]["label"] == "Beam")

    def test_a_file(self) -> None:
        text = (f"uid;label;address;rigger\n{LEFT};Wash 1;20;Ann\n{BACK};Back truss;100;Bob\n"
                "1234:00000099;Lost;400;Cy\n")
        with five() as (web, _), web.follow() as events:
            self.assertEqual(web.call("load", text=text)["text"], "name isn't a text")
            self.assertEqual(web.call("load", name="rig.csv", text=text), {})
            parts = events.until(lambda parts: parts.get("file", {}).get("differences"))
            found = [(each["kind"], each["uid"]) for each in parts["file"]["differences"]]
            self.assertEqual(found, [("missing", "1234:00000099"), ("new", RIGHT), ("new", HOUSE), ("new", SECOND),
                                     ("moved", LEFT), ("relabelled", LEFT), ("overlap", LEFT), ("overlap", LEFT)])
            plan = web.call("apply", dry=True)
            self.assertEqual(plan["changes"], [{"uid": LEFT, "text": "address 1 → 20"},
                                               {"uid": LEFT, "text": "label Front left → Wash 1"}])
            self.assertEqual(web.call("apply")["made"], 2)
            events.until(lambda parts: not [each for each in parts["file"]["differences"] if each["uid"] == LEFT])
            saved = web.call("save")["text"]
            self.assertIn(f"{LEFT};Wash 1;20;Ann;1;Wash 7;7\n", saved)
            self.assertIn("1234:00000099;Lost;400;Cy;;;\n", saved)
            answer = web.call("load", name="x", text="nonsense")
            self.assertIn("the first line has to name the columns", answer["error"])
            self.assertEqual(web.call("unload"), {})
            events.until(lambda parts: parts.get("file") is None)


@needs_library
class Worse(TestCase):
    """Fixtures that are slow, refuse or vanish, and another program's pause."""

    def test_a_slow_fixture_holds_up_nobody(self) -> None:
        with five(devices=[{"uid": "4444:00000001", "rig": {"label": "Slow", "timer": 30}}]) as (web, _):
            began = time.monotonic()
            self.assertEqual(web.call("identify", uid=LEFT, on=True), {})
            self.assertEqual(web.call("change", uid=RIGHT, column="label", value="Quick")["made"], 1)
            self.assertLess(time.monotonic() - began, 1.0)

    def test_one_that_refuses(self) -> None:
        with five(devices=[{"uid": "4444:00000001", "rig": {"nack": "0004"}}]) as (web, _), web.follow() as events:
            parts = events.until(lambda parts: parts.get("fixture/4444:00000001", {}).get("is_read"))
            self.assertIn("refuses device_info", " ".join(parts["fixture/4444:00000001"]["notes"]))
            answer = web.call("change", uid="4444:00000001", column="address", value="9")
            self.assertIn("refused it", answer["failures"][0])

    def test_one_that_vanishes(self) -> None:
        with five() as (web, rig), web.follow() as events:
            rig.gone.add(rig.fixtures[2].uid)
            answer = web.call("change", uid=BACK, column="address", value="300")
            self.assertEqual(answer["failures"], [f"address: {BACK}: no answer"])
            events.until(lambda parts: parts.get(f"fixture/{BACK}", {}).get("is_gone"))
            web.call("discover")
            parts = events.until(lambda parts: parts[f"fixture/{BACK}"]["missing"])
            self.assertEqual(parts[f"fixture/{BACK}"]["label"], "Back truss")
            if web_has_program():
                events.until(lambda parts: "was never heard" in parts[f"fixture/{BACK}"]["missing"])
                # Whatever the line's server says of that run later.
                time.sleep(2 * LOOK_SECONDS)
                with web.follow() as later:
                    missing = later.until(lambda parts: f"fixture/{BACK}" in parts)[f"fixture/{BACK}"]["missing"]
                self.assertIn("was never heard", missing)
            rig.gone.clear()
            web.call("discover")
            events.until(lambda parts: parts[f"fixture/{BACK}"]["missing"] == ""
                         and not parts[f"fixture/{BACK}"]["is_gone"])
            self.assertIn("isn't forgotten", web.call("forget", uid=BACK)["error"])
            rig.gone.add(rig.fixtures[2].uid)
            web.call("discover")
            events.until(lambda parts: parts[f"fixture/{BACK}"]["missing"])
            self.assertEqual(web.call("forget", uid=BACK), {})
            events.until(lambda parts: parts.get(f"fixture/{BACK}") is None)

    def test_a_liar_is_named(self) -> None:
        liar = {"uid": "4444:00000001", "rig": {"lies": ["wrong sum"]}}
        with five(devices=[liar]) as (web, _), web.follow() as events:
            parts = events.until(lambda parts: parts.get("discovery", {}).get("runs") is False
                                 and parts["discovery"].get("others") != ["looking at what it shows ..."])
            if web_has_program():
                self.assertIn("4444:00000001", json.dumps(parts["discovery"]))
                # Only the UID isn't said twice.
                said = {each["uid"]: each["text"] for each in parts["discovery"]["devices"]}
                self.assertRegex(said["4444:00000001"], 
                                 r"^exchange [0-9]+( \(and [0-9]+ more\))?: 4444:00000001 alone was asked")
                status, body = web.ask("GET", f"/picture/{parts['discovery']['picture']}")
                self.assertEqual(status, 200)
                self.assertIn(b"4444:00000001", body)

    def test_a_pause(self) -> None:
        with five() as (web, _), web.follow() as events:
            self.assertEqual(web.call("pause", on=True), {"paused": True})
            events.until(lambda parts: parts.get("line", {}).get("paused"))
            self.assertEqual(web.call("pause", on=False), {"paused": False})
            events.until(lambda parts: not parts["line"]["paused"])

    def test_an_adapter_that_is_unplugged(self) -> None:
        with five() as (web, rig), web.follow() as events:
            rig.is_plugged_in = False
            parts = events.until(lambda parts: parts.get("line", {}).get("there") is False)
            self.assertEqual((parts["line"]["served"], parts["line"]["reason"]), (True, "the adapter is gone"))
            answer = web.call("identify", uid=LEFT, on=True)
            self.assertIn("no adapter is plugged in", answer["error"])
            rig.is_plugged_in = True
            events.until(lambda parts: parts["line"]["there"])
            self.assertEqual(web.call("identify", uid=LEFT, on=True), {})

    def test_other_programs_are_shown(self) -> None:
        with five() as (web, _), web.follow() as events, \
                servers.Program(servers.place.path_of(servers.place.own_folder(), "rig:/it"),
                                {**servers.HELLO, "name": "console"}) as program:
            events.until(lambda parts: any(each.get("name") == "console" for each in parts.get("clients") or []))
            program.say({"do": "get", "uid": LEFT, "pid": "0082"})
            program.next("status")
            events.until(lambda parts: any(
                name.startswith("request/") and value["command"] == f"GET {LEFT} device_label"
                and value["answer"] == "ACK device_label Front left" and value["is_good"]
                for name, value in parts.items() if value))


@needs_library
class Worst(LongTestCase):
    """What goes wrong at a bad moment leaves nobody waiting, and no thread that has ended."""

    def test_a_fault_of_which_nobody_hears(self) -> None:
        """Standard error is a pipe whose reader has gone."""
        reading, writing = os.pipe()
        os.close(reading)
        with servers.here(lambda: Moody(scene(devices=FIVE["devices"]))) as made, \
                open(writing, "w", 1, encoding="ascii") as errors, mock.patch.object(sys, "stderr", errors):
            hands = Hands(lambda: connect(made.name))
            for _ in range(5):
                with self.assertRaisesRegex(Failure, "ZeroDivisionError"):
                    hands.do("key", lambda work: 1 // 0).result(servers.SECONDS)
            self.assertEqual(hands.do("key", lambda work: 1).result(servers.SECONDS), 1)
            hands.end()
            with contextlib.suppress(OSError):
                errors.close()

    def test_a_line_that_fails_once(self) -> None:
        """For a GET of a fixture, and for one of those whose answers all fixtures of its model share."""
        for failing_data in (b"", b"\x02"):
            rig, failed = Moody(scene(devices=FIVE["devices"])), threading.Event()

            def failing(frame: bytes, rig: Moody = rig, failed: threading.Event = failed) -> bytes:
                command = decode_packet(frame)
                is_asked = command is not None and command.pid == (
                    Pid.DMX_PERSONALITY_DESCRIPTION if failing_data else Pid.DEVICE_LABEL)
                if command is not None and is_asked and command.data == failing_data and not failed.is_set():
                    failed.set()
                    raise LineFailed("a bad contact")
                return Moody.exchange(rig, frame)

            rig.exchange = failing  # type: ignore[method-assign]
            with mock.patch("wurstlinen.web.watcher.AGAIN_SECONDS", 0.1), web_on(rig) as web, web.follow() as events:
                events.until(lambda parts: all(parts.get(f"fixture/{uid}", {}).get("is_read") for uid in ALL)
                             and all(len(parts[f"fixture/{uid}"]["personalities"]) == 2 for uid in (LEFT, RIGHT)))
                self.assertTrue(failed.is_set())

    def test_a_fault_while_a_fixture_is_asked(self) -> None:
        with mock.patch("wurstlinen.web.rig.look_at", side_effect=ZeroDivisionError("wrong")), \
                mock.patch.object(sys, "stderr", io.StringIO()), web_on(Moody(scene(devices=FIVE["devices"]))) as web, \
                web.follow() as events:
            parts = events.until(lambda parts: all(parts.get(f"fixture/{uid}", {}).get("is_read") for uid in ALL))
            self.assertEqual(parts[f"fixture/{LEFT}"]["notes"], ["the page has a fault: ZeroDivisionError('wrong')"])

    def test_a_fault_in_a_call(self) -> None:
        def failing(rig: Rig) -> None:
            raise ValueError("wrong")

        with mock.patch.object(Rig, "undo", failing), \
                mock.patch.object(sys, "stderr", io.StringIO()), web_on(Moody(scene(devices=[]))) as web:
            self.assertEqual(web.call("undo"), {"error": "the page has a fault: ValueError('wrong')"})

    def test_a_comparison_that_fails(self) -> None:
        board, compared = Board(), threading.Semaphore(0)
        plans = Plans(board, Rig(board, mock.Mock()))

        def failing() -> None:
            compared.release()
            raise ZeroDivisionError

        with mock.patch.object(plans, "_compare", failing), mock.patch.object(sys, "stderr", io.StringIO()):
            following = threading.Thread(target=plans.follow)
            following.start()
            for number in range(3):
                board.put(f"fixture/{LEFT}", number)
                self.assertTrue(compared.acquire(timeout=servers.SECONDS))
            board.end()
            following.join(servers.SECONDS)

    def test_a_signal_before_the_page_is_served(self) -> None:
        """And then its address can't be printed."""
        text = ("import os, signal, sys\nfrom wurstlinen import tool\nfrom wurstlinen.web import running\n"
                "def tell(*words):\n    os.kill(os.getpid(), signal.SIGTERM)\n    raise BrokenPipeError\n"
                "running.tell = tell\nsys.exit(tool.run())\n")
        with servers.runtime() as place:
            rig = place / "rig.json"
            rig.write_text(json.dumps(FIVE), encoding="utf-8")
            done = subprocess.run([sys.executable, "-c", text, "web", "--port", "0", "--line", f"rig:{rig}"],
                                  env=servers.environment(place), timeout=servers.SECONDS, check=False)
            self.assertNotEqual(done.returncode, 0)


def web_has_program() -> bool:
    """Whether the proved program is installed."""
    from wurstlinen.tool.places import program
    return program() is not None


@needs_library
class TheCommand(LongTestCase):
    """The command in a process of its own, and the server that it starts."""

    def started(self, place: Path, *words: str) -> "subprocess.Popen[str]":
        """The command, once it has printed where the page is."""
        process = subprocess.Popen([*servers.TOOL, "web", "--json", "--port", "0", *words], stdout=subprocess.PIPE,
                                   stderr=subprocess.PIPE, text=True, env=servers.environment(place))
        self.addCleanup(end, process)
        return process

    def said(self, process: "subprocess.Popen[str]") -> Any:
        """What it prints first."""
        assert process.stdout is not None
        return json.loads(process.stdout.readline())

    def follow(self, address: str) -> Events:
        """What a page at an address gets."""
        place, _, token = address.partition("/#")
        return Events(int(place.rpartition(":")[2]), token)

    def test_it_starts_a_server_again_and_ends(self) -> None:
        with servers.runtime() as place:
            rig = place / "rig.json"
            rig.write_text(json.dumps(FIVE), encoding="utf-8")
            process = self.started(place, "--line", f"rig:{rig}")
            with self.follow(self.said(process)["addresses"][0]) as events:
                parts = events.until(lambda parts: parts.get(f"fixture/{SECOND}", {}).get("is_read"))
                server = parts["line"]["process"]
                os.kill(server, signal.SIGKILL)
                events.until(lambda parts: parts["line"]["served"] is False)
                parts = events.until(lambda parts: parts["line"].get("process", server) != server)
                # What was known is still shown, and another program can use the new server.
                self.assertEqual(parts[f"fixture/{LEFT}"]["label"], "Front left")
                done = servers.command(place, "get", LEFT, "device_label", "--line", f"rig:{rig}")
                self.assertEqual(done.stdout, "Front left\n", done.stderr)
                process.send_signal(signal.SIGTERM)
                self.assertEqual(process.wait(servers.SECONDS), 0)
            until_gone(parts["line"]["process"])

    def test_it_uses_the_server_that_runs(self) -> None:
        with servers.runtime() as place:
            rig = place / "rig.json"
            rig.write_text(json.dumps(FIVE), encoding="utf-8")
            with servers.serve(place, "--line", f"rig:{rig}") as server:
                process = self.started(place, "--line", f"rig:{rig}")
                keys = self.said(process)
                with self.follow(keys["looking"][0]) as events:
                    parts = events.until(lambda parts: parts.get("line", {}).get("served"))
                    self.assertEqual((parts["line"]["process"], parts["role"]), (server.pid, "looks"))
                again = self.started(place, "--line", f"rig:{rig}")
                # Pages that are open are good for the next program, too.
                self.assertEqual(token_of(self.said(again)), token_of(keys))
                new = self.started(place, "--line", f"rig:{rig}", "--new-tokens")
                self.assertNotEqual(token_of(self.said(new)), token_of(keys))

    def test_on_the_network(self) -> None:
        with servers.runtime() as place:
            rig = place / "rig.json"
            rig.write_text(json.dumps(FIVE), encoding="utf-8")
            for words, is_open in (((), False), (("--allow-network",), True)):
                keys = self.said(self.started(place, "--line", f"rig:{rig}", *words))
                port = int(keys["addresses"][0].partition("/#")[0].rpartition(":")[2])
                for host in running.addresses():
                    with self.subTest(host=host, words=words):
                        is_named = any(f"http://{host}:{port}/" in each for each in keys["addresses"])
                        self.assertEqual(is_named, is_open or host[:4] == "127.")
                        if is_open:
                            with urlopen(f"http://{host}:{port}/", timeout=servers.SECONDS) as page:
                                self.assertIn(b"app.js", page.read())
                        elif host[:4] != "127.":
                            with self.assertRaises(OSError):
                                urlopen(f"http://{host}:{port}/", timeout=servers.SECONDS)

    def test_the_address_as_a_qr_code(self) -> None:
        """Others see a command's arguments, so it comes by its standard input."""
        with folder() as place:
            program = place / "qrencode"
            program.write_text(f"#!/bin/sh\necho \"$@\" > {place}/words\ncat > {place}/said\n")
            program.chmod(0o755)
            with mock.patch.dict(os.environ, {"PATH": f"{place}:{os.environ['PATH']}"}):
                running.show_code("http://192.0.2.1:1/#token")
            self.assertEqual((place / "said").read_text(), "http://192.0.2.1:1/#token")
            self.assertNotIn("token", (place / "words").read_text())

    @unittest.skipUnless(shutil.which("qrencode"), "needs qrencode")
    def test_the_address_as_a_real_qr_code(self) -> None:
        text = "from wurstlinen.web import running; running.show_code('http://192.0.2.1:1/#token')"
        done = subprocess.run([sys.executable, "-c", text], env={**os.environ, "PYTHONPATH": str(servers.PACKAGE)},
                              capture_output=True, text=True, timeout=servers.SECONDS, check=False)
        self.assertEqual(done.stderr, "")
        # Codes have 21 modules a side or more, two of which are the height of a character.
        self.assertGreater(sum("\u2588" in each for each in done.stdout.splitlines()), 10)

    def test_the_address_as_a_qr_code_without_that_program(self) -> None:
        """By the module of python3-qrcode, or not at all."""
        module, printed = mock.Mock(), io.StringIO()
        with folder() as place, mock.patch.dict(os.environ, {"PATH": str(place)}):
            with mock.patch("importlib.util.find_spec", lambda name: name), \
                    mock.patch("importlib.import_module", {"qrcode": module}.__getitem__):
                running.show_code("http://192.0.2.1:1/#token")
            with mock.patch("importlib.util.find_spec", lambda name: None), \
                    contextlib.redirect_stdout(printed):
                running.show_code("http://192.0.2.1:1/#token")
        code = module.QRCode.return_value
        self.assertEqual([code.add_data.mock_calls, len(code.print_ascii.mock_calls)],
                         [[mock.call("http://192.0.2.1:1/#token")], 1])
        self.assertEqual(printed.getvalue(),
                         "with the package qrencode or python3-qrcode, this would be a QR code too\n")

    def test_faults(self) -> None:
        with servers.runtime() as place:
            for words, status, said in ((["--line", "ola:1"], 2, "olad has the line"),
                                        (["--line", "rig:/nowhere"], 1, "/nowhere"),
                                        (["--line", "nothing"], 2, "no line"),
                                        (["--port", "x", "--line", "rig:/x"], 2, "isn't a number")):
                done = servers.command(place, "web", *words)
                self.assertEqual(done.returncode, status, (words, done.stderr))
                self.assertIn(said, done.stderr)


def token_of(keys: Any) -> str:
    """The token in an address."""
    return str(keys["addresses"][0]).partition("#")[2]


def end(process: "subprocess.Popen[str]") -> None:
    """Ends a process."""
    process.terminate()
    process.communicate(timeout=servers.SECONDS)


def is_running(number: int) -> bool:
    """Whether a process hasn't ended."""
    try:
        return Path(f"/proc/{number}/stat").read_text(encoding="utf-8").rpartition(")")[2].split()[0] != "Z"
    except OSError:
        return False


def until_gone(number: int) -> None:
    """Waits until a process has ended."""
    until = time.monotonic() + servers.SECONDS
    while is_running(number):
        assert time.monotonic() < until, "the server doesn't end"
        time.sleep(0.05)


if __name__ == "__main__":
    unittest.main()
