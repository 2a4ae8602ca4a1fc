"""The page of explain in a browser: it opens at once, shows what is clicked, marks findings, and asks for nothing."""
from __future__ import annotations

import io
import time
import unittest
from pathlib import Path
from typing import Any, Dict, Mapping, Sequence

from browser import Page, browser, needs_chromium
from common import TestCase, folder, scene
from page_logs import (
    DISCOVERY_OPENING, FEW_CLIENTS, HEAD, SOURCE, discovered, document, exchange_line, found_in, long_log, session_of,
)
from page_rules import RULES
from wurstlinen.front import page, page_findings
from wurstlinen.lines.packets import Packet
from wurstlinen.lines.uids import ALL_DEVICES, parse_uid

LEFT, SILENT = "1234:00000001", "1234:00000009"
MANY = 100_000
# On a quiet machine it takes one. A page that decodes all of it at once takes much longer.
SECONDS_TO_OPEN = 10.0
SECONDS_TO_NOTE = 20.0
# Findings of the program after a run's first one, and the sentences of all.
FINDINGS: Sequence[Dict[str, Any]] = (
    {"judgement": "found", "uid": LEFT, "sentence": f"{LEFT} was found, and followed the rules"},
    {"judgement": "broke", "uid": SILENT, "exchange": 8, "sentence": f"{SILENT} was never heard"},
    {"judgement": "stray", "exchange": 3, "sentence": "bytes came where no listed device was due"})
SENTENCES = [each["sentence"] for each in (HEAD, *FINDINGS)]
FAILURE = {"judgement": "failure", "exchange": 1, "sentence": "exchange 1 failed"}
# The place of an exchange in the window, by what the page itself computes.
PLACE = """(() => {{
    const box = view.getBoundingClientRect();
    return [box.left + view.clientLeft + xOf({at}) + size.width / 2, box.top + box.height / 2];
}})()"""
# Which colours are in the picture, between two of its columns.
COLOURS = """(() => {{
    const scale = window.devicePixelRatio;
    const data = pen.getImageData({x} * scale, {y} * scale, {width} * scale, {height} * scale).data;
    const found = {{}};
    for (let at = 0; at < data.length; at += 4) {{
        const colour = `${{data[at]}},${{data[at + 1]}},${{data[at + 2]}}`;
        found[colour] = (found[colour] ?? 0) + 1;
    }}
    return found;
}})()"""
INK = "27,31,36"
BLUE = "0,114,178"
RED = "213,94,0"
SERVED = "51,82,122"
WAITING = "201,217,234"


def written(place: Path, log: str, *findings: Dict[str, Any], counts: Sequence[int] = ()) -> Path:
    """A file with the page of a log, whose runs have so many exchanges; the last one has these findings."""
    file = place / "page.html"
    file.write_text(drawn("a <b>log</b>", log, found_in(log, *counts, findings=findings)), encoding="utf-8")
    return file


def drawn(name: str, log: str, found: bytes, labels: Mapping[int, str] = {}) -> str:
    """The page of a log in which the program has found this, and a broken rule."""
    broken = found.replace(b'"broken": false', b'"broken": true')
    return page.page_of(name, io.BytesIO(log.encode()), page_findings.findings_in(broken), labels)


@needs_chromium
class Noted(unittest.TestCase):
    """What the tests of pages rely on."""

    def test_errors_and_requests_are_noted(self) -> None:
        address = "http://127.0.0.1:9/asked"
        with folder() as place, browser() as seen:
            # What the browser's first page throws is lost if another one comes in its place.
            file = place / "page.html"
            file.write_text('<html data-ready="yes"></html>', encoding="utf-8")
            seen.open(file)
            seen.value("setTimeout(() => { throw new Error('thrown'); }), new Promise((done) => setTimeout(done))")
            seen.value(f"Promise.reject(new Error('rejected')), fetch('{address}').catch(() => 0)")
            words = ("Error: thrown", "Error: rejected", address)
            # On a busy machine they are noted later than the page goes on.
            until = time.monotonic() + SECONDS_TO_NOTE
            while time.monotonic() < until and not all(any(word in each for each in seen.errors) for word in words):
                time.sleep(0.05)
            for word in words:
                self.assertEqual(sum(word in each for each in seen.errors), 1, word)
            self.assertEqual(seen.requests, [file.as_uri(), address])


@needs_chromium
class Shown(TestCase):
    """Pages in a browser."""

    def setUp(self) -> None:
        contexts = folder(), browser()
        self.place, self.page = (context.__enter__() for context in contexts)
        for context in contexts:
            self.addCleanup(context.__exit__, None, None, None)

    place: Path
    page: Page
    # The page of many exchanges, which a busy machine needs long to make.
    many: str

    @classmethod
    def setUpClass(cls) -> None:
        others = [{"judgement": "found", "uid": f"1234:{number:08x}", "sentence": "x"} for number in range(1, 1001)]
        log = "".join(long_log(MANY))
        cls.many = drawn("log", log, found_in(log, findings=[*FINDINGS, *others]))

    def tearDown(self) -> None:
        self.assertEqual(self.page.errors, [])
        self.assertEqual(self.page.requests, [(self.place / "page.html").as_uri()])

    def clicked(self, at: int) -> Dict[str, Any]:
        """What is shown after a click on an exchange."""
        self.page.click(*self.page.value(PLACE.format(at=at)))
        return self.detail(at)

    def detail(self, at: int) -> Dict[str, Any]:
        """What is shown of an exchange, as soon as it is."""
        self.page.wait(f"get('detail').dataset.exchange === '{at}'")
        return {name: self.page.value(f"[...get('detail').querySelectorAll('{what}')].map((each) => each.textContent)")
                for name, what in (("title", "h2"), ("command", ".command"), ("answer", ".answer"), ("found", ".found"),
                                   ("fields", ".bytes span"))}

    def colours(self, x: float, y: float, width: float, height: float) -> Dict[str, int]:
        """How many pixels of the picture have which colour."""
        self.page.value("new Promise((done) => requestAnimationFrame(() => requestAnimationFrame(done)))")
        found: Dict[str, int] = self.page.value(COLOURS.format(x=x, y=y, width=width, height=height))
        return found

    def test_a_discovery(self) -> None:
        self.page.open(written(self.place, discovered(scene(devices=[{"uid": LEFT}])), *FINDINGS))
        texts = self.page.value("[...document.querySelectorAll('#findings li')].map((each) => each.textContent)")
        self.assertEqual(texts, [*SENTENCES[:2], f"\u25bc{SENTENCES[2]}", f"\u25bc{SENTENCES[3]}"])
        self.assertEqual(self.page.value("get('title').textContent"), "explain: a <b>log</b>")
        self.assertIn("A rule was broken.", self.page.value("get('verdict').textContent"))
        found = self.clicked(3)
        self.assertEqual(found["title"], ["exchange 3"])
        self.assertEqual(found["command"], ["BRANCH 0000:00000000-ffff:ffffffff"])
        self.assertEqual(found["answer"], [LEFT])
        self.assertEqual(found["found"], [f"\u25bc {SENTENCES[3]}"])
        self.assertIn("PID0001", found["fields"])
        self.assertIn("preamblefefefefefefefe", found["fields"])
        found = self.clicked(4)
        self.assertEqual((found["command"], found["answer"]), ([f"MUTE {LEFT}"], ["ACK 0x0000"]))
        self.assertEqual(found["found"], [])

    def test_findings_are_marked(self) -> None:
        self.page.open(written(self.place, discovered(scene(devices=[{"uid": LEFT}])), *FINDINGS))
        x = self.page.value("xOf(3) + size.width / 2")
        # The triangle above, and the bar below.
        self.assertGreater(self.colours(x - 6, 33, 12, 12).get(INK, 0), 30)
        self.assertGreater(self.colours(x - 6, 60, 12, 100).get(BLUE, 0), 300)
        x = self.page.value("xOf(5) + size.width / 2")
        self.assertEqual(self.colours(x - 6, 33, 12, 12).get(INK, 0), 0)
        self.page.value("document.querySelectorAll('#findings button')[0].click()")
        self.assertEqual(self.detail(8)["found"], [f"\u25bc {SENTENCES[2]}"])
        y = self.page.value("topOfRow(1) + size.row / 2 - view.scrollTop")
        ring = self.colours(self.page.value("xOf(8) + size.width / 2") - 9, y - 9, 18, 18)
        self.assertGreater(ring.get(INK, 0), 40)

    def test_labels_are_beside_uids(self) -> None:
        log, file = discovered(scene(devices=[{"uid": LEFT}])), self.place / "page.html"
        file.write_text(drawn("log", log, found_in(log, findings=FINDINGS), {parse_uid(LEFT): "Front left"}),
                        encoding="utf-8")
        self.page.open(file)
        texts = self.page.value("[...document.querySelectorAll('#findings li')].map((each) => each.textContent)")
        self.assertEqual(texts[1:3], [f"Front left: {SENTENCES[1]}", f"\u25bc{SENTENCES[2]}"])
        # A browser smooths letters, so few pixels have the colour of ink.
        for row, has_label in ((0, True), (1, False)):
            found = self.colours(112, self.page.value(f"topOfRow({row}) - view.scrollTop"), 80, 16)
            self.assertEqual(len(found) > 10, has_label, found)

    def test_a_dark_scheme(self) -> None:
        self.page.call("Emulation.setEmulatedMedia", features=[{"name": "prefers-color-scheme", "value": "dark"}])
        self.page.open(written(self.place, discovered(scene(devices=[{"uid": LEFT}])), *FINDINGS))
        for text in ("getComputedStyle(document.body).color", "getComputedStyle(document.documentElement).color"):
            self.assertEqual(self.page.value(text), "rgb(238, 241, 244)")
        field = self.colours(0, 0, 100, 60)
        self.assertEqual(max(field, key=lambda each: field[each]), "20,24,29")
        self.assertGreater(field.get("238,241,244", 0), 20)
        # What was acknowledged keeps its colour.
        x = self.page.value("xOf(4)")
        self.assertGreater(self.colours(x, 60, 20, 200).get("0,158,115", 0), 50)

    def on_a_phone(self, scheme: str) -> None:
        """It can be read and used there."""
        self.page.call("Emulation.setDeviceMetricsOverride", width=390, height=844, deviceScaleFactor=1, mobile=True)
        self.page.call("Emulation.setEmulatedMedia", features=[{"name": "prefers-color-scheme", "value": scheme}])
        self.page.open(written(self.place, discovered(scene(devices=[{"uid": LEFT}])), *FINDINGS))
        for name in ("texts stand out", "what is typed stands out", "a control has a name",
                     "nothing is wider than the screen"):
            self.assertEqual(self.page.value(RULES[name]), [], name)
        self.assertEqual(self.clicked(3)["title"], ["exchange 3"])

    def test_a_phone(self) -> None:
        self.on_a_phone("light")

    def test_a_dark_phone(self) -> None:
        self.on_a_phone("dark")

    def test_an_unmute_that_failed(self) -> None:
        frame = Packet(ALL_DEVICES, SOURCE, 0, 1, 0, 0, 0x10, 3).encode()
        log = DISCOVERY_OPENING + exchange_line(0, "unmute", frame, b"") + exchange_line(1, "unmute", frame, None)
        self.page.open(written(self.place, log, FAILURE))
        for at, has_failed in ((0, False), (1, True)):
            found = self.colours(self.page.value(f"xOf({at})"), 60, 20, 100)
            # The edges of the strokes are paler, by how a browser draws them.
            self.assertEqual(found.get(RED, 0) > 100, has_failed)

    def test_keys_and_sizes(self) -> None:
        self.page.open(written(self.place, discovered(scene(devices=[{"uid": LEFT}])), *FINDINGS))
        self.page.value("view.focus()")
        for key, wanted in (("ArrowRight", 0), ("ArrowRight", 1), ("End", 9), ("ArrowLeft", 8), ("Home", 0)):
            for kind in ("keyDown", "keyUp"):
                self.page.call("Input.dispatchKeyEvent", type=kind, key=key)
            self.detail(wanted)
        before = self.page.value("[size.width, size.row]")
        for name in ("out", "in", "all", "lower", "higher"):
            self.page.value(f"get('{name}').click()")
        after = self.page.value("[size.width, size.row]")
        self.assertEqual([round(each, 6) for each in after], [round(each, 6) for each in before])

    def test_clients(self) -> None:
        self.page.open(written(self.place, session_of(FEW_CLIENTS.entries), counts=(2, 1)))
        self.assertEqual(self.clicked(3)["title"], ["run 1, exchange 1, for clients 0, 2 (exchange 3 of the log)"])
        for client, waits in enumerate(([0, 1, 2, 3], [0, 2, 3, 4], [0, 1, 2, 3])):
            for at in range(6):
                found = self.colours(self.page.value(f"xOf({at}) + 2"), 32 + 12 * client + 3, 8, 4)
                mask = FEW_CLIENTS.served[at] >> client & 1
                wanted = SERVED if mask else WAITING if at in waits else "255,255,255"
                self.assertEqual(list(found), [wanted], (client, at))

    def test_many_exchanges_open_at_once(self) -> None:
        file = self.place / "page.html"
        file.write_text(self.many, encoding="utf-8")
        self.assertLess(self.page.open(file), SECONDS_TO_OPEN)
        self.assertEqual(self.page.value("log.count"), MANY)
        # Only lines with a place are listed of so many.
        self.assertEqual(self.page.value("get('findings').children.length"), 3)
        began = time.monotonic()
        self.page.value(f"select({MANY - 1})")
        self.assertEqual(self.detail(MANY - 1)["title"], [f"exchange {MANY - 1}"])
        self.page.value("setWidth(20)")
        self.page.value("get('only').click()")
        self.assertEqual(self.page.value("get('findings').children.length"), 1001)
        self.assertLess(time.monotonic() - began, SECONDS_TO_OPEN)

    def test_nothing_was_sent(self) -> None:
        file = self.place / "page.html"
        none = {"exchanges": 0, "devices": 0, "heard": "", "findings": [{"judgement": "no run", "sentence": "none"}]}
        file.write_text(drawn("log", "", document([none])), encoding="utf-8")
        self.page.open(file)
        self.assertEqual(self.page.value("get('findings').textContent"), "none")

    def test_texts_are_no_script(self) -> None:
        bad = "</script><script>window.bad = 1</script><img src=x onerror='window.bad = 1'>"
        self.page.open(written(self.place, discovered(scene(devices=[])), {**FAILURE, "sentence": bad}))
        self.page.value("document.querySelector('#findings button').click()")
        self.assertEqual(self.detail(1)["found"], [f"\u25bc {bad}"])
        self.assertEqual(self.page.value("[window.bad ?? 0, document.images.length, document.scripts.length]"),
                         [0, 0, 4])


if __name__ == "__main__":
    unittest.main()
