"""What somebody types in the page while answers and changes come: it is sent, or refused where that is seen."""
from __future__ import annotations

import contextlib
import json
import threading
import unittest
from typing import Iterator, List, Tuple
from unittest import mock

from browser import needs_chromium
from common import needs_library
from web_pages import (
    BACK, DESK, LEFT, PHONE, RIGHT, SECONDS, BrowserTestCase, Moody, Window, at_each_size, opened, row,
)

# The page is drawn whenever it has nothing else to do, as if something came between any two keys.
DRAWING = "import('/app.js').then(({draw}) => void setInterval(draw, 0))"
# What a fixture's page shows of itself, and a form.
FORM = {"parameter": "lamp_hours", "about": "", "acts": False,
        "fields": [{"name": "hours", "unit": "h", "hint": "", "choices": [], "is_list": False, "value": "5"}]}


@contextlib.contextmanager
def held(rig: Moody) -> Iterator[threading.Event]:
    """No fixture answers until the event is set, or the end."""
    gate = threading.Event()

    def exchange(frame: bytes) -> bytes:
        gate.wait(SECONDS)
        return Moody.exchange(rig, frame)

    with mock.patch.object(rig, "exchange", exchange):
        try:
            yield gate
        finally:
            gate.set()


def go_on(seen: Window, text: str) -> None:
    """Types key by key where the keys are, in place of what is selected."""
    for each in text:
        seen.page.call("Input.insertText", text=each)


def sent(seen: Window) -> List[str]:
    """The values of the requests so far."""
    return [each.rpartition("/")[2] for each in seen.page.requests if "/api/" in each]


@needs_chromium
@needs_library
class Typing(BrowserTestCase):
    """Fields of all views."""

    def begin(self, seen: Window, what: str, text: str) -> None:
        """Types in place of what a field has, while the page is drawn all the time."""
        seen.until(f"document.querySelector({json.dumps(what)})?.disabled === false")
        seen.page.value(DRAWING)
        seen.page.value(f"document.querySelector({json.dumps(what)}).focus()")
        seen.page.value("document.activeElement.select()")
        go_on(seen, text)

    @at_each_size
    def test_what_is_typed_while_another_value_is_under_way(self, size: Tuple[int, int]) -> None:
        for view, label in (("fixtures", f"{row(LEFT)} .label"), (f"fixture/{LEFT}", "article .label")):
            with opened(size, view) as (seen, web, rig), web.follow() as events:
                with held(rig):
                    for text in ("One", "Two", "Three"):
                        self.begin(seen, label, text)
                        seen.key("Enter")
                    # It isn't sent so far.
                    self.begin(seen, label, "Fo")
                events.until(lambda parts: parts.get(f"fixture/{LEFT}", {}).get("label") == "Three")
                seen.until(f"document.querySelector(\"{label}\").ariaLabel === 'Label of Three'")
                seen.until(f"!document.querySelector(\"{label}\").matches('.busy')")
                go_on(seen, "ur")
                self.assertEqual(seen.value(label), "Four")
                seen.key("Tab")
                events.until(lambda parts: parts[f"fixture/{LEFT}"]["label"] == "Four")
                self.assertEqual(events.parts["undo"]["count"], 3)

    def test_a_choice_while_another_one_is_under_way(self) -> None:
        with opened(DESK) as (seen, web, rig), web.follow() as events:
            seen.until(f"document.querySelector(\"{row(RIGHT)} .personality\")?.options.length === 2")
            seen.page.value(DRAWING)
            with held(rig):
                seen.page.value(f"document.querySelector(\"{row(RIGHT)} .personality\").focus()")
                seen.key("ArrowDown")
                seen.key("ArrowUp")
            events.until(lambda parts: (parts.get("undo") or {}).get("count") == 2)
            self.assertEqual(events.parts[f"fixture/{RIGHT}"]["personality"], 1)

    @at_each_size
    def test_each_press_moves_an_address_by_one(self, size: Tuple[int, int]) -> None:
        with opened(size, f"fixture/{BACK}") as (seen, web, rig), web.follow() as events:
            seen.until("document.querySelector('.nudge')?.disabled === false")
            with held(rig):
                for _ in range(3):
                    seen.click("[aria-label='Address one higher']")
                seen.until("document.querySelector('.address').value === '103'")
            events.until(lambda parts: parts.get(f"fixture/{BACK}", {}).get("address") == 103)

    @at_each_size
    def test_what_others_change_meanwhile(self, size: Tuple[int, int]) -> None:
        with opened(size) as (seen, web, _), web.follow() as events:
            address = f"{row(LEFT)} .address"
            # What is selected is still typed over, and what was typed stays, even if it was the same.
            self.begin(seen, address, "")
            for other, text, end in (("200", "30", "Enter"), ("300", "3", ""), ("400", "50", "Tab")):
                web.call("change", uid=LEFT, column="address", value=other)
                seen.until(f"document.querySelector(\"{row(LEFT)} .slots\").textContent.startsWith('{other}-')")
                go_on(seen, text)
                if end:
                    seen.key(end)
                    events.until(lambda parts, wanted=int(seen.value(address)):
                                 parts.get(f"fixture/{LEFT}", {}).get("address") == wanted)
                if end == "Enter":
                    seen.page.value("document.activeElement.select()")
            self.assertEqual(events.parts[f"fixture/{LEFT}"]["address"], 350)

    @at_each_size
    def test_a_filter_that_no_longer_fits(self, size: Tuple[int, int]) -> None:
        with opened(size) as (seen, web, _), web.follow() as events:
            seen.click("input[type=search]")
            seen.type("wash left")
            seen.until("document.querySelectorAll('.rig tbody tr').length === 1")
            self.begin(seen, f"{row(LEFT)} .label", "Wa")
            web.call("change", uid=LEFT, column="label", value="Other")
            seen.until(f"document.querySelector(\"{row(LEFT)} .label\")?.ariaLabel !== 'Label of Front left'")
            go_on(seen, "sh")
            seen.key("Enter")
            events.until(lambda parts: parts.get(f"fixture/{LEFT}", {}).get("label") == "Wash")

    @at_each_size
    def test_a_line_or_a_fixture_that_goes(self, size: Tuple[int, int]) -> None:
        with opened(size) as (seen, web, rig):
            self.begin(seen, f"{row(LEFT)} .label", "Wa")
            rig.is_plugged_in = False
            seen.until("document.querySelector('#status').className === 'bad'")
            seen.until(f"document.querySelector(\"{row(RIGHT)} .label\").disabled")
            go_on(seen, "sh")
            self.assertEqual(seen.value(f"{row(LEFT)} .label"), "Wash")
            seen.key("Tab")
            seen.until("document.querySelector('.message p')?.textContent.includes('no adapter is plugged in')")
            seen.button("Close")
            rig.is_plugged_in = True
            self.begin(seen, f"{row(BACK)} .label", "Be")
            # Somebody takes it from the list.
            rig.gone.add(int(BACK.replace(":", ""), 16))
            web.call("discover")
            seen.until(f"document.querySelector(\"{row(BACK)}\").matches('.missing')")
            go_on(seen, "am")
            self.assertEqual(seen.value(f"{row(BACK)} .label"), "Beam")
            self.assertEqual(web.call("forget", uid=BACK), {})
            seen.until(f"document.querySelector('.message p')?.textContent === \"{BACK} isn't among the fixtures\"")

    @at_each_size
    def test_a_question_while_somebody_types_elsewhere(self, size: Tuple[int, int]) -> None:
        for begun in ("", "Wash"):
            with opened(size) as (seen, web, _), web.follow() as events:
                seen.page.value("window.past = fetch, window.fetch = async (...all) => (await new Promise((go) => "
                                "(window.go = go)), past(...all)), null")
                self.begin(seen, f"{row(BACK)} .address", "8")
                seen.key("Enter")
                self.begin(seen, f"{row(LEFT)} .label", begun)
                seen.page.value("window.go(), window.fetch = past, null")
                seen.until("document.querySelector('.message p')?.textContent.includes('overlaps')")
                go_on(seen, " 1")
                seen.key("Enter")
                events.until(lambda parts, wanted=f"{begun} 1":
                             parts.get(f"fixture/{LEFT}", {}).get("label") == wanted)
                self.assertEqual(len(seen.texts(".message")), 1)

    def test_two_that_are_refused(self) -> None:
        with opened(DESK) as (seen, web, _):
            for text in ("513", "600"):
                self.begin(seen, f"{row(LEFT)} .address", text)
                seen.key("Enter")
                seen.until(f"document.querySelector('.message p')?.textContent.includes('{text} is not from 1 to 512')")
            self.assertEqual(seen.texts(".message p"), ["\n".join(
                f"Front left ({LEFT}): address: {text} is not from 1 to 512" for text in (513, 600))])
            seen.button("Close")
            self.assertEqual(seen.texts(".message"), [])

    @at_each_size
    def test_forms_of_one_fixture(self, size: Tuple[int, int]) -> None:
        """Its other values change while it is read again."""
        with opened(size, f"fixture/{BACK}") as (seen, _, _rig):
            seen.until("[...document.querySelectorAll('button')].some((each) => each.textContent === 'Read all again')")
            for power in ("1", "2", "3"):
                shown = {"sections": {"lamp": [["lamp hours", "5 h"], ["lamp strikes", power]]},
                         "forms": {"lamp hours": FORM}, "is_over": True}
                seen.page.value(f"import('/server.js').then(({{parts}}) => void parts.set('details/{BACK}', "
                                f"{json.dumps(shown)}))")
                seen.page.value("import('/app.js').then(({draw}) => draw())")
                if power == "1":
                    seen.click("summary")
                    self.begin(seen, "details input", "")
                go_on(seen, power)
            self.assertEqual(seen.value("details input"), "123")
            self.assertEqual(seen.page.value("document.querySelector('details').open"), True)

    @at_each_size
    def test_nothing_moves_under_a_hand(self, size: Tuple[int, int]) -> None:
        """Whatever is said in rows. On a phone that is below what is used, so that it is so for the row itself."""
        place = row(LEFT) if size == PHONE else "tbody tr"
        places = f"""[...document.querySelectorAll("{place} :is(.identify, .label, .address, .personality, .more)")]
            .map((each) => (({{left, top}}) => [left, top])(each.getBoundingClientRect()))"""
        with opened(size) as (seen, web, _):
            self.begin(seen, f"{row(LEFT)} .label", "")
            seen.until("document.querySelectorAll('.rig .label:enabled').length === 5")
            before = seen.page.value(places)
            for column, value in (("label", "A label of thirty-two characters"), ("address", "20"), ("address", "99"),
                                  ("personality", "2"), ("label", "")):
                web.call("change", uid=LEFT, column=column, value=value, force=True)
                seen.until(f"document.querySelector('.made')?.textContent.includes(\"→ {value or 'empty'}\")")
                self.assertEqual(seen.page.value(places), before)

    def test_a_message_doesnt_cover_what_it_is_about(self) -> None:
        with opened(PHONE) as (seen, _, _rig):
            self.begin(seen, f"{row(BACK)} .address", "513")
            seen.key("Enter")
            seen.until("document.querySelector('.message')")
            bottom, top = seen.page.value(f"[\"{row(BACK)}\", '.message'].map((each) => document.querySelector(each)"
                                          ".getBoundingClientRect()).map(({bottom, top}, at) => at ? top : bottom)")
            self.assertLessEqual(bottom, top)

    def test_a_piece_that_is_moved(self) -> None:
        """Others move meanwhile, and then it is taken from the list."""
        with opened(DESK, "slots") as (seen, web, rig):
            piece = f"button[data-uid='{BACK}']"
            seen.until(f"document.querySelector(\"{piece}\")")
            seen.page.value(DRAWING)
            seen.page.value(f"document.querySelector(\"{piece}\").focus()")
            seen.key("ArrowRight")
            web.call("change", uid=RIGHT, column="address", value="300")
            seen.until(f"document.querySelector(\"button[data-uid='{RIGHT}']\").ariaLabel.includes('slots 300-')")
            seen.key("ArrowRight")
            self.assertEqual(seen.texts(".hint"), [
                "Back truss, not sent yet: slot 100 → 102, free. Enter sends it; Escape leaves it where it was. "
                "Send Cancel"])
            x, y = seen.page.value(f"(({{left, top}}) => [left + 8, top + 8])(document.querySelector(\"{piece}\")"
                                   ".getBoundingClientRect())")
            seen.page.call("Input.dispatchMouseEvent", type="mousePressed", x=x, y=y, button="left", clickCount=1)
            rig.gone.add(int(BACK.replace(":", ""), 16))
            web.call("discover")
            seen.until(f"document.querySelector(\"{piece}\").matches('.away')")
            self.assertEqual(web.call("forget", uid=BACK), {})
            seen.until("document.querySelectorAll('.universe button').length === 4")
            for kind in ("mouseMoved", "mouseReleased"):
                seen.page.call("Input.dispatchMouseEvent", type=kind, x=x + 80, y=y, button="left", buttons=1)
            seen.until(f"document.querySelector('.message p')?.textContent === \"{BACK} isn't among the fixtures\"")


if __name__ == "__main__":
    unittest.main()
