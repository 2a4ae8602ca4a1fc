"""The page in chromium, used as a person does, on a desk and on a phone, by mouse and by finger."""
from __future__ import annotations

import time
import unittest
from typing import Tuple

import servers
from browser import needs_chromium
from common import folder, needs_library
from web_pages import (
    BACK, DESK, HOUSE, LEFT, PHONE, RIGHT, SECOND, SECTIONS, BrowserTestCase, Window, at_each_size,
    folder_of_downloads, many, opened, row, way, web_on, window,
)
from wurstlinen.tool.places import program

FIND = "Something that isn't in the list answers wrongly, as 4444:00000001: discover again. If it still does, " \
       "unplug half of the line, and discover again, to find it. The discovery is incomplete. "
BAD = "<img src=x onerror=top.bad=1>"
APPLYING = f"""3 changes:
Front left ({LEFT}): personality 1 Basic, 7 slots → 2 Extended, 14 slots
Front left ({LEFT}): address 1 → 20
Front left ({LEFT}): label Front left → Wash 1
They make no slots overlap.
They end this: “Front left” 1-7 overlaps {HOUSE} “House lights” 1; \
“Front left” 1-7 overlaps {SECOND} “Dimmer, second half” 1.
1 missing fixture of the file: not changed."""


@needs_chromium
@needs_library
class Fixtures(BrowserTestCase):
    """The table, the walk, undo and the file."""

    @at_each_size
    def test_labels_and_addresses_are_edited_in_place(self, size: Tuple[int, int]) -> None:
        with opened(size) as (seen, web, _), web.follow() as events:
            seen.until(f"document.querySelector(\"{row(LEFT)} .label\")?.value === 'Front left'")
            seen.click(f"{row(LEFT)} .label")
            seen.type(BAD)
            seen.key("Enter")
            events.until(lambda parts: parts.get(f"fixture/{LEFT}", {}).get("label") == BAD)
            seen.click(f"{row(LEFT)} .address")
            seen.type("20")
            seen.key("Enter")
            events.until(lambda parts: parts[f"fixture/{LEFT}"]["address"] == 20)
            seen.until(f"document.querySelector(\"{row(LEFT)} .slots\")?.textContent === '20-26'")
            self.assertEqual(seen.value(f"{row(LEFT)} .label"), BAD)
            self.assertEqual(seen.page.value("[window.bad ?? 0, document.images.length]"), [0, 0])
            # Its row says what was sent and read back, and takes it back.
            self.assertEqual(seen.texts(f"{row(LEFT)} .note button"), ["address 1 → 20 · Undo"])
            self.assertEqual(seen.texts(".rig .made"), ["address 1 → 20 · Undo"])
            # What is taken back is said before. At 1 it would overlap again.
            self.assertEqual(seen.texts("#undo"), [f"Undo\n{BAD}: address 20 → 1"])
            seen.click("#undo")
            self.assertEqual(seen.texts(".message p"), [f"Undo: {BAD} ({LEFT}): address 20 → 1?"])
            self.assertEqual(seen.page.value("document.activeElement.textContent"), "Cancel")
            seen.button("Undo")
            seen.until("document.querySelector('.message')?.innerText.includes('1-7 overlaps 9abc:00000002')")
            seen.button("Do it anyway")
            seen.until(f"document.querySelector('.message p')?.innerText === "
                       f"'Undone: {BAD} ({LEFT}): address 20 → 1.'")
            seen.button(f"label Front left → {BAD} · Undo")
            events.until(lambda parts: parts[f"fixture/{LEFT}"]["label"] == "Front left")
            seen.until(f"document.querySelector('.message p')?.innerText === "
                       f"'Undone: {BAD} ({LEFT}): label {BAD} → Front left.'")
            # It is of no use elsewhere.
            seen.button("Slots")
            seen.until("!document.querySelector('.message') && document.querySelector('.universe')")
            seen.button("Fixtures")
            seen.until(f"document.querySelector(\"{row(LEFT)} .label\")?.value === 'Front left'")

    @at_each_size
    def test_what_overlaps_is_asked_again(self, size: Tuple[int, int]) -> None:
        with opened(size) as (seen, web, _), web.follow() as events:
            seen.until(f"document.querySelector(\"{row(RIGHT)} .label\")?.value === 'Front right'")
            seen.click(f"{row(RIGHT)} .address")
            seen.type("99")
            seen.key("Enter")
            seen.until("document.querySelector('.message')")
            self.assertIn("99-105 overlaps 454e:0a000017 “Back truss” 100", seen.texts(".message p")[0])
            # The question is where keys are, and then they are where they were.
            self.assertEqual(seen.page.value("document.activeElement.textContent"), "Cancel")
            seen.key("Enter")
            seen.until(f"document.querySelector(\"{row(RIGHT)} .address\")?.value === '8'")
            self.assertEqual(seen.page.value("document.activeElement.className"), "address")
            self.assertEqual(seen.texts(".message"), [])
            seen.click(f"{row(RIGHT)} .address")
            seen.type("99")
            seen.key("Enter")
            seen.button("Do it anyway")
            events.until(lambda parts: parts.get(f"fixture/{RIGHT}", {}).get("address") == 99)
            seen.until(f"document.querySelector(\"{row(RIGHT)} .note\")?.textContent.includes('overlaps Back truss')")
            seen.until(f"document.querySelector(\"{row(RIGHT)} .address\")?.value === '99'")
            # Or what is offered in its place.
            seen.click(f"{row(RIGHT)} .address")
            seen.type("100")
            seen.key("Enter")
            seen.button("Set Front right to 101, the next free address")
            events.until(lambda parts: parts.get(f"fixture/{RIGHT}", {}).get("address") == 101)
            seen.until(f"document.querySelector(\"{row(RIGHT)} .address\")?.value === '101'")
            # Who goes elsewhere leaves the question.
            seen.click(f"{row(RIGHT)} .address")
            seen.type("100")
            seen.key("Enter")
            seen.until("document.querySelector('.message')")
            seen.button("Slots")
            seen.until("!document.querySelector('.message') && document.querySelector('.universe')")

    @at_each_size
    def test_a_question_isnt_answered_by_a_press_that_was_under_way(self, size: Tuple[int, int]) -> None:
        with opened(size) as (seen, _, _rig):
            seen.until(f"document.querySelector(\"{row(RIGHT)} .label\")?.value === 'Front right'")
            # What is there at first is remembered.
            seen.page.value("""new MutationObserver(() => document.querySelector(".message") && (window.first ??=
                [...document.querySelectorAll(".message button")].map((each) => [each.textContent, each.disabled])))
                .observe(document.body, { childList: true, subtree: true })""")
            seen.click(f"{row(RIGHT)} .address")
            seen.type("99")
            seen.key("Enter")
            seen.until("document.querySelector('.message')")
            self.assertEqual(seen.page.value("window.first"), [
                ["Set Front right to 101, the next free address", True], ["Do it anyway", True], ["Cancel", False]])
            if size == PHONE:
                bottom, top = seen.page.value("[document.querySelector('.message').getBoundingClientRect().bottom, "
                                              "document.querySelector('.main').getBoundingClientRect().top]")
                self.assertLessEqual(bottom, top)

    @at_each_size
    def test_wrong_values_come_back(self, size: Tuple[int, int]) -> None:
        with opened(size) as (seen, _, _rig):
            seen.until(f"document.querySelector(\"{row(LEFT)} .address\")?.value === '1'")
            seen.click(f"{row(LEFT)} .address")
            seen.type("513")
            seen.key("Tab")
            seen.until("document.querySelector('.message')")
            self.assertEqual(seen.texts(".message p"), [f"Front left ({LEFT}): address: 513 is not from 1 to 512"])
            seen.until(f"document.querySelector(\"{row(LEFT)} .address\")?.value === '1'")
            seen.click(f"{row(LEFT)} .label")
            seen.type("Anything")
            seen.key("Escape")
            self.assertEqual(seen.value(f"{row(LEFT)} .label"), "Front left")

    @at_each_size
    def test_only_what_was_typed_is_sent(self, size: Tuple[int, int]) -> None:
        with opened(size) as (seen, web, _), web.follow() as events:
            label = f"{row(LEFT)} .label"
            seen.until(f"document.querySelector(\"{label}\")?.value === 'Front left'")
            # A phone has no Escape.
            self.assertEqual(seen.texts(".sending"), [
                ("Leaving a box sends what you typed; ✕ before that leaves it as it was." if size == PHONE else
                 "Enter, or leaving a field, sends what you typed; Escape before that restores it.")
                + " Identify next stops the one before it; it goes through what is shown, in this order."])
            # Whoever passes through, types what is there, or takes back what was typed changes nothing.
            seen.click(label)
            for _ in range(12):
                seen.key("Tab")
            for text, end in (("Front left", "Enter"), ("Half a na", "Escape")):
                seen.click(label)
                seen.type(text)
                seen.key(end)
                self.assertEqual(seen.value(label), "Front left")
                seen.key("Tab")
            if size == PHONE:
                # A finger leaves the box by what is in it.
                seen.click(label)
                seen.type("Half a na")
                seen.until(f"document.querySelector(\"{label} + .leave\")")
                seen.tap(f"{label} + .leave")
                seen.until("document.activeElement === document.body")
                self.assertEqual(seen.value(label), "Front left")
            seen.click(label)
            seen.type("Wash 1")
            seen.key("Tab")
            events.until(lambda parts: parts.get(f"fixture/{LEFT}", {}).get("label") == "Wash 1")
            self.assertEqual(sum(each.endswith("/api/change") for each in seen.page.requests), 1)

    @at_each_size
    def test_personality(self, size: Tuple[int, int]) -> None:
        """In the table, or on a phone where one fixture fills the screen."""
        place, view = (row(RIGHT), "fixtures") if size == DESK else ("article", f"fixture/{RIGHT}")
        with opened(size, view) as (seen, web, _), web.follow() as events:
            chosen = f"{place} .personality"
            seen.until(f"document.querySelector(\"{chosen}\")?.options.length === 2")
            texts = seen.page.value(f"[...document.querySelector(\"{chosen}\").options].map((each) => each.text)")
            self.assertEqual(texts, ["1 Basic (7 slots)", "2 Extended (14 slots)"])
            seen.page.value(f"document.querySelector(\"{chosen}\").focus()")
            seen.key("ArrowDown")
            seen.key("Enter")
            events.until(lambda parts: parts.get(f"fixture/{RIGHT}", {}).get("personality") == 2)
            seen.until(f"document.querySelector(\"{place} :is(.slots, .whole)\")?.textContent.endsWith('8-21')")

    @at_each_size
    def test_the_walk(self, size: Tuple[int, int]) -> None:
        with opened(size) as (seen, web, rig), web.follow() as events:
            seen.until("document.querySelectorAll('.rig .label:enabled').length === 5")
            top = "document.querySelector('tbody tr').getBoundingClientRect().top"
            before = seen.page.value(top)
            # By address: both at 1 of the device with parts, then the others.
            for uid in (LEFT, HOUSE, SECOND, RIGHT, BACK):
                seen.button("Identify next")
                events.until(lambda parts, uid=uid: parts.get(f"fixture/{uid}", {}).get("identifies"))
                events.until(lambda parts: sum(bool(value and value.get("identifies")) for name, value
                                               in parts.items() if name.startswith("fixture/")) == 1)
                # What a finger is on stays where it was.
                seen.until("document.querySelector('#stop')")
                self.assertEqual(seen.page.value(f"scrollTo(0, 0), {top}"), before)
            seen.button("Identify next")
            events.until(lambda parts: not parts[f"fixture/{BACK}"]["identifies"])
            seen.until(f"document.querySelector(\"{row(BACK)} .identify\").ariaChecked === 'false'")
            seen.click(f"{row(BACK)} .identify")
            events.until(lambda parts: parts[f"fixture/{BACK}"]["identifies"])
            seen.until(f"document.querySelector(\"{row(BACK)} .identify\").getAttribute('aria-checked') === 'true'")
            # Each view names all of them, of which nothing is cut off, and stops them at once.
            seen.click(f"{row(LEFT)} .identify")
            for view in ("File", "Discovery", "Line", "Slots"):
                seen.button(view)
                seen.until(f"document.querySelector('main.{view.lower()}') && document.querySelector('#stop')"
                           "?.textContent === '2 identify: Front left, Back truss Stop'")
                self.assertEqual(seen.page.value("(({scrollHeight, clientHeight}) => scrollHeight - clientHeight)"
                                                 "(document.querySelector('#stop span'))"), 0)
            seen.click("#stop")
            events.until(lambda parts: not any(value and value.get("identifies") for name, value in parts.items()
                                               if name.startswith("fixture/")))
            seen.until("!document.querySelector('#stop')")

    def test_the_walk_of_a_long_truss_with_a_phone(self) -> None:
        """The button is under the thumb, and the fixture that shows itself is seen."""
        with web_on(many(40)) as web, window(web.address, PHONE) as seen, web.follow() as events:
            seen.open()
            events.until(lambda parts: sum(bool(value and value.get("is_read")) for name, value in parts.items()
                                           if name.startswith("fixture/")) == 40)
            seen.until("document.querySelectorAll('.rig .label:enabled').length === 40")
            for step in range(1, 15):
                top, bottom = seen.page.value("(({top, bottom}) => [top, bottom])"
                                              "(document.querySelector('.main').getBoundingClientRect())")
                self.assertTrue(PHONE[1] - 100 < top < bottom <= PHONE[1])
                seen.page.click(PHONE[0] / 2, (top + bottom) / 2)
                seen.until(f"document.querySelector('tbody tr:nth-child({step}) .identify').ariaChecked === 'true'")
                seen.until(f"""(({{top, bottom}}) => top > 60 && bottom < {PHONE[1]} - 60)
                    (document.querySelector('tbody tr:nth-child({step})').getBoundingClientRect())""")

    @at_each_size
    def test_filter_and_order(self, size: Tuple[int, int]) -> None:
        with opened(size) as (seen, _, _rig):
            seen.until("document.querySelectorAll('.rig tbody tr').length === 5")
            seen.until(f"document.querySelector(\"{row(SECOND)} .label\").placeholder === 'Dimmer, second half at 1'")
            seen.click("input[type=search]")
            seen.type("wash front")
            seen.until("document.querySelectorAll('.rig tbody tr').length === 2")
            self.assertEqual(seen.texts(".count"), ["5 fixtures, 2 shown"])
            seen.type("nobody")
            seen.until("document.querySelector('.tools .main').disabled")
            seen.type("")
            seen.page.value("document.activeElement.value = ''; "
                            "document.activeElement.dispatchEvent(new Event('input'))")
            labels = "[...document.querySelectorAll('.rig .label')].map((each) => each.value)"
            seen.button("Label")
            seen.until(f"{labels}[0] === 'Back truss'")
            seen.button("Label")
            seen.until(f"{labels}[0] === 'House lights'")
            if size == PHONE:
                # It has no place for the other columns.
                seen.page.value("document.querySelector('select.narrow').focus()")
                seen.key("ArrowDown")
                seen.until(f"{labels}[0] === 'Front left'")

    @at_each_size
    def test_a_file(self, size: Tuple[int, int]) -> None:
        with folder() as place, opened(size, "file") as (seen, web, _), web.follow() as events:
            folder_of_downloads(seen.page, place)
            seen.button("Save fixtures as CSV")
            saved = place / "rig.csv"
            until = time.monotonic() + 20
            while not saved.is_file() or not saved.stat().st_size:
                self.assertLess(time.monotonic(), until)
            text = saved.read_text(encoding="utf-8")
            self.assertIn(f"{LEFT},Front left,1,1,Wash 7,7\n", text)
            text = text.replace("Front left,1,1,", "Wash 1,20,2,") + "4444:00000004,Lost,9,1,,\n"
            saved.write_text(text, encoding="utf-8")
            found = seen.page.call("DOM.getDocument")["root"]["nodeId"]
            node = seen.page.call("DOM.querySelector", nodeId=found, selector="#chooser")["nodeId"]
            seen.page.call("DOM.setFileInputFiles", nodeId=node, files=[str(saved)])
            seen.until("document.querySelectorAll('.differences li').length === 6")
            shown = " ".join(seen.texts(".differences li"))
            self.assertIn("missing: Lost (4444:00000004)", shown)
            self.assertIn(f"moved: Front left ({LEFT}), at 1, file says 20", shown)
            self.assertIn(f"relabelled: Front left ({LEFT}), label Front left, file says Wash 1", shown)
            self.assertIn("1-7 overlaps 9abc:00000002", shown)
            self.assertIn("personality 1 Basic, 7 slots, file says 2 Extended, 14 slots", shown)
            bad = [each.split(":")[0] for each in seen.texts(".differences .bad")]
            self.assertEqual(bad, ["missing", "overlap", "overlap"])
            # The table says so, too, and leads there.
            seen.button("Fixtures")
            seen.button("rig.csv: 1 of its fixtures missing, 3 differences, 2 overlaps on the line now")
            self.assertEqual(seen.texts("#chooser"), [])
            self.assertIn("not in the file: Apply says which it ends.", seen.texts("main > p")[0])
            seen.button("Apply rig.csv …")
            seen.until("document.querySelector('.message')")
            self.assertEqual(seen.texts(".message p"), [APPLYING])
            self.assertEqual(seen.page.value("document.activeElement.textContent"), "Cancel")
            seen.button("Make 3 changes")
            events.until(lambda parts: parts.get(f"fixture/{LEFT}", {}).get("label") == "Wash 1"
                         and parts[f"fixture/{LEFT}"]["address"] == 20)
            seen.until("document.querySelectorAll('.differences li').length === 1")
            seen.button("Close the file")
            seen.until("!document.querySelector('.differences li')")


@needs_chromium
@needs_library
class OtherViews(BrowserTestCase):
    """Slots, one fixture, discovery and the line."""

    @at_each_size
    def test_one_fixture(self, size: Tuple[int, int]) -> None:
        with opened(size) as (seen, web, _), web.follow() as events:
            seen.until(f"document.querySelector(\"{row(BACK)} .label\")?.value === 'Back truss'")
            seen.click(f"{row(BACK)} .more")
            seen.until("document.querySelector('.sensors')?.textContent === 'Head 41 °C'")
            self.assertEqual(seen.texts(".name"), ["Back truss"])
            self.assertTrue(seen.texts(".whole")[0].endswith(" · slot 100"))
            seen.until("[...document.querySelectorAll('dt')].some((each) => each.textContent === 'at slots')")
            if size == PHONE:
                box = seen.page.value("(({width, height, bottom}) => [width, height, bottom])"
                                      "(document.querySelector('.identify').getBoundingClientRect())")
                self.assertGreater(box[0], 340)
                self.assertGreaterEqual(box[1], 88)
                self.assertLess(box[2], PHONE[1] / 2)
            seen.click(".identify")
            events.until(lambda parts: parts.get(f"fixture/{BACK}", {}).get("identifies"))
            # What was read before doesn't contradict it.
            self.assertEqual([each for each in seen.texts("dt") if "identify" in each], [])
            seen.click("[aria-label='Address one higher']")
            events.until(lambda parts: parts[f"fixture/{BACK}"]["address"] == 101)
            seen.until("!document.querySelector('.address.busy') && document.querySelector('.address').value === '101'")
            seen.button("‹ Previous")
            seen.until("document.querySelector('.name')?.textContent === 'Front right'")
            events.until(lambda parts: parts[f"fixture/{RIGHT}"]["identifies"]
                         and not parts[f"fixture/{BACK}"]["identifies"])
            seen.button("Identify next ›")
            seen.until("document.querySelector('.name')?.textContent === 'Back truss'")
            events.until(lambda parts: parts[f"fixture/{BACK}"]["identifies"]
                         and not parts[f"fixture/{RIGHT}"]["identifies"])
            # The page may hear it later than this test.
            seen.until("document.querySelector('.identify').ariaChecked === 'true'")
            self.assertEqual(seen.page.value("document.querySelector('#stop').textContent"),
                             "Back truss identifies Stop")
            seen.click("#stop")
            events.until(lambda parts: not parts[f"fixture/{BACK}"]["identifies"])
            seen.button("Next ›")

    @at_each_size
    def test_any_parameter(self, size: Tuple[int, int]) -> None:
        with opened(size, f"fixture/{BACK}") as (seen, _, rig):
            seen.until("[...document.querySelectorAll('summary')].some((each) => each.textContent === "
                       "'Change record sensors')")
            seen.page.value("[...document.querySelectorAll('summary')].find((each) => each.textContent === "
                            "'Change record sensors').dataset.summary = 1")
            seen.click("summary[data-summary]")
            seen.page.value("[...document.querySelectorAll('details[open] input')].at(-1).focus()")
            seen.type("0")
            seen.button("Do it: record sensors")
            self.assertEqual(seen.texts(".message p"), ["Really do it: record sensors?"])
            seen.button("Do it")
            seen.until("document.querySelector('.message')?.textContent.includes('record sensors was set')")
            seen.until("[...document.querySelectorAll('dd')].some((each) => each.textContent.includes('recorded 41'))")

    def test_slots_by_mouse(self) -> None:
        with opened(DESK, "slots") as (seen, web, _), web.follow() as events:
            piece = f"button[data-uid='{RIGHT}']"
            seen.until(f"document.querySelector(\"{piece}\")")
            self.assertEqual(seen.page.value("[...document.querySelectorAll('button.crowded')].map((each) => "
                                             "each.dataset.uid)"), [LEFT, HOUSE, SECOND])
            # Five fixtures have 7, 7, 1, 1 and 1 slots, of which three share the first one.
            self.assertIn("497 of 512 slots (DMX channels) are free, 1 shared.", seen.texts("main p"))
            x, y = way(seen, 8, 8 + 3 + 64)
            seen.drag(piece, x, y)
            events.until(lambda parts: parts.get(f"fixture/{RIGHT}", {}).get("address") == 8 + 3 + 64)

    @at_each_size
    def test_labels_at_one_slot_are_all_seen(self, size: Tuple[int, int]) -> None:
        with opened(size, "slots") as (seen, _, _rig):
            seen.until("document.querySelectorAll('button.crowded').length === 3")
            found = seen.page.value("""[...document.querySelectorAll("button.piece")].map((each) => {
                each.scrollIntoView({ block: "center" });
                const range = new Range();
                range.selectNodeContents(each);
                const { left, right, top, height } = range.getBoundingClientRect();
                const places = [1, 20, 40, 60].map((x) => left + x).filter((x) => x < right);
                return places.map((x) => document.elementFromPoint(x, top + height / 2) === each);
            })""")
            self.assertEqual(len(found), 5)
            for places in found:
                self.assertGreaterEqual(len(places), 3)
                self.assertEqual(places, [True] * len(places))

    @at_each_size
    def test_the_hint_of_slots_stays_in_sight(self, size: Tuple[int, int]) -> None:
        with opened(size, "slots") as (seen, _, _rig):
            seen.until("document.querySelectorAll('button.crowded').length === 3")
            for part in (0, 0.5, 1):
                seen.page.value(f"scrollTo(0, {part} * document.documentElement.scrollHeight)")
                seen.until("""(({top, bottom}) => top > 0 && bottom <= innerHeight)
                    (document.querySelector(".hint").getBoundingClientRect())""")

    def test_slots_by_keys(self) -> None:
        with opened(DESK, "slots") as (seen, web, _), web.follow() as events:
            seen.until(f"document.querySelector(\"button[data-uid='{RIGHT}']\")")
            seen.page.value(f"document.querySelector(\"button[data-uid='{RIGHT}']\").focus()")
            for key in ("ArrowDown", "ArrowRight", "ArrowDown", "ArrowLeft", "ArrowLeft"):
                seen.key(key)
            self.assertEqual(seen.texts(".hint"), ["Front right, not sent yet: slots 8-14 → 71-77, free. Enter sends "
                                                   "it; Escape leaves it where it was. Send Cancel"])
            # Above another one it is lifted and low, so that both their names are seen.
            for key in ("ArrowUp", "ArrowUp", "Home"):
                seen.key(key)
            lifted, below = seen.page.value(f"""[...document.querySelectorAll("button[data-uid='{RIGHT}'], "
                + "button[data-uid='{LEFT}']")].map((each) => each.getBoundingClientRect().top)
                .sort((one, other) => other - one)""")
            self.assertGreater(lifted - below, 6)
            self.assertEqual(seen.page.value(f"""["{RIGHT}", "{LEFT}"].map((uid) => {{
                const range = new Range();
                range.selectNodeContents(document.querySelector(`button[data-uid='${{uid}}']`));
                const {{ left, top, height }} = range.getBoundingClientRect();
                return document.elementFromPoint(left + 9, top + height / 2).dataset.uid;
            }})"""), [RIGHT, LEFT])
            self.assertTrue(seen.texts(".hint")[0].endswith(
                " Enter asks; Escape leaves it where it was. Send Cancel"))
            seen.key("Escape")
            self.assertIn("Drag a fixture", seen.texts(".hint")[0])
            for _ in range(3):
                seen.key("ArrowDown")
            seen.key("Enter")
            events.until(lambda parts: parts.get(f"fixture/{RIGHT}", {}).get("address") == 8 + 96)
            # It is still the one that keys are for.
            seen.until(f"document.activeElement?.dataset.uid === '{RIGHT}'")

    @at_each_size
    def test_discovery(self, size: Tuple[int, int]) -> None:
        with opened(size, "discovery") as (seen, _, rig):
            seen.until("document.querySelector('.result')?.textContent.startsWith('5 fixtures found with')")
            self.assertIn("; nothing else can be on this line if it is honest: if all on it keep RDM's rules.",
                          seen.texts(".result")[0])
            self.assertIn("Once it has begun, nothing stops it: it ends by itself.", seen.texts(".tools p"))
            rig.gone.add(rig.fixtures[2].uid)
            rig.delay = 0.02
            seen.button("Discover")
            seen.until("/[0-9]+ messages so far, [1-3] fixtures? found: /.test("
                       "document.querySelector('main').textContent)")
            rig.delay = 0.0
            seen.until("document.querySelector('.result')?.textContent.startsWith('4 fixtures found with')")
            seen.until("[...document.querySelectorAll('li')].some((each) => "
                       "each.textContent.includes('Back truss (454e:0a000017)'))")
            seen.button("Fixtures")
            seen.until("document.querySelector('.count')?.textContent === '4 found, 1 missing'")
            self._find_slots_taken(seen, size)
            seen.button("Cancel")
            seen.button("Fixtures")
            seen.button("Remove from the list")
            seen.until("document.querySelector('.count')?.textContent === '4 fixtures'")
            seen.button("Discovery")
            if program() is not None:
                # Who is missing has broken no rule.
                self.assertRegex(seen.texts(".result")[0], r"^4 fixtures found with \d+ messages\. "
                                                           r"1 listed fixture was not found\.$")
                seen.until("document.querySelector('iframe')?.src.includes('/picture/')")
                if size == PHONE:
                    # It has all of the phone's width, and isn't scrolled within the page.
                    seen.until("document.querySelector('iframe').offsetWidth === innerWidth")
                    self.assertGreater(seen.page.value("document.querySelector('iframe').offsetHeight"), 1_000)

    def _find_slots_taken(self, seen: Window, size: Tuple[int, int]) -> None:
        """The slots of a fixture that has gone aren't free."""
        seen.button("Slots")
        away = f"button.away[data-uid='{BACK}']"
        seen.until(f"document.querySelector(\"{away}\")?.textContent === 'Back truss (missing)'")
        self.assertIn("497 of 512 slots (DMX channels) are free, 1 shared.", seen.texts("main p"))
        seen.page.value(f"document.querySelector(\"{away}\").focus()")
        seen.key("ArrowRight")
        seen.page.value(f"document.querySelector(\"button[data-uid='{RIGHT}']\").focus()")
        for key in ["ArrowDown"] * (12 if size == PHONE else 3) + ["ArrowLeft"] * 5:
            seen.key(key)
        self.assertIn("Front right, not sent yet: slots 8-14 → 99-105, overlaps “Back truss (missing)”. Enter asks",
                      seen.texts(".hint")[0])
        seen.key("Enter")
        seen.until("document.querySelector('.message')?.innerText.includes('“Back truss (missing)” 100')")

    @at_each_size
    def test_who_broke_the_rules_and_who_is_missing(self, size: Tuple[int, int]) -> None:
        if program() is None:
            self.skipTest("needs the proved program")
        liar = {"uid": "4444:00000001", "rig": {"label": "Liar", "lies": ["wrong sum"]}}
        with opened(size, "discovery", devices=[liar]) as (seen, web, rig):
            web.call("load", name="rig.csv", text="uid,label\n1234:00000099,Lost\n")
            seen.button("Discover")
            seen.until(f"{SECTIONS}['Missing']?.includes('Lost (1234:00000099) ')"
                       f" && !{SECTIONS}['Missing'].includes(\"wasn't found\")"
                       f" && {SECTIONS}['Fixtures that did something wrong']")
            found = seen.page.value(SECTIONS)
            self.assertIn("4444:00000001 ", found["Fixtures that did something wrong"])
            self.assertNotIn("4444:00000001", found["Missing"])
            self.assertNotIn("1234:00000099", found["Fixtures that did something wrong"])
            # The table isn't trusted blindly, either.
            for view in ("Fixtures", "Slots"):
                seen.button(view)
                seen.until("document.querySelector('.result.bad a')")
                said = seen.texts(".result.bad")[0]
                # Nobody can take off what isn't in the list.
                self.assertTrue(said.startswith(FIND), said)
                self.assertNotIn("off the line", said)
                self.assertIn(" Missing: “Lost” (in the file, not in the list). Discovery says more.", said)
            # One that was there before is missing, too: the sentence, the count and the discovery agree.
            rig.gone.add(rig.fixtures[2].uid)
            web.call("discover")
            seen.button("Fixtures")
            seen.until(f"document.querySelector(\"{row(BACK)}.missing\")")
            seen.until("document.querySelector('.count')?.textContent === '4 found, 2 missing'")
            self.assertTrue(seen.texts(".result.bad")[0].endswith(
                " Missing: “Back truss”, “Lost” (in the file, not in the list). Discovery says more."))
            self.assertEqual(seen.texts(".result.bad a"), ["Back truss", "Discovery"])
            # The file has only one of them, and none of those that are there.
            seen.until("[...document.querySelectorAll('.tools a')].map((each) => each.textContent).join() === "
                       "'rig.csv: 1 of its fixtures missing, 4 not in it, 2 overlaps on the line now'")
            # Nor does its own page, which leads to what is known.
            seen.click(f"{row(BACK)} .more")
            seen.until("document.querySelector('article .result.bad')?.textContent.startsWith('Something that ')")
            seen.click("article .result a:last-of-type")
            seen.until(f"{SECTIONS}['Missing']?.includes('Back truss (') && {SECTIONS}['Missing'].includes('Lost (')")

    @at_each_size
    def test_the_line(self, size: Tuple[int, int]) -> None:
        with opened(size, "line") as (seen, _, _rig), \
                servers.Program(servers.place.path_of(servers.place.own_folder(), "rig:/it"),
                                {**servers.HELLO, "name": "console"}) as program:
            seen.until("document.querySelector('main')?.textContent.includes('console')")
            # Another program waits for it, too.
            self.assertIn("this page's own, too; it stops no DMX. Resume, here, ends it.", seen.texts("main")[0])
            seen.button("Pause RDM")
            self.assertEqual(seen.texts(".message p"), ["This holds the RDM requests of other programs, too: console."])
            seen.button("Pause them, too")
            seen.until("document.querySelector('#status')?.textContent.endsWith(' · paused: no RDM request is sent '"
                       " + 'Resume it in Line')")
            program.say({"do": "get", "uid": LEFT, "pid": "0081"})
            seen.until("document.querySelector('main')?.textContent.includes('when this page is closed: 1 request "
                       "waits. A pause holds all RDM requests, ' + \"this page's own, too; it stops no DMX.\")")
            # Each view leads to where it is resumed.
            seen.button("Fixtures")
            seen.button("Resume it in Line")
            seen.button("Resume")
            program.next("status")
            seen.until("document.querySelector('tr .command')?.textContent === 'GET 1234:00000001 manufacturer_label'")
            self.assertEqual(seen.texts("tr .answer")[0], "ACK manufacturer_label Wurstlinen")
            program.say({"do": "get", "uid": LEFT, "pid": "0020", "data": "04"})
            seen.until("document.querySelector('tr .command')?.textContent === "
                       "'GET 1234:00000001 queued_message (status type error)'")
            # Only who has paused can go on.
            program.say({"do": "pause"})
            seen.until("[...document.querySelectorAll('main button:disabled')].some((each) => "
                       "each.textContent === 'paused by console')")
            seen.until("document.querySelector('#status a')?.textContent === ' Line says who paused'")
            program.say({"do": "resume"})
            seen.button("Pause RDM")
            seen.button("Cancel")


if __name__ == "__main__":
    unittest.main()
