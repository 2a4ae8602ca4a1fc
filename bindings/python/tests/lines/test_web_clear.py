"""What the page says in chromium where it could mislead: pauses, lies, fixtures that have no label or are gone."""
from __future__ import annotations

import json
import re
import unittest
from typing import Tuple
from unittest import mock

from browser import needs_chromium
from common import needs_library, scene
from fronts import called
from web_pages import (
    BACK, DESK, FIVE, HOUSE, LEFT, PHONE, RIGHT, SECTIONS, BrowserTestCase, Moody, at_each_size, corner, drag, many,
    opened, row, way, web_on, window,
)
from wurstlinen.tool.places import program

WAITS = f"document.querySelector(\"{row(RIGHT)} .note\")?.textContent.includes(" \
        "\"waits until RDM is resumed, and can't be taken back before\")"
LIAR, UID = "4444:00000001", "[0-9a-f]{4}:[0-9a-f]{8}"


@needs_chromium
@needs_library
class Clear(BrowserTestCase):
    """Nothing looks done, complete or alike that isn't."""

    @at_each_size
    def test_a_change_in_a_pause_isnt_done(self, size: Tuple[int, int]) -> None:
        with opened(size) as (seen, web, _), web.follow() as events:
            seen.until(f"document.querySelector(\"{row(RIGHT)} .address\")?.value === '8'")
            web.call("change", uid=LEFT, column="label", value="Wash left")
            seen.until("document.querySelector('#undo:enabled') && document.querySelector('.made:enabled')")
            web.call("pause", on=True)
            seen.until("document.querySelector('#status').className === 'bad'")
            seen.click(f"{row(RIGHT)} .address")
            seen.type("60")
            seen.key("Enter")
            seen.until(WAITS)
            # It has the focus, and is seen to wait.
            style = f"getComputedStyle(document.querySelector(\"{row(RIGHT)} .address\")).outlineStyle"
            self.assertEqual(seen.page.value(style), "dashed")
            # Nothing seems to take it back, neither beside it nor in what is said of keys.
            self.assertEqual(seen.texts(".leave"), [])
            self.assertRegex(seen.texts(".sending")[0], "(✕|Escape) before that ")
            self.assertEqual(seen.page.value("document.querySelectorAll('#undo:enabled, .made:enabled').length"), 0)
            self.assertTrue(seen.texts(".sending")[0].endswith(
                " RDM is paused: what you send, Identify and Stop wait until it is resumed. Undo waits for that, too."))
            web.call("pause", on=False)
            events.until(lambda parts: parts[f"fixture/{RIGHT}"]["address"] == 60)
            seen.until(f"!({WAITS}) && document.querySelector('#undo:enabled')")
            seen.until("!document.querySelector('.busy')")
            # What was sent isn't taken back by a cross, which comes with what is typed.
            self.assertEqual(seen.texts(".leave"), [])
            seen.type("61")
            seen.until(f"document.querySelectorAll('.leave').length === {int(size == PHONE)}")

    @at_each_size
    def test_new_fixtures_that_are_all_at_one_address(self, size: Tuple[int, int]) -> None:
        with web_on(many(40)) as web, window(web.address, size) as seen:
            seen.open("slots")
            # Each of 40 overlaps each other one.
            seen.until("document.querySelector('.problems li:last-child')?.textContent === 'and 775 more'")
            self.assertEqual(len(set(seen.texts(".problems li"))), 6)
            self.assertEqual(len(set(seen.texts("button.piece"))), 40)
            self.assertLess(seen.page.value("document.querySelector('.universe').getBoundingClientRect().top"), size[1])
            # Nothing is cut off of what tells them apart, and no other one's UID seems to be a row's.
            seen.button("Fixtures")
            seen.until("document.querySelectorAll('.rig .label:enabled').length === 40")
            seen.until("""[...document.querySelectorAll("tbody tr")].every(({ id: uid, children }) =>
                children[1].firstChild.placeholder === "Simulated fixture at 1"
                && children[6].textContent === uid && children[6].offsetWidth >= children[6].scrollWidth
                && children[7].querySelector("span").textContent === "overlaps 39 others")""")
            self.assertEqual(len(set(seen.texts("td.uid"))), 40)

    @at_each_size
    def test_a_discovery_with_a_liar(self, size: Tuple[int, int]) -> None:
        if program() is None:
            self.skipTest("needs the proved program")
        # By itself it is found like the others. If it isn't silent when it should be, it answers for all there can be.
        for lies, found, wrong in ((["answers all"], 6, "; a rule was broken, so others may be missing."),
                                   (["answers all", "stays unmuted"], 1, ". ")):
            liar = {"uid": LIAR, "rig": {"label": "Liar", "lies": lies}}
            with web_on(Moody(scene(devices=[*FIVE["devices"], liar]))) as web, window(web.address, size) as seen:
                seen.open()
                seen.until(f"document.querySelector('.result.bad')?.textContent.startsWith('Take Liar ({LIAR}) "
                           "off the line, and discover again. ')")
                said = seen.texts(".result.bad")[0]
                self.assertIn(f"{found} fixture{'s' * (found > 1)} found with ", said)
                self.assertIn(wrong, said)
                self.assertEqual(set(re.findall(UID, said)), {LIAR})
                seen.click(".result.bad a")
                seen.until("document.querySelector('h2.name')?.textContent === 'Liar'")
                seen.button("Discovery")
                seen.until(f"{SECTIONS}['Fixtures that did something wrong']?.startsWith("
                           f"'Liar ({LIAR}) take it off the line, and discover again')")
                self.assertEqual(seen.page.value("document.querySelector('section').querySelectorAll('li').length"), 1)

    @at_each_size
    def test_what_isnt_in_the_list_isnt_taken_off(self, size: Tuple[int, int]) -> None:
        """Whatever it did, also without the proved program, which says what that shows."""
        for lies, finds in ((["wrong sum"], True), (["ignores mutes"], True), (["cuts short"], False)):
            if finds and program() is None:
                self.skipTest("needs the proved program")
            with mock.patch("wurstlinen.front.page_findings.program", program if finds else lambda: None), \
                    opened(size, devices=[{"uid": LIAR, "rig": {"label": "Liar", "lies": lies}}]) as (seen, web, _):
                # All that was ever said is remembered, also what was said for a moment.
                seen.page.value("""window.said = "", new MutationObserver(() => (said += document.body.textContent))
                    .observe(document.body, { childList: true, subtree: true, characterData: true })""")
                wanted = f"Something that isn\\'t in the list answers wrongly, as {LIAR}: discover again. "
                for _ in range(2):
                    seen.until(f"document.querySelector('.result.bad')?.textContent.startsWith('{wanted}')")
                    web.call("discover")
                    seen.until("document.querySelector('.count')?.textContent === 'a discovery runs'")
                seen.button("Discovery")
                seen.until(f"{SECTIONS}['Fixtures that did something wrong']?.startsWith("
                           f"\"{LIAR} isn't in the list: discover again\")")
                self.assertNotIn("off the line", seen.page.value("said"))
                # What the file has is said to be there.
                web.call("load", name="rig.csv", text=f"uid,label\n{LIAR},Lost\n")
                seen.until(f"document.querySelector('.result').textContent.includes(', as Lost ({LIAR}): discover')")

    def test_nobody_looks_for_the_uid_of_all(self) -> None:
        if program() is None:
            self.skipTest("needs the proved program")
        liar = {"uid": "4444:00000001", "rig": {"label": "Liar", "lies": ["stays unmuted"]}}
        with opened(DESK, "discovery", devices=[liar]) as (seen, _, _rig):
            seen.until(f"{SECTIONS}['Also seen']?.includes('ffff:ffffffff')")
            self.assertNotIn("Missing", seen.page.value(SECTIONS))
            self.assertTrue(seen.texts(".result")[0].startswith(f"Take Liar ({LIAR}) off the line, and "))

    def test_slots_by_finger(self) -> None:
        with opened(PHONE, "slots") as (seen, web, _), web.follow() as events:
            piece = f"document.querySelector(\"button[data-uid='{RIGHT}']\")"
            seen.until(piece)
            at = corner(seen, RIGHT)
            # It is taken where its name is, which has no room in slot 8, the last one of its row.
            by_the_way, there = way(seen, 9, 9 + 17), way(seen, 9, 9 + 48)
            # The first touch only selects it.
            drag(seen, at)
            seen.until(f"document.activeElement?.dataset.uid === '{RIGHT}'")
            drag(seen, at, by_the_way, there)
            # Nobody sees what a finger covers, so letting go sends nothing.
            seen.until("document.querySelector('.hint').innerText === 'Front right, not sent yet: slots 8-14 → 56-62, "
                       "free. Send Cancel'")
            seen.button("Cancel")
            seen.until("!document.querySelector('.piece.moving')")
            # It is dragged on from where it is.
            seen.page.value(f"{piece}.focus()")
            at = corner(seen, RIGHT)
            drag(seen, at, by_the_way)
            seen.until("document.querySelector('.hint').innerText.includes(' → 25-31, free. Send')")
            drag(seen, (at[0] + by_the_way[0], at[1] + by_the_way[1]),
                 (there[0] - by_the_way[0], there[1] - by_the_way[1]))
            seen.until("document.querySelector('.hint').innerText.includes(' → 56-62, free. Send')")
            seen.button("Send")
            events.until(lambda parts: parts.get(f"fixture/{RIGHT}", {}).get("address") == 8 + 48)

    def test_what_is_selected_by_a_finger(self) -> None:
        with opened(PHONE, "slots") as (seen, _, _rig):
            seen.until(f"document.querySelector(\"button[data-uid='{HOUSE}']\")")
            self.assertEqual(seen.texts(".hint"), ["Tap a fixture to select it. Then drag it, or type its address."])
            self.assertGreaterEqual(seen.page.value("document.querySelector('.universe i').offsetWidth"), 44)
            seen.tap(f"button[data-uid='{HOUSE}']")
            seen.until("document.querySelector('.hint').textContent === "
                       "'House lights, slot 1: drag it, or type its address.'")
            style = f"getComputedStyle(document.querySelector(\"button[data-uid='{HOUSE}']\")).outlineStyle"
            self.assertEqual(seen.page.value(style), "solid")
            # A finger that lets go over the old place moves nothing.
            own, other = ([*seen.page.value("(({left, top}) => [left + 8, top + 8])"
                                            f"(document.querySelector(\"{what}\").getBoundingClientRect())")]
                          for what in (f"button[data-uid='{HOUSE}']", ".universe i:nth-of-type(25)"))
            for kind, place in (("touchStart", own), ("touchMove", other), ("touchMove", own), ("touchEnd", None)):
                points = [{"x": place[0], "y": place[1]}] if place else []
                seen.page.call("Input.dispatchTouchEvent", type=kind, touchPoints=points)
                if place is other:
                    seen.until("document.querySelector('.hint').textContent === "
                               "'House lights, not sent yet: slot 1 → 25, free. Let go to send or cancel it.'")
                    self.assertEqual(seen.page.value("document.querySelectorAll('.universe .old').length"), 1)
            self.assertEqual(seen.texts(".message"), [])
            # One that is farther away than the screen is typed.
            seen.until("document.querySelector('.hint a')")
            seen.tap(".hint a")
            seen.until("document.querySelector('.field .address')?.value === '1'")

    @at_each_size
    def test_slots_that_arent_known(self, size: Tuple[int, int]) -> None:
        # It refuses all that it is asked, also how many slots it has.
        sulky = {"uid": "4444:00000001", "rig": {"label": "Sulky", "nack": "0004"}}
        with opened(size, devices=[sulky]) as (seen, _, _rig):
            seen.until(f"document.querySelector(\"{row('4444:00000001')}\")?.textContent.includes('unknown')")
            seen.open("slots")
            seen.until("document.querySelector('main > p')?.textContent === "
                       "'497 of 512 slots (DMX channels) are free, 1 shared, those of 1 fixture unknown.'")

    def test_slots_overlap_as_the_command_check_says(self) -> None:
        # Two parts of one device may share a slot; a third fixture overlaps each of them.
        parts = [{"uid": f"4444:0000000{number}", "control": "0002", "binding": "4444:00000001",
                  "rig": {"label": f"Part {number}", "address": 50, "personalities": [{"footprint": 4}]}}
                 for number in (2, 3)]
        with opened(DESK, "slots", devices=parts) as (seen, web, _):
            seen.until("document.querySelectorAll('button.piece').length === 7")
            for address, shared in ((20, 0), (51, 3), (1, 1)):
                web.call("change", uid=LEFT, column="address", value=str(address), force=True)
                seen.until(f"document.querySelector('main > p').textContent.includes("
                           f"'(DMX channels) are free{f', {shared} shared' if shared else ''}.')")
                out = called("check", "-", "--json", "--line", "rig:/it", text="uid\n")[1]
                said = [each for each in map(json.loads, out.splitlines()) if each.get("difference") == "overlap"]
                self.assertEqual(seen.page.value("document.querySelectorAll('.problems li').length"), len(said))
                self.assertEqual(set(seen.page.value("[...document.querySelectorAll('button.crowded')].map((each) => "
                                                     "each.dataset.uid)")),
                                 {uid for each in said for uid in (each["uid"], each["other"])})

    def test_what_overlaps_no_longer_while_it_is_moved(self) -> None:
        with opened(DESK, "slots") as (seen, web, _):
            web.call("change", uid=RIGHT, column="address", value="99", force=True)
            seen.until("document.querySelectorAll('.problems li').length === 3")
            top = "document.querySelector('.universe').getBoundingClientRect().top"
            before = seen.page.value(top)
            seen.page.value(f"document.querySelector(\"button[data-uid='{LEFT}']\").focus()")
            seen.key("ArrowDown")
            hidden = "[...document.querySelectorAll('.problems li')].map((each) => getComputedStyle(each).visibility)"
            # What others overlap stays, and nothing seems to be done.
            self.assertEqual(seen.page.value(hidden), ["hidden", "hidden", "visible"])
            self.assertEqual(seen.texts("main > p")[0],
                             "497 of 512 slots (DMX channels) are free, 1 shared, once this is sent.")
            self.assertIn("Front left, not sent yet: slots 1-7 → 33-39, free.", seen.texts(".hint")[0])
            # What is dragged stays under the finger.
            self.assertEqual(seen.page.value(top), before)
            seen.key("Escape")
            self.assertEqual(seen.page.value(hidden), ["visible"] * 3)

    @at_each_size
    def test_the_sensors_of_one_that_is_gone(self, size: Tuple[int, int]) -> None:
        with opened(size, f"fixture/{BACK}") as (seen, web, rig):
            seen.until("document.querySelector('.sensors')?.textContent === 'Head 41 °C'")
            rig.gone.add(rig.fixtures[2].uid)
            web.call("discover")
            seen.until("document.querySelector('.sensors')?.textContent === 'Before it was missing: Head 41 °C'")
            # It can't answer, so it isn't offered to ask it.
            seen.until("[...document.querySelectorAll('main button')].some((each) => "
                       "each.textContent === 'Read all again' && each.disabled)")

    @at_each_size
    def test_fixtures_while_a_discovery_runs(self, size: Tuple[int, int]) -> None:
        with opened(size) as (seen, web, rig):
            count = "document.querySelector('.count')?.textContent"
            seen.until(f"{count} === '5 fixtures'")
            rig.delay = 0.02
            web.call("discover")
            seen.until(f"{count} === 'a discovery runs'")
            rig.delay = 0.0
            seen.until(f"{count} === '5 fixtures'")

    @at_each_size
    def test_while_another_discovery_runs(self, size: Tuple[int, int]) -> None:
        if program() is None:
            self.skipTest("needs the proved program")
        liar = {"uid": "4444:00000001", "rig": {"label": "Liar", "lies": ["wrong sum"]}}
        with opened(size, "discovery", devices=[liar]) as (seen, web, rig):
            seen.until("document.querySelector('.result.bad')?.textContent.startsWith('Something ')")
            rig.gone.add(rig.fixtures[2].uid)
            web.call("discover")
            seen.until(f"{SECTIONS}['Missing']?.includes('Back truss')")
            rig.delay = 0.02
            seen.button("Discover")
            # What the one before found is said to be old, and that it is incomplete doesn't vanish.
            seen.until("document.querySelector('main').textContent.includes('so far')")
            self.assertIn("Back truss", seen.page.value(SECTIONS)["Missing before this discovery"])
            for view in ("Discovery", "Fixtures", "Slots"):
                seen.button(view)
                seen.until(f"document.querySelector('main.{view.lower()} .result.bad')?.textContent.startsWith('Before "
                           "this discovery: 4444:00000001 did something wrong. The one before was incomplete. ')")
                # Nothing is advised for what may be over.
                self.assertNotRegex(seen.texts("main")[0], r"(?i)\b(take|unplug|split|check|discover again)\b")
            rig.delay = 0.0
            seen.until("document.querySelector('.result.bad')?.textContent.startsWith('Something ')")

    def test_a_run_that_has_ended_isnt_so_far(self) -> None:
        with opened(DESK, "discovery") as (seen, web, rig):
            seen.until("document.querySelector('.result')?.textContent.startsWith('5 fixtures found with')")
            # The result of the one before says whose it is.
            seen.page.value("""window.said = "", new MutationObserver(() => (said += document.body.textContent,
                /^(?!Before|$)/.test(document.querySelector(".result").textContent)
                && (window.both ??= []).push(document.querySelector("main > p[role=status]").textContent)))
                .observe(document.body, { childList: true, subtree: true, characterData: true })""")
            rig.gone.add(rig.fixtures[2].uid)
            web.call("discover")
            seen.until("document.querySelector('.result')?.textContent.startsWith('4 fixtures found with')")
            seen.until(f"{SECTIONS}['Missing']?.includes('Back truss')")
            self.assertEqual([each for each in seen.page.value("window.both") if "so far" in each], [])
            # A run that has begun doesn't say that there is nothing.
            self.assertRegex(seen.page.value("said"), r"Discovery 2: \d+ messages? so far")
            self.assertNotIn("0 fixtures", seen.page.value("said"))

    @at_each_size
    def test_a_file_in_a_page_that_is_view_only(self, size: Tuple[int, int]) -> None:
        with opened(size, "file", looking=True) as (seen, _, _rig):
            seen.until("document.querySelector('main > p')?.textContent"
                       " === 'A saved file shows what is missing or differs.'")

    @at_each_size
    def test_what_is_said_of_no_answer(self, size: Tuple[int, int]) -> None:
        with opened(size) as (seen, web, rig):
            seen.until(f"document.querySelector(\"{row(BACK)} .address\")?.value === '100'")
            rig.gone.add(rig.fixtures[2].uid)
            web.call("change", uid=BACK, column="address", value="300")
            seen.until(f"document.querySelector(\"{row(BACK)} .note\").textContent.trim() === "
                       "'no answer to device info'")

    def test_slots_of_the_file_arent_offered(self) -> None:
        for slots, free in (("3", 104), ("", 102)):
            with self.subTest(slots=slots), opened(DESK) as (seen, web, _):
                seen.until(f"document.querySelector(\"{row(RIGHT)} .address\")?.value === '8'")
                # Its own place in the file is no obstacle.
                text = f"uid,address,slots\n4444:00000004,101,{slots}\n{RIGHT},102,7\n"
                self.assertNotIn("error", web.call("load", name="rig.csv", text=text))
                seen.until("document.querySelector('.tools a')")
                seen.click(f"{row(RIGHT)} .address")
                seen.type("99")
                seen.key("Enter")
                seen.button(f"Set Front right to {free}, the next free address")

    def test_links_for_a_thumb(self) -> None:
        if program() is None:
            self.skipTest("needs the proved program")
        with opened(PHONE) as (seen, web, rig):
            rig.gone.add(rig.fixtures[2].uid)
            web.call("load", name="rig.csv", text=f"uid,address\n{LEFT},20\n4444:00000004,101\n")
            web.call("discover")
            seen.until("document.querySelector('.count')?.textContent === '4 found, 2 missing'")
            for view, alone in (("fixtures", ".tools a"), ("file", ""), ("discovery", "main > div > p a")):
                seen.page.value(f"location.hash = location.hash.split('/')[0] + '/{view}'")
                seen.until(f"document.querySelector('main.{view} a')")
                tall = "[...document.querySelectorAll('{}')].map((each) => each.getBoundingClientRect().height)"
                self.assertGreaterEqual(min(seen.page.value(tall.format("main a"))), 24, view)
                # Which exchange shows what is small, and only where a discovery is looked at.
                self.assertEqual("exchange" in "".join(seen.texts("main")), view == "discovery")
                if alone:
                    seen.until(f"document.querySelector('{alone}')")
                    self.assertGreaterEqual(min(seen.page.value(tall.format(alone))), 44, view)


if __name__ == "__main__":
    unittest.main()
