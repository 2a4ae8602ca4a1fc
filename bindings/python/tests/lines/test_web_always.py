"""What holds for all views of the page in chromium: two browsers, ends and restarts, keys alone, rules, and times."""
from __future__ import annotations

import contextlib
import functools
import json
import os
import signal
import subprocess
import time
import unittest
from typing import Tuple

import servers
from browser import needs_chromium
from common import needs_library, scene
from page_rules import RULES
from web_pages import (
    BACK, DESK, FIVE, LEFT, PHONE, RIGHT, SECOND, BrowserTestCase, Moody, Web, at_each_size, busy, five, many, opened,
    row, web_on, window,
)

CLOSED = ["This link doesn't open the page",
          "What comes after the # in it is a key, which is missing or was replaced. Ask whoever started “wurstlinen "
          "web” for the link that it has printed, and open that one."]


@needs_chromium
@needs_library
class Always(BrowserTestCase):
    """What holds for all views: two browsers, a server that ends, keys alone, rules for everybody's eyes, times."""

    def test_two_browsers(self) -> None:
        with opened(DESK) as (seen, web, _), window(web.address, PHONE) as other:
            other.open()
            for each in (seen, other):
                each.until(f"document.querySelector(\"{row(LEFT)} .label\")?.value === 'Front left'")
            # What somebody is typing isn't disturbed by the other.
            other.click(f"{row(LEFT)} .label")
            other.type("Half a na")
            seen.click(f"{row(LEFT)} .label")
            seen.type("Wash 1")
            began = time.monotonic()
            seen.key("Enter")
            for each in (seen, other):
                each.until(f"document.querySelector(\"{row(LEFT)} .label\").ariaLabel === 'Label of Wash 1'")
            taken = time.monotonic() - began
            self.assertEqual(other.value(f"{row(LEFT)} .label"), "Half a na")
            # Nor does its row go elsewhere, as long as it is typed in.
            other.page.value("document.querySelector('select.narrow').value = 'label'; "
                             "document.querySelector('select.narrow').dispatchEvent(new Event('change'))")
            time.sleep(0.5)
            self.assertEqual(other.value(f"{row(LEFT)} .label"), "Half a na")
            self.assertEqual(other.page.value("document.activeElement.value"), "Half a na")
            other.key("Escape")
            self.assertEqual(other.value(f"{row(LEFT)} .label"), "Wash 1")
            # On a quiet machine it is 0.2 s; the line takes no time.
            self.assertLess(taken, 0.2 * busy())

    @at_each_size
    def test_forty_fixtures_open_at_once(self, size: Tuple[int, int]) -> None:
        rig = many(40)
        with web_on(rig) as web, window(web.address, size) as seen:
            web.wait([str(uid) for uid in map(uid_text_of, rig.fixtures)])
            began = time.monotonic()
            seen.page.call("Page.navigate", url=web.address)
            seen.until("document.querySelectorAll('.rig tbody tr').length === 40")
            self.assertLess(time.monotonic() - began, 1.0 * busy())

    @at_each_size
    def test_the_server_ends_and_comes_back(self, size: Tuple[int, int]) -> None:
        rig = Moody(scene(devices=FIVE["devices"]))
        with servers.here(lambda: rig) as server:
            web = Web("rig:/it")
            try:
                web.wait([LEFT, SECOND])
                with window(web.address, size) as seen:
                    seen.open()
                    seen.until(f"document.querySelector(\"{row(LEFT)} .label\")?.value === 'Front left'")
                    server.end()
                    seen.until("document.querySelector('#status').className === 'bad'")
                    self.assertIn("No line", seen.texts("#status")[0])
                    self.assertEqual(seen.value(f"{row(LEFT)} .label"), "Front left")
                    again = servers.Here(lambda: rig)
                    try:
                        seen.until("document.querySelector('#status').className === ''")
                        seen.click(f"{row(LEFT)} .label")
                        seen.type("Back again")
                        seen.key("Enter")
                        seen.until("document.querySelector('#status').className === ''")
                        seen.until(f"document.querySelector(\"{row(LEFT)} .label\").ariaLabel === "
                                   "'Label of Back again'")
                    finally:
                        again.end()
            finally:
                web.end()

    def test_processes_are_killed_under_open_pages(self) -> None:
        """The real ones: the line's server, and then the page's program."""
        with servers.runtime() as place, contextlib.ExitStack() as stack:
            (place / "rig.json").write_text(json.dumps(FIVE), encoding="utf-8")
            words = [*servers.TOOL, "web", "--json", "--line", f"rig:{place / 'rig.json'}", "--port"]
            begin = functools.partial(subprocess.Popen, stdout=subprocess.PIPE, env=servers.environment(place))
            process = stack.enter_context(begin([*words, "0"]))
            stack.callback(process.kill)
            address = json.loads(process.stdout.readline())["addresses"][0]
            pages = [stack.enter_context(window(address, size)) for size in (DESK, PHONE)]
            for each in pages:
                each.open()
                each.until(f"document.querySelector(\"{row(LEFT)} .label\")?.disabled === false")
                # What was shown for a moment only is remembered.
                each.page.value("window.shown = '', window.now = document.getElementById('status'), "
                                "new MutationObserver(() => (shown += now.textContent))"
                                ".observe(now, { childList: true, characterData: true, subtree: true })")
            os.kill(pages[0].page.value("import('/server.js').then(({parts}) => parts.get('line').process)"),
                    signal.SIGKILL)
            for each in pages:
                each.until("shown.includes('No line: the server of the line has ended') && now.className === ''")
            process.kill()
            for each in pages:
                each.until("document.querySelector('#status').textContent.startsWith('Not connected')")
                self.assertEqual(each.value(f"{row(LEFT)} .label"), "Front left")
            port = address.partition("/#")[0].rpartition(":")[2]
            again = stack.enter_context(begin([*words, port]))
            stack.callback(again.kill)
            # The address is the same, and so is its token.
            self.assertEqual(json.loads(again.stdout.readline())["addresses"], [address])
            for each in pages:
                each.until(f"document.querySelector(\"{row(LEFT)} .label\")?.disabled === false")

    @at_each_size
    def test_the_pages_program_ends_and_comes_back(self, size: Tuple[int, int]) -> None:
        rig = Moody(scene(devices=FIVE["devices"]))
        with servers.here(lambda: rig):
            web = Web("rig:/it")
            web.wait([LEFT])
            with window(web.address, size) as seen:
                seen.open()
                seen.until(f"document.querySelector(\"{row(LEFT)} .label\")?.value === 'Front left'")
                web.end()
                seen.until("document.querySelector('#status')?.textContent.startsWith('Not connected')")
                self.assertTrue(seen.page.value(f"document.querySelector(\"{row(LEFT)} .label\").disabled"))
                again = Web("rig:/it", web.port, web.tokens)
                try:
                    seen.until("document.querySelector('#status').className === ''")
                finally:
                    again.end()

    @at_each_size
    def test_fixtures_that_are_slow_refuse_or_vanish(self, size: Tuple[int, int]) -> None:
        others = [{"uid": "4444:00000001", "rig": {"label": "Sulky", "nack": "0004"}},
                  {"uid": "4444:00000002", "rig": {"label": "Sleepy", "timer": 10, "address": 50}}]
        with opened(size, devices=others) as (seen, web, rig):
            seen.until(f"document.querySelector(\"{row('4444:00000001')} .note\")?.textContent.includes('refuses')")
            seen.until(f"document.querySelector(\"{row('4444:00000002')} .label\")?.value === 'Sleepy'")
            # A slow one is awaited, and meanwhile the others can be used.
            seen.click(f"{row('4444:00000002')} .label")
            seen.type("Awake")
            seen.key("Enter")
            seen.until(f"document.querySelector(\"{row('4444:00000002')} .label\").classList.contains('busy')")
            seen.click(f"{row(BACK)} .identify")
            seen.until(f"document.querySelector(\"{row(BACK)} .identify\").ariaChecked === 'true'")
            seen.until(f"document.querySelector(\"{row('4444:00000002')} .label\").ariaLabel === 'Label of Awake'")
            rig.gone.add(int(LEFT.replace(":", ""), 16))
            seen.click(f"{row(LEFT)} .label")
            seen.type("Gone")
            seen.key("Enter")
            seen.until(f"document.querySelector('.message')?.textContent.includes('Front left ({LEFT}): no answer')")
            seen.until(f"document.querySelector(\"{row(LEFT)} .note\")?.textContent.includes('no answer')")
            self.assertEqual(seen.value(f"{row(LEFT)} .label"), "Front left")
            rig.is_plugged_in = False
            seen.until("document.querySelector('#status')?.textContent === "
                       "'rig:/it: adapter unplugged, waiting for it; what you see is old'")
            for view in ("fixtures", "slots", "file", f"fixture/{BACK}", "discovery"):
                seen.page.value(f"location.hash = location.hash.split('/')[0] + '/{view}'")
                seen.until("document.querySelector('main').children.length")
                able = seen.page.value("""[...document.querySelectorAll(':is(header, main) :is(button, input, select)')]
                    .filter((each) => each.checkVisibility() && !each.disabled && !each.dataset.uid
                    && !each.closest('th') && each.type !== 'search' && !each.matches('.narrow'))
                    .map((each) => each.innerText)""")
                free = {"file": ["Save fixtures as CSV", "Compare with a saved file …"]}
                self.assertEqual(able, free.get(view, ["‹ Previous", "Next ›"] if "/" in view else []), view)

    @at_each_size
    def test_only_looking(self, size: Tuple[int, int]) -> None:
        with opened(size, looking=True) as (seen, _, rig):
            seen.until(f"document.querySelector(\"{row(LEFT)} .label\")?.value === 'Front left'")
            self.assertTrue(seen.texts("#status")[0].startswith("view only · "))
            before = rig.exchanges
            for view in ("fixtures", "slots", "file", f"fixture/{LEFT}", "discovery", "line"):
                seen.page.value(f"location.hash = location.hash.split('/')[0] + '/{view}'")
                seen.until("document.querySelector('main').children.length")
                able = seen.page.value("""[...document.querySelectorAll('main :is(button, input, select)')].filter(
                    (each) => each.checkVisibility() && !each.disabled && !each.dataset.uid
                    && !each.closest('th') && each.type !== 'search' && !each.matches('.narrow'))
                    .map((each) => each.innerText)""")
                self.assertEqual(able, ["‹ Previous", "Next ›"] if "/" in view else [], view)
                if "/" in view:
                    self.assertIn("shown once a page that isn't view only opens it", seen.texts(".sensors")[0])
            self.assertEqual(rig.exchanges, before)

    @at_each_size
    def test_no_fixtures(self, size: Tuple[int, int]) -> None:
        with web_on(Moody(scene(devices=[]))) as web, window(web.address, size) as seen:
            seen.open()
            seen.until("document.querySelector('.sending')?.textContent === 'No fixture so far: Discovery says more.'")
            seen.click(".sending a")
            seen.until("document.querySelector('.result')?.textContent.startsWith('0 fixtures found')")
            # Nobody seems to know that slots are free.
            seen.button("Slots")
            seen.until("document.querySelector('main > p')?.textContent === "
                       "'No fixture so far, so no slot is known to be taken.'")

    def test_no_token(self) -> None:
        with five() as (web, _), window(web.address.partition("#")[0]) as seen:
            seen.page.call("Page.navigate", url=seen.address)
            seen.until("document.querySelector('#status')?.textContent === \"Not connected: this link isn't whole.\"")
            self.assertIn("open that one", seen.texts("article.notice")[0])
        with five() as (web, _), window(web.address.partition("#")[0] + "#wrong") as seen:
            seen.page.call("Page.navigate", url=seen.address)
            seen.until("document.querySelector('#status')?.textContent.includes('ask whoever started')")
            # Nothing is known, so nothing is said of fixtures, nor that it is old.
            self.assertEqual(seen.texts("main *"), ["Fixtures", "\n\n".join(CLOSED), *CLOSED])
            self.assertEqual(seen.texts("nav, button"), [])
            self.assertNotIn("old", seen.texts("#status")[0])
            # It isn't white where the page isn't.
            for scheme in ("light", "dark"):
                seen.page.call("Emulation.setEmulatedMedia", features=[
                    {"name": "prefers-color-scheme", "value": scheme}])
                colours = seen.page.value("""["body", ".notice"].map((each) =>
                    getComputedStyle(document.querySelector(each)).backgroundColor)""")
                self.assertEqual(len(set(colours)), 2)
                self.assertEqual("rgb(255, 255, 255)" in colours, scheme == "light")
                for name, rule in RULES.items():
                    # There is nowhere to go.
                    self.assertIn(seen.page.value(rule), ([], ["nav"]), (scheme, name))

    def test_keys_alone_reach_everything(self) -> None:
        for view in ("fixtures", "slots", "file", f"fixture/{BACK}", "discovery", "line"):
            with self.subTest(view=view), opened(DESK, view) as (seen, _, _rig):
                seen.until("document.querySelector('main').children.length")
                time.sleep(1.0)
                wanted = seen.page.value("""(() => {
                    const all = [...document.querySelectorAll("a, button, input, select, summary")]
                        .filter((each) => each.checkVisibility() && !each.disabled);
                    all.forEach((each, at) => (each.dataset.number = at)); return all.length; })()""")
                seen.page.value("document.activeElement.blur()")
                reached = set()
                for _ in range(wanted + 3):
                    seen.key("Tab")
                    reached.add(seen.page.value("document.activeElement.dataset.number ?? null"))
                missed = [number for number in range(wanted) if str(number) not in reached]
                missing = seen.page.value(f"{json.dumps(missed)}.map((at) => "
                                          "document.querySelector(`[data-number='${at}']`)?.outerHTML)")
                self.assertEqual(missing, [])

    @at_each_size
    def test_rules_for_all_eyes_and_hands(self, size: Tuple[int, int]) -> None:
        with opened(size) as (seen, web, _):
            web.call("identify", uid=RIGHT, on=True)
            web.call("load", name="rig.csv", text=f"uid,label,address\n{LEFT},Wash 1,1\n1234:00000099,Lost,9\n")
            for view in ("fixtures", "slots", "file", f"fixture/{BACK}", "discovery", "line"):
                seen.page.value(f"location.hash = location.hash.split('/')[0] + '/{view}'")
                time.sleep(1.0)
                for scheme in ("light", "dark"):
                    seen.page.call("Emulation.setEmulatedMedia",
                                   features=[{"name": "prefers-color-scheme", "value": scheme}])
                    for name, rule in RULES.items():
                        with self.subTest(size=size, scheme=scheme, view=view, rule=name):
                            self.assertEqual(seen.page.value(rule), [])

    def test_rules_can_be_broken(self) -> None:
        bad = ("<button>Ok</button><button></button><p class=pale>x</p><h4>x</h4><i id=view></i><a tabindex=3>x</a>"
               "<input class=pale><div class=wide>x</div><button class=low>y</button>")
        styles = (".pale { color: #bbb !important; }", ".wide { width: 3000px; }",
                  ".low { min-height: 0; height: 9px; }")
        with opened(DESK, "line") as (seen, _, _rig):
            for style in styles:
                seen.page.value(f"document.styleSheets[0].insertRule({json.dumps(style)}, 0)")
            seen.page.value(f"document.querySelector('main').innerHTML = {json.dumps(bad)}")
            seen.page.value("document.querySelectorAll('[role]').forEach((each) => each.removeAttribute('role'))")
            seen.page.value("document.querySelector('h1').remove(), document.title = ''")
            for name, rule in RULES.items():
                with self.subTest(rule=name):
                    self.assertNotEqual(seen.page.value(rule), [])


def uid_text_of(fixture: object) -> str:
    """The UID of a rig's fixture."""
    from wurstlinen.lines.uids import uid_text
    return uid_text(fixture.uid)  # type: ignore[attr-defined]


if __name__ == "__main__":
    unittest.main()
