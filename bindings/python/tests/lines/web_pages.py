"""What the tests of the page share: a rig, its server and the page's program in this process, and browsers."""
from __future__ import annotations

import contextlib
import functools
import http.client
import json
import threading
import time
from pathlib import Path
from typing import Any, Callable, Dict, Iterator, List, Optional, Set, Tuple

import servers
from browser import Page, browser
from common import TestCase, random_scene, scene
from wurstlinen import LineFailed, connect
from wurstlinen.lines import OpenLine
from wurstlinen.lines.rig import Rig
from wurstlinen.lines.scene import Scene
from wurstlinen.web import pages, running
from wurstlinen.web.door import Door

LEFT, RIGHT, BACK, HOUSE, SECOND = ("1234:00000001", "1234:00000002", "454e:0a000017", "9abc:00000002",
                                    "9abc:00000003")
FIVE = json.loads((servers.PACKAGE.parent / "examples/five_fixtures.json").read_text(encoding="utf-8"))
PHONE, DESK = (390, 844), (1400, 900)
SIZES = (PHONE, DESK)
SECONDS = 60.0
# What each section of a view says, by its heading.
SECTIONS = "Object.fromEntries([...document.querySelectorAll('main section')].map((each) => " \
           "[each.firstChild.textContent, each.lastChild.textContent]))"
Test = Callable[[Any, Tuple[int, int]], None]


class BrowserTestCase(TestCase):
    """Tests of browsers, each of which takes a minute to start on a machine that is busy enough."""

    seconds = 540


class Moody(Rig):
    """A rig whose fixtures can be taken away, and can answer late."""

    def __init__(self, made: Scene) -> None:
        super().__init__(made)
        self.gone: Set[int] = set()
        self.delay = 0.0
        self.is_plugged_in = True
        self._all_stay = False
        for fixture in self.fixtures:
            fixture.is_present = functools.partial(self.is_present, fixture.uid)  # type: ignore[method-assign]

    def exchange(self, frame: bytes) -> bytes:
        """A reply, after a while."""
        time.sleep(self.delay)
        return super().exchange(frame)

    def is_present(self, uid: int, exchange: int) -> bool:
        """Whether a fixture is on the line."""
        return uid not in self.gone

    @property
    def is_there(self) -> bool:
        """Whether the adapter is."""
        return self.is_plugged_in

    def opened(self) -> OpenLine:
        """The line, if the adapter is there. Raises LineFailed."""
        if not self.is_plugged_in:
            raise LineFailed("no adapter is plugged in")
        return self


class Web:
    """The page's program in this process, at a port of its own."""

    def __init__(self, line: str, port: int = 0, kept: Optional[pages.Tokens] = None) -> None:
        self.tokens = kept or pages.Tokens()
        self.door = Door((running.LOOPBACK, port))
        self.port = int(self.door.server_address[1])
        server = running.ServerOfLine(line)
        served = pages.Pages(self.door, self.tokens, lambda: connect(line), server.connect, server.connect())
        self._thread = threading.Thread(target=served.serve, daemon=True)
        self._thread.start()

    @property
    def address(self) -> str:
        """Where the page is."""
        return f"http://127.0.0.1:{self.port}/#{self.tokens.using}"

    def end(self) -> None:
        """Ends it."""
        self.door.shutdown()
        self._thread.join(SECONDS)
        assert not self._thread.is_alive(), "the page's program doesn't end"
        self.door.server_close()

    def ask(self, method: str, path: str, body: bytes = b"", headers: Optional[Dict[str, str]] = None
            ) -> Tuple[int, bytes]:
        """The status and the body of an answer."""
        connection = http.client.HTTPConnection("127.0.0.1", self.port, timeout=SECONDS)
        with contextlib.closing(connection):
            connection.request(method, path, body, headers or {})
            answer = connection.getresponse()
            return answer.status, answer.read()

    def call(self, do: str, **keys: Any) -> Dict[str, Any]:
        """What the page's program answers."""
        headers = {"Authorization": f"Bearer {self.tokens.using}"}
        status, body = self.ask("POST", f"/api/{do}", json.dumps(keys).encode(), headers)
        try:
            found: Dict[str, Any] = json.loads(body)
        except ValueError:
            return {"status": status, "text": body.decode()}
        return found

    def follow(self, token: Optional[str] = None) -> Events:
        """What a page gets."""
        return Events(self.port, token or self.tokens.using)

    def wait(self, uids: List[str]) -> None:
        """Waits until these devices were asked for all that the table has."""
        with self.follow() as events:
            events.until(lambda parts: all(parts.get(f"fixture/{uid}", {}).get("is_read") for uid in uids))


class Events:
    """The parts that a page gets."""

    def __init__(self, port: int, token: str) -> None:
        self._connection = http.client.HTTPConnection("127.0.0.1", port, timeout=SECONDS)
        self._connection.request("GET", "/api/events", headers={"Authorization": f"Bearer {token}"})
        self.answer = self._connection.getresponse()
        self.parts: Dict[str, Any] = {}

    def __enter__(self) -> Events:
        return self

    def __exit__(self, *why: object) -> None:
        self.close()

    def close(self) -> None:
        """Ends the connection."""
        self.answer.close()
        self._connection.close()

    def next(self) -> Dict[str, Any]:
        """The next event."""
        line = self.answer.readline()
        assert line.startswith(b"data: "), line
        self.answer.readline()
        found: Dict[str, Any] = json.loads(line[6:])
        self.parts.update(found)
        return found

    def until(self, is_so: Any) -> Dict[str, Any]:
        """The parts, as soon as something is so."""
        end = time.monotonic() + SECONDS
        while not self.parts or not is_so(self.parts):
            assert time.monotonic() < end, self.parts
            self.next()
        return self.parts


@contextlib.contextmanager
def web_on(rig: Moody, name: str = "rig:/it") -> Iterator[Web]:
    """The page of a line, for the duration of a `with`."""
    with servers.here(rig.opened, name=name):
        web = Web(name)
        try:
            yield web
        finally:
            web.end()


@contextlib.contextmanager
def five(**others: Any) -> Iterator[Tuple[Web, Moody]]:
    """The page of the example's five fixtures, which were all asked, also for their personalities."""
    rig = Moody(scene(devices=[*FIVE["devices"], *others.get("devices", [])], rig=others.get("rig", {})))
    with web_on(rig) as web:
        web.wait([LEFT, RIGHT, BACK, HOUSE, SECOND])
        with web.follow() as events:
            events.until(lambda parts: all(len(parts.get(f"fixture/{uid}", {}).get("personalities", [])) == 2
                                           for uid in (LEFT, RIGHT)))
        yield web, rig


def busy() -> float:
    """How much longer than on a quiet machine things may take here."""
    began = time.monotonic()
    sum(range(1_000_000))
    return max(1.0, (time.monotonic() - began) / 0.01)


def many(count: int) -> Moody:
    """A rig of so many fixtures."""
    return Moody(random_scene(count, 1, 0.0))


class Window:
    """A browser at the page, used by mouse, finger and keys as a person does."""

    def __init__(self, page: Page, address: str, size: Tuple[int, int]) -> None:
        self.page = page
        self.address = address
        page.call("Emulation.setDeviceMetricsOverride", width=size[0], height=size[1], deviceScaleFactor=1,
                  mobile=size == PHONE)
        if size == PHONE:
            page.call("Emulation.setTouchEmulationEnabled", enabled=True)

    def open(self, view: str = "fixtures") -> float:
        """Opens a view, and returns after how many seconds its first fixtures are there."""
        began = time.monotonic()
        self.page.call("Page.navigate", url=f"{self.address}/{view}")
        self.until("document.querySelector('#status') && !document.querySelector('#status').className"
                   " && document.querySelector('nav a')")
        return time.monotonic() - began

    def until(self, text: str) -> None:
        """Waits until JavaScript is true."""
        end, pause = time.monotonic() + SECONDS, 0.01
        while not self.page.value(f"Boolean({text})"):
            assert time.monotonic() < end, (text, self.page.value("document.body.innerText"))
            time.sleep(pause)
            # On a busy machine asking takes from the page what it needs to answer.
            pause = min(1.5 * pause, 0.25)

    def texts(self, what: str) -> List[str]:
        """The texts of the elements that a selector finds, and that are seen."""
        found: List[str] = self.page.value(f"[...document.querySelectorAll({json.dumps(what)})]"
                                           ".filter((each) => each.checkVisibility()).map((each) => each.innerText)")
        return found

    def click(self, what: str) -> None:
        """Clicks the element that a selector finds, where it is seen."""
        place = self.page.value(f"""(() => {{
            const element = document.querySelector({json.dumps(what)});
            element.scrollIntoView({{block: "center"}});
            const box = element.getBoundingClientRect();
            const at = [box.left + box.width / 2, box.top + box.height / 2];
            const there = document.elementFromPoint(...at);
            return element === there || element.contains(there) ? at : there?.outerHTML ?? "nothing";
        }})()""")
        assert isinstance(place, list), f"{what} is covered by {place}"
        self.page.click(*place)

    def tap(self, what: str) -> None:
        """Touches an element with a finger."""
        x, y = self.page.value("(({left, top, width, height}) => [left + width / 2, top + height / 2])"
                               f"(document.querySelector({json.dumps(what)}).getBoundingClientRect())")
        self.page.call("Input.dispatchTouchEvent", type="touchStart", touchPoints=[{"x": x, "y": y}])
        self.page.call("Input.dispatchTouchEvent", type="touchEnd", touchPoints=[])

    def button(self, text: str) -> None:
        """Clicks the button with this text."""
        self.until(f"[...document.querySelectorAll('button, a')].some((each) => each.checkVisibility() "
                   f"&& !each.disabled && each.innerText.trim() === {json.dumps(text)})")
        self.page.value(f"""[...document.querySelectorAll('button, a')].forEach((each) => {{
            each.toggleAttribute("data-wanted", each.checkVisibility() && each.innerText.trim() === {json.dumps(text)});
        }})""")
        self.click("[data-wanted]")

    def key(self, name: str, text: str = "", modifiers: int = 0) -> None:
        """Presses a key."""
        codes = {"Enter": 13, "Tab": 9, "Escape": 27, "ArrowLeft": 37, "ArrowUp": 38, "ArrowRight": 39,
                 "ArrowDown": 40, " ": 32, "Home": 36}
        keys = {"key": name, "code": name, "windowsVirtualKeyCode": codes.get(name, 0), "modifiers": modifiers}
        typed = {"Enter": "\r", " ": " "}.get(name, text)
        self.page.call("Input.dispatchKeyEvent", type="keyDown", text=typed, **keys)
        self.page.call("Input.dispatchKeyEvent", type="keyUp", **keys)

    def type(self, text: str) -> None:
        """Types a text in place of what is there."""
        self.page.value("document.activeElement.select?.()")
        self.page.call("Input.insertText", text=text)

    def drag(self, what: str, x: float, y: float) -> None:
        """Drags an element by so many pixels."""
        at = self.page.value("(({left, top}) => [left + 8, top + 8])"
                             f"(document.querySelector({json.dumps(what)}).getBoundingClientRect())")
        for kind, dx, dy in (("mousePressed", 0, 0), ("mouseMoved", x / 2, y / 2), ("mouseMoved", x, y),
                             ("mouseReleased", x, y)):
            self.page.call("Input.dispatchMouseEvent", type=kind, x=at[0] + dx, y=at[1] + dy, button="left",
                           buttons=1, clickCount=1)

    def value(self, what: str) -> Any:
        """The value of an input."""
        return self.page.value(f"document.querySelector({json.dumps(what)})?.value")


def way(seen: Window, from_slot: int, to_slot: int) -> Tuple[float, float]:
    """How far it is from one slot to another."""
    x, y = seen.page.value(f"""(() => {{ const [from, to] = [{from_slot}, {to_slot}].map((slot) =>
        document.querySelectorAll(".universe i")[slot - 1].getBoundingClientRect());
        return [to.left - from.left, to.top - from.top]; }})()""")
    return x, y


def corner(seen: Window, uid: str) -> Tuple[float, float]:
    """A place of this fixture's piece, which is scrolled into view."""
    piece = f"document.querySelector(\"button[data-uid='{uid}']\")"
    x, y = seen.page.value(f"""(() => {{ {piece}.scrollIntoView({{block: "center"}});
        const box = {piece}.getBoundingClientRect();
        return [box.left + 8, box.top + 8]; }})()""")
    return x, y


def drag(seen: Window, at: Tuple[float, float], *moves: Tuple[float, float]) -> None:
    """A finger touches this place, is moved so far from there, and lets go."""
    places = [{"x": at[0] + x, "y": at[1] + y} for x, y in ((0, 0), *moves)]
    for kind, place in (("touchStart", places[0]), *(("touchMove", place) for place in places[1:])):
        seen.page.call("Input.dispatchTouchEvent", type=kind, touchPoints=[place])
    seen.page.call("Input.dispatchTouchEvent", type="touchEnd", touchPoints=[])


@contextlib.contextmanager
def window(address: str, size: Tuple[int, int] = DESK) -> Iterator[Window]:
    """A browser, for the duration of a `with`."""
    with browser() as page:
        yield Window(page, address, size)


def row(uid: str) -> str:
    """What finds a fixture's row: its link has its UID."""
    return f"tr:has(a[href$='{uid}'])"


def folder_of_downloads(page: Page, place: Path) -> None:
    """Has files that are saved put there."""
    page.call("Page.setDownloadBehavior", behavior="allow", downloadPath=str(place))


@contextlib.contextmanager
def opened(size: Tuple[int, int], view: str = "fixtures", looking: bool = False, **others: Any
           ) -> Iterator[Tuple[Window, Web, Moody]]:
    """A browser at a view of the five fixtures' page.

    At the end no script has failed, and nothing came from elsewhere.
    """
    with five(**others) as (web, rig):
        address = web.address.replace(web.tokens.using, web.tokens.looking) if looking else web.address
        with window(address, size) as seen:
            seen.open(view)
            yield seen, web, rig
            assert not seen.page.errors, seen.page.errors
            own = f"http://127.0.0.1:{web.port}/"
            strange = [each for each in seen.page.requests if not each.startswith((own, "data:,", "blob:"))]
            assert not strange, strange


def at_each_size(test: Test) -> Callable[[Any], None]:
    """Makes a test for each size."""
    @functools.wraps(test)
    def made(self: Any) -> None:
        """Makes it."""
        for size in SIZES:
            with self.subTest(size=size):
                test(self, size)
    return made
