"""The page's program on a network with anybody on it: no token, other sites and names, and those who want to hurt."""
from __future__ import annotations

import contextlib
import os
import resource
import socket
import stat
import time
import unittest
from typing import Dict, List
from unittest import mock

from common import LongTestCase, TestCase, needs_library
from servers import runtime
from web_pages import LEFT, SECONDS, Web, busy, five
from wurstlinen.web import door, pages

MANY = 10_000
# What one process may have open besides, on each side.
SPARE = 500
GIGABYTE = 1 << 30


def sent(web: Web, data: bytes) -> bytes:
    """All that comes back for bytes, until the connection ends."""
    with socket.create_connection(("127.0.0.1", web.port), timeout=SECONDS) as connection:
        with contextlib.suppress(OSError):
            connection.sendall(data)
        found = b""
        with contextlib.suppress(OSError):
            while True:
                data = connection.recv(65536)
                if not data:
                    break
                found += data
        return found


class Files(TestCase):
    """The file with the tokens."""

    def test_only_its_user_can_read_it(self) -> None:
        before = os.umask(0)
        self.addCleanup(os.umask, before)
        # A umask is that of all threads.
        with runtime() as made, mock.patch("os.umask", side_effect=AssertionError):
            kept = pages.kept("rig:/it", False)
            self.assertEqual(pages.kept("rig:/it", False), kept)
            self.assertNotEqual(pages.kept("rig:/it", True), kept)
            self.assertEqual([stat.S_IMODE(path.stat().st_mode) for path in made.rglob("web-*.token")], [0o600])


@needs_library
class Strangers(TestCase):
    """Who has no token, and pages of other sites."""

    def test_no_token(self) -> None:
        with five() as (web, _):
            for headers in ({}, {"Authorization": "Bearer x"}, {"Authorization": web.tokens.using},
                            {"Authorization": "Bearer " + "x" * 5000}, {"Cookie": f"token={web.tokens.using}"},
                            {"Authorization": "Bearer \u00fc"}):
                for method, path in (("POST", "/api/identify"), ("GET", "/api/events"), ("POST", "/api/nothing")):
                    status, body = web.ask(method, path, b"", dict(headers))
                    self.assertEqual(status, 401, (headers, path))
                    self.assertNotIn(b"1234:", body)
            # In an address it is no good, since addresses are written to logs.
            self.assertEqual(web.ask("GET", f"/api/events?token={web.tokens.using}")[0], 401)
            self.assertEqual(web.ask("GET", "/picture/x")[0], 404)

    def test_only_looking(self) -> None:
        with five() as (web, rig):
            before = rig.exchanges
            with web.follow(web.tokens.looking) as events:
                parts = events.until(lambda parts: f"fixture/{LEFT}" in parts)
                self.assertEqual(parts["role"], "looks")
            headers = {"Authorization": f"Bearer {web.tokens.looking}"}
            for name in ("change", "undo", "identify", "forget", "show", "set", "discover", "pause", "save", "load",
                         "unload", "apply"):
                self.assertEqual(web.ask("POST", f"/api/{name}", b"{}", headers), (
                    403, b"this address is view only"), name)
            self.assertEqual(rig.exchanges, before)

    def test_other_names_and_sites(self) -> None:
        with five() as (web, _):
            token = {"Authorization": f"Bearer {web.tokens.using}"}
            own = f"127.0.0.1:{web.port}"
            for host in ("evil.example", f"evil.example:{web.port}", "127.0.0.1", f"127.0.0.1:{web.port + 1}", "",
                         f"127.0.0.1.evil.example:{web.port}", f"192.168.0.1:{web.port}"):
                for path in ("/", "/app.js", "/api/events"):
                    self.assertEqual(web.ask("GET", path, b"", {**token, "Host": host})[0], 421, host)
            self.assertEqual(web.ask("GET", "/", b"", {"Host": f"localhost:{web.port}"})[0], 200)
            others: List[Dict[str, str]] = [
                {"Origin": "http://evil.example"}, {"Origin": "null"}, {"Origin": f"https://{own}"},
                {"Origin": f"http://localhost:{web.port}"}, {"Sec-Fetch-Site": "cross-site"},
                {"Sec-Fetch-Site": "same-site"}]
            for headers in others:
                status, _ = web.ask("POST", "/api/identify", b'{"uid": "1234:00000001", "on": true}',
                                    {**token, **headers})
                self.assertEqual(status, 403, headers)
            headers = {**token, "Origin": f"http://{own}", "Sec-Fetch-Site": "same-origin"}
            self.assertEqual(web.ask("POST", "/api/identify", b'{"uid": "1234:00000001"}', headers), (200, b"{}"))
            # A preflight of another site's is refused, and nothing ever allows one.
            self.assertEqual(web.ask("OPTIONS", "/api/identify", b"", {"Origin": "http://evil.example"})[0], 501)

    def test_headers(self) -> None:
        with five() as (web, _):
            found = sent(web, f"GET / HTTP/1.0\r\nHost: 127.0.0.1:{web.port}\r\n\r\n".encode()).split(b"\r\n\r\n")[0]
            for name in (b"default-src 'none'", b"script-src 'self'", b"frame-ancestors 'none'", b"nosniff",
                         b"no-referrer", b"no-store"):
                self.assertIn(name, found)
            self.assertNotIn(b"Access-Control", found)
            self.assertNotIn(b"unsafe", found)

    def test_wrong_requests(self) -> None:
        with five() as (web, _):
            token = {"Authorization": f"Bearer {web.tokens.using}"}
            for body, said in ((b"", b"isn't JSON"), (b"[]", b"isn't a JSON object"), (b"[" * 100_000, b"isn't JSON"),
                               (b"\xff", b"isn't JSON"), (b'{"uid": 5}', b"uid isn't a text"),
                               (b'{"uid": "x"}', b"uid: "), (b'{"uid": "1234:00000001", "on": 1}', b"on is neither")):
                status, found = web.ask("POST", "/api/identify", body, token)
                self.assertEqual(status, 400, body[:50])
                self.assertIn(said, found)
            for path in ("/api/", "/api/../change", "/api/__init__", "/page.html", "/../pages.py", "//", "/picture/"):
                self.assertEqual(web.ask("POST", path, b"{}", token)[0], 404, path)


@needs_library
class Attacks(LongTestCase):
    """Too much of everything. Meanwhile the page works."""

    def works(self, web: Web) -> float:
        """After how many seconds a change is made."""
        began = time.monotonic()
        self.assertEqual(web.call("identify", uid=LEFT, on=True), {})
        return time.monotonic() - began

    def test_idle_connections(self) -> None:
        _, most = resource.getrlimit(resource.RLIMIT_NOFILE)
        before = resource.getrlimit(resource.RLIMIT_NOFILE)
        resource.setrlimit(resource.RLIMIT_NOFILE, (most, most))
        self.addCleanup(resource.setrlimit, resource.RLIMIT_NOFILE, before)
        idle: List[socket.socket] = []
        with contextlib.ExitStack() as stack, five() as (web, _), web.follow() as events:
            for _ in range(min(MANY, most - SPARE)):
                idle.append(stack.enter_context(socket.create_connection(("127.0.0.1", web.port), timeout=SECONDS)))
            # All of them came before this one. A busy machine's queue of new ones may be full, and then TCP waits.
            self.assertEqual(web.ask("GET", "/")[0], 200)
            self.assertLess(self.works(web), 5.0 * busy())
            # A page that is open isn't thrown out.
            events.until(lambda parts: parts.get(f"fixture/{LEFT}", {}).get("identifies"))
            self.assertLessEqual(len(web.door.connections), door.MOST_CONNECTIONS)

    def test_one_that_is_slow_with_its_request(self) -> None:
        with five() as (web, _):
            with socket.create_connection(("127.0.0.1", web.port), timeout=SECONDS) as connection:
                connection.sendall(b"GET / HT")
                began = time.monotonic()
                with contextlib.suppress(OSError):
                    while time.monotonic() < began + SECONDS:
                        connection.sendall(b"x")
                        time.sleep(1.0)
                self.assertLess(time.monotonic() - began, 20.0 * busy())
            self.works(web)

    def test_large_requests(self) -> None:
        # What is too large is refused at once, however late a busy machine is.
        with mock.patch.object(door, "REQUEST_SECONDS", SECONDS), five() as (web, _):
            host = f"Host: 127.0.0.1:{web.port}\r\n"
            token = f"Authorization: Bearer {web.tokens.using}\r\n"
            memory = resource.getrusage(resource.RUSAGE_SELF).ru_maxrss
            for head in (f"POST /api/load HTTP/1.1\r\n{host}{token}Content-Length: {GIGABYTE}\r\n\r\n",
                         f"POST /api/load HTTP/1.1\r\n{host}Content-Length: 1000000\r\n\r\n"):
                self.assertIn(b" 413 ", sent(web, head.encode() + b"x" * (1 << 20))[:20])
            for head in (f"POST /api/load HTTP/1.1\r\n{host}{token}Transfer-Encoding: chunked\r\n\r\n",
                         f"POST /api/load HTTP/1.1\r\n{host}{token}Content-Length: -1\r\n\r\n",
                         f"POST /api/load HTTP/1.1\r\n{host}{token}Content-Length: {'9' * 30}\r\n\r\n"):
                self.assertIn(b" 411 ", sent(web, head.encode())[:20])
            endless = b"GET / HTTP/1.1\r\nX: " + b"x" * (1 << 24)
            self.assertNotIn(b" 200 ", sent(web, endless))
            self.assertNotIn(b" 200 ", sent(web, b"GET /" + b"x" * (1 << 24)))
            self.assertNotIn(b" 200 ", sent(web, b"GET / HTTP/1.1\r\n" + b"X: y\r\n" * 100_000))
            self.assertNotIn(b" 200 ", sent(web, bytes(range(256)) * 100))
            self.works(web)
            # Kilobytes; a gigabyte would show.
            self.assertLess(resource.getrusage(resource.RUSAGE_SELF).ru_maxrss - memory, 200_000)

    def test_slow_readers(self) -> None:
        with five() as (web, _), contextlib.ExitStack() as stack:
            for _ in range(door.MOST_STREAMS):
                reader = stack.enter_context(socket.create_connection(("127.0.0.1", web.port), timeout=SECONDS))
                reader.sendall(f"GET /api/events HTTP/1.1\r\nHost: 127.0.0.1:{web.port}\r\n"
                               f"Authorization: Bearer {web.tokens.using}\r\n\r\n".encode())
            until, status = time.monotonic() + SECONDS, 0
            while status != 503:
                self.assertLess(time.monotonic(), until)
                # As long as there is a place, this is a page too, and has no end.
                with web.follow() as events:
                    status = events.answer.status
            for number in range(50):
                self.assertEqual(web.call("change", uid=LEFT, column="label", value=f"Wash {number}")["made"], 1)
            self.works(web)

    def test_labels_are_only_texts(self) -> None:
        bad = "<img src=x onerror=alert(1)>"
        with five() as (web, _), web.follow() as events:
            self.assertEqual(web.call("change", uid=LEFT, column="label", value=bad)["made"], 1)
            events.until(lambda parts: parts.get(f"fixture/{LEFT}", {}).get("label") == bad)


if __name__ == "__main__":
    unittest.main()
