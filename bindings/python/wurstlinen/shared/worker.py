"""The thread that has a server's line."""
from __future__ import annotations

import threading
import time
from collections import deque
from typing import Any, Callable, Deque, Dict, List, Optional

from .. import LineFailed, LogFull, Session
from .._times import now
from ..entries import Came, Entry, Send
from ..lines import OpenLine
from .journal import CAPACITY, Exchange, Journal, entry_keys, entry_line
from .log_file import LogWriter

# How often it is looked whether an adapter is still there, or there again.
LOOK_SECONDS = 0.5
# How long requests wait for an adapter that is gone. Then each fails at once.
GRACE_SECONDS = 5.0
GLANCE_SECONDS = 0.01
# How long the thread has to end, and how long once its line is closed.
SOON_SECONDS = 0.2
END_SECONDS = 5.0
# So many free entries of the session's log are enough for all calls of a turn of the server.
ROOM = CAPACITY // 2
# If the server's other thread is behind by so many frames, the line waits for it.
MOST_EVENTS = 1000


class Worker:
    """Makes the session's exchanges until it is ended. If the adapter is gone, it waits for another.

    `open_line` opens the line again, and `notify` is called after each exchange and each event.
    """

    def __init__(self, session: Session, line: OpenLine, open_line: Callable[[], OpenLine],
                 notify: Callable[[], None], log: Optional[LogWriter] = None) -> None:
        self._session = session
        self._line = line
        self._open_line = open_line
        self._notify = notify
        self._log = log
        # Another adapter would send under another UID, to other devices.
        self._source = line.source
        self._journal = Journal(session)
        self._recording = threading.Lock()
        self._exchange_shown = Exchange()
        # When the last frame was sent, and the last reply came.
        self._sent_at = self._came_at = 0
        self._has_work = threading.Event()
        self._is_ending = threading.Event()
        self._gone_since: Optional[float] = None
        self._next_look = 0.0
        self._thread = threading.Thread(target=self._run, name="line", daemon=True)
        # Objects for subscribers, oldest first.
        self.events: Deque[Dict[str, Any]] = deque()
        # Whether somebody wants frames.
        self.shows_frames = False
        # Why the last exchange failed that did, and why the line can't be used now.
        self.reason = ""
        self.absence = ""
        # What the line has raised besides LineFailed, which ends the server.
        self.fault: Optional[BaseException] = None

    @property
    def is_line_there(self) -> bool:
        """Whether the line can be used."""
        return self._gone_since is None

    @property
    def is_waiting(self) -> bool:
        """Whether the adapter is gone, and requests wait for it."""
        # Its own thread may find the adapter at any time.
        since = self._gone_since
        return since is not None and time.monotonic() < since + GRACE_SECONDS

    def start(self) -> None:
        """Begins."""
        self._thread.start()

    def wake(self) -> None:
        """There may be a frame to send."""
        self._has_work.set()

    def end(self) -> None:
        """Ends it, and closes the line. An exchange that hasn't ended soon fails."""
        self._is_ending.set()
        self._has_work.set()
        self._thread.join(SOON_SECONDS)
        self._line.close()
        self._thread.join(END_SECONDS)
        if not self._thread.is_alive():
            self._record()

    def _run(self) -> None:
        try:
            while not self._is_ending.is_set():
                self._has_work.wait(LOOK_SECONDS)
                self._has_work.clear()
                self._look_at_line()
                while not self._is_ending.is_set() and self._exchange():
                    self._look_at_line()
        except BaseException as fault:  # A line may raise anything, and nobody else would report it.
            self.fault = fault
        self._notify()

    def _exchange(self) -> bool:
        """Makes one exchange. False: there is nothing to send, or the adapter is awaited."""
        if self.is_waiting:
            return False
        try:
            frame = self._session.take()
        except LogFull:
            self._record()
            time.sleep(GLANCE_SECONDS)
            return True
        if frame is None:
            return False
        self._sent_at = now()
        try:
            reply = self._reply(frame)
        except BaseException:
            self._session.fail()
            raise
        finally:
            self._came_at = now()
        self._report(reply)
        return True

    def _reply(self, frame: bytes) -> Optional[bytes]:
        """What the line answers to a frame; None if it failed."""
        if self._gone_since is not None:
            self.reason = self.absence
            return None
        try:
            return self._line.exchange(frame)
        except LineFailed as failure:
            self.reason = str(failure)
            return None

    def _report(self, reply: Optional[bytes]) -> None:
        """Hands on what came, and what the session has logged: events before the results that they lead to.

        Waits for a thread that is behind with them.
        """
        def report() -> List[Entry]:
            """Both in one step."""
            self._session.fail() if reply is None else self._session.deliver(reply)
            return self._show_new()

        self._keep(report)
        self._notify()
        while len(self.events) > MOST_EVENTS and not self._is_ending.is_set():
            time.sleep(GLANCE_SECONDS)

    def _look_at_line(self) -> None:
        """Notes whether the adapter is gone, and opens it again if it is there."""
        if self._gone_since is None and not self._line.is_there:
            self._line.close()
            self._gone_since = time.monotonic()
            self.absence = "the adapter is gone"
            self._say({"event": "line", "there": False, "reason": self.absence})
        if self._gone_since is not None and time.monotonic() >= self._next_look:
            self._open_again()

    def _open_again(self) -> None:
        self._next_look = time.monotonic() + LOOK_SECONDS
        try:
            line = self._open_line()
        except (LineFailed, OSError, ValueError) as fault:
            self.absence = str(fault)
            return
        if line.source != self._source:
            line.close()
            self.absence = "another adapter is in its place"
            return
        self._line = line
        if self._is_ending.is_set():
            # Who ends this may have closed the line before.
            line.close()
        self._gone_since = None
        self._has_work.set()
        self._say({"event": "line", "there": True})

    def _say(self, event: Dict[str, Any]) -> None:
        self.events.append(event)
        self._notify()

    def make_room(self) -> None:
        """Makes place for the entries of calls, while an exchange takes long. The server's other thread calls it."""
        if self._session.free_entries() < ROOM:
            self._keep(self._show_new)

    def _record(self) -> None:
        """Hands on what the session has logged."""
        self._keep(self._show_new)

    def _show_new(self) -> List[Entry]:
        """The session's new entries. Subscribers get the exchanges among them."""
        if self._log is None and not self.shows_frames:
            self._journal.skip()
            self._journal.drain()
            self._exchange_shown = Exchange()
            return []
        entries = [*self._journal.new(), *self._journal.drain()]
        shown = [self._exchange_shown.keys(entry, self._came_at) for entry in entries]
        self.events.extend(filter(None, shown if self.shows_frames else []))
        return entries

    def _keep(self, show: Callable[[], List[Entry]]) -> None:
        """Writes the entries to the log that are shown, while no other thread does."""
        with self._recording:
            entries = self._session._turns.alone(show)
            if self._log is not None:
                times = {Send: self._sent_at, Came: self._came_at}
                self._log.add([entry_line(entry_keys(entry, times.get(type(entry)) or now())) for entry in entries])
