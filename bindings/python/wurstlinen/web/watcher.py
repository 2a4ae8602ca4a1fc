"""What happens on the line, whoever does it: programs, requests and their results, discoveries, pauses."""
from __future__ import annotations

import contextlib
import io
import itertools
import secrets
import threading
import time
from typing import Any, Callable, Dict, List, Optional, Sequence, Tuple

from .. import Device, Uid
from ..front.frames import Parts, answer_text, command_of
from ..front.output import BAD_ARGUMENTS, Failure
from ..front.page import page_of
from ..front.page_findings import Findings, findings_of
from ..front.shared_line import SharedLine
from ..front.watched import Watched
from ..front.work import Work
from ..line import LineFailed
from ..lines.numbers import CommandClass, ResponseType
from ..lines.packets import decode_packet, is_answer
from ..lines.uids import uid_text
from ..parameters import STANDARD
from ..shared.client import SharedClient
from ..shared.words import FRAMES, Keys
from .door import Refusal
from .hands import END_SECONDS, SILENT, Board, failure_of
from .rig import Rig

KEY = "discovery"
# More UIDs can't be named to the proved program.
MOST_EXPECTED = 1024
MOST_REQUESTS = 100
# How often it is asked who is connected, and how long a part of that is waited for something to come.
LOOK_SECONDS = 1.0
SLICE_SECONDS = 0.25
# How long after the line has failed a device is asked again.
AGAIN_SECONDS = 5.0
# The parameters whose SET changes what the table shows.
SHOWN = {STANDARD.named(name).number for name in ("device_label", "dmx_start_address", "dmx_personality",
                                                  "identify_device", "factory_defaults", "reset_device")}
# A page shows no more of a long answer.
MOST_TEXT = 300


class Discoveries:
    """Makes one discovery at a time."""

    def __init__(self, board: Board, rig: Rig) -> None:
        self._board = board
        self._rig = rig
        # Held while one is under way or waits.
        self._running = threading.Lock()
        # How the last one ended, which pages show until the next one has.
        self._last: Dict[str, Any] = {}
        # The last one's log and findings, by the name of its picture.
        self._pictures: Dict[str, Tuple[List[str], Findings]] = {}

    def begin(self) -> None:
        """Begins one. Raises Failure if one runs."""
        if not self._running.acquire(blocking=False):
            raise Failure(BAD_ARGUMENTS, "a discovery is under way", reason="discovery")
        self._board.put(KEY, {**self._last, "runs": True})
        self._rig.hands.do(KEY, self._run).add_done_callback(self._end)

    def _end(self, future: Any) -> None:
        """If it has failed, that is what is shown."""
        if future.exception() is not None:
            self._show(fault=str(future.exception()))
        self._running.release()

    def take(self, devices: Optional[Sequence[Device]]) -> None:
        """A run of any program has found these; None: no run has been made, so that one is made."""
        if devices is None:
            # Somebody may have begun one at the same time.
            with contextlib.suppress(Failure):
                self.begin()
        elif not self._running.locked():
            self._rig.adopt(devices, None, reads_all=False)

    def _run(self, work: Work) -> None:
        assert isinstance(work.line, SharedLine)
        log: List[str] = []
        try:
            devices, fault = work.discover(log.append)
        finally:
            work.line.leave()
        # The first line is the log's opening.
        ended: Dict[str, Any] = {"fault": fault, "found": len(devices), "frames": max(0, len(log) - 1)}
        self._show(**ended, others=["looking at what it shows ..."])
        self._rig.adopt(devices, fault, reads_all=True)
        said, reasons, shown = findings_of(log, sorted(self._rig.labels())[:MOST_EXPECTED])
        # Nobody can guess its name.
        self._pictures = {secrets.token_urlsafe(16): (log, said)} if said is not None else {}
        self._rig.explain(reasons)
        self._show(**ended, **shown, picture="".join(self._pictures))

    def picture(self, name: str) -> str:
        """The page that explains the last discovery, with the labels that are known by now. Raises Refusal."""
        if name not in self._pictures:
            raise Refusal(404, "this picture isn't kept any more; a new discovery makes another")
        log, said = self._pictures[name]
        labels = {uid.number: label for uid, label in self._rig.labels().items()}
        return page_of("the page's last discovery", io.BytesIO("".join(log).encode()), said, labels)

    def _show(self, **keys: Any) -> None:
        """Shows how it ended."""
        self._last = {"runs": False, "found": 0, "frames": 0, **keys}
        self._board.put(KEY, self._last)


class Watcher(threading.Thread):
    """Watches the server of the line by a connection of its own, which `connect` makes after the first one, and puts
    what it sees on the board. The rig asks the devices again that other programs change."""

    def __init__(self, board: Board, connect: Callable[[], SharedClient], first: SharedClient, rig: Rig,
                 discoveries: Discoveries) -> None:
        super().__init__(name="watcher", daemon=True)
        self._board = board
        self._connect = connect
        self._rig = rig
        self._discoveries = discoveries
        self._client: Optional[SharedClient] = first
        self._has_ended = threading.Event()
        # The last requests, by their numbers, and how many there were.
        self._requests: Dict[int, Dict[str, Any]] = {}
        self._numbers = itertools.count()
        self._parts = Parts()
        # The run that is seen, how far it is, and when its last frame came.
        self._run_number = 0
        self._progress = Watched(SILENT, None)
        self._last_frame = 0.0
        # The last run whose devices were told.
        self._told_run: Optional[int] = None

    def end(self) -> None:
        """Ends the connection."""
        self._has_ended.set()
        # Its own thread may have another one at any time.
        client = self._client
        if client is not None:
            client.close()
        self.join(END_SECONDS)

    def pause(self, on: bool = False) -> Keys:
        """Pauses the queue for all programs, or has it go on. Raises LineFailed."""
        client = self._client
        if client is None:
            raise LineFailed("the server of the line has ended")
        (client.queue.pause if on else client.queue.resume)()
        return {"paused": client.queue.is_paused()}

    def run(self) -> None:
        """Watches until the end."""
        while not self._has_ended.is_set():
            try:
                self._client = self._client or self._connect()
                self._watch(self._client)
            except Exception as fault:  # Whatever it is, the page goes on with another connection.
                self._gone(str(failure_of(fault)))
            self._has_ended.wait(SLICE_SECONDS)

    def _gone(self, reason: str) -> None:
        """There is no server now."""
        if self._client is not None:
            self._client.close()
            self._client = None
        self._board.put("line", {"served": False, "there": False, "paused": False, "reason": reason})
        self._board.put("clients", None)

    def _watch(self, client: SharedClient) -> None:
        """Watches until the connection ends. Raises LineFailed."""
        queue = client.queue
        self._requests.clear()
        self._told_run, self._run_number = None, 0
        queue.on_frame = self._take
        queue.subscribe([FRAMES])
        next_look = 0.0
        while not self._has_ended.is_set():
            if time.monotonic() >= next_look:
                self._look(client)
                next_look = time.monotonic() + LOOK_SECONDS
            self._board.put("line", {
                "served": True, "there": queue.is_there, "reason": queue.reason, "name": queue.name,
                "paused": queue.is_paused(), "source": str(queue.source), "process": queue.process})
            queue.connection.receive(SLICE_SECONDS)
            self._tell_progress()

    def _look(self, client: SharedClient) -> None:
        """Asks which devices are known, and who is connected; and devices again that were asked in vain."""
        run = client.queue.devices_run()
        if run != self._told_run:
            self._told_run = run
            self._discoveries.take(client.queue.devices() if run else None)
        if client.queue.is_there:
            late = time.monotonic() - AGAIN_SECONDS
            self._rig.read_those(lambda entry: entry.failed_at < late)
        own = {*self._rig.hands.numbers, client.queue.number}
        self._board.put("clients", [{**each, "is_page": each["client"] in own} for each in client.queue.clients()])

    def _take(self, keys: Keys) -> None:
        """An exchange."""
        frame = bytes.fromhex(keys["frame"])
        reply = None if "failed" in keys else bytes.fromhex(keys["reply"])
        if "run" not in keys:
            self._take_request(keys, frame, reply)
            return
        if keys["run"] != self._run_number:
            self._run_number, self._progress = keys["run"], Watched(SILENT, None)
            self._progress.begin(None)
        self._progress.saw(frame, reply)
        self._last_frame = time.monotonic()

    def _tell_progress(self) -> None:
        """Shows how far a run is."""
        if self._run_number:
            self._board.put("progress", {"run": self._run_number, "frames": self._progress.frames,
                                         "found": list(map(uid_text, sorted(self._progress.found or ()))),
                                         "is_over": time.monotonic() > self._last_frame + LOOK_SECONDS})

    def _take_request(self, keys: Keys, frame: bytes, reply: Optional[bytes]) -> None:
        """Shows a request with what came last for it."""
        number, client, command = keys["request"], keys.get("client"), decode_packet(frame)
        if number not in self._requests:
            self._requests[number] = {"at": next(self._numbers), "frames": 0}
            for oldest in list(self._requests)[:-MOST_REQUESTS]:
                del self._requests[oldest]
        known = self._requests[number]
        joined = self._parts.joined(frame, reply)
        is_good = (command is not None and joined.response is not None and is_answer(reply or b"", frame)
                   and joined.response.port_or_type != ResponseType.NACK_REASON)
        known.update(client=client, command=command_of(frame)[:MOST_TEXT], frames=known["frames"] + 1,
                     answer=answer_text(frame, joined)[:MOST_TEXT], is_good=is_good)
        self._board.put(f"request/{known['at'] % MOST_REQUESTS}", dict(known))
        if command is None or command.command_class != CommandClass.SET or command.pid not in SHOWN:
            return
        uid = Uid.from_number(command.destination)
        if client not in self._rig.hands.numbers and (is_good or uid.is_broadcast):
            self._rig.read_those(lambda entry: uid.is_broadcast or entry.device.uid == uid, not uid.is_broadcast)
