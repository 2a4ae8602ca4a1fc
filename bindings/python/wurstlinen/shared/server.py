"""The server of a line: programs that are connected, in one thread, and the line in another."""
from __future__ import annotations

import contextlib
import errno
import os
import selectors
import socket
import time
from dataclasses import dataclass
from typing import Callable, Dict, FrozenSet, Iterable, List, Optional, Tuple, Union

from .. import MOST_CLIENTS, Closed, Discovery, Fault, Kind, LogFull, Request, RunFaultKind, Session, Status
from .._bad_uids import bad_uids_of_run
from .._types import Outcome
from .backlog import DEPTH, Backlog
from .lane import PLACES, Lane
from .listening import Passed, Place
from .peer import READ_BYTES, Peer, id_of
from .place import user_of
from .words import (
    DEVICES, FRAMES, KINDS, MOST_ID, MOST_NAME, VERSION, BadRequest, Keys, check_keys, choice_in,
    keys_of_bad_uids, keys_of_device, number_in, object_of, outcome_keys, request_in, shortened,
)
from .worker import Worker

# Connections in all, of which sixteen may be programs that have a client of the queue.
MOST_CONNECTIONS = 64
HOUSEKEEPING_SECONDS = 1.0
# How long what is under way may take when the server ends, and how long its clients have to read that.
ENDING_SECONDS = 3.0
# The system has no descriptor or no memory for a connection now.
NOT_NOW = (errno.EMFILE, errno.ENFILE, errno.ENOBUFS, errno.ENOMEM)


@dataclass(frozen=True)
class Facts:
    """What the server says of itself."""

    line: str
    source: str
    # Whose connections are taken; None: all whom the socket's mode lets in.
    users: Optional[FrozenSet[int]] = None
    # After so many seconds without a connection, the server ends.
    idle: Optional[float] = None


class Server:
    """Serves the programs that connect at a place until `end` is called.

    `session` is the line's, and nobody else has joined it.
    """

    def __init__(self, place: Union[Place, Passed], session: Session, facts: Facts) -> None:
        self._place = place
        self._listener = place.listener
        self._listener.setblocking(False)
        self._session = session
        self._facts = facts
        self._lanes = [Lane(session.join(PLACES)) for _ in range(MOST_CLIENTS)]
        self._backlog = Backlog(self._lanes)
        self._peers: List[Peer] = []
        self._selector = selectors.DefaultSelector()
        self._waking, self._waker = socket.socketpair()
        for end in (self._waking, self._waker):
            end.setblocking(False)
        self._worker: Optional[Worker] = None
        self._is_ending = False
        self._is_paused = False
        self._listens = False
        self._listens_from = 0.0
        self._devices_run = 0
        # The answer of the last run, which takes long to make if there are many devices.
        self._devices: Keys = {"run": 0, "devices": []}
        self._left_at = time.monotonic()

    def wake(self) -> None:
        """Has the server look what has happened. It may be called by other threads and by signals' handlers."""
        # It may be awake already, or have ended.
        with contextlib.suppress(OSError):
            self._waker.send(b"!")

    def end(self) -> None:
        """Has the server end."""
        self._is_ending = True
        self.wake()

    def run(self, worker: Worker) -> None:
        """Serves until the end. Raises what the line has raised besides LineFailed."""
        self._worker = worker
        self._selector.register(self._waking, selectors.EVENT_READ)
        worker.start()
        try:
            while not self._is_over():
                self._turn(HOUSEKEEPING_SECONDS)
            self._finish()
        finally:
            worker.end()
            for peer in self._peers:
                peer.close()
            self._selector.close()
            self._waking.close()
            self._waker.close()
        if worker.fault is not None:
            raise worker.fault

    def _is_over(self) -> bool:
        idle = self._facts.idle
        is_idle = idle is not None and not self._peers and time.monotonic() >= self._left_at + idle
        return self._is_ending or is_idle or self.worker.fault is not None

    @property
    def worker(self) -> Worker:
        """The thread that has the line."""
        assert self._worker is not None
        return self._worker

    def _turn(self, seconds: float) -> None:
        """Waits until something happens, and does what it asks for: one request of each program."""
        self._listen()
        for key, events in self._selector.select(0.0 if any(peer.asks for peer in self._peers) else seconds):
            if key.fileobj is self._listener:
                self._accept()
            elif isinstance(key.data, Peer):
                self._serve(key.data, events)
            else:
                self._drain_waking()
        self.worker.make_room()
        for peer in self._peers:
            if peer.asks:
                self._answer(peer, peer.held.popleft())
        self._hand_out()
        self._hand_on()
        self._housekeep()

    def _listen(self) -> None:
        """Accepts connections again, if they couldn't be accepted for a while."""
        if not self._listens and not self._is_ending and time.monotonic() >= self._listens_from:
            self._selector.register(self._listener, selectors.EVENT_READ)
            self._listens = True

    def _stop_listening(self) -> None:
        if self._listens:
            self._selector.unregister(self._listener)
            self._listens = False

    def _drain_waking(self) -> None:
        with contextlib.suppress(BlockingIOError):
            self._waking.recv(READ_BYTES)

    def _accept(self) -> None:
        try:
            connection, _ = self._listener.accept()
        except OSError as fault:
            if fault.errno in NOT_NOW:
                self._stop_listening()
                self._listens_from = time.monotonic() + HOUSEKEEPING_SECONDS
            return
        peer = Peer(connection)
        if len(self._peers) >= MOST_CONNECTIONS:
            peer.leave(BadRequest(f"{MOST_CONNECTIONS} programs are connected", "TooManyConnections"))
            peer.close()
            return
        self._peers.append(peer)
        if self._facts.users is not None and user_of(connection) not in self._facts.users:
            peer.leave(BadRequest("this line is another user's", "OtherUser"))

    def _serve(self, peer: Peer, events: int) -> None:
        """Reads from a connection, and writes to it."""
        if events & selectors.EVENT_WRITE:
            peer.write()
        if events & selectors.EVENT_READ and peer.reads:
            try:
                peer.held.extend(peer.read())
            except BadRequest as fault:
                peer.leave(fault)

    def _answer(self, peer: Peer, line: bytes) -> None:
        """Does what a line asks for. A fault of the server's own ends this program alone."""
        try:
            self._do(peer, line)
        except Exception as fault:
            peer.leave(BadRequest(f"the server has a fault: {fault!r}", "ServerFault"))

    def _do(self, peer: Peer, line: bytes) -> None:
        keys: Optional[Keys] = None
        try:
            keys = object_of(line)
            number_in(keys, "id", MOST_ID, 0)
            name = keys.get("do")
            if not isinstance(name, str) or name not in ANSWERS:
                raise BadRequest(f"there is nothing to do that is called {shortened(name)}")
            if (peer.lane is None) != (name == "hello"):
                raise BadRequest("the first request is hello, and only that one", "NoHello")
            answer = ANSWERS[name](self, peer, keys)
        except BadRequest as fault:
            peer.refuse(fault, keys)
        except Fault as fault:
            peer.say({**id_of(keys), "error": type(fault).__name__, "text": str(fault)})
        else:
            peer.faults = 0
            if answer is not None:
                peer.say({**id_of(keys), **answer})

    def greet(self, peer: Peer, keys: Keys) -> None:
        """A program begins. It is answered when it has a client of the queue."""
        check_keys(keys, ("version", "name"))
        if keys.get("version") != VERSION:
            raise BadRequest(f"this server has version {VERSION} of the protocol", "BadVersion")
        if all(lane.owner is not None for lane in self._lanes):
            peer.leave(BadRequest(f"{MOST_CLIENTS} programs use this line", "TooManyClients"), keys)
            return
        peer.hello, peer.name = keys, str(keys.get("name", ""))[:MOST_NAME]
        self._welcome(peer)

    def _welcome(self, peer: Peer) -> None:
        """Gives a program that waits a client of the queue, if one is free."""
        free = next((lane for lane in self._lanes if lane.is_free), None)
        if peer.hello is None or free is None or peer.is_leaving:
            return
        answer = {**id_of(peer.hello), "version": VERSION, "source": self._facts.source, "process": os.getpid(),
                  "depth": DEPTH, "client": free.number}
        peer.welcome(free)
        peer.say({**answer, **self._status()})

    def submit(self, peer: Peer, keys: Keys) -> Keys:
        """A GET or a SET."""
        return {"request": self._accepted(peer, request_in(keys))}

    def discover(self, peer: Peer, keys: Keys) -> Keys:
        """A discovery."""
        check_keys(keys, ("kind",))
        return {"discovery": self._accepted(peer, KINDS[choice_in(keys, "kind", KINDS, "full")])}

    def _accepted(self, peer: Peer, what: Union[Request, Kind]) -> int:
        if self._is_ending or self._session.is_closed():
            raise Closed()
        assert peer.lane is not None
        return self._backlog.accept(peer.lane, what)

    def devices(self, peer: Peer, keys: Keys) -> Keys:
        """The devices of the last run without a fault."""
        check_keys(keys, ())
        if self._devices["run"] != self._session.devices_run():
            self._devices = {"run": self._session.devices_run(),
                             "devices": list(map(keys_of_device, self._session.devices()))}
        return self._devices

    def pause(self, peer: Peer, keys: Keys) -> Keys:
        """An operator stops what isn't sent so far, for as long as it is connected."""
        check_keys(keys, ())
        self._set_pause(True)
        peer.has_paused = True
        return {"paused": True}

    def resume(self, peer: Peer, keys: Keys) -> Keys:
        """The same operator lets it go on. Another may still have paused it."""
        check_keys(keys, ())
        self._set_pause(self._is_paused_by(other for other in self._peers if other is not peer))
        peer.has_paused = False
        return {"paused": self._is_paused}

    @staticmethod
    def _is_paused_by(peers: Iterable[Peer]) -> bool:
        return any(peer.has_paused for peer in peers)

    def _set_pause(self, wanted: bool) -> None:
        """Pauses the queue, or has it go on."""
        if wanted == self._is_paused or self._is_ending:
            return
        (self._session.pause if wanted else self._session.resume)()
        self._is_paused = wanted
        self.worker.wake()
        self._tell({"event": "pause", "paused": wanted})

    def subscribe(self, peer: Peer, keys: Keys) -> Keys:
        """A program wants to hear of these changes, and of no others."""
        check_keys(keys, ("to",))
        wanted = keys.get("to")
        if not isinstance(wanted, list) or any(each not in (DEVICES, FRAMES) for each in wanted):
            raise BadRequest(f"to isn't a list of {DEVICES} and {FRAMES}")
        peer.subscribed = set(wanted)
        self._set_frames()
        return {"to": sorted(peer.subscribed)}

    def _set_frames(self) -> None:
        self.worker.shows_frames = any(FRAMES in peer.subscribed for peer in self._peers)

    def clients(self, peer: Peer, keys: Keys) -> Keys:
        """Who has a client of the queue. One whose program has gone has no process."""
        check_keys(keys, ())
        return {"clients": [client_of(lane, self._backlog.outstanding_of(lane)) for lane in self._lanes
                            if not lane.is_free]}

    def status(self, peer: Peer, keys: Keys) -> Keys:
        """How things are."""
        check_keys(keys, ())
        return self._status()

    def _status(self) -> Keys:
        clients = sum(lane.owner is not None for lane in self._lanes)
        keys: Keys = {"line": self._facts.line, "there": self.worker.is_line_there,
                      "paused": self._is_paused, "clients": clients, "outstanding": self._backlog.outstanding}
        return keys if keys["there"] else {**keys, "reason": self.worker.absence}

    def _hand_out(self) -> None:
        """Sends results and events to those who want them, and clients of the queue to those who wait for one."""
        # The frames of these results are among the events already, and the results of this run among these.
        run, numbers = self._session.devices_run(), self._backlog.numbers()
        results = [(lane, outcome) for lane in self._lanes for outcome in lane.collected()]
        while self.worker.events:
            event = self.worker.events.popleft()
            if "request" in event:
                event["request"] = numbers[event["request"]]
            self._tell(event, FRAMES if event["event"] == "frame" else None)
        self._say_results(results)
        if run != self._devices_run:
            self._devices_run = run
            self._tell({"event": "devices", "run": run}, DEVICES)
        for peer in self._peers:
            if peer.hello is not None:
                self._welcome(peer)

    def _hand_on(self) -> None:
        """Gives the queue what it can do now. Else it stays here, where it can be dropped with its program."""
        if self._is_ending or self._is_paused or self.worker.is_waiting:
            return
        # Without room in the log or memory, a later turn does it.
        with contextlib.suppress(Fault):
            for _ in self._backlog.hand_on():
                self.worker.wake()

    def _say_results(self, results: Iterable[Tuple[Lane, Outcome]]) -> None:
        """Sends results to the programs that still want them."""
        for lane, outcome in results:
            if lane.owner is not None:
                lane.owner.say(self._result(outcome))

    def _result(self, outcome: Outcome) -> Keys:
        """How a call ended; with the reason if the line failed."""
        keys = outcome_keys(outcome)
        if isinstance(outcome, Discovery):
            keys.update(keys_of_bad_uids(bad_uids_of_run(self._session, outcome.run)))
        if keys.get("status") == Status.FAILED_TO_SEND or keys.get("fault") == RunFaultKind.LINE_FAILED:
            is_end = self._is_ending or self.worker.fault is not None
            keys["reason"] = self._end_reason if is_end else self.worker.reason
        return keys

    @property
    def _end_reason(self) -> str:
        """Why the server ends."""
        fault = self.worker.fault
        return "the server ends" if fault is None else f"the line has ended the server: {fault!r}"

    def _tell(self, event: Keys, subject: Optional[str] = None) -> None:
        for peer in self._peers:
            if subject is None or subject in peer.subscribed:
                peer.tell(event)

    def _housekeep(self) -> None:
        """Ends connections that are over or late, and watches the others."""
        now = time.monotonic()
        for peer in self._peers:
            if peer.is_late(now) and peer.lane is None and not peer.is_leaving:
                peer.leave(no_lane(peer), peer.hello)
            elif peer.is_late(now):
                peer.is_over = True
        over = [peer for peer in self._peers if peer.is_over]
        for peer in over:
            self._peers.remove(peer)
            self._watch(peer, 0)
            if peer.lane is not None:
                self._backlog.drop(peer.lane)
            peer.close()
        if over:
            self._left_at = now
            self._set_frames()
        # If the log was full, the next turn does it.
        with contextlib.suppress(LogFull):
            self._set_pause(self._is_paused_by(self._peers))
        for peer in self._peers:
            self._watch(peer, (selectors.EVENT_READ if peer.reads else 0) |
                        (selectors.EVENT_WRITE if peer.writes else 0))

    def _watch(self, peer: Peer, events: int) -> None:
        """Waits for what a connection can do next. One that can do nothing isn't watched."""
        if events == peer.watched:
            return
        if peer.watched:
            self._selector.unregister(peer.connection)
        if events:
            self._selector.register(peer.connection, events, peer)
        peer.watched = events

    def _finish(self) -> None:
        """Answers everybody, as far as they read it."""
        self._is_ending = True
        self._stop_listening()
        self._place.leave()
        self._session.close()
        until = time.monotonic() + ENDING_SECONDS
        while any(lane.in_queue for lane in self._lanes) and time.monotonic() < until and not self.worker.fault:
            self._turn(until - time.monotonic())
        self.worker.end()
        self._hand_out()
        self._say_results(self._backlog.fail())
        for peer in self._peers:
            peer.leave(BadRequest(self._end_reason, "Closed"))
        until = time.monotonic() + ENDING_SECONDS
        while self._peers and time.monotonic() < until:
            self._turn(until - time.monotonic())


def client_of(lane: Lane, outstanding: int) -> Keys:
    """A client of the queue, and its program."""
    keys: Keys = {"client": lane.number, "outstanding": outstanding}
    if lane.owner is None:
        return keys
    return {**keys, "name": lane.owner.name, "process": lane.owner.process, "paused": lane.owner.has_paused}


def no_lane(peer: Peer) -> BadRequest:
    """Why a connection has no client of the queue in time."""
    if peer.hello is None:
        return BadRequest("there was no hello in time", "NoHello")
    return BadRequest("all clients of the queue still have requests of programs that have gone", "TooManyClients")


ANSWERS: Dict[str, Callable[[Server, Peer, Keys], Optional[Keys]]] = {
    "hello": Server.greet,
    "get": Server.submit,
    "set": Server.submit,
    "discover": Server.discover,
    "devices": Server.devices,
    "pause": Server.pause,
    "resume": Server.resume,
    "subscribe": Server.subscribe,
    "clients": Server.clients,
    "status": Server.status,
}
