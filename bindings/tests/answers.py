"""Tries clients that ask for the same long answer while parts are lost: `python3 answers.py RUNS [FIRST]`.

The number of a run, from FIRST or 0, is the seed of its device, its 2 to 16 clients and its losses. What each answer
has to be is read off the rig, whose parts all differ, before a reply is lost. WURSTLINEN_LIBRARY names the shared
library. The last line is 'N passed, M failed'.
"""
from __future__ import annotations

import argparse
import os
import random
import sys
from collections import Counter
from dataclasses import dataclass
from typing import Any, Callable, Dict, List, Optional, Tuple, Union

ROOT = os.path.dirname(os.path.dirname(os.path.dirname(os.path.abspath(__file__))))
sys.path.insert(0, os.path.join(ROOT, "bindings", "python"))

from wurstlinen import (  # noqa: E402
    AckType, Asker, Client, Completion, Controller, Full, Incomplete, Session, Status, Uid)
from wurstlinen.lines import Rig  # noqa: E402
from wurstlinen.lines.numbers import Pid, ResponseType  # noqa: E402
from wurstlinen.lines.packets import decode_packet  # noqa: E402
from wurstlinen.lines.scene import parse_scene  # noqa: E402

DEVICE = Uid(0x1234, 1)
LABEL, OTHER = Pid.DEVICE_LABEL, Pid.MANUFACTURER_LABEL
MOST_PARTS = 6
LEAST_CLIENTS, MOST_CLIENTS = 2, 16
# One reply in so many is lost. 0: only the first loss, which is at each part in turn.
RATES = (0, 50, 10, 3)
PLACES = 40
MOST_REQUESTS = 30


@dataclass
class Exchanges:
    """The exchanges of one request: which part it began with, and whether its last reply was lost."""

    pid: int
    begin: int
    is_lost: bool = False
    part: int = 0
    is_over: bool = False


class Lossy:
    """A line to a rig with one device, on which replies are lost. `between` may submit more before each exchange."""

    def __init__(self, rig: Rig, parts: List[bytes], chance: random.Random, rate: int, first_loss: int) -> None:
        self._rig = rig
        self._parts = parts
        self._chance = chance
        self._rate = rate
        self._first_loss = first_loss
        self.between: Callable[[], None] = lambda: None
        # One after another, as requests are sent in the order in which they were accepted.
        self.requests: List[Exchanges] = []

    def exchange(self, frame: bytes) -> bytes:
        """The device's reply, or nothing."""
        self.between()
        reply = self._rig.exchange(frame)
        packet = decode_packet(reply)
        assert packet is not None
        part = self._parts.index(packet.data) if packet.pid == LABEL else 0
        if not self.requests or self.requests[-1].is_over:
            self.requests.append(Exchanges(packet.pid, part))
        request = self.requests[-1]
        request.part = part
        request.is_lost = self._loses(packet.pid, part)
        request.is_over = request.is_lost or packet.port_or_type != ResponseType.ACK_OVERFLOW
        return b"" if request.is_lost else reply

    def _loses(self, pid: int, part: int) -> bool:
        """Whether the reply is lost."""
        if pid == LABEL and part == self._first_loss:
            self._first_loss = -1
            return True
        return self._rate > 0 and self._chance.randrange(self._rate) == 0


class Trial:
    """One run: some clients collect their answers as they are, the others ask."""

    def __init__(self, seed: int) -> None:
        self._chance = random.Random(seed)
        clients = LEAST_CLIENTS + seed % (MOST_CLIENTS - LEAST_CLIENTS + 1)
        count = self._chance.randint(2, MOST_PARTS)
        size = self._chance.randint(1, 5)
        self.parts = [bytes([65 + index]) * size for index in range(count)]
        self.whole = b"".join(self.parts)
        # Such a device goes on where it stopped only if the next command is the same one.
        self.begins_again = self._chance.randrange(2) == 0
        self.rate = self._chance.choice(RATES)
        self.line = Lossy(Rig(self._scene(size)), self.parts, self._chance, self.rate, seed // 15 % count)
        self.line.between = self._submit_more
        self._queue: Union[Controller, Session] = (
            Controller("7a70:00000100") if seed % 2 else Session("7a70:00000100", without_log=True))
        self._plain = [self._queue.join(PLACES) for _ in range(clients - clients // 2)]
        self._askers = [Asker(self._queue.join(1), self.line) for _ in range(clients // 2)]
        self._submitted = 0
        self.asked = 0
        self.plain: Dict[int, Completion] = {}
        self.answers: List[Optional[Completion]] = []

    def _scene(self, size: int) -> Any:
        device: Dict[str, Any] = {"uid": "1234:00000001", "rig": {"part": size, "label": self.whole.decode()}}
        if not self.begins_again:
            device["params"] = [{"pid": "0082", "parts": [part.hex() for part in self.parts]}]
            device["rig"] = {"part": 32}
        return parse_scene({"source": "7a70:00000100", "devices": [device]})

    def _submit_more(self) -> None:
        """Now and then a client asks for the same, or for something else."""
        if self._chance.randrange(4) == 0 and self._submitted < MOST_REQUESTS:
            self._submit(self._chance.choice(self._plain), OTHER if self._chance.randrange(5) == 0 else LABEL)

    def _submit(self, client: Client, pid: int) -> None:
        try:
            client.get(DEVICE, pid)
            self._submitted += 1
        except Full:
            pass

    def run(self) -> None:
        """Makes all of it."""
        with self._queue:
            for client in self._plain[:self._chance.randint(0, len(self._plain))]:
                self._submit(client, LABEL)
            for asker in self._askers:
                self.asked += 1
                self.answers.append(self._asked(asker))
                self._collect()
            self._queue.run(self.line)
            self._collect()

    @staticmethod
    def _asked(asker: Asker) -> Optional[Completion]:
        try:
            return asker.get(DEVICE, LABEL).completion
        except Incomplete:
            return None

    def _collect(self) -> None:
        for client in self._plain:
            done = client.next_completion()
            while done is not None:
                self.plain[done.number] = done
                done = client.next_completion()

    @property
    def added(self) -> int:
        """How many GETs the askers have made besides the first."""
        return len(self.line.requests) - self._submitted - self.asked


class Counts:
    """What came of runs, and whether it had to."""

    def __init__(self) -> None:
        self.passed = self.failed = 0
        self.kinds: Dict[int, Counter[str]] = {rate: Counter() for rate in RATES}

    def check(self, holds: bool, text: str) -> None:
        """Counts something that has to hold."""
        self.passed += holds
        self.failed += not holds
        if not holds:
            print(text)

    def add(self, seed: int, trial: Trial) -> None:
        """Compares a run's answers with what the rig has sent."""
        kinds = self.kinds[trial.rate]
        for number, (request, flag, cause) in enumerate(flagged(trial)):
            done = trial.plain.get(number)
            if done is not None:
                self.check(is_right(done, request, flag, trial), f"run {seed}: {done} for {request}, flag {flag}")
                kinds.update([kind_of(request, flag, cause)] if request.pid == LABEL else [])
        for answer in trial.answers:
            is_whole = answer is not None and answer.status == Status.COMPLETED
            kinds["asks"] += 1
            kinds["asks: whole" if is_whole else "asks: none" if answer is None else "asks: broke off"] += 1
            self.check(answer is None or is_given(answer, trial), f"run {seed}: ask gives {answer}")
        kinds["asks: GETs added"] += trial.added


def flagged(trial: Trial) -> List[Tuple[Exchanges, bool, str]]:
    """The requests, whether each answer may lack its first parts, and why it doesn't if it is whole all the same."""
    broken: Dict[int, Tuple[int, int]] = {}
    found = []
    for number, request in enumerate(trial.line.requests):
        at, part = broken.get(request.pid, (-1, -1))
        is_open = request.pid in broken
        cause = "last part lost" if part == len(trial.parts) - 1 else ""
        if trial.begins_again and at != number - 1:
            cause = cause or "asked something else"
        found.append((request, is_open and not request.is_lost, cause))
        if request.is_lost:
            broken[request.pid] = (number, request.part)
        else:
            broken.pop(request.pid, None)
    return found


def is_right(done: Completion, request: Exchanges, flag: bool, trial: Trial) -> bool:
    """Whether an answer is what was sent, with its flag."""
    if request.is_lost:
        return done.status == Status.TIMEOUT and not done.may_be_incomplete
    data = b"".join(trial.parts[request.begin:]) if request.pid == LABEL else done.data
    is_whole_or_flagged = request.begin == 0 or done.may_be_incomplete
    return is_whole_or_flagged and done.data == data and done.may_be_incomplete == flag


def is_given(answer: Completion, trial: Trial) -> bool:
    """Whether an asker may give this: all parts, or that the GET has no answer."""
    if answer.status == Status.TIMEOUT:
        return trial.line.requests[answer.number].is_lost
    return (answer.head is not None and answer.head.ack == AckType.ACK and answer.data == trial.whole
            and not answer.may_be_incomplete)


def kind_of(request: Exchanges, flag: bool, cause: str) -> str:
    """What a plain answer counts as. A flag without need has a cause that is named."""
    if request.is_lost:
        return "broke off"
    if not flag:
        return "whole"
    if request.begin > 0:
        return "flagged: a rest"
    return f"flagged, but whole: {cause or 'UNNAMED'}"


def main() -> int:
    """Makes the runs, and prints what came of them."""
    parser = argparse.ArgumentParser(description=__doc__.split("\n", maxsplit=1)[0])
    parser.add_argument("runs", type=int)
    parser.add_argument("first", type=int, nargs="?", default=0)
    arguments = parser.parse_args()
    counts = Counts()
    for seed in range(arguments.first, arguments.first + arguments.runs):
        trial = Trial(seed)
        trial.run()
        counts.add(seed, trial)
    for rate, kinds in counts.kinds.items():
        counts.check(not any("UNNAMED" in kind for kind in kinds), f"flags without a cause at {rate}")
        print(f"one reply in {rate} lost" if rate else "one part lost")
        for kind, count in sorted(kinds.items()):
            print(f"  {kind}: {count}")
    print(f"{counts.passed} passed, {counts.failed} failed")
    return 1 if counts.failed else 0


if __name__ == "__main__":
    sys.exit(main())
