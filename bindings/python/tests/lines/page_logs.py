"""Logs for tests of pages: of discoveries of rigs, of a session with a few clients, and long ones."""
from __future__ import annotations

import json
import random
from dataclasses import dataclass
from typing import Any, Dict, Iterator, List, Optional, Sequence, Tuple

import common  # noqa: F401  (it makes the package known)
from search import Controller, Corrupt
from wurstlinen.front.page_frames import Came, answer_to, command_in
from wurstlinen.lines import Rig
from wurstlinen.lines.numbers import ResponseType
from wurstlinen.lines.packets import Packet, decode_packet, encode_branch_reply
from wurstlinen.lines.uids import ALL_DEVICES
from wurstlinen.lines.scene import Scene

SOURCE = 0x7A7000000100
DISCOVERY_OPENING = ('{"entry":"opening","source":"7a70:00000100","budget":384008,"search":"steady",'
                     '"discover":"full","known":[]}\n')
SESSION_OPENING = ('{"entry":"opening","source":"7a70:00000100","budget":384008,"search":"steady","greatest":9,'
                   '"places":[3],"paused":false,"closed":false,"devices":[],"devices_run":0,"next_request":0,'
                   '"next_ask":0,"next_run":1,"next_tn":0,"number":0}\n')
OPERATIONS = {1: "branch", 2: "mute", 3: "unmute"}
# One that is no packet, since these tests don't care.
FRAME = "cc"
# The first finding about a run.
HEAD = {"judgement": "undecided", "sentence": "discovery: x"}


def exchange_line(number: int, operation: str, frame: bytes, reply: Optional[bytes]) -> str:
    """A line of a discovery's log. No reply is a line that failed."""
    end = '"failed":true' if reply is None else f'"reply":"{reply.hex()}"'
    return f'{{"number":{number},"operation":"{operation}","frame":"{frame.hex()}",{end}}}\n'


class LoggedLine:
    """A line that writes a discovery's log."""

    def __init__(self, line: Rig) -> None:
        self.lines = [DISCOVERY_OPENING]
        self._line = line

    def exchange(self, frame: bytes) -> bytes:
        reply = self._line.exchange(frame)
        packet = decode_packet(frame)
        assert packet is not None
        self.lines.append(exchange_line(len(self.lines) - 1, OPERATIONS[packet.pid], frame, reply))
        return reply


def discovered(made: Scene) -> str:
    """The log of a discovery of a rig."""
    line = LoggedLine(Rig(made))
    try:
        Controller(line).discover()
    except Corrupt:
        pass
    return "".join(line.lines)


def found_in(log: str, *counts: int, findings: Sequence[Dict[str, Any]] = (), **members: Any) -> bytes:
    """What the program prints as JSON of a log, whose runs have so many exchanges: one has all, unless they are said.

    The last run has these findings and members.
    """
    made = list(exchanges_in(log))
    runs: List[Dict[str, Any]] = []
    place = 0
    for number, count in enumerate(counts or ([len(made)] if made else []), 1):
        first, _ = made[place]
        heard = "".join(letter for _, letter in made[place:place + count])
        place += count
        beginning = {"first": 0, "run": number} if first is None else {"first": first}
        runs.append({"exchanges": count, **beginning, "devices": 0, "heard": heard, "findings": [HEAD]})
    if runs:
        runs[-1] = {**runs[-1], **members, "findings": [HEAD, *findings]}
    return document(runs)


def exchanges_in(log: str) -> Iterator[Tuple[Optional[int], str]]:
    """The number of each exchange of a run, if it has one, and a letter for what it heard."""
    frame: Optional[str] = None
    for line in log.splitlines():
        entry = json.loads(line)
        if "operation" in entry:
            yield entry["number"], heard_in(entry["frame"], entry)
        elif entry["entry"] == "send":
            frame = entry["frame"] if "run" in entry else None
        elif entry["entry"] == "came" and frame is not None:
            yield None, heard_in(frame, entry)
            frame = None


def heard_in(frame: str, entry: Dict[str, Any]) -> str:
    """A letter for what came after a frame."""
    reply = None if "failed" in entry else bytes.fromhex(entry["reply"])
    came = answer_to(command_in(bytes.fromhex(frame)), bytes.fromhex(frame), reply).came
    return {Came.SILENCE: "s", Came.ONE: "o", Came.ACKNOWLEDGED: "a", Came.FAILED: "f"}.get(came, "n")


def finding(judgement: str, sentence: str, **about: Any) -> Dict[str, Any]:
    """A finding, as the program prints it."""
    return {"judgement": judgement, "sentence": sentence, **about}


def document(runs: Sequence[Dict[str, Any]], **members: Any) -> bytes:
    """What the program prints as JSON of these runs."""
    return (json.dumps({"passing": [], "runs": list(runs), "broken": False, **members}) + "\n").encode()


def session_of(entries: Sequence[str]) -> str:
    """The log of a session with these entries after its opening."""
    return SESSION_OPENING + "".join(f"{entry}\n" for entry in entries)


def sent(owner: str, number: int, end: str = '"reply":""') -> List[str]:
    """The two entries of an exchange."""
    return [f'{{"entry":"send","{owner}":{number},"frame":"{FRAME}"}}', f'{{"entry":"came",{end}}}']


def called(entry: str, client: int, number: int) -> str:
    """A request or a discovery that a client asked for."""
    call = '"discover":"full"' if entry == "ask" else '"get":"1234:00000001","pid":"0060","sub":0,"param":""'
    return f'{{"entry":"{entry}","client":{client},"number":{number},{call}}}'


@dataclass(frozen=True)
class Session:
    """A session, and what is drawn of it."""

    entries: List[str]
    names: List[str]
    served: List[int]
    waiting: List[int]
    runs: List[Dict[str, Any]]


# A run for the clients 0 and 2, between requests of client 1, which then asks for a run, too.
FEW_CLIENTS = Session(
    entries=[
        '{"entry":"join","client":1,"places":3}', '{"entry":"join","client":2,"places":3}',
        '{"entry":"refuse","places":9,"cause":3}', called("accept", 1, 0), called("ask", 0, 0), called("ask", 2, 1),
        *sent("request", 0), '{"entry":"finish","number":0,"status":3,"length":0}', '{"entry":"collect","client":1}',
        *sent("run", 1), called("accept", 1, 1), called("ask", 1, 2), '{"entry":"pause"}', '{"entry":"resume"}',
        *sent("request", 1), '{"entry":"finish","number":1,"status":3,"length":0}', *sent("run", 1),
        '{"entry":"answer","number":0,"run":1}', '{"entry":"answer","number":1,"run":1}',
        *sent("run", 2, '"failed":true'), '{"entry":"answer","number":2,"run":2,"fault":4}', *sent("request", 9),
        '{"entry":"close"}'],
    names=["request 0, for client 1", "run 1, exchange 0, for clients 0, 2", "request 1, for client 1",
           "run 1, exchange 1, for clients 0, 2", "run 2, exchange 0, for client 1", "request 9"],
    served=[0b010, 0b101, 0b010, 0b101, 0b010, 0], waiting=[0b111, 0b101, 0b111, 0b111, 0b010, 0],
    runs=[{"name": "run 1", "first": 1, "count": 2}, {"name": "run 2", "first": 4, "count": 1}])


def long_log(count: int, seed: int = 1) -> Iterator[str]:
    """The lines of a log with this many exchanges, four fifths of them branches of random ranges."""
    chance = random.Random(seed)
    yield DISCOVERY_OPENING
    for number in range(count):
        if chance.random() < 0.8:
            bits = chance.randint(0, 47)
            low = chance.getrandbits(48) >> bits << bits
            data = low.to_bytes(6, "big") + (low | (1 << bits) - 1).to_bytes(6, "big")
            command = Packet(ALL_DEVICES, SOURCE, number % 256, 1, 0, 0, 0x10, 1, data)
            reply = chance.choice((b"", b"", b"", encode_branch_reply(low), chance.randbytes(24)))
            yield exchange_line(number, "branch", command.encode(), reply)
        else:
            command = Packet(0x123400000000 + chance.randint(1, 1000), SOURCE, number % 256, 1, 0, 0, 0x10, 2)
            reply = command.answer(command.destination, ResponseType.ACK, b"\0\0").encode()
            yield exchange_line(number, "mute", command.encode(), reply)
