"""Replies to requests on a line as text: which fault each has, how parts are joined, and what lines mean.

The packets follow E1.20's packet format. Statuses are those of docs/FORMATS.md.
"""
from __future__ import annotations

import json
from dataclasses import dataclass, replace
from enum import IntEnum
from typing import Any, Dict, Iterator, Sequence, Tuple

from ..checker.case import FILE_NAME, Case, Expected, FarEnd, File, Streams, arguments_of
from .runs import PORT, SOURCE, CommandClass, Packet, ResponseType, uid_text

DEVICE = 0x123400000001
ALL_SUB_DEVICES = 0xFFFF
TEXT_NAME = "text"
MOST_DATA, MOST_JOINED, MOST_PARTS = 231, 65_535, 512
LINE = ("run", FILE_NAME, "--line", "out", "--replies")
FAILED = b"failed"
Call = Dict[str, Any]

GET: Call = {"get": uid_text(DEVICE), "pid": "0060"}
SET: Call = {"set": uid_text(DEVICE), "pid": "0060"}
ALL: Call = {**GET, "sub": ALL_SUB_DEVICES}
QUEUED: Call = {**GET, "pid": "0020"}
BROADCAST: Call = {**GET, "get": "ffff:ffffffff"}

# The first of two parts of an answer to GET, cc011a7a7000000100123400000001000300000021006002010202a2.
PART = Packet(SOURCE, DEVICE, 0, ResponseType.ACK_OVERFLOW, 0, 0, CommandClass.GET_RESPONSE, 0x0060, b"\1\2")
# What is joined of it and of the second one.
JOINED = "0 00 01020102"


class Offset(IntEnum):
    """Where some of the bytes of a packet are."""

    START_CODE = 0
    SUB_START_CODE = 1
    LENGTH = 2
    DESTINATION_LOW = 8
    SOURCE_LOW = 14
    NUMBER = 15
    TYPE = 16
    SUB_DEVICE_LOW = 19
    CLASS = 20
    PID_LOW = 22
    DATA_LENGTH = 23


Changes = Dict[Offset, int]
TO_SET: Changes = {Offset.CLASS: CommandClass.SET_RESPONSE}
WHOLE: Changes = {Offset.TYPE: ResponseType.ACK}
# A name, a request, the bytes of the part that are changed, with the right sum, and the outcome.
JUDGED: Sequence[Tuple[str, Call, Changes, str]] = (
    ("two parts", GET, {}, JOINED),
    ("a whole answer", GET, WHOLE, "0 00 0102"),
    ("an unknown response type", GET, {Offset.TYPE: 4}, "12"),
    ("a data length that is too small", GET, {Offset.DATA_LENGTH: 1}, "9"),
    ("the class of a command", GET, {Offset.CLASS: CommandClass.DISCOVERY}, "11"),
    ("another transaction number", GET, {Offset.NUMBER: 1}, "13"),
    ("another sub-device", GET, {Offset.SUB_DEVICE_LOW: 1}, "14"),
    ("another source", GET, {Offset.SOURCE_LOW: 2}, "15"),
    ("another destination", GET, {Offset.DESTINATION_LOW: 1}, "16"),
    ("the class of a SET's response to a GET", GET, TO_SET, "17"),
    ("another PID", GET, {Offset.PID_LOW: 0x61}, "4"),
    ("another source and another class", GET, {Offset.SOURCE_LOW: 2, **TO_SET}, "15"),
    ("the class of a command, and an unknown response type", GET,
     {Offset.CLASS: CommandClass.DISCOVERY, Offset.TYPE: 4}, "11"),
    ("another start code", GET, {Offset.START_CODE: 0xCD}, "6"),
    ("another sub-start code", GET, {Offset.SUB_START_CODE: 2}, "7"),
    ("another start code and another sub-start code", GET, {Offset.START_CODE: 0xCD, Offset.SUB_START_CODE: 2}, "6"),
    ("a length below the least", GET, {Offset.LENGTH: 23}, "8"),
    ("a length beyond the last byte", GET, {Offset.LENGTH: 255}, "8"),
    ("the class of a discovery's response", GET, {Offset.CLASS: CommandClass.DISCOVERY_RESPONSE, **WHOLE}, "17"),
    ("one sub-device of all", ALL, {Offset.SUB_DEVICE_LOW: 1}, JOINED),
    ("a queued message of another sub-device", QUEUED, {Offset.SUB_DEVICE_LOW: 1}, JOINED),
    ("a queued message with another PID", QUEUED, {}, JOINED),
    ("a queued message of a SET", QUEUED, {**TO_SET, **WHOLE}, "0 00 0102"),
    ("a part of a queued message of a SET", QUEUED, TO_SET, "4"),
    ("a whole answer to a SET", SET, {**TO_SET, **WHOLE}, "0 00 0102"),
    ("a part of an answer to a SET", SET, TO_SET, "4"),
    ("the class of a GET's response to a SET", SET, {}, "17"),
    ("the class of a GET's response to a SET of QUEUED_MESSAGE", {**SET, "pid": "0020"}, {}, "17"),
)
# What is joined of an answer whose data are two zeros, or as many as fit.
ZEROS, LONGEST = "0 00 0000", "0 00 " + "00" * MOST_DATA
# A name, a request, all bytes that come or a failure, and the outcome.
BYTES: Sequence[Tuple[str, Call, bytes, str]] = (
    ("no bytes", GET, b"", "3"),
    ("a byte", GET, b"\xcc", "5"),
    ("25 bytes of a part", GET, PART.encode()[:25], "5"),
    ("26 bytes of a part", GET, PART.encode()[:26], "8"),
    ("all bytes of a part except the last", GET, PART.encode()[:27], "8"),
    ("a wrong sum", GET, PART.encode()[:-1] + b"\xa3", "10"),
    ("a whole answer and a byte", GET, PART._replace(port_or_type=0).encode() + b"\xff", "0 00 0102"),
    ("the longest answer", GET,
     bytes.fromhex("cc01ff7a70000001001234000000010000000000210060e7") + bytes(MOST_DATA) + b"\4\x66", LONGEST),
    ("a data length that is too large", GET,
     bytes.fromhex("cc01ff7a70000001001234000000010000000000210060e8") + bytes(MOST_DATA) + b"\4\x67", "9"),
    ("a failure", GET, FAILED, "2"),
    ("no bytes after a broadcast", BROADCAST, b"", "1"),
    ("a byte after a broadcast", BROADCAST, b"\xcc", "1"),
    ("a failure after a broadcast", BROADCAST, FAILED, "2"),
)
# A name, a request, and a whole answer that doesn't go on with the part before it.
OTHERS: Sequence[Tuple[str, Call, Dict[str, int]]] = (
    ("a refusal", GET, {"port_or_type": ResponseType.NACK_REASON}),
    ("another PID", QUEUED, {"pid": 0x0061}),
    ("another sub-device", QUEUED, {"sub_device": 1}),
    ("another class", QUEUED, {"command_class": CommandClass.SET_RESPONSE}),
)
# How many bytes are joined: of parts with 231 bytes, and of the rest in a whole answer.
LENGTHS = (0, 1, 231, 233, 464, 4096, MOST_JOINED)


@dataclass(frozen=True)
class Heard:
    """The frames and replies of one request: the data of each reply, and how it came to an end."""

    call: Call
    replies: Tuple[bytes, ...]
    outcome: str


def changed(packet: Packet, changes: Changes) -> bytes:
    """The packet's bytes with these changed, and the sum of them."""
    data = bytearray(packet.encode()[:-2])
    for at, byte in changes.items():
        data[at] = byte
    return bytes(data) + (sum(data) % 0x10000).to_bytes(2, "big")


def parts(lengths: Sequence[int], number: int = 0, last: int = ResponseType.ACK) -> Tuple[bytes, ...]:
    """Parts of these lengths, the last one with the type `last`. Each byte is the low one of its part's index."""
    types = [ResponseType.ACK_OVERFLOW] * (len(lengths) - 1) + [last]
    return tuple(
        PART._replace(transaction=(number + at) % 256, port_or_type=kind, data=bytes([at % 256]) * length).encode()
        for at, (length, kind) in enumerate(zip(lengths, types))
    )


def joined(lengths: Sequence[int]) -> str:
    """The outcome of these parts."""
    return "0 00 " + ("".join(f"{at % 256:02x}" * length for at, length in enumerate(lengths)) or "-")


def session(calls: Sequence[Call]) -> str:
    """The file of a session in which a client makes these calls, one after the other."""
    return json.dumps({"source": uid_text(SOURCE), "clients": [{"places": 1, "calls": calls}]})


def results(outcomes: Sequence[str]) -> Expected:
    """A line for each outcome. Standard error may report progress if the machine is busy."""
    out = "".join(f"client 0 request {number}: {it}\n" for number, it in enumerate(outcomes))
    return Expected(out=out.encode())


def heard(name: str, *exchanged: Heard) -> Case:
    """Requests, one after the other. A reply is given as its bytes, or as a failure."""
    replies = [it if it == FAILED else it.hex().encode() for one in exchanged for it in one.replies]
    return Case(
        name=name,
        commands=(arguments_of(*LINE, "replies"),),
        expected=results([one.outcome for one in exchanged]),
        files=(File(session([one.call for one in exchanged]).encode()),),
        far_end=FarEnd(Streams.FILES, tuple(replies)),
    )


def text(name: str, lines: Sequence[Tuple[str, str]]) -> Case:
    """GETs over a file with these lines, each with the outcome that it has."""
    written = "".join(line for line, _ in lines)
    files = (File(session([GET] * len(lines)).encode()), File(written.encode(), TEXT_NAME))
    expected = results([outcome for _, outcome in lines])
    return Case(name, (arguments_of(*LINE, TEXT_NAME),), expected, files, far_end=FarEnd(Streams.FILES))


def cases() -> Iterator[Case]:
    """All replies."""
    yield from judged()
    yield from in_parts()
    yield from frames()
    yield from lines_of_text()


def judged() -> Iterator[Case]:
    """Single replies. A part is followed by a second one."""
    last = {Offset.NUMBER: 1, **WHOLE}
    for name, call, changes, outcome in JUDGED:
        replies = [changed(PART, changes)] + [changed(PART, {**changes, **last})] * (outcome == JOINED)
        yield heard(name, Heard(call, tuple(replies), outcome))
    for name, call, reply, outcome in BYTES:
        yield heard(name, Heard(call, (reply,), outcome))
    refused = bytes.fromhex("cc011a7a7000000100123400000001070209123431abcd0200060422")
    silent = [Heard(GET, (b"",), "3")] * 7
    call = {**SET, "pid": "abcd", "sub": 0x1234}
    yield heard("a refusal with a message count", *silent, Heard(call, (refused,), "0 02 0006"))


def in_parts() -> Iterator[Case]:
    """Answers in parts: their data in order, as many as fit, and parts that don't belong together."""
    for length in LENGTHS:
        lengths = [MOST_DATA] * (length // MOST_DATA) + [length % MOST_DATA] * (length % MOST_DATA > 0 or not length)
        yield heard(f"{length} bytes in parts", Heard(GET, parts(lengths), joined(lengths)))
    lengths = [MOST_DATA] * 283 + [163]
    yield heard("a byte too many", Heard(GET, parts(lengths), "4"))
    empty = [0] * MOST_PARTS
    yield heard("as many parts as an answer has", Heard(GET, parts(empty), joined(empty)))
    yield heard("a part too many", Heard(GET, parts(empty, last=ResponseType.ACK_OVERFLOW), "4"))
    begun, other = PART.encode(), PART._replace(transaction=1, port_or_type=ResponseType.ACK)
    for name, call, fields in OTHERS:
        yield heard(f"{name} after a part", Heard(call, (begun, other._replace(**fields).encode()), "4"))
    nack = PART._replace(port_or_type=ResponseType.NACK_REASON, transaction=2, data=b"\0\6").encode()
    yield heard(
        "an answer after one that was cut off, and after a whole one",
        Heard(GET, (begun, b""), "3"),
        Heard(GET, (nack,), "0 02 0006"),
        Heard(GET, parts([2, 1], number=3), joined([2, 1])),
        Heard(GET, parts([1], number=5), joined([1])),
    )


def frames() -> Iterator[Case]:
    """The frames of requests, the longest and a broadcast among them. Their numbers begin again after 255."""
    calls = [GET] * 255 + [{"set": "ffff:ffffffff", "pid": "1000", "sub": ALL_SUB_DEVICES, "param": "01"}, GET]
    one = heard("the frames of 257 requests", *(Heard(it, (b"",), "1" if "param" in it else "3") for it in calls))
    get = Packet(DEVICE, SOURCE, 0, PORT, 0, 0, CommandClass.GET, 0x0060)
    sent = [get._replace(transaction=number % 256).encode().hex() for number in range(len(calls))]
    sent[255] = "cc0119ffffffffffff7a7000000100ff0100ffff30100001010b0b"
    yield sends(one, sent)
    longest = heard("the longest frame", Heard({**SET, "param": "00" * MOST_DATA}, (b"",), "3"))
    yield sends(longest, ["cc01ff1234000000017a70000001000001000000300060e7" + "00" * MOST_DATA + "0476"])


def sends(case: Case, sent: Sequence[str]) -> Case:
    """The case, whose frames have to be these."""
    return replace(case, expected=replace(case.expected, sent=tuple(it.encode() for it in sent)))


def lines_of_text() -> Iterator[Case]:
    """What a line of text means, and where it ends. A line is too long for a reply from 516 digits."""
    lines = (
        ("\n", "3"), ("\r\n", "3"), (f"{whole(2).upper()}\n", ZEROS), (f"{whole(3)}\r\n", ZEROS), ("FE01\n", "5"),
        ("f\n", "2"), ("f\r\n", "2"), ("failed\n", "2"), ("failed\r\n", "2"), ("0g\n", "2"), (" 01\n", "2"),
        ("01\r\r\n", "2"), ("01\n", "5"), ("02", "2"), ("", "2"),
    )
    yield text("lines", lines)
    longest = (
        (f"{whole(0, MOST_DATA)}\n", LONGEST), (f"{whole(1, MOST_DATA)}\r\n", LONGEST), (f"{'a' * 516}\n", "2"),
        (f"{'a' * 2000}\r\n", "2"), ("aa\n", "5"), ("", "2"),
    )
    yield text("lines of the greatest length, and longer ones", longest)
    yield text("a line that is too long and has no end", (("aa\n", "5"), ("a" * 600, "2"), ("", "2")))


def whole(number: int, length: int = 2) -> str:
    """The digits of an answer with this number, whose data are so many zeros."""
    return parts([length], number)[0].hex()
