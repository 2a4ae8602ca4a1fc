"""What the simulated devices of a scene send, as a log has it, and how a session's requests end there.

The bytes follow E1.20's packet format and docs/FORMATS.md.
"""
from __future__ import annotations

import json
import re
from dataclasses import dataclass
from typing import Any, Dict, Iterator, Sequence, Tuple

from ..checker.case import FILE_NAME, LOG_NAME, Case, Expected, File, arguments_of
from .answers import GET, MOST_PARTS, SET, Call, results
from .commands import BOTH, DISCOVER, file_case
from .runs import SOURCE, discovery, uid_text

DISCOVERED = arguments_of("discover", FILE_NAME, "--log", LOG_NAME)
NEAR, FAR, NEXT = "1234:00000001", "9abc:00000002", "1234:00000005"
PARTS = [{"pid": "0060", "parts": ["0102", "03"]}]
SPELT, NOISE = {"uid": "7a70:00000001"}, {"bytes": "ff"}
# The replies of 1234:00000001 and 9abc:00000002 laid over one another, and those of the first with a preamble byte and
# of 1234:00000005; the reply of 7a70:00000001, and the same after seven preamble bytes.
OVER = "aabadfbefdaa55aa55aa55ab57af57fb57"
LONGER = "febaffffffffffffffffffffffffffffff55"
TEXT = "aafa7ffa75aa55aa55aa55ab55ae57eff5"
WITH_PREAMBLE = "fe" * 7 + TEXT
# A single request, and the first bytes that come after it: a part, an acknowledgement and refusals, which repeat the
# sub-device.
IN_512, OTHER = {"sub": 512}, {"pid": "0070"}
FIRST_REPLIES: Sequence[Tuple[Call, str]] = (
    ({**GET, **IN_512}, "cc011a7a7000000100123400000001000300020021006002010202a4"),
    (SET, "cc01187a700000010012340000000100000000003100600002a8"),
    ({**GET, **OTHER}, "cc011a7a7000000100123400000001000200000021007002000002ae"),
    ({**SET, **OTHER}, "cc011a7a7000000100123400000001000200000031007002000002be"),
    ({**SET, **OTHER, **IN_512}, "cc011a7a7000000100123400000001000200020031007002000002c0"),
)


@dataclass(frozen=True)
class Logs:
    """Whether the exchanges of a discovery's log, after its opening, are these lines."""

    lines: str

    def __call__(self, log: bytes) -> bool:
        return log.partition(b"\n")[2] == self.lines.encode()

    @property
    def __name__(self) -> str:
        return f"a log with the exchanges {self.lines}"


class Came(Logs):
    """Whether this is the first line of a session's log that says what came."""

    def __call__(self, log: bytes) -> bool:
        return re.findall(rb'.*"entry":"came".*\n', log)[:1] == [self.lines.encode()]


def scene(devices: Sequence[Dict[str, Any]], **keys: Any) -> Dict[str, Any]:
    """A scene with these devices and keys."""
    return {"source": uid_text(SOURCE), "devices": devices, **keys}


def device(uid: str, **keys: Any) -> Dict[str, Any]:
    """A device without preamble bytes."""
    return {"uid": uid, "preamble": 0, **keys}


def logged(name: str, run: str, devices: Sequence[Dict[str, Any]], **keys: Any) -> Case:
    """A discovery makes exactly these exchanges before its budget is used up."""
    lines = discovery(run)
    file = File(json.dumps(scene(devices, budget=lines.count("\n"), **keys)).encode())
    return Case(name, (DISCOVERED,), Expected(1, log_form=Logs(lines)), (file,))


def asked(name: str, answers: Sequence[Tuple[Call, str]], scene_of: Dict[str, Any]) -> Case:
    """A client makes these calls, one after the other, with these outcomes."""
    text = session_text(scene_of, [call for call, _ in answers])
    return file_case(name, BOTH, text, results([outcome for _, outcome in answers]))


def replied(call: Call, reply: str, scene_of: Dict[str, Any]) -> Case:
    """The first reply to a call, as the log of either port has it."""
    commands = tuple((*command, *arguments_of("--log", LOG_NAME)) for command in BOTH)
    expected = Expected(log_form=Came(f'{{"entry":"came","reply":"{reply}"}}\n'))
    return file_case(f"the first reply to {call}", commands, session_text(scene_of, [call]), expected)


def session_text(scene_of: Dict[str, Any], calls: Sequence[Call]) -> str:
    """The file of a session in which a client makes these calls."""
    return json.dumps({"scene": scene_of, "clients": [{"places": 1, "calls": calls}]})


def cases() -> Iterator[Case]:
    """All scenes."""
    both, longer = [device(NEAR), device(FAR)], [device(NEAR, preamble=1), device(NEXT)]
    for name, keys in (("no collisions", {}), ("or", {"collisions": ["or"]})):
        for time, run, lost in (("once", "3 unmute; all > x", []), ("again", "3 unmute; all; all > x", [3])):
            yield logged(f"two replies, {name}, {time}", run + OVER, both, losses=lost, **keys)
            yield logged(f"two replies, one of them with a preamble byte, {name}, {time}", run + LONGER, longer,
                         losses=lost, **keys)
    yield logged("one reply", f"3 unmute; all > x{TEXT}", [device("7a70:00000001")])
    yield logged("collisions in order, the last of which stays", f"3 unmute; 2 all; all > x{WITH_PREAMBLE}", both,
                 collisions=[NOISE, SPELT], losses=[3, 4])
    yield logged("a lost branch takes a collision", "3 unmute; all; all > xff", both, collisions=[SPELT, NOISE],
                 losses=[3])
    yield from requests()
    yield from largest()


def requests() -> Iterator[Case]:
    """Requests of a device with a parameter in two parts."""
    one = [device(NEAR, params=PARTS)]
    yield from (replied(call, reply, scene(one)) for call, reply in FIRST_REPLIES)
    whole, acknowledged, unknown, silence = "0 00 010203", "0 00 -", "0 02 0000", "3"
    calls = (({**GET, **IN_512}, whole), (SET, acknowledged), (GET, whole), ({**SET, **OTHER}, unknown),
             ({**SET, **OTHER, **IN_512}, unknown), ({**GET, **OTHER}, unknown), (GET, whole))
    yield asked("parts, sub-devices and unknown parameters", calls, scene(one))
    calls = (({**GET, **IN_512}, silence), (SET, acknowledged), (GET, "0 00 03"), (GET, whole))
    name = "a lost part isn't sent again, whatever the sub-device, and a SET changes no part"
    yield asked(name, calls, scene(one, losses=[0]))
    yield asked("a part that fails is sent again", ((GET, "2"), (GET, whole)), scene(one, fails=[0]))
    lost = (({**GET, **OTHER}, unknown), (GET, silence), (GET, silence), (GET, "2"), ({**GET, **OTHER}, unknown))
    yield asked("losses and a failure", lost, scene([device(NEAR)], losses=[2, 1], fails=[3]))
    placed = [device(NEAR, **{"from": 1, "until": 2})]
    yield asked("a device that comes and leaves", ((GET, silence), (GET, unknown), (GET, silence)), scene(placed))
    targets = ((FAR, silence), ("ffff:ffffffff", "1"), ("1234:ffffffff", "1"))
    # The GET after each would have only the second part if the device had sent the first one.
    for_others = [call for uid, outcome in targets for kind in ("get", "set")
                  for call in (({kind: uid, "pid": "0060"}, outcome), (GET, whole))]
    yield asked("requests for others", for_others, scene(one))


def largest() -> Iterator[Case]:
    """As many parts and devices as there may be, the devices as late as they may come, and long lists."""
    parts = [f"{at % 256:02x}" for at in range(MOST_PARTS)]
    one = [device(NEAR, params=[{"pid": "0060", "parts": parts}])]
    yield asked("a parameter in 512 parts", ((GET, f"0 00 {''.join(parts)}"),), scene(one))
    devices = [{"uid": f"1234:{at:08x}", "from": 1_000_000_000} for at in range(1024)]
    many = scene(devices, losses=list(range(1999, -1, -1)), fails=list(range(4000, 2000, -1)))
    yield file_case("1,024 devices that come late", (DISCOVER,), json.dumps(many), "frames 8\n")
