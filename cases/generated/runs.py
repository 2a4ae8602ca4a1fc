"""Logs of runs in a short notation, and what explain has to print of a log.

A run is a text such as "3 unmute; all > liar; mute liar > ack; 5 all": three unmutes, a branch of all UIDs that the
liar answers, a mute that it acknowledges, and five silent branches. A packet's layout gives the frames and replies.
"""
from __future__ import annotations

import sys
from dataclasses import replace
from typing import Dict, Iterator, NamedTuple, Optional, Sequence, Tuple

from ..checker.case import EXPLAINED_NAME, RIG_NAME, Case, Expected, File, arguments_of
from ..checker.tables import ROOT

sys.path += [str(ROOT / "bindings/python"), str(ROOT / "bindings/python/tests/lines")]
from search import PORT, SOURCE  # noqa: E402
from wurstlinen.lines.numbers import CommandClass, Pid, ResponseType  # noqa: E402
from wurstlinen.lines.packets import Packet, encode_branch_reply  # noqa: E402
from wurstlinen.lines.uids import ALL_DEVICES, uid_text  # noqa: E402

UIDS: Dict[str, int] = {
    "found": 0x123400000001, "spare": 0x123400000008, "liar": 0x123400000009, "absent": 0x567800000009,
    "new": 0x9ABC00000002, "nobody": ALL_DEVICES,
}
LIAR = uid_text(UIDS["liar"])
HALF = 0x800000000000
# `under` and `over` leave out only the UID of all devices of a manufacturer.
RANGES: Dict[str, Tuple[int, int]] = {
    "all": (0, ALL_DEVICES), "lower": (0, HALF - 1), "upper": (HALF, ALL_DEVICES),
    "under": (0, 0x1234FFFFFFFE), "over": (0x123500000000, ALL_DEVICES),
}
OPERATIONS = {Pid.DISC_UNIQUE_BRANCH: "branch", Pid.DISC_MUTE: "mute", Pid.DISC_UN_MUTE: "unmute"}
# What an acknowledgement says: a control field, and maybe a binding UID.
ACKNOWLEDGED = {"ack": "0000", "bound": "0002123400000005"}
REPLIES: Dict[str, Optional[bytes]] = {"": b"", "noise": b"\0", "failed": None}
BEGIN = f'"entry":"opening","source":"{uid_text(SOURCE)}","budget":384008'


class Exchange(NamedTuple):
    """A frame, and what came; no reply if the exchange failed."""

    operation: str
    frame: str
    reply: Optional[bytes]

    @property
    def came(self) -> str:
        """What came, as keys of a log."""
        return '"failed":true' if self.reply is None else f'"reply":"{self.reply.hex()}"'


def exchanges(run: str, first: int = 0) -> Iterator[Exchange]:
    """The exchanges of a run from the one with the number `first`, which its frame has too."""
    for number, step in enumerate(steps(run), first):
        asked, _, heard = step.partition(" > ")
        command = command_of(asked.split(), number % 256)
        yield Exchange(OPERATIONS[Pid(command.pid)], command.encode().hex(), reply_of(heard, command))


def steps(run: str) -> Iterator[str]:
    """The steps of a run, each as often as it says."""
    for step in run.split("; "):
        times, _, what = step.partition(" ")
        yield from [what] * int(times) if times.isdigit() else [step]


def command_of(words: Sequence[str], number: int) -> Packet:
    """The packet with this number that such words ask for."""
    destination, pid, data = ALL_DEVICES, Pid.DISC_UN_MUTE, b""
    if words[0] == "mute":
        destination, pid = UIDS[words[1]], Pid.DISC_MUTE
    elif words[0] != "unmute":
        low, high = range_of(words)
        pid, data = Pid.DISC_UNIQUE_BRANCH, low.to_bytes(6, "big") + high.to_bytes(6, "big")
    return Packet(destination, SOURCE, number, PORT, 0, 0, CommandClass.DISCOVERY, pid, data)


def range_of(words: Sequence[str]) -> Tuple[int, int]:
    """The first and the last UID of a branch: `all`, `alone liar` or `spare to liar`."""
    if words[0] in RANGES:
        return RANGES[words[0]]
    low = words[1] if words[0] == "alone" else words[0]
    return UIDS[low], UIDS[words[-1]]


def reply_of(heard: str, command: Packet) -> Optional[bytes]:
    """What came after a packet: silence, noise, an acknowledgement, bytes as in `x00ff`, or the text of a UID.

    Nothing if it failed.
    """
    if heard in REPLIES:
        return REPLIES[heard]
    if heard.startswith("x"):
        return bytes.fromhex(heard[1:])
    if heard in ACKNOWLEDGED:
        data = bytes.fromhex(ACKNOWLEDGED[heard])
        return command.answer(command.destination, ResponseType.ACK, data).encode()
    return encode_branch_reply(UIDS[heard])


def discovery(run: str, first: int = 0) -> str:
    """The lines of a discovery's exchanges, from the one with the number `first`."""
    return "".join(
        f'{{"number":{number},"operation":"{it.operation}","frame":"{it.frame}",{it.came}}}\n'
        for number, it in enumerate(exchanges(run, first), first)
    )


def mutes(count: int, first: int) -> str:
    """The lines of so many mutes from 1234:00000001 on, all of which are acknowledged, from the exchange `first`."""
    lines = []
    for at in range(count):
        number = first + at
        command = Packet(UIDS["found"] + at, SOURCE, number % 256, PORT, 0, 0, CommandClass.DISCOVERY, Pid.DISC_MUTE)
        reply = command.answer(command.destination, ResponseType.ACK, bytes(2)).encode()
        lines.append(f'{{"number":{number},"operation":"mute","frame":"{command.encode().hex()}",'
                     f'"reply":"{reply.hex()}"}}\n')
    return "".join(lines)


def misread(count: int, first: int) -> str:
    """The lines of branches of so many UIDs alone, from 1234:00000001 on, after which noise comes."""
    lines = []
    for at in range(count):
        number, uid = first + at, (UIDS["found"] + at).to_bytes(6, "big")
        command = Packet(ALL_DEVICES, SOURCE, number % 256, PORT, 0, 0, CommandClass.DISCOVERY, Pid.DISC_UNIQUE_BRANCH,
                         uid + uid)
        lines.append(f'{{"number":{number},"operation":"branch","frame":"{command.encode().hex()}","reply":"00"}}\n')
    return "".join(lines)


def session_run(number: int, run: str) -> str:
    """The entries of a session's run with this number."""
    return "".join(
        f'{{"entry":"send","run":{number},"frame":"{it.frame}"}}\n{{"entry":"came",{it.came}}}\n'
        for it in exchanges(run)
    )


def ask(number: int, kind: str) -> str:
    """The entry of a discovery that is asked for."""
    return f'{{"entry":"ask","client":0,"number":{number},"discover":"{kind}"}}\n'


def answer(number: int, run: int, fault: Optional[int] = None) -> str:
    """The entry of a discovery that a run answers, maybe with a fault."""
    end = "" if fault is None else f',"fault":{fault}'
    return f'{{"entry":"answer","number":{number},"run":{run}{end}}}\n'


def opening(kind: str, *known: str) -> str:
    """The opening of a discovery with these known UIDs."""
    uids = ",".join(f'"{uid}"' for uid in known)
    return f'{{{BEGIN},"search":"steady","discover":"{kind}","known":[{uids}]}}\n'


def session_opening(search: str, next_ask: int, next_run: int, number: int = 0, devices: Sequence[str] = ()) -> str:
    """The opening of a session with the numbers of its next discovery, run and entry, and the devices of run 1."""
    listed = ",".join(f'{{"uid":"{uid}","control":"0000"}}' for uid in devices)
    return (f'{{{BEGIN},"search":"{search}","greatest":1,"places":[],"paused":false,"closed":false,'
            f'"devices":[{listed}],"devices_run":{int(bool(devices))},"next_request":0,"next_ask":{next_ask},'
            f'"next_run":{next_run},"next_tn":0,"number":{number}}}\n')


def shows(name: str, log: str, text: str, status: int = 0, present: Sequence[str] = ()) -> Case:
    """Explain prints this text of a log, if these devices are given."""
    expected = Expected(status=status, out=text.encode(), err=b"")
    return explained(name, log.encode(), expected, *(f"--present={uid}" for uid in present))


def shows_with_scene(name: str, log: str, scene: str, text: str, status: int = 0) -> Case:
    """Explain prints this text of a log with a scene, with this status."""
    case = explained(name, log.encode(), Expected(out=text.encode(), err=b"", status=status), f"--rig={RIG_NAME}")
    return replace(case, files=(*case.files, File(scene.encode(), RIG_NAME)))


def refuses(name: str, log: str, line: int, text: str = "") -> Case:
    """Explain prints this text of a log, and that this line isn't a log's; it says how to get those around it."""
    before = f"; 'head -n {line - 1}' has those before it" if line > 1 else ""
    after = f"; 'tail -n +{line + 1}' has those after it"
    reason = f'wurstlinen: line {line} of "{EXPLAINED_NAME}" isn\'t a line of a log{before}{after}\n'
    expected = Expected(status=1, out=f"{text}fault: line {line}\n".encode(), err=reason.encode())
    return explained(name, log.encode(), expected)


def explained(name: str, log: bytes, expected: Expected, *options: str) -> Case:
    """What explain prints of a log."""
    return Case(name, (arguments_of("explain", EXPLAINED_NAME, *options),), expected, (File(log, EXPLAINED_NAME),))
