"""The commands get, set and identify."""
from __future__ import annotations

import argparse
import sys
from typing import Callable, List, NamedTuple, Sequence, Tuple

from .. import Completion, Uid
from ..lines.uids import is_broadcast, uid_text
from ..parameters import STANDARD, Parameter, Reading, WordFault, decode, encode
from ..parameters.encoding import word_counts
from ..parameters.words import is_only_a_name
from .main import ALL
from .naming import known_or_raw, pid_of, raw_parameter, standard
from .output import BAD_ARGUMENTS, DONE, FAILED, Failure, Output, reading_keys
from .work import Work, open_work

ON = b"\x01"
OFF = b"\x00"
PID_DIGITS = 4
IDENTIFY_DEVICE = 0x1000
# What gives a device other slots.
MOVES = ("dmx_start_address", "dmx_personality")


class Asked(NamedTuple):
    """A parameter as the arguments name it, with its values."""

    pid: int
    values: Sequence[str]


def run_get(chosen: argparse.Namespace, output: Output) -> int:
    """Reads parameters of a device, or of all devices."""
    maker = 0 if chosen.uid == ALL else chosen.uid >> 32
    if chosen.uid != ALL and is_broadcast(chosen.uid):
        raise Failure(BAD_ARGUMENTS, f"{uid_text(chosen.uid)} is no device's own UID, and nobody answers a GET to it",
                      reason="arguments")
    asked = split(maker, [chosen.parameter, *chosen.values], output)
    for each in asked:
        check(each, chosen.sub, is_set=False)
    with open_work(chosen, output) as work:
        if chosen.uid != ALL and len(asked) == 1:
            reading(work, Uid.from_number(chosen.uid), asked[0], chosen.sub, output.reading, output)
            return DONE
        if chosen.uid != ALL:
            return read_each(work, [Uid.from_number(chosen.uid)], asked, chosen, output)
        devices, fault = work.discover()
        status = read_each(work, [device.uid for device in devices], asked, chosen, output)
    if fault is not None:
        raise Failure(FAILED, f"the discovery is incomplete: {fault}", reason="discovery")
    return status


def split(maker: int, words: Sequence[str], output: Output) -> List[Asked]:
    """The parameters that the words name, each with as many values as its GET takes. Raises Failure."""
    asked, left = [], list(words)
    while left:
        word = left.pop(0)
        pid = pid_of(maker, word)
        note_decimal(word, pid, output)
        parameter = known_or_raw(maker, pid)
        _, most = word_counts(parameter.get.request) if parameter.get is not None else (0, 0)
        count = len(left) if most is None else min(most, len(left))
        if parameter == raw_parameter(pid):
            # How many it takes isn't known: those before the next name.
            count = next((at for at, each in enumerate(left) if is_only_a_name(each)), len(left))
        asked.append(Asked(pid, left[:count]))
        del left[:count]
    return asked


def note_decimal(word: str, pid: int, output: Output) -> None:
    """Says how a number was read, if a parameter has it in hexadecimal alone."""
    other = STANDARD.numbered(int(word, 16)) if word.isascii() and word.isdigit() and len(word) <= PID_DIGITS else None
    if other is not None and STANDARD.numbered(pid) is None:
        output.note(f"'{word}' is the decimal number of PID 0x{pid:04x}; {other.name} is 0x{other.number:04x}")


def read_each(work: Work, uids: Sequence[Uid], asked: Sequence[Asked], chosen: argparse.Namespace,
              output: Output) -> int:
    """Prints what these devices return, a line for each parameter, and returns the status of the last failure."""
    def show_line(uid: str, parameter: Parameter, found: Reading) -> None:
        """Prints what a device returned."""
        parts = [uid] if chosen.uid == ALL else []
        parts.append(f"{parameter.name}: {'; '.join(found.lines)}" if len(asked) > 1 else "; ".join(found.lines))
        output.result(["  ".join(parts).rstrip()], **reading_keys(uid, parameter, found))

    status = DONE
    for uid, each in ((uid, each) for uid in uids for each in asked):
        try:
            reading(work, uid, each, chosen.sub, show_line, output)
        except Failure as failure:
            if failure.is_of_line:
                raise
            name = known_or_raw(uid.manufacturer, each.pid).name
            output.failure(Failure(failure.status, f"{name}: {failure}", **failure.keys))
            status = failure.status
    return status


def reading(work: Work, uid: Uid, asked: Asked, sub_device: int, show: Callable[[str, Parameter, Reading], None],
            output: Output) -> None:
    """Reads a parameter, and shows it. Raises Failure."""
    parameter = STANDARD.numbered(asked.pid) or work.described(uid, asked.pid)
    data = data_of(parameter, asked.values, sub_device, is_set=False)
    completion = work.ask(uid, asked.pid, data, sub_device)
    if completion.head is not None and completion.head.pid != asked.pid:
        output.message(str(uid), *work.message(uid, completion))
    else:
        show(str(uid), parameter, decode(parameter, False, completion.data))


def run_set(chosen: argparse.Namespace, output: Output) -> int:
    """Changes a parameter of a device."""
    uid = Uid.from_number(chosen.uid)
    pid = pid_of(chosen.uid >> 32, chosen.parameter)
    note_decimal(chosen.parameter, pid, output)
    check(Asked(pid, chosen.values), chosen.sub, is_set=True)
    with open_work(chosen, output) as work:
        parameter, completion = change(work, uid, pid, chosen.values, chosen.sub)
        if completion.data:
            output.reading(str(uid), parameter, decode(parameter, True, completion.data))
        elif output.is_json:
            output.result([], uid=str(uid), parameter=parameter.name, pid=f"0x{pid:04x}", done=True)
        # That takes a discovery, which a script that sets many doesn't want.
        if parameter.name in MOVES and not chosen.sub and not uid.is_broadcast and output.is_seen:
            from .guarding import note_problems
            note_problems(work, uid)
    return DONE


def change(work: Work, uid: Uid, pid: int, values: Sequence[str], sub_device: int = 0
           ) -> Tuple[Parameter, Completion]:
    """Sets a parameter of a device, and returns it with the acknowledgement. Raises Failure."""
    parameter = STANDARD.numbered(pid) or work.described(uid, pid)
    return parameter, work.ask(uid, pid, data_of(parameter, values, sub_device, True), sub_device, is_set=True)


def check(asked: Asked, sub_device: int, is_set: bool) -> None:
    """Raises Failure if the values of a parameter of the standards can't be right."""
    # What the tables here don't have takes long to find.
    known = STANDARD.numbered(asked.pid) or standard().numbered(asked.pid)
    if known is not None:
        data_of(known, asked.values, sub_device, is_set)


def data_of(parameter: Parameter, values: Sequence[str], sub_device: int, is_set: bool) -> bytes:
    """The data that the arguments spell. Raises Failure."""
    message = parameter.set if is_set else parameter.get
    try:
        # Nothing is an empty text of bytes of which nothing is known.
        is_raw = parameter == raw_parameter(parameter.number)
        data = encode(parameter, is_set, ["0x"] if is_raw and not values else values)
    except WordFault as fault:
        raise Failure(BAD_ARGUMENTS, str(fault), reason="value", parameter=parameter.name) from None
    assert message is not None
    if not message.sub_devices.allows(sub_device):
        raise Failure(BAD_ARGUMENTS, f"{parameter.name} is for sub-devices {message.sub_devices.value}, "
                                     f"not {sub_device}", reason="sub_device", parameter=parameter.name)
    return data


def run_identify(chosen: argparse.Namespace, output: Output) -> int:
    """Lets a device show which one it is, or one after another."""
    if chosen.each == (chosen.uid is not None):
        raise Failure(BAD_ARGUMENTS, "identify takes a UID, or else --each", reason="arguments")
    with open_work(chosen, output) as work:
        if chosen.each:
            return identify_each(work, output)
        uid = Uid.from_number(chosen.uid)
        identify(work, uid, ON if chosen.state == "on" else OFF)
        if output.is_json:
            output.result([], uid=str(uid), parameter="identify_device", done=True)
    return DONE


def identify(work: Work, uid: Uid, state: bytes) -> None:
    """Switches a device's identification on or off."""
    work.ask(uid, IDENTIFY_DEVICE, state, is_set=True)


def identify_each(work: Work, output: Output) -> int:
    """Steps through the devices, whenever a line comes from standard input."""
    devices, fault = work.discover()
    output.note("each identifies itself until Enter is pressed")
    status = DONE
    for number, device in enumerate(devices, 1):
        try:
            if not show(work, device.uid, f"{number} of {len(devices)}: {device.uid}", output):
                break
        except Failure as failure:
            if failure.is_of_line:
                raise
            output.failure(failure)
            status = failure.status
    if fault is not None:
        raise Failure(FAILED, f"the discovery is incomplete: {fault}", reason="discovery")
    return status


def show(work: Work, uid: Uid, text: str, output: Output) -> bool:
    """Lets a device show itself until Enter is pressed, and switches it off again, whatever happens.

    False at the end of standard input. Raises Failure.
    """
    try:
        identify(work, uid, ON)
        output.result([text], uid=str(uid))
        return sys.stdin is not None and sys.stdin.readline() != ""
    finally:
        identify(work, uid, OFF)
