"""What the proved program prints of discoveries and sessions, for people or as JSON.

A line that isn't known here is passed on as it is.
"""
from __future__ import annotations

import os
import re
import subprocess
import sys
from contextlib import ExitStack, suppress
from threading import Thread
from typing import IO, Any, Callable, Dict, List, NamedTuple, Optional, Sequence

from .. import Device, RunFault, RunFaultKind, Uid
from ..commands import RUN_FAULTS
from ..front.output import DONE, Failure, Output
from ..front.watched import Watched
from ..lines.uids import parse_uid

UID = "[0-9a-f]{4}:[0-9a-f]{8}"
DEVICE = re.compile(f"({UID})(?: ([0-9a-f]{{4}})(?: ({UID}))?)?")
FAULT = re.compile(f"fault ([1-5])(?: ({UID}))?")
FRAMES = re.compile("frames ([0-9]+)")
OTHER_FAULT = re.compile("fault: (.*)")
FOUND = re.compile("wurstlinen: .*; (?:found until then:|no device was found until then)")
REQUEST = re.compile("client ([0-9]+) request ([0-9]+): ([0-9]+)(?: ([0-9a-f]{2}) (-|[0-9a-f]+))?")
DISCOVERY = re.compile("client ([0-9]+) discovery ([0-9]+): (ok|fault [1-5])((?: .*)?)")
# E1.20, discovery mute: the control field of its acknowledgement.
FLAGS = {0x0001: "a proxy of others", 0x0002: "has sub-devices", 0x0004: "waits for new firmware",
         0x0008: "behind a proxy"}
# How long all that was printed may take to be read, and how long a program may take to end.
SECONDS_TO_READ = 10.0
SECONDS_TO_END = 1.0
# What the program reports every two seconds. A terminal shows more than that all the time.
PROGRESS = re.compile(r"wurstlinen: \d+ exchanges after \d+ seconds")


def uid_of(text: str) -> Uid:
    """The UID that a text spells."""
    return Uid.from_number(parse_uid(text))


def words_of(device: Device) -> str:
    """A device, with what it said of itself."""
    said = [] if device.binding is None else [f"part of {device.binding}"]
    said += [text for flag, text in FLAGS.items() if device.control & flag]
    return f"{device.uid}  {', '.join(said)}".rstrip()


def keys_of(device: Device) -> Dict[str, Any]:
    """The same, for JSON."""
    keys = {"uid": str(device.uid), "control": f"{device.control:04x}"}
    return keys if device.binding is None else {**keys, "binding": str(device.binding)}


def counted(count: int, name: str) -> str:
    """A number of things."""
    return f"{count} {name}{'' if count == 1 else 's'}"


class Found(NamedTuple):
    """How a discovery ended. Who doesn't say how many frames were sent has none."""

    devices: Sequence[Device]
    frames: Optional[int]
    fault: Optional[RunFault]

    def show(self, output: Output, ending: str, failure: Optional[Exception]) -> None:
        """Prints the devices, found in spite of a fault, and how it ended."""
        for device in self.devices:
            output.result([words_of(device)], **keys_of(device))
        fault = None
        if self.fault is not None:
            fault = str(failure or RUN_FAULTS[self.fault.kind].format(uid=self.fault.uid))
        parts = [counted(len(self.devices), "device"), *([counted(self.frames, "frame")] if self.frames else [])]
        end = ending if fault is None else f"the discovery is incomplete: {fault}"
        output.result([f"{', '.join(parts)}; {end}"], devices=len(self.devices), frames=self.frames, fault=fault)


class Report:
    """Reads the lines of the proved program, and prints what they say."""

    def __init__(self, output: Output, hides_progress: bool = False) -> None:
        self._output = output
        self._hides_progress = hides_progress
        self._devices: List[Device] = []
        self._fault: Optional[RunFault] = None
        self._frames: Optional[int] = None
        self._other_fault = ""
        self._remarks: List[str] = []
        # Why standard output can't be written.
        self.fault: Optional[OSError] = None

    def take(self, line: str, is_result: bool) -> None:
        """A line of standard output, or of standard error."""
        text = line.rstrip("\n")
        if self._is_of_discovery(text) or FOUND.fullmatch(text) or (self._hides_progress and PROGRESS.fullmatch(text)):
            return
        if self._output.is_json and self._takes_for_json(text, is_result):
            return
        self._output.remark(line, is_result)

    def _is_of_discovery(self, text: str) -> bool:
        device, fault, frames = DEVICE.fullmatch(text), FAULT.fullmatch(text), FRAMES.fullmatch(text)
        if device is not None:
            binding = None if device[3] is None else uid_of(device[3])
            self._devices.append(Device(uid_of(device[1]), int(device[2] or "0", 16), binding))
        elif fault is not None:
            self._fault = RunFault(RunFaultKind(int(fault[1])), None if fault[2] is None else uid_of(fault[2]))
        elif frames is not None:
            self._frames = int(frames[1])
        return bool(device or fault or frames)

    def _takes_for_json(self, text: str, is_result: bool) -> bool:
        """A line that becomes an object, or a part of one."""
        request, discovery, other = REQUEST.fullmatch(text), DISCOVERY.fullmatch(text), OTHER_FAULT.fullmatch(text)
        if request is not None:
            keys = {"client": int(request[1]), "request": int(request[2]), "status": int(request[3])}
            data = {} if request[4] is None else {"ack": int(request[4], 16), "data": request[5].strip("-")}
            self._output.result([], **keys, **data)
        elif discovery is not None:
            self._show_discovery(discovery)
        elif other is not None:
            self._other_fault = other[1]
        elif not is_result:
            self._remarks.append(text.removeprefix("wurstlinen: "))
        return not is_result or bool(request or discovery or other)

    def _show_discovery(self, said: "re.Match[str]") -> None:
        uids = said[4].split()
        keys: Dict[str, Any] = {"client": int(said[1]), "discovery": int(said[2]), "fault": None}
        if said[3] == "ok":
            keys["devices"] = uids
        else:
            fault = RUN_FAULTS[int(said[3].split()[1])]
            keys["fault"] = fault.format(uid="".join(uids))
        self._output.result([], **keys)

    def end(self, status: int, ending: str, failure: Optional[Exception] = None) -> None:
        """The program has ended. Raises OSError if standard output couldn't be written."""
        if self.fault is not None:
            raise self.fault
        if self._frames is not None:
            Found(self._devices, self._frames, self._fault).show(self._output, ending, failure)
        elif self._output.is_json and status != DONE:
            text = str(failure or "; ".join(self._remarks) or self._other_fault or f"the program's status is {status}")
            self._output.failure(Failure(status, text, reason=self._other_fault.replace(" ", "_") or "program"))


def streams() -> Dict[str, int]:
    """The program's streams, as one if both go to the same place."""
    is_one = False
    # This process may have been started without one of them.
    with suppress(OSError):
        is_one = os.path.samestat(os.fstat(sys.stdout.fileno()), os.fstat(sys.stderr.fileno()))
    return {"stdout": subprocess.PIPE, "stderr": subprocess.STDOUT if is_one else subprocess.PIPE}


def relay(child: "subprocess.Popen[str]", report: Optional[Report]) -> Callable[[], None]:
    """Gives a report what the program prints, in threads. Returns what waits for their ends."""
    threads = []
    for stream, is_result in ((child.stdout, True), (child.stderr, False)):
        if stream is not None and report is not None:
            threads.append(Thread(target=_read, args=(stream, report, is_result), daemon=True))
            threads[-1].start()

    def wait() -> None:
        """Waits until all is read."""
        for thread in threads:
            thread.join(SECONDS_TO_READ)
    return wait


def _read(stream: IO[str], report: Report, is_result: bool) -> None:
    # If it isn't read to its end, the program mustn't wait for a reader. Nobody else closes it: a close would wait
    # until something is read.
    with stream:
        try:
            for line in stream:
                report.take(line, is_result)
        except OSError as fault:
            report.fault = fault


def end(child: "subprocess.Popen[Any]") -> None:
    """Ends the program if it still runs, after a second by force."""
    if child.poll() is None:
        child.terminate()
    try:
        child.wait(SECONDS_TO_END)
    except subprocess.TimeoutExpired:
        child.kill()
        child.wait()


def translated(program: str, words: Sequence[str], output: Output) -> int:
    """Runs the program with these words, prints what it says, and returns its status."""
    report = Report(output)
    with ExitStack() as stack:
        shown = streams()
        child = subprocess.Popen(["wurstlinen", *words], executable=program, encoding="utf-8",
                                 errors="backslashreplace", stdout=shown["stdout"], stderr=shown["stderr"])
        stack.callback(end, child)
        wait = relay(child, report)
        status = child.wait()
        wait()
    report.end(status, Watched.ending)
    return status if status >= 0 else 128 - status
