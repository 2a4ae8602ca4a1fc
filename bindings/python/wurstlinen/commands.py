"""The commands of `python3 -m wurstlinen`.

A command ends with status 0 if it was done, 1 if the line, the device or the library failed, 2 if its arguments are
wrong, and 130 after an interrupt. Results go to standard output, in the formats of docs/FORMATS.md, and reasons to
standard error.
"""
from __future__ import annotations

import argparse
import json
import os
import re
import sys
from typing import TYPE_CHECKING, Callable, List, Optional, Sequence, TextIO, Tuple, Type, Union

from .line import Line, LineFailed
from .lines import open_line
from .lines.opening import FORMS
from .lines.uids import is_broadcast, parse_uid, uid_text
from .lines.waiting import DEFAULT_SECONDS, when_free

if TYPE_CHECKING:
    from . import Completion, Device, RunFault, SharedClient
    from ._ask import AnyClient
    from .lines import OpenLine
    from .olad.client import OlaClient

DONE = 0
FAILED = 1
INTERRUPTED = 130
# A manufacturer that E1.20 reserves for experiments, for lines that have no UID of their own.
SOURCE = 0x7FF000000001
DEFAULT_BUDGET = 384_008
MOST_BUDGET = 1_000_000_000
MOST_SECONDS = 86_400
MOST_WAIT = 3600.0
DEFAULT_WAIT = 10.0
MOST_DATA_BYTES = 231
# Python refuses to read very long numbers.
MOST_DIGITS = 40
VERSION = "([0-9]{1,3})[.]([0-9]{1,3})"
ALL_SUB_DEVICES = 0xFFFF
# The faults of a run, by their numbers.
RUN_FAULTS = {
    1: "{uid} was asked alone, and the answer was wrong: take it off the line and discover again",
    2: "more than 1024 devices answered",
    3: "the run has used up its budget of frames",
    4: "the line failed",
    5: "the run was aborted",
}


class WatchedLine:
    """A line that remembers why it failed."""

    def __init__(self, line: Line) -> None:
        self._line = line
        self.failure: Optional[LineFailed] = None

    def exchange(self, frame: bytes) -> bytes:
        """The line's exchange."""
        try:
            return self._line.exchange(frame)
        except LineFailed as failure:
            self.failure = failure
            raise


def main(arguments: Optional[Sequence[str]] = None) -> int:
    """Runs a command, and returns its status."""
    try:
        chosen = parser().parse_args(arguments)
    except KeyboardInterrupt:
        return INTERRUPTED
    return run(chosen)


def run(chosen: argparse.Namespace) -> int:
    """Runs a command whose arguments are read."""
    try:
        status: int = chosen.run(chosen)
        return status
    except ImportError as error:
        return fail(f"the C library is needed for this: {error}")
    except (LineFailed, ValueError) as error:
        return fail_line(chosen, str(error))
    except OSError as error:
        name = "" if error.filename is None else f"{error.filename}: "
        return fail_line(chosen, f"{name}{error.strerror or error}")
    except KeyboardInterrupt:
        return INTERRUPTED


def fail(reason: str) -> int:
    """Says why a command failed."""
    print(f"wurstlinen: {reason}", file=sys.stderr)
    return FAILED


def fail_line(chosen: argparse.Namespace, reason: str) -> int:
    """Says why a line failed, as the command says things: only bridge and rig know JSON."""
    if not vars(chosen).get("json"):
        return fail(reason)
    print(json.dumps({"error": {"text": reason, "reason": "line"}}), file=errors_of(chosen.command), flush=True)
    return FAILED


def errors_of(command: str) -> TextIO:
    """Where a command's errors go as JSON: the replies of bridge have standard output for themselves."""
    return sys.stderr if command == "bridge" else sys.stdout


def parser(kind: Type[argparse.ArgumentParser] = argparse.ArgumentParser,
           name: str = "python3 -m wurstlinen") -> argparse.ArgumentParser:
    """The parser of the arguments."""
    whole = kind(prog=name, description="Works on a line of RDM devices.")
    commands = whole.add_subparsers(dest="command", required=True, metavar="COMMAND")
    discover_command = command(commands, "discover", run_discover, "find the devices on a line")
    discover_command.add_argument("--known", type=device, action="append", default=[], metavar="UID",
                                  help="a device that is known already; --incremental mutes it first")
    discover_command.add_argument("--incremental", action="store_true", help="keep known devices that answer")
    discover_command.add_argument("--quick", action="store_true", help="sweep before searching")
    discover_command.add_argument("--budget", type=budget, default=DEFAULT_BUDGET, metavar="N",
                                  help="the most frames to send")
    get_command = command(commands, "get", run_get, "read a parameter of a device")
    set_command = command(commands, "set", run_set, "change a parameter of a device")
    for each in (get_command, set_command):
        each.add_argument("uid", type=uid, metavar="UID")
        each.add_argument("pid", type=pid, metavar="PID", help="four hexadecimal digits")
    get_command.add_argument("data", type=data, nargs="?", default=b"", metavar="BYTES", help="in hexadecimal")
    set_command.add_argument("data", type=data, metavar="BYTES", help="in hexadecimal; '' for none")
    for each in (get_command, set_command):
        each.add_argument("--sub", type=sub_device, default=0, metavar="N", help="the sub-device, 0 to 65535")
    for each in (discover_command, get_command, set_command):
        each.add_argument("--source", type=device, metavar="UID", help="the controller's UID")
    add_bridge(commands)
    add_rig(commands)
    return whole


def add_bridge(commands: argparse._SubParsersAction) -> None:  # type: ignore[type-arg]
    """The arguments of bridge."""
    made = command(commands, "bridge", run_bridge, "be the far end of a line as text on the standard streams")
    made.add_argument("--json", action="store_true", help="print errors as JSON objects, to standard error")


def add_rig(commands: argparse._SubParsersAction) -> None:  # type: ignore[type-arg]
    """The arguments of rig."""
    made = command(commands, "rig", run_rig, "emulate an adapter on a pseudo terminal, and print its name",
                   needs_line=False)
    made.set_defaults(error=made.error)
    made.add_argument("file", nargs="?", metavar="FILE", help="the rig's file; short for --line rig:FILE")
    made.add_argument("--firmware", type=version, default=(2, 4), metavar="N.N", help="of the adapter")
    made.add_argument("--json", action="store_true", help="print one JSON object a line")


def add_wait_line(made: argparse.ArgumentParser) -> None:
    """How long another program may have the line."""
    made.add_argument("--wait-line", type=some_seconds, default=DEFAULT_SECONDS, metavar="SECONDS",
                      help=f"how long to wait for another program that has the line ({DEFAULT_SECONDS:g})")


def command(commands: argparse._SubParsersAction, name: str, run: object, text: str,  # type: ignore[type-arg]
            needs_line: bool = True) -> argparse.ArgumentParser:
    """A command with its option --line."""
    made: argparse.ArgumentParser = commands.add_parser(name, help=text, description=text)
    made.set_defaults(run=run)
    made.add_argument("--line", required=needs_line, metavar="LINE", help=FORMS)
    made.add_argument("--seconds", type=seconds, metavar="N",
                      help="how long a far end of text may take for each reply; without a limit if absent")
    add_wait_line(made)
    return made


def run_discover(chosen: argparse.Namespace) -> int:
    """Prints the devices, or the fault, and then the number of frames, as `wurstlinen discover` does."""
    from . import DiscoveryAgent, Kind, Search, Uid
    kind = Kind.INCREMENTAL if chosen.incremental else Kind.FULL
    known = [Uid.from_number(each) for each in chosen.known]
    search = Search.QUICK if chosen.quick else Search.STEADY
    with opened(chosen) as line:
        watched = WatchedLine(line)
        source = Uid.from_number(source_of(chosen, line))
        with DiscoveryAgent(source, kind, known, budget=chosen.budget, search=search) as agent:
            devices = agent.run(watched)
            fault = agent.fault()
            for text in [device_text(each) for each in devices] if fault is None else [fault_text(fault)]:
                print(text)
            print(f"frames {agent.frames()}")
    if fault is None:
        return DONE
    found = ", ".join(str(each.uid) for each in devices) or "none"
    reason = watched.failure or RUN_FAULTS[fault.kind].format(uid=fault.uid)
    return fail(f"{reason}; devices found until then: {found}")


def run_get(chosen: argparse.Namespace) -> int:
    """Prints the status of a GET; after status 0 the response type and the data, as `wurstlinen run` does."""
    return run_request(chosen, is_set=False)


def run_set(chosen: argparse.Namespace) -> int:
    """The same for a SET."""
    return run_request(chosen, is_set=True)


def run_request(chosen: argparse.Namespace, is_set: bool) -> int:
    """Sends one request with a queue of its own."""
    from . import Status
    completion, reason = completed(chosen, is_set)
    assert completion is not None
    print(completion_text(completion))
    if completion.status == Status.COMPLETED or (is_set and completion.status == Status.WAS_BROADCAST):
        return DONE
    return fail(reason or completion.status.name.lower().replace("_", " "))


def completed(chosen: argparse.Namespace, is_set: bool) -> Tuple[Completion, str]:
    """How a request ends, and why the line failed if it did. Raises LineFailed."""
    from . import Controller, Fault, Uid
    client = served(chosen)
    if client is not None:
        try:
            with client:
                reasons: List[str] = []
                client.queue.on_failure = reasons.append
                return asked(client, chosen, is_set, client.queue.run), "".join(reasons)
        except Fault as fault:
            raise LineFailed(str(fault)) from None
    with opened(chosen) as line:
        watched = WatchedLine(line)
        with Controller(Uid.from_number(source_of(chosen, line)), 1) as controller:
            done = asked(controller.join(1), chosen, is_set, lambda: controller.run(watched))
            return done, str(watched.failure or "")


def asked(client: AnyClient, chosen: argparse.Namespace, is_set: bool, run: Callable[[], object]) -> Completion:
    """How the request that the arguments name ends, once its answer can't lack its first parts. Raises LineFailed."""
    from . import Incomplete, Request, RequestClass, Uid
    from ._ask import MOST_REPEATS, repeated
    request_class = RequestClass.SET if is_set else RequestClass.GET
    request = Request(Uid.from_number(chosen.uid), chosen.pid, chosen.data, chosen.sub, request_class)
    for _ in range(1 + MOST_REPEATS):
        client.submit(request)
        run()
        done = ended(client)
        if not done.may_be_incomplete:
            return done
        request = repeated(request)
    raise LineFailed(Incomplete.WHY)


def ended(client: AnyClient) -> Completion:
    """How its request has ended. Raises LineFailed if it hasn't."""
    from . import Completion
    outcome = client.next_outcome()
    if not isinstance(outcome, Completion):
        raise LineFailed("the request has no result so far, and is only sent if it was its turn: the queue is paused, "
                         "or the server has no line now")
    return outcome


def served(chosen: argparse.Namespace) -> Union[SharedClient, OlaClient, None]:
    """A client of who has the line, if there is one. Raises LineFailed."""
    # It imports this module.
    from .front import opening
    from .front.output import Output
    return opening.served(chosen.line, chosen.source, Output(False))


def opened(chosen: argparse.Namespace) -> OpenLine:
    """The line, once whoever has it has closed it. Raises LineFailed."""
    return when_free(lambda: open_line(chosen.line, chosen.seconds), chosen.wait_line, fail)


def run_bridge(chosen: argparse.Namespace) -> int:
    """Serves frames until standard input ends."""
    from .lines import serve_text
    with opened(chosen) as line:
        try:
            serve_text(line)
        except KeyboardInterrupt:
            pass
    # The reader of the replies may be gone.
    sys.stdout = open(os.devnull, "w", encoding="utf-8")
    return DONE


def run_rig(chosen: argparse.Namespace) -> int:
    """Emulates an adapter until it is interrupted."""
    from .lines.emulator import Emulator, Widget
    if (chosen.file is None) == (chosen.line is None):
        chosen.error("one of FILE and --line is required")
    text = chosen.line or f"rig:{chosen.file}"
    chosen.line = text
    with opened(chosen) as line, Emulator(line, Widget(firmware=chosen.firmware)) as emulator:
        try:
            name = f"enttec:{emulator.path}"
            print(json.dumps({"line": name}) if chosen.json else name, flush=True)
            emulator.wait()
        except KeyboardInterrupt:
            return DONE
    return fail_line(chosen, f"the adapter has ended: {emulator.failure!r}")


def source_of(chosen: argparse.Namespace, line: OpenLine) -> int:
    """The controller's UID: the one given as an argument, or else the line's."""
    if chosen.source is not None:
        return int(chosen.source)
    return SOURCE if line.source is None else line.source


def device_text(found: Device) -> str:
    """A device's line, as docs/FORMATS.md has it."""
    words = [str(found.uid)]
    if found.control or found.binding is not None:
        words.append(f"{found.control:04x}")
    if found.binding is not None:
        words.append(str(found.binding))
    return " ".join(words)


def fault_text(fault: RunFault) -> str:
    """A fault's line, as docs/FORMATS.md has it."""
    return f"fault {int(fault.kind)}" + (f" {fault.uid}" if fault.uid is not None else "")


def completion_text(completion: Completion) -> str:
    """A request's result, as docs/FORMATS.md has it."""
    if completion.head is None:
        return f"{int(completion.status)}"
    return f"{int(completion.status)} {int(completion.head.ack):02x} {completion.data.hex() or '-'}"


def uid(text: str) -> int:
    """An argument that is a UID."""
    try:
        return parse_uid(text)
    except ValueError as error:
        raise argparse.ArgumentTypeError(str(error)) from None


def device(text: str) -> int:
    """An argument that is the UID of one device."""
    number = uid(text)
    if is_broadcast(number):
        raise argparse.ArgumentTypeError(f"{uid_text(number)} is no device's own UID")
    return number


def pid(text: str) -> int:
    """An argument that is a PID: four hexadecimal digits."""
    found = data(text)
    if len(found) != 2:
        raise argparse.ArgumentTypeError(f"'{text}' isn't a PID of four hexadecimal digits")
    return int.from_bytes(found, "big")


def data(text: str) -> bytes:
    """An argument of at most 231 bytes in hexadecimal."""
    try:
        found = bytes.fromhex(text)
    except ValueError:
        found = None
    if found is None or len(found) > MOST_DATA_BYTES or len(text) != 2 * len(found):
        raise argparse.ArgumentTypeError(f"'{text}' isn't at most {MOST_DATA_BYTES} bytes in hexadecimal")
    return found


def sub_device(text: str) -> int:
    """An argument that is a sub-device."""
    return number_to(text, 0, ALL_SUB_DEVICES)


def budget(text: str) -> int:
    """An argument that is a number of frames."""
    return number_to(text, 1, MOST_BUDGET)


def seconds(text: str) -> int:
    """An argument that is a number of seconds."""
    return number_to(text, 1, MOST_SECONDS)


def number_to(text: str, least: int, most: int) -> int:
    """A decimal number of this range."""
    if not (text.isascii() and text.isdigit() and len(text) <= MOST_DIGITS and least <= int(text) <= most):
        raise argparse.ArgumentTypeError(f"'{text}' isn't a number from {least} to {most}")
    return int(text)


def some_seconds(text: str) -> float:
    """An argument that is a time."""
    try:
        found = float(text)
    except ValueError:
        found = -1.0
    if not 0 <= found <= MOST_WAIT:
        raise argparse.ArgumentTypeError(f"'{text}' isn't a number of seconds from 0 to {MOST_WAIT:g}")
    return found


def version(text: str) -> Tuple[int, int]:
    """An argument that is a firmware's version."""
    found = re.fullmatch(VERSION, text)
    if not found or max(map(int, found.groups())) > 255:
        raise argparse.ArgumentTypeError(f"'{text}' isn't a version such as 2.4")
    return int(found[1]), int(found[2])
