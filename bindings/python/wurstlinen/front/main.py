"""The arguments of the command `wurstlinen`, and what it ends with.

The status is 0 if a command was done, 1 if the line failed or nobody answered, 2 if the arguments are wrong, 3 if a
device refused it, and 130 after an interrupt.
"""
from __future__ import annotations

import argparse
import contextlib
import functools
import importlib
import os
import sys
from typing import Any, Callable, Dict, List, Mapping, NoReturn, Optional, Sequence, Union

from .. import commands
from ..lines.opening import FORMS
from ..parameters.words import hint
from .output import BAD_ARGUMENTS, FAILED, INTERRUPTED, LINE_VARIABLE, Failure, Output

PROGRAM = "wurstlinen"
LAST_SLOT = 512
ALL = "all"
RAW_COMMANDS = ("get", "set")
# How frames are shown. A value of its own would take a word that follows the option.
AS_TEXT, AS_BYTES = "text", "hex"
FRAMES_AS_BYTES, HIDDEN_FRAMES = "--frames=hex", "--frames-as-bytes"
DEFAULT_COLUMNS = 80
Runner = Callable[[argparse.Namespace, Output], int]


class Formatter(argparse.HelpFormatter):
    """Formats help. argparse makes one for each argument, and would load `shutil` to find the same width."""

    def __init__(self, prog: str) -> None:
        super().__init__(prog, width=columns() - 2)


@functools.lru_cache(maxsize=None)
def columns() -> int:
    """The width of the terminal, as `shutil.get_terminal_size` finds it."""
    text = os.environ.get("COLUMNS", "")
    with contextlib.suppress(AttributeError, ValueError, OSError):
        return int(text) if text.isdigit() and int(text) else os.get_terminal_size(sys.__stdout__.fileno()).columns
    return DEFAULT_COLUMNS


class Parser(argparse.ArgumentParser):
    """A parser that says what is wrong on one line."""

    def __init__(self, **keys: Any) -> None:
        super().__init__(allow_abbrev=False, formatter_class=Formatter, **keys)

    def parse_args(self, args: Any = None, namespace: Any = None) -> Any:
        """The arguments. Raises Failure."""
        words = list(sys.argv[1:] if args is None else args)
        options = words.index("--") if "--" in words else len(words)
        words[:options] = [HIDDEN_FRAMES if word == FRAMES_AS_BYTES else word for word in words[:options]]
        chosen, rest = self.parse_known_args(words, namespace)
        # If options stand before, argparse gives values after -- to nobody.
        if rest[:1] == ["--"] and "values" in chosen and not chosen.values:
            chosen.values, rest = rest[1:], []
        if rest:
            dash = "; a value that begins with - comes after --" if "values" in chosen else ""
            raise Failure(BAD_ARGUMENTS, f"unrecognized arguments: {' '.join(rest)}{dash}; try '{self.prog} "
                                         f"{chosen.command} --help'", reason="arguments")
        return chosen

    def error(self, message: str) -> NoReturn:
        """Raises Failure."""
        raise Failure(BAD_ARGUMENTS, f"{message}; try '{self.prog} --help'", reason="arguments")


def main(arguments: Optional[Sequence[str]] = None) -> int:
    """Runs a command, and returns its status."""
    words = list(sys.argv[1:] if arguments is None else arguments)
    if words[:1] in ([each] for each in RAW_COMMANDS) and "--raw" in words:
        return run_raw(words)
    try:
        check_command(words)
        chosen = parser(words).parse_args(words)
    except Failure as failure:
        Output("--json" in words).failure(failure)
        return failure.status
    return run(chosen, Output(chosen.json))


def run(chosen: argparse.Namespace, output: Output) -> int:
    """Runs a command whose arguments are read."""
    runner: Runner = chosen.run
    try:
        return runner(chosen, output)
    except Failure as failure:
        output.failure(failure)
        return failure.status
    except ImportError as fault:
        output.failure(Failure(FAILED, f"the C library is needed for this: {fault}", reason="library"))
        return FAILED
    except BrokenPipeError:
        # Who reads the output is gone.
        return FAILED
    except OSError as fault:
        return failed(output, fault)
    except KeyboardInterrupt:
        return INTERRUPTED
    finally:
        output.end_progress()


def failed(output: Output, fault: OSError) -> int:
    """Says that the system failed, where it can."""
    try:
        output.failure(Failure(FAILED, str(fault.strerror), reason="system"))
    except OSError:
        print(f"{PROGRAM}: {fault.strerror}", file=sys.stderr)
    return FAILED


def run_raw(words: List[str]) -> int:
    """The same commands with numbers and bytes in hexadecimal: their output and status are older."""
    rest = [word for word in words if word != "--raw"]
    line = os.environ.get(LINE_VARIABLE)
    if line and not any(word.partition("=")[0] == "--line" for word in rest):
        rest += ["--line", line]
    try:
        chosen = commands.parser(Parser, f"{PROGRAM} --raw").parse_args(rest)
    except Failure as failure:
        text = str(failure).partition("; try ")[0]
        Output(False).note(f"{text}; with --raw, a PID and its data are bytes in hexadecimal")
        return failure.status
    return commands.run(chosen)


def check_command(words: Sequence[str]) -> None:
    """Raises Failure if there is no such command."""
    if words and not words[0].startswith("-") and words[0] not in COMMANDS:
        parser().error(f"there is no command '{words[0]}'{hint(words[0], COMMANDS)}")


def parser(words: Sequence[str] = ()) -> Parser:
    """The parser of the arguments."""
    return parser_of(COMMANDS, words, prog=PROGRAM,
                     description="Finds RDM devices, and reads and changes what they have.")


def parser_of(named: Mapping[str, Callable[[Any, str], None]], words: Sequence[str], **keys: Any) -> Parser:
    """A parser of commands. If the words begin with one, the others aren't made, which would take their time."""
    whole = Parser(**keys)
    # With its name, no usage is made for it.
    made = whole.add_subparsers(dest="command", required=True, metavar="COMMAND", parser_class=Parser, prog=whole.prog)
    for name in words[:1] if words and words[0] in named else named:
        named[name](made, name)
    return whole


def add_command(made: Any, name: str, text: str, example: str, run_name: str, needs_line: bool = True) -> Parser:
    """A command. Its code is loaded when it runs."""
    command: Parser = made.add_parser(name, help=text, description=f"{text[0].upper()}{text[1:]}.",
                                      epilog=f"example: {PROGRAM} {example}")
    command.set_defaults(run=lambda chosen, output: loaded(run_name)(chosen, output))
    command.add_argument("--json", action="store_true", help="print one JSON object a line")
    if needs_line:
        command.add_argument("--line", metavar="LINE", help=f"{FORMS}; WURSTLINEN_LINE if absent")
        command.add_argument("--source", type=commands.device, metavar="UID", help="the controller's UID")
        command.add_argument("--wait", type=commands.some_seconds, default=commands.DEFAULT_WAIT, metavar="SECONDS",
                             help="how long to wait for devices that need time (10)")
        commands.add_wait_line(command)
        add_frames(command)
    return command


def add_frames(command: Parser) -> None:
    """How frames are shown."""
    command.add_argument("--frames", action="store_const", const=AS_TEXT,
                         help=f"show the frames and replies; {FRAMES_AS_BYTES} also their bytes")
    command.add_argument(HIDDEN_FRAMES, dest="frames", action="store_const", const=AS_BYTES, help=argparse.SUPPRESS)


def loaded(run_name: str) -> Runner:
    """The function of a command, as PACKAGE.MODULE.NAME."""
    module, _, name = run_name.rpartition(".")
    found: Runner = getattr(importlib.import_module(f"..{module}", __package__), name)
    return found


def add_get(made: Any, name: str) -> None:
    """The arguments of get."""
    command = add_command(made, name, "read parameters of a device, or of all", "get 1234:00000001 device_label",
                          "front.requests.run_get")
    add_request(command, uid_or_all, "UID|all", "for a parameter that is read by a number, such as a sensor's; then "
                                                "further parameters")


def add_set(made: Any, name: str) -> None:
    """The arguments of set."""
    command = add_command(made, name, "change a parameter of a device", "set 1234:00000001 dmx_start_address 17",
                          "front.requests.run_set")
    add_request(command, commands.uid, "UID", "the new values; numbers are decimal, or hexadecimal after 0x")


def uid_or_all(text: str) -> Union[int, str]:
    """An argument that is a UID, or the word for all devices."""
    return text if text == ALL else commands.uid(text)


def add_request(command: Parser, kind: Callable[[str], Any], name: str, text: str) -> None:
    """What get and set have in common."""
    command.add_argument("uid", type=kind, metavar=name)
    command.add_argument("parameter", metavar="PARAMETER", help=f"a name or a number; '{PROGRAM} pids' lists them")
    command.add_argument("values", nargs="*", default=[], metavar="VALUE", help=text)
    command.add_argument("--sub", type=commands.sub_device, default=0, metavar="N", help="the sub-device, 0 to 65535")
    command.add_argument("--raw", action="store_true",
                         help="PARAMETER and VALUE are bytes in hexadecimal, and so is what is printed")


def add_identify(made: Any, name: str) -> None:
    """The arguments of identify."""
    command = add_command(made, name, "let a device show which one it is", "identify 1234:00000001 on",
                          "front.requests.run_identify")
    command.add_argument("uid", type=commands.uid, nargs="?", metavar="UID")
    command.add_argument("state", nargs="?", choices=("on", "off"), default="on", metavar="on|off")
    command.add_argument("--each", action="store_true", help="step through all devices, by the Enter key")


def add_pids(made: Any, name: str) -> None:
    """The arguments of pids."""
    command = add_command(made, name, "list the parameters, or explain one", "pids dmx_start_address",
                          "front.pids.run_pids", needs_line=False)
    command.add_argument("name", nargs="?", metavar="NAME", help="a parameter, or a part of names")


def add_show(made: Any, name: str) -> None:
    """The arguments of show."""
    command = add_command(made, name, "show all that a device supports, or each device", "show 1234:00000001",
                          "front.showing.run_show")
    command.add_argument("uid", type=commands.device, nargs="?", metavar="UID", help="each device if absent")


def add_fixtures(made: Any, name: str) -> None:
    """The arguments of fixtures."""
    command = add_command(made, name, "list the devices on the line with their addresses and labels", "fixtures",
                          "front.fixtures.run_fixtures")
    add_log(command)


def add_log(command: Parser) -> None:
    """Where the log of a discovery goes."""
    command.add_argument("--log", metavar="LOG", help="a file for the discovery's exchanges, which is replaced; "
                                                      f"'{PROGRAM} explain' reads it")


def add_save(made: Any, name: str) -> None:
    """The arguments of save."""
    command = add_command(made, name, "write the devices' labels, addresses and personalities to a file",
                          "save rig.csv", "front.csv_files.run_save")
    command.add_argument("file", metavar="FILE", help="a file of comma-separated values; - is standard output")


def add_apply(made: Any, name: str) -> None:
    """The arguments of apply."""
    command = add_command(made, name, "change devices so that they are as a file says", "apply rig.csv --dry-run",
                          "front.applying.run_apply")
    command.add_argument("file", metavar="FILE", help="a file as save writes it; - is standard input")
    command.add_argument("--dry-run", action="store_true", help="show the changes, and make none")
    command.add_argument("--force", action="store_true",
                         help="change addresses and personalities even if slots overlap or end after 512 then")


def add_check(made: Any, name: str) -> None:
    """The arguments of check."""
    command = add_command(made, name, "compare the devices on the line with a file", "check rig.csv",
                          "front.checking.run_check")
    command.add_argument("file", metavar="FILE", help="a file as save writes it; - is standard input")
    add_log(command)


def add_patch(made: Any, name: str) -> None:
    """The arguments of patch."""
    command = add_command(made, name, "give the devices of a file addresses without overlaps",
                          "patch rig.csv --from 1 --order label", "front.patching.run_patch", needs_line=False)
    command.add_argument("file", metavar="FILE",
                         help="a file as save writes it, which is replaced; - is standard input and output")
    command.add_argument("--from", dest="first", type=slot, required=True, metavar="N", help="the first address")
    command.add_argument("--order", choices=("file", "label", "uid"), default="file",
                         help="which device comes first; as in the file if absent")
    command.add_argument("--to", metavar="OTHER", help="a file for the table, in place of FILE; - is standard output")


def add_trace(made: Any, name: str) -> None:
    """The arguments of trace."""
    command = add_command(made, name, "decode the frames of a log", "trace session.log", "front.trace.run_trace",
                          needs_line=False)
    command.add_argument("file", metavar="FILE", help="what --log has written; - is standard input")
    add_frames(command)


def slot(text: str) -> int:
    """An argument that is a DMX slot."""
    return commands.number_to(text, 1, LAST_SLOT)


# In the order of work.
COMMANDS: Dict[str, Callable[[Any, str], None]] = {
    "fixtures": add_fixtures,
    "show": add_show,
    "identify": add_identify,
    "save": add_save,
    "check": add_check,
    "patch": add_patch,
    "apply": add_apply,
    "get": add_get,
    "set": add_set,
    "pids": add_pids,
    "trace": add_trace,
}
