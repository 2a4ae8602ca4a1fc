"""Which part does a command: the proved program, the package `front`, or the commands of lines."""
from __future__ import annotations

import argparse
import contextlib
import os
import signal
import sys
from types import FrameType
from typing import TYPE_CHECKING, Iterator, List, Optional, Sequence, Tuple, Union

from .. import commands
from .._endings import end_by
from .._standard_streams import finish, mend
from ..front import main as front
from ..front.main import AS_BYTES, AS_TEXT, PROGRAM
from ..front.main import run as run_chosen
from ..front.opening import OLA, failures_of_lines, served
from ..front.output import BAD_ARGUMENTS, DONE, FAILED, INTERRUPTED, LINE_VARIABLE, Failure, Output
from ..lines.opening import FORMS, is_device
from ..lines.waiting import DEFAULT_SECONDS
from ..parameters.words import hint
from . import arguments, places
from .places import NO_PROGRAM

if TYPE_CHECKING:
    from ..olad.client import OlaClient
    from ..shared.client import SharedClient

VERSION_WORDS = ("version", "--version", "-V")
HELP_WORDS = ("-h", "--help")
WAIT_LINE = "--wait-line"
# The options with a value.
VALUED = (WAIT_LINE, "--line", "--replies", "--source", "--known", "--budget", "--port", "--log", "--present", "--rig",
          "--page", "--names")
FRAMES = "--frames"
PAGE, NAMES = "--page", "--names"
JSON = "--json"
STEADY, QUICK = "--steady", "--quick"
# The most bytes of the first record of a log that are read.
MOST_RECORD = 4096
# What the program answers to wrong words.
WRONG_WORDS = "fault: command line"
# Python ignores these, and a program that it becomes would, too.
IGNORED = (signal.SIGPIPE, signal.SIGXFSZ)


def run() -> int:
    """The command with the arguments of this process."""
    mend()
    # A shell makes background jobs ignore SIGINT.
    signal.signal(signal.SIGINT, signal.default_int_handler)
    end_by(end, signal.SIGTERM, signal.SIGHUP)
    try:
        # Who waits for its line says what this process is called, which would be Python.
        with contextlib.suppress(OSError), open("/proc/self/comm", "w", encoding="ascii") as name:
            name.write(PROGRAM)
        places.name_library()
        return finish(main(sys.argv[1:]))
    except Failure as failure:
        command = sys.argv[1] if len(sys.argv) > 1 else ""
        Output("--json" in sys.argv, commands.errors_of(command)).failure(failure)
        return failure.status
    except KeyboardInterrupt:
        return INTERRUPTED
    except BrokenPipeError:
        return finish(FAILED)
    except OSError as fault:
        Output(False).note(str(fault.strerror))
        return finish(FAILED)


def end(number: int, frame: Optional[FrameType]) -> None:
    """Ends a command in such a way that its line is closed."""
    sys.exit(128 + number)


def main(words: Sequence[str]) -> int:
    """Runs a command, and returns its status. Raises Failure."""
    command = words[0] if words else ""
    if command in VERSION_WORDS:
        print(places.version_line(), flush=True)
        return DONE
    if command == "help":
        words = [*words[1:2], "--help"]
        command = words[0]
    if command in arguments.PROVED and not asks_for_help(words):
        return run_proved(list(words))
    if command in arguments.OF_LINES and not asks_for_help(words):
        return commands.run(arguments.parser(words).parse_args(words))
    if command.startswith("-") and command not in HELP_WORDS:
        arguments.parser().error(f"there is no option '{command}'; options come after the command")
    if command and command not in HELP_WORDS and command not in arguments.COMMANDS:
        arguments.parser().error(f"there is no command '{command}'{hint(command, arguments.COMMANDS)}")
    if "--raw" in words:
        os.environ[LINE_VARIABLE] = option(words, "--line") or default_line()
        return front(words)
    chosen = arguments.parser(words).parse_args(words)
    if "line" in chosen and not chosen.line:
        chosen.line = default_line()
    return run_chosen(chosen, Output(chosen.json))


def default_line() -> str:
    """The line that is used if no argument names one. Raises Failure."""
    line = os.environ.get(LINE_VARIABLE)
    if line:
        return line
    from .adapters import chips, choose
    return choose(chips())


def asks_for_help(words: Sequence[str]) -> bool:
    """Whether an option asks for help."""
    options = words[:words.index("--")] if "--" in words else words
    return any(word in HELP_WORDS for word in options)


def run_proved(words: List[str]) -> int:
    """Runs a command of the proved program: on a line that is served here, or else in the place of this process."""
    program = places.program()
    if program is None:
        return no_program(f"'{words[0]}'")
    # A command that does without it doesn't load it.
    from . import serving
    if words[0] == "explain":
        return run_explain(program, words)
    is_json = words[0] in ("discover", "run") and place_of(words, JSON) is not None
    words = without(words, JSON) if is_json else words
    line = option(words, "--line")
    if words[0] == "discover" and place_of(words, "--line") is None and not has_file(words):
        line = line_of_discovery()
    elif words[0] == "discover" and line and not serving.is_served(line) and not is_stream(words):
        line = line if line.startswith(OLA) else line_of_device(line)
    elif words[0] not in ("discover", "run") or not serving.is_served(line):
        return run_alone(program, words, is_json)
    assert line is not None
    waits, frames = wait_line_of(words), frames_of(words)
    words = without(without(without(words, "--line"), FRAMES), WAIT_LINE)
    if words[0] == "discover":
        with failures_of_lines():
            client = served(line, None, Output(is_json))
        if client is not None:
            return discover_shared(client, words, frames, is_json)
        words = searched(words)
    return serving.serve(program, words, line, frames, waits, is_json, option(words, "--log"))


def run_alone(program: str, words: List[str], is_json: bool) -> int:
    """A command that needs no line of this process. What it prints is its own, unless JSON is wanted."""
    if words[0] == "discover" and place_of(words, STEADY) is not None:
        words = searched(words)
    if not is_json:
        return become(program, words)
    from .reporting import translated
    return translated(program, words, Output(True))


def searched(words: List[str]) -> List[str]:
    """The words of a discovery as the program has them, which searches steadily without more. Raises Failure."""
    is_steady, is_quick = (place_of(words, name) is not None for name in (STEADY, QUICK))
    if is_steady and is_quick:
        print(WRONG_WORDS, flush=True)
        raise Failure(BAD_ARGUMENTS, f"{STEADY} and {QUICK} exclude each other", reason="arguments")
    if is_steady:
        return without(words, STEADY)
    return words if is_quick else [words[0], QUICK, *words[1:]]


def discover_shared(client: Union[SharedClient, OlaClient], words: Sequence[str], frames: Optional[str],
                    is_json: bool) -> int:
    """A discovery by who has a line. Raises Failure."""
    from .shared_discovery import discover
    with client:
        source = str(client.queue.source)
        known = {QUICK: None, "--log": None, "--source": source}
        for at, name in parts(words):
            if name not in known or known[name] not in (None, (option(words, name) or "").lower()):
                print(WRONG_WORDS, flush=True)
                raise Failure(BAD_ARGUMENTS, f"{client.queue.holder} has this line, and searches it in its own way: "
                                             f"leave out {words[at]}", reason="arguments")
        return discover(client, option(words, "--log"), frames, Output(is_json))


def wait_line_of(words: Sequence[str]) -> float:
    """How long another program may have the line. Raises Failure."""
    if place_of(words, WAIT_LINE) is None:
        return DEFAULT_SECONDS
    try:
        return commands.some_seconds(option(words, WAIT_LINE) or "")
    except argparse.ArgumentTypeError as fault:
        print(WRONG_WORDS, flush=True)
        raise Failure(BAD_ARGUMENTS, f"argument {WAIT_LINE}: {fault}", reason="arguments") from None


def note_other_log(name: str) -> None:
    """Says which of the two logs of the library for OLA is to be explained, if it is given the other one."""
    if is_other_log(name):
        Output(False).note(f"{name} is the log of WURSTLINEN_LOG, which '{PROGRAM} trace' reads; explain reads the "
                           "file of WURSTLINEN_RUNS")


def is_other_log(name: str) -> bool:
    """Whether a file begins with a record of OLA's library that has two times."""
    try:
        # A FIFO can be read only once.
        if not os.path.isfile(name):
            return False
        with open(name, "rb") as file:
            return b'"monotonic":' in file.readline(MOST_RECORD)
    except OSError:
        return False


def run_explain(program: str, words: List[str]) -> int:
    """Explains a log, and writes a page about it if one is wanted. Raises Failure."""
    page, has_page = option(words, PAGE), place_of(words, PAGE) is not None
    if has_page and not page:
        print(WRONG_WORDS, flush=True)
        raise Failure(BAD_ARGUMENTS, f"argument {PAGE}: expected one argument; try 'wurstlinen explain --help'",
                      reason="arguments")
    names, words = option(words, NAMES), without(without(words, PAGE), NAMES)
    files = [words[at] for at, name in parts(words) if not name]
    for name in files[:1]:
        note_other_log(name)
    if not page:
        return run_alone(program, words, False)
    from . import explaining
    return explaining.explain(program, words, page, [*files, *filter(None, [option(words, "--rig"), names])], names)


def line_of_discovery() -> str:
    """The line of a discovery whose words name neither a line nor a file. Raises Failure."""
    try:
        return default_line()
    except Failure:
        print(WRONG_WORDS, flush=True)
        raise


def frames_of(words: Sequence[str]) -> Optional[str]:
    """How frames are to be shown; None if they aren't. Raises Failure."""
    at = place_of(words, FRAMES)
    value = None if at is None else words[at].partition("=")[2] or AS_TEXT
    if value not in (None, AS_TEXT, AS_BYTES):
        print(WRONG_WORDS, flush=True)
        raise Failure(BAD_ARGUMENTS, f"argument {FRAMES}: '{value}' isn't {AS_BYTES}", reason="arguments")
    return value


def is_stream(words: Sequence[str]) -> bool:
    """Whether the words of a discovery are for a line that another program serves: that one needs a source."""
    return has_file(words) or any(place_of(words, name) is not None for name in ("--source", "--replies"))


def line_of_device(text: str) -> str:
    """The line on a device that --line names without saying its kind. Raises Failure."""
    if is_device(text):
        return f"enttec:{text}"
    print(WRONG_WORDS, flush=True)
    raise Failure(BAD_ARGUMENTS, f"'{text}' names no line; a line is {FORMS}, or with --source a stream that another "
                                 "program serves", reason="line")


def no_program(what: str) -> int:
    """Says that the proved program isn't there."""
    print(f"wurstlinen: {what} needs the proved program, which isn't installed here: it is in the Debian package "
          f"wurstlinen, in the wheel and in the .tar.gz; {places.PROGRAM_VARIABLE} may name it", file=sys.stderr)
    return NO_PROGRAM


def run_program() -> int:
    """The proved program alone, with the arguments of this process."""
    program = places.program()
    return no_program("rdm_port") if program is None else become(program, sys.argv[1:])


def become(program: str, words: Sequence[str]) -> int:
    """Runs the proved program in the place of this process."""
    for number in IGNORED:
        signal.signal(number, signal.SIG_DFL)
    try:
        os.execv(program, ["wurstlinen", *words])
    except OSError as fault:
        print(f"wurstlinen: {program}: {fault.strerror}", file=sys.stderr)
        return NO_PROGRAM


def parts(words: Sequence[str]) -> Iterator[Tuple[int, str]]:
    """Where the options of a command are, with their names, and its files, with an empty name."""
    is_value = is_over = False
    for at, word in enumerate(words[1:], 1):
        name, equals, _ = word.partition("=")
        if is_value:
            is_value = False
        elif is_over or not word.startswith("-"):
            yield at, ""
        elif word == "--":
            is_over = True
        else:
            is_value = name in VALUED and not equals
            yield at, name


def place_of(words: Sequence[str], wanted: str) -> Optional[int]:
    """Where the first option of a name is."""
    return next((at for at, name in parts(words) if name == wanted), None)


def option(words: Sequence[str], name: str) -> Optional[str]:
    """The value of an option, as NAME VALUE or NAME=VALUE."""
    at = place_of(words, name)
    if at is None:
        return None
    _, equals, value = words[at].partition("=")
    following = words[at + 1:at + 2]
    return value if equals else following[0] if following else None


def without(words: Sequence[str], name: str) -> List[str]:
    """The words without the first option of a name, and its value."""
    at = place_of(words, name)
    if at is None:
        return list(words)
    has_value = name in VALUED and "=" not in words[at]
    return [*words[:at], *words[at + (2 if has_value else 1):]]


def has_file(words: Sequence[str]) -> bool:
    """Whether one of the words after the command is a file."""
    return any(not name for _, name in parts(words))
