"""The arguments of all commands, from which help, manual pages and completions are made."""
from __future__ import annotations

import argparse
from typing import Any, Callable, Dict, Sequence

from .. import commands
from ..front.main import COMMANDS as FRONT_COMMANDS
from ..front.main import PROGRAM, Parser, add_command, parser_of
from ..front.output import DONE, Output
from ..lines.opening import FORMS

DEFAULT_PORT = 8573
MOST_PORT = 65_535
DESCRIPTION = "Finds RDM devices, reads and changes what they have, and works on simulated lines."


def parser(words: Sequence[str] = ()) -> Parser:
    """The parser of the arguments of all commands, or of the one that the words begin with."""
    return parser_of(COMMANDS, words, prog=PROGRAM, description=DESCRIPTION,
                     epilog=f"'{PROGRAM} COMMAND --help' says more; '{PROGRAM} --version' says what was proved")


def add_proved(made: Any, name: str, text: str, example: str) -> Parser:
    """A command of the proved program, which reads the arguments itself."""
    command: Parser = made.add_parser(name, help=text, description=f"{text[0].upper()}{text[1:]}.",
                                      epilog=f"example: {PROGRAM} {example}")
    return command


def add_decode(made: Any, name: str) -> None:
    """The arguments of decode."""
    command = add_proved(made, name, "say what the bytes of a reply to a discovery branch say",
                         "decode fefefefefefefeaafa7ffa75aa55aa55aa55ab55ae57eff5")
    command.add_argument("bytes", metavar="HEX", help="in hexadecimal")


def add_encode(made: Any, name: str) -> None:
    """The arguments of encode."""
    command = add_proved(made, name, "print the reply of a device to a discovery branch", "encode 7a70:00000001")
    command.add_argument("uid", metavar="UID")


def add_discover(made: Any, name: str) -> None:
    """The arguments of discover."""
    command = add_proved(made, name, "find the devices on a line, or on the simulated line of a scene file",
                         "discover --line enttec:/dev/ttyUSB0")
    command.add_argument("file", nargs="?", metavar="FILE", help="a scene file")
    add_line(command)
    command.add_argument("--source", metavar="UID", help="the controller's UID")
    command.add_argument("--known", metavar="UID", help="a device that --incremental mutes first")
    command.add_argument("--incremental", action="store_true", help="keep known devices that answer")
    command.add_argument("--quick", action="store_true", help="sweep before searching, as without FILE")
    command.add_argument("--steady", action="store_true", help="search without a sweep, as in a scene file")
    add_json(command)
    command.add_argument("--budget", metavar="N", help="the most frames to send")
    command.add_argument("--log", metavar="LOG", help="a file for the exchanges, which is replaced")


def add_run(made: Any, name: str) -> None:
    """The arguments of run."""
    command = add_proved(made, name, "run the clients of a session file", "run session.json --log session.log")
    command.add_argument("file", metavar="FILE", help="a session file")
    add_line(command)
    command.add_argument("--port", choices=("locked", "rings"), help="how the clients share the session")
    add_json(command)
    command.add_argument("--log", metavar="LOG", help="a file for the log, which is replaced")


def add_json(command: Parser) -> None:
    """How results are printed."""
    command.add_argument("--json", action="store_true", help="print one JSON object a line")


def add_explain(made: Any, name: str) -> None:
    """The arguments of explain."""
    command = add_proved(made, name, "say which devices broke the rules, by a log",
                         "explain session.log --page session.html")
    command.add_argument("file", metavar="LOG", help="a log that discover or run wrote")
    command.add_argument("--present", metavar="UID", action="append", help="a device that was on the line")
    command.add_argument("--rig", metavar="FILE", help="a scene file with devices that were on the line")
    command.add_argument("--json", action="store_true", help="print one JSON object")
    command.add_argument("--page", metavar="FILE", help="an HTML file for a picture, which is replaced")
    command.add_argument("--names", metavar="FILE", help="a file of save, whose labels the page has beside UIDs")


def add_line(command: Parser) -> None:
    """Where the frames go."""
    command.add_argument("--line", metavar="LINE", help=f"{FORMS}; or a stream that another program serves")
    command.add_argument("--replies", metavar="IN", help="the stream of that program's replies")
    commands.add_wait_line(command)
    command.add_argument("--frames", action="store_true", help="show the frames and replies")


def add_adapters(made: Any, name: str) -> None:
    """The arguments of adapters."""
    add_command(made, name, "list the USB adapters that are plugged in", "adapters", "tool.adapters.run_adapters",
                needs_line=False)


def add_doctor(made: Any, name: str) -> None:
    """The arguments of doctor."""
    command = add_command(made, name, "say what is missing on this machine", "doctor", "tool.doctor.run_doctor",
                          needs_line=False)
    # It looks at a line that isn't there, too.
    command.add_argument("--line", dest="named", metavar="LINE",
                         help="also look at this line; WURSTLINEN_LINE if absent")
    # What the script in the repository adds.
    command.add_argument("--also", nargs=2, action="append", default=[], help=argparse.SUPPRESS)


def add_completion(made: Any, name: str) -> None:
    """The arguments of completion."""
    command = add_command(made, name, "print what completes the commands in a shell", "completion bash",
                          "tool.arguments.run_completion", needs_line=False)
    command.add_argument("shell", choices=("bash",), metavar="bash")
    # What completes asks for them.
    command.add_argument("--uids", action="store_true", help=argparse.SUPPRESS)


def run_completion(chosen: argparse.Namespace, output: Output) -> int:
    """Prints the completion, or the devices that the line's server has found."""
    if chosen.uids:
        from .shared_discovery import known_devices
        output.result(known_devices())
        return DONE
    # It is made from these arguments.
    from .manual import completion
    text = completion()
    output.result(text.splitlines(), shell=chosen.shell, completion=text)
    return DONE


def add_bridge(made: Any, name: str) -> None:
    """The arguments of bridge."""
    commands.add_bridge(made)
    made.choices[name].epilog = f"example: {PROGRAM} bridge --line enttec:/dev/ttyUSB0"


def add_serve(made: Any, name: str) -> None:
    """The arguments of serve."""
    command = add_command(made, name, "have a line, and share it with up to sixteen programs of this user",
                          "serve --line enttec:/dev/ttyUSB0 &", "tool.sharing.run_serve", needs_line=False)
    command.add_argument("--line", metavar="LINE", help=f"{FORMS}; WURSTLINEN_LINE if absent")
    command.add_argument("--source", type=commands.device, metavar="UID", help="the controller's UID")
    command.add_argument("--log", metavar="LOG", help="a file to add all that is done to; at 100 MB it becomes LOG.1")
    command.add_argument("--idle", type=commands.some_seconds, metavar="SECONDS",
                         help="end when nobody was connected for so long")
    command.add_argument("--group", metavar="NAME", help="share it with the users of this group, in /run/wurstlinen")
    commands.add_wait_line(command)


def add_web(made: Any, name: str) -> None:
    """The arguments of web."""
    command = add_command(made, name, "show the fixtures as a page for browsers and phones, where they can be set up",
                          "web --allow-network", "web.running.run_web", needs_line=False)
    command.add_argument("--line", metavar="LINE", help=f"{FORMS}; WURSTLINEN_LINE if absent")
    command.add_argument("--port", type=port, default=DEFAULT_PORT, metavar="N",
                         help=f"the port of the page ({DEFAULT_PORT}); 0 is any that is free")
    command.add_argument("--allow-network", action="store_true",
                         help="let other machines in, such as phones; else only this one may use the page")
    command.add_argument("--new-tokens", action="store_true", help="make new addresses, and close the old ones")
    commands.add_wait_line(command)


def port(text: str) -> int:
    """An argument that is the number of a port."""
    return commands.number_to(text, 0, MOST_PORT)


def add_rig(made: Any, name: str) -> None:
    """The arguments of rig."""
    commands.add_rig(made)
    made.choices[name].epilog = f"example: {PROGRAM} rig five_fixtures.json"


# The commands of the proved program, of lines, and all in the order of work, each with what adds its arguments.
PROVED: Dict[str, Callable[[Any, str], None]] = {
    "discover": add_discover,
    "explain": add_explain,
    "run": add_run,
    "decode": add_decode,
    "encode": add_encode,
}
OF_LINES: Dict[str, Callable[[Any, str], None]] = {
    "rig": add_rig,
    "bridge": add_bridge,
}
COMMANDS: Dict[str, Callable[[Any, str], None]] = {
    "doctor": add_doctor,
    "adapters": add_adapters,
    **FRONT_COMMANDS,
    "serve": add_serve,
    "web": add_web,
    **PROVED,
    **OF_LINES,
    "completion": add_completion,
}
