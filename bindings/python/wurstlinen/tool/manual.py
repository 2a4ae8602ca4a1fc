"""Manual pages and the completion of bash, made from the arguments of all commands.

usage: python3 -m wurstlinen.tool.manual FOLDER
"""
from __future__ import annotations

import argparse
import re
import sys
from pathlib import Path
from typing import Dict, List

from ..parameters import STANDARD
from ..parameters.fields import Flag
from . import arguments

STATUSES = (("0", "It was done."), ("1", "The line failed, or no device answered."), ("2", "The arguments are wrong."),
            ("3", "A device refused it, or check found a difference."), ("130", "It was interrupted."))
ENVIRONMENT = (("WURSTLINEN_LINE", "The line that is used without --line."),
               ("WURSTLINEN_LIBRARY", "The C library, if it isn't where it is installed."))
# The commands that take names of parameters, and which of their words they are.
PARAMETERS = 'words="$parameters"'
NAMING = {"get": f'[ "$COMP_CWORD" -lt "$first" ] || {PARAMETERS}', "pids": f'[ "$COMP_CWORD" -ne 2 ] || {PARAMETERS}',
          "set": f'case $((COMP_CWORD - first)) in 0) {PARAMETERS} ;; 1) words="$values" ;; esac'}


def subcommands() -> Dict[str, argparse.ArgumentParser]:
    """The parsers of all commands, by their names."""
    found, = (action for action in arguments.parser()._actions if isinstance(action, argparse._SubParsersAction))
    return dict(found.choices)


def shown(command: argparse.ArgumentParser) -> List[argparse.Action]:
    """The arguments of a command that its help has."""
    return [action for action in command._actions if action.help != argparse.SUPPRESS]


def escaped(text: str) -> str:
    """A text as troff has it."""
    text = text.replace("\\", "\\e").replace("-", "\\-")
    return re.sub(r"^([.'])", r"\\&\1", text, flags=re.M)


def page() -> str:
    """The manual page of the whole."""
    lines = ['.TH WURSTLINEN 1 "" "Wurstlinen" "User Commands"', ".SH NAME",
             "wurstlinen \\- finds RDM devices, and reads and changes what they have", ".SH SYNOPSIS",
             ".B wurstlinen", "COMMAND [ARGUMENT ..]", ".SH DESCRIPTION", escaped(arguments.DESCRIPTION),
             "Its queue and its discovery are proved.", ".SH COMMANDS"]
    for name, command in subcommands().items():
        lines += section(name, command)
    for title, entries in (("EXIT STATUS", STATUSES), ("ENVIRONMENT", ENVIRONMENT)):
        lines += [f".SH {title}", *(line for entry in entries for line in item(*entry))]
    lines += [".SH SEE ALSO", "rdm_port(1)"]
    return "\n".join(lines) + "\n"


def section(name: str, command: argparse.ArgumentParser) -> List[str]:
    """The part of a command."""
    usage = re.sub(r"\s+", " ", command.format_usage()).partition(name)[2]
    lines = [f".SS {name}{escaped(usage).rstrip()}", escaped(command.description or "")]
    for action in shown(command):
        if action.help and not isinstance(action, argparse._HelpAction):
            lines += item(title_of(action), action.help)
    if command.epilog:
        example = command.epilog.partition(": ")[2]
        lines += [".PP", "Example:", ".nf", f".B {escaped(example)}", ".fi"]
    return lines


def title_of(action: argparse.Action) -> str:
    """What an argument is called."""
    name = action.metavar if isinstance(action.metavar, str) else action.dest.upper()
    if not action.option_strings:
        return name
    value = "" if action.nargs == 0 else f" {name if action.choices is None else '|'.join(action.choices)}"
    return f"{', '.join(action.option_strings)}{value}"


def item(name: str, text: str) -> List[str]:
    """An entry of a list."""
    return [".TP", f".B {escaped(name)}", escaped(text)]


def program_page() -> str:
    """The manual page of the proved program."""
    lines = ['.TH RDM_PORT 1 "" "Wurstlinen" "User Commands"', ".SH NAME",
             "rdm_port \\- the proved program of wurstlinen", ".SH SYNOPSIS", ".B rdm_port", "COMMAND ARGUMENT ..",
             ".SH DESCRIPTION",
             "It has the commands decode, encode, discover, run and explain, with lines that are streams.",
             "If it has no result, its status is 1 or 2. wurstlinen calls it.", ".SH SEE ALSO",
             "wurstlinen(1)"]
    return "\n".join(lines) + "\n"


def values() -> List[str]:
    """What completes the first value of a SET: a case for each parameter that has names for it."""
    cases = []
    for each in STANDARD.parameters:
        first = each.set.request[0] if each.set and each.set.request else None
        names = ("no", "yes") if isinstance(first, Flag) else getattr(first, "labels", {}).values()
        cases += [f"        {each.name}) values='{' '.join(names)}' ;;"] if names else []
    return cases


def completion() -> str:
    """The completion for bash. Where nothing fits, bash completes files."""
    commands = subcommands()
    parameters = " ".join(each.name for each in STANDARD.parameters)
    cases = [f"        help) words='{' '.join(commands)}' ;;"]
    of_devices = " ".join(name for name, command in commands.items()
                          if any(action.dest == "uid" for action in command._actions))
    for name, command in commands.items():
        options = [option for action in shown(command) for option in action.option_strings]
        named = (action for action in command._actions if not action.option_strings)
        choices = [choice for action in named for choice in action.choices or ()]
        words = NAMING.get(name, f"words='{' '.join(choices)}'")
        cases.append(f"        {name}) {words}; options='{' '.join(options)}' ;;")
    return "\n".join([
        "# Completes the arguments of wurstlinen in bash.", "_wurstlinen() {",
        '    local words="" options="" values="" word="${COMP_WORDS[COMP_CWORD]}"',
        f"    local parameters='{parameters}'",
        "    # Bash divides a UID at its colon.", '    local first=3; [ "${COMP_WORDS[3]}" != : ] || first=5',
        '    case "${COMP_WORDS[first]}" in', *values(), "    esac",
        '    case "${COMP_WORDS[1]}" in', *cases, "    esac",
        f"    [ \"$COMP_CWORD\" -gt 1 ] || words='{' '.join(commands)} help version' options='--help --version'",
        "    # A server knows the UIDs that it has found.",
        '    if [ "$COMP_CWORD" -eq 2 ] || [[ "${COMP_WORDS[3]}" = : && "$COMP_CWORD" -lt 5 ]]; then',
        f'        if [[ " {of_devices} " = *" ${{COMP_WORDS[1]}} "* ]]; then',
        '            printf -v word %s "${COMP_WORDS[@]:2:COMP_CWORD-1}"',
        '            words="$("${COMP_WORDS[0]}" completion bash --uids 2> /dev/null)"', "        fi", "    fi",
        '    [[ "$word" != -* ]] || words="$options"',
        '    mapfile -t COMPREPLY < <(compgen -W "$words" -- "$word")',
        '    COMPREPLY=("${COMPREPLY[@]#"${word%"${word##*:}"}"}")', "}",
        "complete -o default -F _wurstlinen wurstlinen"]) + "\n"


def main() -> int:
    """Writes all of it into a folder."""
    folder = Path(sys.argv[1])
    folder.mkdir(parents=True, exist_ok=True)
    for name, text in (("wurstlinen.1", page()), ("rdm_port.1", program_page()), ("wurstlinen.bash", completion())):
        (folder / name).write_text(text, encoding="utf-8")
    return 0


if __name__ == "__main__":
    sys.exit(main())
