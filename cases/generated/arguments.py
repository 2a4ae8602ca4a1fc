"""Arguments that nobody meant. All of them read the same scene, whatever its name is."""
from __future__ import annotations

from typing import Iterator, Tuple

from ..checker.case import Case, Expected, File, arguments_of, prints
from ..checker.forms import fault_or_answer
from .commands import NO_FILE
from .numbers import Random
from .objects import FULL_SCENE, SCENE, scene_text

NO_COMMAND = "fault: command line\n"
NO_HEX = "fault: hex\n"
NO_UID = "fault: uid\n"
NO_SCENE = "fault: scene\n"

# Texts that aren't bytes: of an odd number of digits, or with other characters.
NO_BYTES = ("f", "fff", "-", "0x00", "fe fe", " fe", "fe\n", "+f", "fefg", "gg", "\u00e9", "\uff46\uff45",
            "f\u00e9f", "\U0010ffff")
# Texts that aren't UIDs: of another length, without the colon, or with other characters.
NO_UIDS = ("", "-", "7a70:0000001", "7a70:000000001", "7a70-00000001", "7a700000:0001", "7a7:000000001",
           "7a70:0000000g", "g a70:0000001", "7a70:+0000001", "7a70: 0000001", "7a70:0000001\n", "7a70:000000\u00e9",
           "\u00e970:00000001", "7a70:\uff1000000")
# Arguments, between bars, that ask for something after all, and ones with `--` and `-`; and what is printed. A scene is
# no session, and no file has an empty name.
ASKED = (
    ("decode|", "silent\n"),
    ("decode|--|", "silent\n"),
    ("decode|--|fe", "collision\n"),
    ("decode|-", NO_HEX),
    ("decode|--|-", NO_HEX),
    ("decode|--|--", NO_HEX),
    ("decode|--|--help", NO_HEX),
    ("encode|-", NO_UID),
    ("encode|--|--", NO_UID),
    ("encode|--|--version", NO_UID),
    ("discover|-", FULL_SCENE),
    ("discover|", NO_FILE),
    ("discover|--|--incremental", FULL_SCENE),
    ("discover|--incremental|--|--quick", SCENE),
    ("discover|discover", FULL_SCENE),
    ("run|--|--port", NO_SCENE),
    ("run|--port|rings|--|--port=locked", NO_SCENE),
    ("run|--port=rings|-", NO_SCENE),
)

# Arguments that fit no command.
FITTING_NONE = """\
-
--
-|-
--|--
decode
decode|--
decode|-f
decode|-fe
decode|--fe
decode|---
decode|fe|--|fe
decode||
decode|-|-
decode|fe|--quick
decode|--port|locked|fe
decode |fe
 decode|fe
DECODE|fe
encode
encode|--
encode|7a70:00000001|7a70:00000001
encode|7a70:00000001|--incremental
encode|--uid|7a70:00000001
discover|--
discover|--incremental
discover|f|f
discover|f|--incremental=true
discover|f|--incremental=false
discover|f|--inc
discover|f|--QUICK
discover|f|-q
discover|f|--port|locked
discover|f|--quick|--incremental|--quick
run|f|--port|-
run|f|--port=
run|f|--port=RINGS
run|--port|rings |f
run|--port|f
run|f|--port|locked|rings
run|f|--incremental"""

# Commands, options, values and others.
COMMANDS = ("decode", "encode", "discover", "run")
ARGUMENTS = (
    *COMMANDS, "--incremental", "--quick", "--port", "--port=rings", "--port=", "locked", "rings", "--help", "-h",
    "--version", "help", "--", "-", "---", "", "\u0001", "fe", "FEFEAA", "0", "7a70:00000001", "7a70-00000001",
    "\u00e4\U0010ffff",
)
# The first of two thousand arguments, and the others.
MANY = (
    ("decode", "decode"), ("decode", "fe"), ("encode", "7a70:00000001"), ("discover", "--quick"), ("discover", "f"),
    ("discover", "--"), ("run", "--port"), ("run", "--port=rings"), ("help", "help"), ("", ""), ("-", "-"),
    ("--", "--"),
)
# The scene has each name that one of these arguments may give to a file.
NAMES = sorted({"f", "--port=locked", *ARGUMENTS} - {""})
FILES = tuple(File(scene_text().encode(), name) for name in NAMES)


def cases() -> Iterator[Case]:
    """All arguments."""
    yield from no_bytes_and_no_uids()
    for line, due in ASKED:
        yield arguments_case(tuple(line.split("|")), prints(due))
    yield arguments_case((), prints(NO_COMMAND))
    for line in FITTING_NONE.split("\n"):
        yield arguments_case(tuple(line.split("|")), prints(NO_COMMAND))
    for seed in range(1000):
        arguments = some_arguments(Random(seed))
        yield arguments_case(arguments, Expected(status=None, form=fault_or_answer), f", seed {seed}")
    for first, other in MANY:
        yield arguments_case((first, *[other] * 1999), prints(NO_COMMAND))
    yield from long_arguments()


def arguments_case(arguments: Tuple[str, ...], expected: Expected, about: str = "") -> Case:
    """The arguments print this."""
    name = repr(arguments) if len(arguments) < 9 else f"{arguments[:3]!r} and so on"
    return Case(f"the arguments {name[:100]}{about}", (arguments_of(*arguments),), expected, FILES)


def no_bytes_and_no_uids() -> Iterator[Case]:
    """Texts that are no bytes and no UIDs, with and without `--`."""
    for command, texts, due in (("decode", NO_BYTES, NO_HEX), ("encode", NO_UIDS, NO_UID)):
        for text in texts:
            yield arguments_case((command, text), prints(due))
            yield arguments_case((command, "--", text), prints(due))


def some_arguments(random: Random) -> Tuple[str, ...]:
    """Up to six of the arguments. The first is a command more often than not."""
    arguments = [COMMANDS[random.below(4)]] if random.below(3) > 0 else []
    arguments += [ARGUMENTS[random.below(len(ARGUMENTS))] for _ in range(random.below(6))]
    return tuple(arguments)


def long_arguments() -> Iterator[Case]:
    """Arguments of a hundred thousand digits, and one more. No file has such a name."""
    digits = "f" * 100_000
    rows = (
        (("decode", digits), "collision\n"),
        (("decode", f"{digits}f"), NO_HEX),
        (("encode", digits), NO_UID),
        (("discover", digits), NO_FILE),
        (("run", digits), NO_FILE),
        (("run", "f", "--port", digits), NO_COMMAND),
        (("discover", "f", "--quick", digits), NO_COMMAND),
        ((digits,), NO_COMMAND),
        ((digits, "fe"), NO_COMMAND),
    )
    for arguments, due in rows:
        yield arguments_case(arguments, prints(due), f" with {len(digits)} digits")
