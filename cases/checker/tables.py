"""Reads the cases of a text file. cases/README.md has the format."""
from __future__ import annotations

import re
import sys
from dataclasses import dataclass
from pathlib import Path
from typing import Dict, Iterator, List, Optional, Tuple

from .case import EXPLAINED_NAME, FILE_NAME, OTHER_PROGRAM_NAME, PROGRAM_NAME, RIG_NAME, Arguments, Case, Expected
from .case import FarEnd, File, Log, Output, Streams, Subject

FIELD = re.compile(r"([a-z-]+)(?: (.*))?")
INDENT = "    "
# An argument in double quotes, or one without blanks.
ARGUMENT = re.compile(r'"((?:[^"\\]|\\.)*)"|([^\s"]+)|(\S)')
ESCAPE = re.compile(rb"\\(x[0-9a-fA-F]{2}|.)")
ESCAPED = {b"n": b"\n", b"r": b"\r", b"t": b"\t", b"\\": b"\\", b'"': b'"'}
# A text that is repeated.
REPEATED = re.compile(r"\{(\d+) x ([^{}]+)\}")
NAMED_TEXT = re.compile(r"\{([a-z ]+)\}")
PORTS = (b"locked", b"rings")
ROOT = Path(__file__).resolve().parent.parent.parent
# A reply without bytes.
NOTHING = "nothing"
FIELDS = frozenset(
    "case args file bytes path length unreadable ports program stdout out err err-has status"
    " line replies fixtures answers sent log no-log folder times explained rig".split()
)

Fields = Dict[str, str]


class TableError(Exception):
    """A line of a table can't be read."""


@dataclass(frozen=True)
class Block:
    """Lines without an empty one between them: the fields, and the number of the first line."""

    line: int
    fields: Fields


def read_table(path: Path) -> Subject:
    """The cases of a file."""
    try:
        return Subject(path.stem, tuple(cases_of(path.read_text(encoding="utf-8"))))
    except TableError as error:
        raise TableError(f"{path.parent.name}/{path.name}:{error}") from None


def cases_of(text: str) -> Iterator[Case]:
    """The cases of a table's text."""
    common: Fields = {}
    texts: Dict[str, str] = {}
    names = set()
    for block in blocks_of(text):
        kind = next(iter(block.fields))
        if kind == "text":
            name, _, lines = block.fields["text"].partition("\n")
            texts[name] = lines
        elif kind == "each":
            common = {key: value for key, value in block.fields.items() if key != "each"}
        else:
            case = checked_case(block, common, texts)
            if case.name in names:
                raise TableError(f"{block.line}: there are two cases '{case.name}'")
            names.add(case.name)
            yield case


def blocks_of(text: str) -> Iterator[Block]:
    """The blocks of a table; a line that begins with '#' is for people."""
    fields: Fields = {}
    begin = 0
    last = ""
    for number, line in enumerate([*text.split("\n"), ""], start=1):
        if line.startswith("#"):
            continue
        if not line.strip():
            if fields:
                yield Block(begin, fields)
            fields = {}
        elif line.startswith(INDENT):
            if not fields:
                raise TableError(f"{number}: this line continues nothing")
            fields[last] = f"{fields[last]}\n{line[len(INDENT):]}" if fields[last] else line[len(INDENT) :]
        else:
            begin = begin if fields else number
            last = add_field(fields, line, number)


def add_field(fields: Fields, line: str, number: int) -> str:
    """Adds the field of a line, and gives its name."""
    match = FIELD.fullmatch(line)
    name = match[1] if match else line
    is_known = name in FIELDS or (not fields and name in ("each", "text"))
    if not match or not is_known:
        raise TableError(f"{number}: there is no field '{name}' here")
    if name in fields:
        raise TableError(f"{number}: the field '{name}' appears twice")
    fields[name] = match[2] or ""
    return name


def checked_case(block: Block, common: Fields, texts: Dict[str, str]) -> Case:
    """The case of a block; the fields that it doesn't have come from those common to all."""
    fields = {**common, **block.fields}
    if next(iter(block.fields)) != "case" or not fields["case"]:
        raise TableError(f"{block.line}: a case begins with 'case' and its name")
    if "args" not in fields:
        raise TableError(f"{block.line}: the case has no args")
    try:
        return case_of({name: expanded(value, texts) for name, value in fields.items()})
    except ValueError as error:
        raise TableError(f"{block.line}: {error}") from None


def case_of(fields: Fields) -> Case:
    """The case of its fields."""
    program = fields.get("program", PROGRAM_NAME)
    if program not in (PROGRAM_NAME, OTHER_PROGRAM_NAME):
        raise ValueError(f"program: expected {PROGRAM_NAME} or {OTHER_PROGRAM_NAME}")
    return Case(
        name=fields["case"],
        commands=tuple(commands_of(fields)),
        expected=expected_of(fields),
        files=tuple(files_of(fields)),
        folder=folder_of(fields),
        times=number_of(fields, "times", 1),
        program=program,
        output=output_of(fields),
        far_end=far_end_of(fields),
    )


def far_end_of(fields: Fields) -> Optional[FarEnd]:
    """The far end of a line, if there is one."""
    if "line" not in fields:
        return None
    names = [streams.value for streams in Streams]
    if fields["line"] not in names:
        raise ValueError(f"line: expected one of {'; '.join(names)}")
    return FarEnd(
        streams=Streams(fields["line"]),
        replies=replies_in(fields["replies"]) if "replies" in fields else None,
        fixtures=tuple(int(uid.replace(":", ""), 16) for uid in fields.get("fixtures", "").split()),
        most=number_of(fields, "answers", sys.maxsize),
    )


def replies_in(text: str) -> Tuple[bytes, ...]:
    """The lines of a script; a line in a table can't be empty."""
    return tuple(b"" if line == NOTHING else line.encode() for line in text.split())


def output_of(fields: Fields) -> Output:
    """Where standard output goes."""
    name = fields.get("stdout", Output.READ.value)
    names = [output.value for output in Output]
    if name not in names:
        raise ValueError(f"stdout: expected one of {', '.join(names)}")
    return Output(name)


def commands_of(fields: Fields) -> Iterator[Arguments]:
    """The arguments, or those with each port."""
    arguments = arguments_in(fields["args"])
    if "ports" not in fields:
        yield arguments
        return
    if fields["ports"] != "both":
        raise ValueError("ports: expected 'both'")
    for port in PORTS:
        yield (*arguments, b"--port", port)


def arguments_in(text: str) -> Arguments:
    """The arguments in a line."""
    arguments: List[bytes] = []
    for quoted, plain, wrong in ARGUMENT.findall(text):
        if wrong:
            raise ValueError("args: a quote is missing")
        arguments.append(plain.encode() if plain else unescaped(quoted))
    return tuple(arguments)


def unescaped(text: str) -> bytes:
    """A text with its escapes replaced."""
    return ESCAPE.sub(lambda match: replaced(match[1]), text.encode())


def replaced(escape: bytes) -> bytes:
    """What an escape stands for."""
    if len(escape) == 3:
        return bytes.fromhex(escape[1:].decode())
    if escape not in ESCAPED:
        raise ValueError(f"there is no escape \\{escape.decode(errors='replace')}")
    return ESCAPED[escape]


def files_of(fields: Fields) -> Iterator[File]:
    """The files of a case: those that explain reads, and its own, if it has one."""
    explained = lines_of(fields, "explained")
    if explained is not None:
        yield File(explained, EXPLAINED_NAME)
    if "rig" in fields:
        yield File(fields["rig"].encode(), RIG_NAME)
    contents = contents_of(fields)
    if contents is None:
        return
    length = number_of(fields, "length", len(contents))
    yield File(
        contents=contents.ljust(length),
        path=fields.get("path", FILE_NAME),
        is_readable="unreadable" not in fields,
    )


def folder_of(fields: Fields) -> Optional[Path]:
    """The folder in which the program runs, if it isn't a new one."""
    if "folder" not in fields:
        return None
    if not (ROOT / fields["folder"]).is_dir() or any(name in fields for name in ("file", "bytes", "explained", "rig")):
        raise ValueError("folder: expected a folder of the repository, and no file")
    return ROOT / fields["folder"]


def contents_of(fields: Fields) -> Optional[bytes]:
    """What the file has, before blanks are added."""
    if "file" in fields and "bytes" in fields:
        raise ValueError("a case has 'file' or 'bytes'")
    if "bytes" in fields:
        return unescaped(fields["bytes"])
    return fields["file"].encode() if "file" in fields else None


def expected_of(fields: Fields) -> Expected:
    """What a case expects."""
    return Expected(
        status=number_of(fields, "status", 0),
        out=lines_of(fields, "out"),
        err=lines_of(fields, "err"),
        err_has=fields["err-has"].encode() if "err-has" in fields else None,
        sent=tuple(fields["sent"].encode().split()) if "sent" in fields else None,
        log=log_of(fields),
    )


def log_of(fields: Fields) -> Optional[Log]:
    """What the log has to hold, if that is compared."""
    if "no-log" in fields:
        return Log(None)
    return Log(lines_of(fields, "log")) if "log" in fields else None


def number_of(fields: Fields, name: str, otherwise: int) -> int:
    """A field's number."""
    text = fields.get(name, str(otherwise))
    if not text.isdecimal():
        raise ValueError(f"{name}: expected a number")
    return int(text)


def lines_of(fields: Fields, name: str) -> Optional[bytes]:
    """A text of lines, each with its end."""
    if name not in fields:
        return None
    return f"{fields[name]}\n".encode() if fields[name] else b""


def expanded(text: str, texts: Dict[str, str]) -> str:
    """A text with its repetitions written out, and with named texts in place of their names."""
    lines: List[str] = []
    for line in text.split("\n"):
        name = NAMED_TEXT.fullmatch(line)
        if name and name[1] not in texts:
            raise ValueError(f"there is no text {line} above")
        lines.append(texts[name[1]] if name else line)
    return REPEATED.sub(lambda match: match[2] * int(match[1]), "\n".join(lines))


def read_tables(folder: Path) -> Tuple[Subject, ...]:
    """The tables of a folder."""
    return tuple(read_table(path) for path in sorted(folder.glob("*.txt")))
