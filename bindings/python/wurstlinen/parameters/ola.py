"""Reads parameters from the files of OLA, the Open Lighting Architecture, where it is installed.

The files are messages in protobuf's text format: `key: value` and `key { .. }`.
"""
from __future__ import annotations

import re
from dataclasses import dataclass
from pathlib import Path
from typing import Callable, Dict, Iterator, List, Mapping, Optional, Tuple, Union

from .fields import (
    MOST_DATA_BYTES, MOST_TEXT_BYTES, Field, Fields, Flag, Group, Ipv4, Mac, Message, Number, Parameter, SubDevices,
    Text, UidField,
)

FOLDER = Path("/usr/share/ola/pids")
STANDARD_FILE = "pids.proto"
MANUFACTURERS_FILE = "manufacturer_pids.proto"

TOKEN = re.compile(r'\s+|#[^\n]*|(?P<text>"(?:[^"\\\n]|\\.)*")|(?P<mark>[{}:])|(?P<word>[-\w.]+)')
ESCAPE = re.compile(r"\\(.)")
# The sizes of numbers, and whether they are signed.
NUMBERS: Mapping[str, Tuple[int, bool]] = {
    "UINT8": (1, False), "UINT16": (2, False), "UINT32": (4, False),
    "INT8": (1, True), "INT16": (2, True), "INT32": (4, True),
}
SUB_DEVICES: Mapping[str, SubDevices] = {
    "ROOT_DEVICE": SubDevices.ROOT,
    "ROOT_OR_ALL_SUBDEVICE": SubDevices.ROOT_ONE_OR_ALL,
    "ROOT_OR_SUBDEVICE": SubDevices.ROOT_OR_ONE,
    "ONLY_SUBDEVICES": SubDevices.ONE,
}


class FileFault(ValueError):
    """What is wrong with a file."""


class Node:
    """A message: its keys with their values, in order."""

    def __init__(self) -> None:
        self.items: List[Tuple[str, Union[str, Node]]] = []

    def nodes(self, key: str) -> List[Node]:
        """The messages of this key."""
        return [value for name, value in self.items if name == key and isinstance(value, Node)]

    def node(self, key: str) -> Optional[Node]:
        """The message of this key; None if there is none."""
        return next(iter(self.nodes(key)), None)

    def text(self, key: str, default: Optional[str] = None) -> str:
        """The text of this key."""
        for name, value in self.items:
            if name == key and isinstance(value, str):
                return value
        if default is None:
            raise FileFault(f"the key {key} is missing")
        return default

    def number(self, key: str, default: Optional[int] = None) -> int:
        """The number of this key."""
        text = self.text(key, None if default is None else str(default))
        try:
            return int(text, 0)
        except ValueError:
            raise FileFault(f"{key} isn't a number: {text}") from None


@dataclass(frozen=True)
class Manufacturer:
    """A manufacturer's own parameters."""

    number: int
    name: str
    parameters: Tuple[Parameter, ...]


def standard_parameters(folder: Path = FOLDER) -> Tuple[Parameter, ...]:
    """The parameters of the standards. Raises FileFault and OSError."""
    return tuple(parameter_of(each) for each in parse(folder / STANDARD_FILE).nodes("pid"))


def manufacturers(folder: Path = FOLDER) -> Dict[int, Manufacturer]:
    """The manufacturers with their parameters, by their numbers. Raises FileFault and OSError."""
    found = {}
    for node in parse(folder / MANUFACTURERS_FILE).nodes("manufacturer"):
        number = node.number("manufacturer_id")
        parameters = tuple(parameter_of(each) for each in node.nodes("pid"))
        found[number] = Manufacturer(number, node.text("manufacturer_name"), parameters)
    return found


def parse(path: Path) -> Node:
    """The message that a file is. Raises FileFault and OSError."""
    try:
        text = path.read_text(encoding="utf-8")
    except UnicodeDecodeError:
        raise FileFault(f"{path} isn't UTF-8") from None
    try:
        return parse_text(text)
    except FileFault as fault:
        raise FileFault(f"{path}: {fault}") from None


def parse_text(text: str) -> Node:
    """The message that a text is. Raises FileFault."""
    top = Node()
    within = [top]
    tokens = tokens_of(text)
    for token in tokens:
        if token == "}":
            within.pop()
            if not within:
                raise FileFault("a } is too many")
            continue
        mark = next(tokens, "")
        if mark == "{":
            inner = Node()
            within[-1].items.append((token, inner))
            within.append(inner)
        elif mark == ":":
            within[-1].items.append((token, unquoted(next(tokens, ""))))
        else:
            raise FileFault(f"after {token} a : or a {{ is expected, not '{mark}'")
    if len(within) > 1:
        raise FileFault("a } is missing")
    return top


def tokens_of(text: str) -> Iterator[str]:
    """The words, texts and marks of a file."""
    position = 0
    while position < len(text):
        match = TOKEN.match(text, position)
        if match is None:
            raise FileFault(f"line {text.count(chr(10), 0, position) + 1} can't be read")
        position = match.end()
        if match.lastgroup is not None:
            yield match.group()


def unquoted(token: str) -> str:
    """The value of a token."""
    if token in ("", "{", "}", ":"):
        raise FileFault("a value is missing")
    return ESCAPE.sub(r"\1", token[1:-1]) if token.startswith('"') else token


def parameter_of(node: Node) -> Parameter:
    """A parameter."""
    return Parameter(name_of(node.text("name")), node.number("value"), "", message_of(node, "get"),
                     message_of(node, "set"), message_of(node, "discovery"))


def message_of(node: Node, kind: str) -> Optional[Message]:
    """A command of a parameter, with its response; None if the parameter doesn't have it."""
    request, response = node.node(f"{kind}_request"), node.node(f"{kind}_response")
    if request is None:
        return None
    named = node.text(f"{kind}_sub_device_range", "ROOT_DEVICE")
    if named not in SUB_DEVICES:
        raise FileFault(f"there are no sub-devices {named}")
    return Message(fields_of(request), () if response is None else fields_of(response), SUB_DEVICES[named])


def fields_of(node: Node) -> Fields:
    """The fields of a message."""
    return tuple(field_of(each) for each in node.nodes("field"))


def field_of(node: Node) -> Field:
    """A field."""
    kind, name = node.text("type"), name_of(node.text("name"))
    if kind in NUMBERS:
        size, is_signed = NUMBERS[kind]
        ranges = tuple((each.number("min"), each.number("max")) for each in node.nodes("range"))
        labels = {each.number("value"): name_of(each.text("label")) for each in node.nodes("label")}
        return Number(name, size, is_signed, ranges, labels, node.number("multiplier", 0))
    if kind == "STRING":
        return Text(name, node.number("min_size", 0), node.number("max_size", MOST_TEXT_BYTES))
    if kind == "GROUP":
        most = node.number("max_size", MOST_DATA_BYTES)
        return Group(name, fields_of(node), node.number("min_size", 0), None if most == MOST_DATA_BYTES else most)
    plain: Dict[str, Callable[[str], Field]] = {"BOOL": Flag, "UID": UidField, "IPV4": Ipv4, "MAC": Mac}
    if kind not in plain:
        raise FileFault(f"there is no type of fields {kind}")
    return plain[kind](name)


def name_of(text: str) -> str:
    """A name or a label in lower case, with underscores."""
    return re.sub(r"[^a-z0-9]+", "_", text.lower()).strip("_")
