"""The command pids, which lists and explains parameters."""
from __future__ import annotations

import argparse
from typing import Any, Dict, List, Optional

from ..parameters import STANDARD, Parameter, WordFault
from ..parameters.encoding import valid_text
from ..parameters.fields import Bytes, Field, Fields, Flag, Group, Ipv4, Mac, Message, Number, Text, UidField
from ..parameters.table import standard_of
from ..parameters.words import name_of
from .naming import standard
from .output import BAD_ARGUMENTS, DONE, Failure, Output

PLAIN_TYPES: Dict[type, str] = {
    Flag: "yes or no", UidField: "a UID", Ipv4: "an IPv4 address", Mac: "a hardware address",
}


def run_pids(chosen: argparse.Namespace, output: Output) -> int:
    """Lists the parameters whose names have a word in them, or explains one."""
    word = chosen.name or ""
    known = sorted(standard().parameters, key=lambda parameter: parameter.number)
    exact = [each for each in known if each.name == name_of(word)]
    found = exact or [each for each in known if name_of(word) in each.name]
    if not found:
        try:
            exact = found = [standard().named(word)] if word[:1].isalpha() else [numbered(word)]
        except WordFault as fault:
            raise Failure(BAD_ARGUMENTS, str(fault), reason="parameter") from None
    for parameter in found:
        lines = explained(parameter) if exact else [listed(parameter)]
        output.result(lines, **keys_of(parameter))
    return DONE


def numbered(word: str) -> Parameter:
    """The parameter of a number. Raises WordFault."""
    found = standard().numbered(STANDARD.pid(word))
    if found is None:
        raise WordFault(f"no parameter of the standards has the number {word}")
    return found


def listed(parameter: Parameter) -> str:
    """A parameter on one line."""
    standard_name = standard_of(parameter.number) or ""
    return f"0x{parameter.number:04x}  {standard_name:<9}{parameter.name:<44}{parameter.commands}"


def explained(parameter: Parameter) -> List[str]:
    """A parameter with its fields."""
    about = f": {parameter.about}" if parameter.about else ""
    lines = [f"{parameter.name} (0x{parameter.number:04x}, {standard_of(parameter.number)}){about}"]
    for kind, message in (("get", parameter.get), ("set", parameter.set), ("discovery", parameter.discovery)):
        if message is not None:
            lines += message_lines(kind, message)
    return lines


def message_lines(kind: str, message: Message) -> List[str]:
    """A command with its fields."""
    lines = [f"{kind}, for sub-devices {message.sub_devices.value}"]
    for verb, fields in (("takes", message.request), ("returns", message.response)):
        lines += [f"  {verb} {line}" for line in field_lines(fields)]
    return lines


def field_lines(fields: Fields) -> List[str]:
    """Fields, each on one line."""
    lines = []
    for field in fields:
        if isinstance(field, Group):
            lines += [f"{line}, repeated" for line in field_lines(field.fields)]
        else:
            lines.append(f"{field.name}: {type_text(field)}")
    return lines


def type_text(field: Field) -> str:
    """What a field's values are."""
    if isinstance(field, Number):
        return "a parameter" if field.is_pid else valid_text(field)
    if isinstance(field, (Text, Bytes)):
        what = "characters" if isinstance(field, Text) else "bytes"
        return f"{field.most} {what}" if field.least == field.most else f"{field.least} to {field.most} {what}"
    return PLAIN_TYPES[type(field)]


def keys_of(parameter: Parameter) -> Dict[str, Any]:
    """A parameter, for JSON."""
    return {"parameter": parameter.name, "pid": f"0x{parameter.number:04x}", "standard": standard_of(parameter.number),
            "about": parameter.about, "get": message_keys(parameter.get), "set": message_keys(parameter.set)}


def message_keys(message: Optional[Message]) -> Optional[Dict[str, Any]]:
    """A command, for JSON."""
    if message is None:
        return None
    return {"sub_devices": message.sub_devices.value, "takes": field_lines(message.request),
            "returns": field_lines(message.response)}


def field_keys(field: Field, value: Any) -> Dict[str, Any]:
    """A field for a page, with its choices if it has only a few values."""
    hint = f"{'; '.join(field_lines((field,)))}; separated by blanks" if isinstance(field, Group) else type_text(field)
    choices = list(field.labels.values()) if isinstance(field, Number) and not field.valid else []
    if isinstance(field, Flag):
        choices, value = ["yes", "no"], "yes" if value else "no"
    return {"name": field.name.replace("_", " "), "hint": "" if choices else hint, "choices": choices,
            "unit": field.unit if isinstance(field, Number) else "", "is_list": isinstance(field, Group),
            "value": "" if value is None or isinstance(value, (list, dict)) else format(value)}
