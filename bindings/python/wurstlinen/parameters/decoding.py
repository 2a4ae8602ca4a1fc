"""Reads parameter data."""
from __future__ import annotations

from typing import TYPE_CHECKING, Any, Dict, List, NamedTuple, Optional, Tuple, Union

from .fields import Bytes, Field, Fields, Flag, Group, Ipv4, Mac, Message, Number, Parameter, Text, UidField
from .table import STANDARD

if TYPE_CHECKING:
    from decimal import Decimal

# A number, a Decimal if its field has a power of ten; a label or another text; whether a flag is set; a list of a
# group's values.
Value = Union[int, "Decimal", str, bool, List[Any]]
Values = Dict[str, Value]
FLAG_NAMES = {False: "no", True: "yes"}
UID_BYTES = 6
IPV4_BYTES = 4
MAC_BYTES = 6
FIRST_PRINTABLE = 0x20
LAST_PRINTABLE = 0x7E


class Misfit(ValueError):
    """Why data doesn't fit the fields."""


class Reading(NamedTuple):
    """What data says."""

    data: bytes
    # None if it doesn't fit.
    values: Optional[Values]
    lines: Tuple[str, ...]
    # Why it doesn't fit.
    misfit: str = ""


class Reader:
    """Takes values from the front of data."""

    def __init__(self, data: bytes) -> None:
        self._left = data

    @property
    def left(self) -> int:
        """How many bytes are left."""
        return len(self._left)

    def take(self, count: int, name: str) -> bytes:
        """The next bytes."""
        if count > len(self._left):
            raise Misfit(f"the data ends in {name}")
        taken, self._left = self._left[:count], self._left[count:]
        return taken


def decode(parameter: Optional[Parameter], is_set: bool, data: bytes) -> Reading:
    """What the data of a response says. If it doesn't fit, or the parameter isn't known, it is shown as it is."""
    message = None if parameter is None else parameter.set if is_set else parameter.get
    if parameter is None or message is None:
        return Reading(data, None, (raw(data),), "the parameter isn't known")
    try:
        values = values_of(message.response, data)
    except Misfit as misfit:
        return Reading(data, None, (raw(data),), f"this doesn't fit {parameter.name}: {misfit}")
    return Reading(data, values, tuple(lines_of(message.response, values)))


def values_of(fields: Fields, data: bytes) -> Values:
    """The values of these fields. Raises Misfit."""
    reader = Reader(data)
    values = next_values(fields, reader)
    if reader.left:
        raise Misfit(f"{reader.left} of {len(data)} bytes are left over")
    return values


def next_values(fields: Fields, reader: Reader) -> Values:
    """The next values, one for each field."""
    values: Values = {}
    for field in fields:
        values[field.name] = value_of(field, reader, values)
    return values


def value_of(field: Field, reader: Reader, before: Values) -> Value:
    """The next value, after those of the fields before it."""
    if isinstance(field, Number):
        is_labelled = field.labelled_if is None or before.get(field.labelled_if[0]) == field.labelled_if[1]
        return number_value(field, reader.take(field.size, field.name), is_labelled)
    if isinstance(field, Flag):
        byte = reader.take(1, field.name)
        return bool(byte[0]) if byte[0] in (0, 1) else raw(byte)
    if isinstance(field, UidField):
        text = reader.take(UID_BYTES, field.name).hex()
        return f"{text[:4]}:{text[4:]}"
    if isinstance(field, Ipv4):
        return ".".join(map(str, reader.take(IPV4_BYTES, field.name)))
    if isinstance(field, Mac):
        return reader.take(MAC_BYTES, field.name).hex(":")
    if isinstance(field, Group):
        return group_value(field, reader)
    found = reader.take(min(reader.left, field.most), field.name)
    if len(found) < field.least:
        raise Misfit(f"{field.name} has {len(found)} bytes, and {field.least} at least are expected")
    return raw(found) if isinstance(field, Bytes) else text_value(found)


def number_value(field: Number, data: bytes, is_labelled: bool) -> Value:
    """A number, or its label. One that isn't valid is shown as it is."""
    number = int.from_bytes(data, "big", signed=field.is_signed)
    if not field.allows(number):
        return raw(data)
    if is_labelled and number in field.labels:
        return field.labels[number]
    if field.is_pid:
        return STANDARD.name(number)
    return decimal_of(number, field.power) if field.power else number


def decimal_of(number: Union[int, str], power: int) -> Decimal:
    """A number times ten to this power."""
    # Few parameters need it, and it takes a while to load.
    from decimal import Decimal
    return Decimal(number).scaleb(power)


def text_value(data: bytes) -> str:
    """A text, without zeros at its end. What isn't printable ASCII is shown as \\x and two digits."""
    return "".join(character_text(byte) for byte in data.rstrip(b"\0"))


def character_text(byte: int) -> str:
    """A byte of a text."""
    if byte == ord("\\"):
        return "\\\\"
    return chr(byte) if FIRST_PRINTABLE <= byte <= LAST_PRINTABLE else f"\\x{byte:02x}"


def group_value(field: Group, reader: Reader) -> List[Any]:
    """The elements up to the end of the data: values if a group has one field, and dictionaries if it has more."""
    found: List[Any] = []
    while reader.left and (field.most is None or len(found) < field.most):
        before = reader.left
        element = next_values(field.fields, reader)
        if reader.left == before:
            raise Misfit(f"{field.name} has an element without data")
        found.append(element if len(field.fields) > 1 else list(element.values())[0])
    if len(found) < field.least:
        raise Misfit(f"{field.name} has {len(found)} elements, and {field.least} at least are expected")
    return found


def raw(data: bytes) -> str:
    """Bytes as they are."""
    return f"0x{data.hex()}"


def lines_of(fields: Fields, values: Values) -> List[str]:
    """The values as lines for people: a value alone, or else a name and a value on each line."""
    if len(fields) == 1:
        field = fields[0]
        if isinstance(field, Group):
            return [element_text(field, each) for each in group_elements(values[field.name])]
        return [value_text(field, values[field.name])]
    return [f"{field.name}: {value_text(field, values[field.name])}" for field in fields]


def group_elements(value: Value) -> List[Any]:
    """The elements of a group's value."""
    assert isinstance(value, list)
    return value


def element_text(field: Group, element: Any) -> str:
    """An element of a group, on one line."""
    if not isinstance(element, dict):
        return value_text(field.fields[0], element)
    return ", ".join(f"{each.name}: {value_text(each, element[each.name])}" for each in field.fields)


def value_text(field: Field, value: Value) -> str:
    """A value, with its unit."""
    if isinstance(field, Group):
        return "; ".join(element_text(field, each) for each in group_elements(value)) or "none"
    if isinstance(value, bool):
        return FLAG_NAMES[value]
    if isinstance(value, str):
        return value
    assert not isinstance(value, list)
    text = str(value) if isinstance(value, int) else format(value.normalize(), "f")
    return f"{text} {field.unit}" if isinstance(field, Number) and field.unit else text


def fields_text(message: Message) -> str:
    """The names of a command's fields."""
    return " ".join(field_text(field) for field in message.request) or "nothing"


def field_text(field: Field) -> str:
    """The name of a field, in the manner of a command's usage."""
    if isinstance(field, (Number, Flag, UidField, Ipv4, Mac, Text, Bytes)):
        return field.name.upper()
    return f"[{' '.join(field_text(each) for each in field.fields)} ..]"
