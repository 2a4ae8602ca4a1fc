"""Parameters that devices describe themselves by PARAMETER_DESCRIPTION."""
from __future__ import annotations

from typing import Mapping, Optional, Tuple

from .decoding import Misfit, text_value
from .fields import Bytes, Field, Group, Message, Number, Parameter, Range, SubDevices, Text
from .names import PREFIX_POWERS, UNITS
from .words import name_of

HEAD_BYTES = 20
GET = 0x01
SET = 0x02
ASCII = 0x02
# The sizes of numbers by their data type, and whether they are signed.
NUMBERS: Mapping[int, Tuple[int, bool]] = {
    0x03: (1, False), 0x04: (1, True), 0x05: (2, False), 0x06: (2, True), 0x07: (4, False), 0x08: (4, True),
}


def described(data: bytes) -> Parameter:
    """The parameter that a response to PARAMETER_DESCRIPTION describes. Raises Misfit."""
    if len(data) < HEAD_BYTES:
        raise Misfit(f"a description has {HEAD_BYTES} bytes at least, and this one has {len(data)}")
    number, about = int.from_bytes(data[:2], "big"), text_value(data[HEAD_BYTES:])
    field = field_of(data)
    fields = () if field is None else (field,)
    command_class = data[4]
    get = Message((), fields, SubDevices.ROOT_OR_ONE) if command_class & GET else None
    set_ = Message(fields, (), SubDevices.ROOT_ONE_OR_ALL) if command_class & SET else None
    return Parameter(name_of(about) or f"0x{number:04x}", number, about, get, set_)


def field_of(data: bytes) -> Optional[Field]:
    """The field of a described parameter; None if it has no data."""
    size, kind = data[2], data[3]
    if size == 0:
        return None
    if kind == ASCII:
        return Text("text", 0, size)
    if kind not in NUMBERS or size % NUMBERS[kind][0]:
        return Bytes("data", 0, size)
    field = number_of(data, *NUMBERS[kind])
    count = size // field.size
    return field if count == 1 else Group("values", (field,), count, count)


def number_of(data: bytes, size: int, is_signed: bool) -> Number:
    """The number of a described parameter."""
    unit = UNITS.get(data[6], "") if data[6] else ""
    limits = range_of(data, size, is_signed)
    return Number("value", size, is_signed, () if limits is None else (limits,), {}, PREFIX_POWERS.get(data[7], 0),
                  unit)


def range_of(data: bytes, size: int, is_signed: bool) -> Optional[Range]:
    """The valid values, which are the low bytes of their fields; None if there are none from the first to the last."""
    least, most = (int.from_bytes(data[start + 4 - size:start + 4], "big", signed=is_signed) for start in (8, 12))
    return (least, most) if least < most else None
