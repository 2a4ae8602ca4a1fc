"""Protocol Buffers, as far as OLA's messages need them: fields of whole numbers, of bytes and of four bytes.

OLA's own Python package needs another one for this, and the version of the daemon that it came with.
"""
from __future__ import annotations

from typing import Dict, List, NamedTuple, Sequence, Tuple, Union

VARINT, EIGHT_BYTES, BYTES, FOUR_BYTES = 0, 1, 2, 5
SIZES = {EIGHT_BYTES: 8, FOUR_BYTES: 4}
# The most bits of a number.
MOST_BITS = 64


class Fixed(NamedTuple):
    """A number in four bytes."""

    number: int


Value = Union[int, bytes, str, Fixed]
Fields = Dict[int, List[Union[int, bytes]]]


class BadMessage(ValueError):
    """Bytes aren't a message."""


def encode(fields: Sequence[Tuple[int, Value]]) -> bytes:
    """The message with these fields, in this order."""
    made = bytearray()
    for number, value in fields:
        if isinstance(value, Fixed):
            made += varint(number << 3 | FOUR_BYTES) + value.number.to_bytes(4, "little")
        elif isinstance(value, int):
            made += varint(number << 3 | VARINT) + varint(value)
        else:
            data = value.encode() if isinstance(value, str) else value
            made += varint(number << 3 | BYTES) + varint(len(data)) + data
    return bytes(made)


def varint(number: int) -> bytes:
    """A number, seven bits in each byte, the lowest first."""
    made = bytearray()
    while number > 0x7F:
        made.append(number & 0x7F | 0x80)
        number >>= 7
    made.append(number)
    return bytes(made)


def decode(data: bytes) -> Fields:
    """The values of each field. Raises BadMessage."""
    found: Fields = {}
    at = 0
    while at < len(data):
        key, at = _number(data, at)
        value: Union[int, bytes]
        kind = key & 7
        if kind == VARINT:
            value, at = _number(data, at)
        elif kind == BYTES:
            size, at = _number(data, at)
            value, at = _bytes(data, at, size)
        elif kind in SIZES:
            value, at = _bytes(data, at, SIZES[kind])
            value = int.from_bytes(value, "little")
        else:
            raise BadMessage(f"there is no field of kind {kind}")
        found.setdefault(key >> 3, []).append(value)
    return found


def _number(data: bytes, at: int) -> Tuple[int, int]:
    """The number that begins at this place, and the place behind it."""
    number = 0
    for shift in range(0, MOST_BITS, 7):
        if at >= len(data):
            raise BadMessage("the message ends within a number")
        number |= (data[at] & 0x7F) << shift
        at += 1
        if data[at - 1] < 0x80:
            return number, at
    raise BadMessage("a number is too long")


def _bytes(data: bytes, at: int, size: int) -> Tuple[bytes, int]:
    if at + size > len(data):
        raise BadMessage("the message ends within a field")
    return data[at:at + size], at + size


def number_in(fields: Fields, field: int, absent: int = 0) -> int:
    """The number in a field; the last if there are several. Raises BadMessage."""
    value = fields.get(field, [absent])[-1]
    if not isinstance(value, int):
        raise BadMessage(f"field {field} isn't a number")
    return value


def bytes_in(fields: Fields, field: int) -> bytes:
    """The bytes in a field. Raises BadMessage."""
    value = fields.get(field, [b""])[-1]
    if not isinstance(value, bytes):
        raise BadMessage(f"field {field} isn't bytes")
    return value


def text_in(fields: Fields, field: int) -> str:
    """The text in a field, with escapes for what a terminal would obey: it may be anybody's. Raises BadMessage."""
    text = bytes_in(fields, field).decode(errors="backslashreplace")
    return "".join(each if each.isprintable() else ascii(each)[1:-1] for each in text)


def messages_in(fields: Fields, field: int) -> List[Fields]:
    """The messages in a field. Raises BadMessage."""
    return [decode(bytes_in({field: [value]}, field)) for value in fields.get(field, [])]
