"""Writes parameter data, from words as people type them or from values."""
from __future__ import annotations

import re
from typing import TYPE_CHECKING, List, Mapping, Optional, Sequence, Tuple, Union

from .decoding import decimal_of, fields_text
from .fields import MOST_DATA_BYTES, Bytes, Field, Fields, Flag, Group, Ipv4, Mac, Number, Parameter, Text, UidField
from .table import STANDARD
from .words import WordFault, hint, name_of, whole

if TYPE_CHECKING:
    from decimal import Decimal

Word = Union[str, int, bool, "Decimal"]
FLAGS = {"yes": 1, "no": 0, "on": 1, "off": 0, "true": 1, "false": 0, "1": 1, "0": 0}
# Patterns, which are compiled when they are first used.
UID = r"[0-9a-fA-F]{4}:[0-9a-fA-F]{8}"
MAC = r"[0-9a-fA-F]{2}(:[0-9a-fA-F]{2}){5}"
FRACTION = r"-?(0|[1-9][0-9]*)(\.[0-9]+)?"
HEX_BYTES = r"0[xX]([0-9a-fA-F]{2})*"
# An escape, or any other character.
CHARACTER = r"(?s)\\x([0-9a-fA-F]{2})|\\(\\)|([ -\[\]-~])|(.)"


def encode(parameter: Parameter, is_set: bool, words: Sequence[Word]) -> bytes:
    """The data of a command. Raises WordFault."""
    message = parameter.set if is_set else parameter.get
    kind = "SET" if is_set else "GET"
    if message is None:
        raise WordFault(f"{parameter.name} has no {kind}; it has {parameter.commands.upper()}")
    left = [word_of(each) for each in words]
    least, most = word_counts(message.request)
    if len(left) < least or (most is not None and len(left) > most):
        raise WordFault(f"{kind} {parameter.name} takes {fields_text(message)}, and not {count_text(len(left))}"
                        f"{text_hint(message.request)}")
    data = data_of(message.request, left)
    if len(data) > MOST_DATA_BYTES:
        raise WordFault(f"{parameter.name} would have {len(data)} bytes, and at most {MOST_DATA_BYTES} are possible")
    return data


def count_text(count: int) -> str:
    """A number of arguments."""
    return "1 argument" if count == 1 else f"{count} arguments"


def word_of(value: Word) -> str:
    """A value as a word."""
    if isinstance(value, bool):
        return "yes" if value else "no"
    if isinstance(value, (str, int)):
        return str(value)
    from decimal import Decimal
    return format(value, "f") if isinstance(value, Decimal) else str(value)


def word_counts(fields: Fields) -> Tuple[int, Optional[int]]:
    """The least and the greatest number of words for these fields; None if there is no greatest."""
    least = most = 0
    for field in fields:
        if isinstance(field, Group):
            size = len(field.fields)
            return least + size * field.least, None if field.most is None else most + size * field.most
        least += 1
        most += 1
    return least, most


def text_hint(fields: Fields) -> str:
    """A reminder for those who type a text without quotes."""
    return "; a text with blanks has to be quoted" if any(isinstance(field, Text) for field in fields) else ""


def data_of(fields: Fields, words: List[str]) -> bytes:
    """The data of these fields. It takes the words that it uses from the list."""
    data = b""
    for field in fields:
        if isinstance(field, Group):
            data += group_data(field, words)
        else:
            data += field_data(field, words.pop(0))
    return data


def group_data(field: Group, words: List[str]) -> bytes:
    """The data of a group, which takes all words that are left."""
    size = len(field.fields)
    if len(words) % size:
        raise WordFault(f"{field.name} takes {size} arguments for each element, but {len(words)} were given")
    return b"".join(data_of(field.fields, words) for _ in range(len(words) // size))


def field_data(field: Field, word: str) -> bytes:
    """The data of a field. What is wrong is said with the field's name."""
    try:
        return value_data(field, word)
    except WordFault as fault:
        raise WordFault(f"{field.name}: {fault}") from None


def value_data(field: Field, word: str) -> bytes:
    """The data that a word spells."""
    if isinstance(field, Number):
        return number_of(field, word).to_bytes(field.size, "big", signed=field.is_signed)
    if isinstance(field, Flag):
        if name_of(word) not in FLAGS:
            raise WordFault(f"'{word}' is neither yes nor no")
        return bytes([FLAGS[name_of(word)]])
    if isinstance(field, UidField):
        return matched(UID, word, "a UID, such as 7a70:00000001")
    if isinstance(field, Mac):
        return matched(MAC, word, "a hardware address, such as 02:00:00:00:00:01")
    if isinstance(field, Ipv4):
        return ipv4_data(word)
    if isinstance(field, Text):
        return sized(field, text_data(word), "characters")
    assert isinstance(field, Bytes)
    if not re.fullmatch(HEX_BYTES, word):
        raise WordFault(f"'{word}' isn't 0x and hexadecimal bytes")
    return sized(field, bytes.fromhex(word[2:]), "bytes")


def matched(pattern: str, word: str, what: str) -> bytes:
    """The bytes that a word of this pattern spells."""
    if not re.fullmatch(pattern, word):
        raise WordFault(f"'{word}' isn't {what}")
    return bytes.fromhex(word.replace(":", ""))


def ipv4_data(word: str) -> bytes:
    """An IPv4 address."""
    # Few parameters have one.
    import ipaddress
    try:
        return ipaddress.IPv4Address(word).packed
    except ValueError:
        raise WordFault(f"'{word}' isn't an IPv4 address, such as 192.0.2.1") from None


def number_of(field: Number, word: str) -> int:
    """The number that a word spells, by its label or as a number in the field's unit."""
    by_label = {label: number for number, label in field.labels.items()}
    if name_of(word) in by_label:
        return by_label[name_of(word)]
    number = spelled(field, word, by_label)
    if not field.allows(number):
        raise WordFault(f"{word} is not {valid_text(field)}")
    if number and field.power and number in field.labels:
        # It isn't a time, say, of this length.
        raise WordFault(f"{word} would be '{field.labels[number]}', and is written like that")
    return number


def spelled(field: Number, word: str, by_label: Mapping[str, int]) -> int:
    """The number that a word spells without a label."""
    if field.is_pid:
        return STANDARD.pid(word)
    try:
        return scaled(field, word) if field.power else whole(word)
    except WordFault as fault:
        if by_label and not word[:1].isdigit():
            raise WordFault(f"'{word}' is not {valid_text(field)}{hint(word, by_label)}") from None
        raise fault


def scaled(field: Number, word: str) -> int:
    """The number of a word in the field's unit, which may have decimals."""
    if not re.fullmatch(FRACTION, word):
        raise WordFault(f"'{word}' isn't a decimal number{unit_text(field)}")
    number = decimal_of(word, -field.power)
    if number != number.to_integral_value():
        raise WordFault(f"{word} isn't a multiple of {format(decimal_of(1, field.power), 'f')}")
    return int(number)


def unit_text(field: Number) -> str:
    """The unit of a number with a power of ten."""
    return f" of {field.unit}" if field.unit else ""


def valid_text(field: Number) -> str:
    """What is valid, for a message."""
    ranges = [range_text(field, least, most) for least, most in field.valid]
    labels = list(field.labels.values())
    return " or ".join([*([f"one of {', '.join(labels)}"] if len(labels) > 1 else labels), *ranges])


def range_text(field: Number, least: int, most: int) -> str:
    """A range in the field's unit."""
    first, last = (format(decimal_of(each, field.power), "f") for each in (least, most))
    return f"from {first} to {last}" + (f" {field.unit}" if field.unit else "")


def sized(field: Union[Text, Bytes], data: bytes, what: str) -> bytes:
    """The data, if it is neither too short nor too long."""
    if not field.least <= len(data) <= field.most:
        limits = field.most if field.least == field.most else f"{field.least} to {field.most}"
        raise WordFault(f"it has {len(data)} {what}, and {limits} are possible")
    return data


def text_data(word: str) -> bytes:
    """A text as ASCII. \\x and two digits is any byte, and two backslashes are one."""
    data = bytearray()
    for match in re.finditer(CHARACTER, word):
        code, backslash, plain, other = match.groups()
        if other == "\\":
            raise WordFault("a backslash is written \\\\, and any other byte \\x and two hexadecimal digits")
        if other is not None:
            raise WordFault(f"{other!r} isn't printable ASCII")
        data += bytes.fromhex(code) if code else (backslash or plain).encode("ascii")
    return bytes(data)
