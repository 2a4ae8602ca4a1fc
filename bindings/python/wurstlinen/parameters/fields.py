"""The types of which parameters consist: fields, commands with their responses, and parameters."""
import enum
from types import MappingProxyType
from typing import Mapping, NamedTuple, Optional, Tuple, Union

MOST_DATA_BYTES = 231
# A response in parts.
MOST_JOINED_BYTES = 65535
MOST_TEXT_BYTES = 32
ROOT_DEVICE = 0
MOST_SUB_DEVICES = 512
ALL_SUB_DEVICES = 0xFFFF
Range = Tuple[int, int]
NO_LABELS: Mapping[int, str] = MappingProxyType({})


class Number(NamedTuple):
    """A whole number, its high byte first.

    If it has ranges or labels, no other number is valid. The number times ten to `power` is its value in `unit`.
    """

    name: str
    size: int
    is_signed: bool = False
    ranges: Tuple[Range, ...] = ()
    labels: Mapping[int, str] = NO_LABELS
    power: int = 0
    unit: str = ""
    # Whether it is the number of a parameter.
    is_pid: bool = False
    # Its labels only apply if the field of this name before it has this value.
    labelled_if: Optional[Tuple[str, str]] = None

    @property
    def limits(self) -> Range:
        """The least and the greatest number of this size."""
        bits = 8 * self.size
        return (-(1 << bits - 1), (1 << bits - 1) - 1) if self.is_signed else (0, (1 << bits) - 1)

    @property
    def valid(self) -> Tuple[Range, ...]:
        """The ranges of valid numbers, without those that have labels."""
        return self.ranges if self.ranges or self.labels else (self.limits,)

    def allows(self, number: int) -> bool:
        """Whether a number is valid."""
        return number in self.labels or any(least <= number <= most for least, most in self.valid)


class Flag(NamedTuple):
    """A byte that is 0 or 1."""

    name: str


class UidField(NamedTuple):
    """A UID."""

    name: str


class Ipv4(NamedTuple):
    """An IPv4 address."""

    name: str


class Mac(NamedTuple):
    """A hardware address of 48 bits."""

    name: str


class Text(NamedTuple):
    """A text of ASCII characters, whose number is in this range."""

    name: str
    least: int = 0
    most: int = MOST_TEXT_BYTES


class Bytes(NamedTuple):
    """Bytes whose meaning isn't known here."""

    name: str
    least: int = 0
    most: int = MOST_DATA_BYTES


class Group(NamedTuple):
    """Fields that are repeated to the end of the data; any number of times, if `most` is None."""

    name: str
    fields: Tuple["Field", ...]
    least: int = 0
    most: Optional[int] = None


Field = Union[Number, Flag, UidField, Ipv4, Mac, Text, Bytes, Group]
Fields = Tuple[Field, ...]


class SubDevices(enum.Enum):
    """The sub-devices that a command may be for. 0 is the device itself, its root."""

    ROOT = "0"
    ROOT_OR_ONE = "0 to 512"
    ROOT_ONE_OR_ALL = "0 to 512, or 65535 for all"
    ONE = "1 to 512"
    ONE_OR_ALL = "1 to 512, or 65535 for all"

    def allows(self, sub_device: int) -> bool:
        """Whether a sub-device is one of these."""
        if sub_device == ROOT_DEVICE:
            return self in (SubDevices.ROOT, SubDevices.ROOT_OR_ONE, SubDevices.ROOT_ONE_OR_ALL)
        if sub_device == ALL_SUB_DEVICES:
            return self in (SubDevices.ROOT_ONE_OR_ALL, SubDevices.ONE_OR_ALL)
        return self is not SubDevices.ROOT and sub_device <= MOST_SUB_DEVICES


class Message(NamedTuple):
    """The data of a command, and of its response."""

    request: Fields
    response: Fields
    sub_devices: SubDevices


class Parameter(NamedTuple):
    """A parameter, and the commands that it has."""

    name: str
    number: int
    about: str
    get: Optional[Message] = None
    set: Optional[Message] = None
    discovery: Optional[Message] = None

    @property
    def commands(self) -> str:
        """Its commands, as text."""
        named = (("get", self.get), ("set", self.set), ("discovery", self.discovery))
        return " ".join(name for name, message in named if message is not None)


def number(name: str, size: int, *ranges: Range, labels: Optional[Mapping[int, str]] = None, power: int = 0,
           unit: str = "", is_signed: bool = False) -> Number:
    """A number of this many bytes."""
    return Number(name, size, is_signed, ranges, labels or {}, power, unit)


def uint8(name: str, *ranges: Range, labels: Optional[Mapping[int, str]] = None, power: int = 0,
          unit: str = "") -> Number:
    """An unsigned number of one byte."""
    return number(name, 1, *ranges, labels=labels, power=power, unit=unit)


def uint16(name: str, *ranges: Range, labels: Optional[Mapping[int, str]] = None, power: int = 0,
           unit: str = "") -> Number:
    """An unsigned number of two bytes."""
    return number(name, 2, *ranges, labels=labels, power=power, unit=unit)


def uint32(name: str, *ranges: Range, labels: Optional[Mapping[int, str]] = None, power: int = 0,
           unit: str = "") -> Number:
    """An unsigned number of four bytes."""
    return number(name, 4, *ranges, labels=labels, power=power, unit=unit)


def int16(name: str, labels: Optional[Mapping[int, str]] = None) -> Number:
    """A signed number of two bytes. Labels don't restrict it."""
    limits = Number(name, 2, is_signed=True).limits
    return number(name, 2, *([limits] if labels else []), labels=labels, is_signed=True)


def pid(name: str, *ranges: Range) -> Number:
    """The number of a parameter."""
    return Number(name, 2, ranges=ranges, is_pid=True)


def group(name: str, *fields: Field, least: int = 0, most: Optional[int] = None) -> Group:
    """Repeated fields."""
    return Group(name, fields, least, most)


def readable(name: str, pid_number: int, about: str, *fields: Field, by: Fields = (),
             sub_devices: SubDevices = SubDevices.ROOT_OR_ONE) -> Parameter:
    """A parameter with GET alone. `by` are the fields of its command."""
    return Parameter(name, pid_number, about, get=Message(by, fields, sub_devices))


def writable(name: str, pid_number: int, about: str, *fields: Field, get_for: SubDevices = SubDevices.ROOT_OR_ONE,
             set_for: SubDevices = SubDevices.ROOT_ONE_OR_ALL) -> Parameter:
    """A parameter whose SET takes what its GET returns."""
    return Parameter(name, pid_number, about, Message((), fields, get_for), Message(fields, (), set_for))


def changeable(name: str, pid_number: int, about: str, returned: Fields, taken: Fields, by: Fields = (),
               get_for: SubDevices = SubDevices.ROOT_OR_ONE,
               set_for: SubDevices = SubDevices.ROOT_ONE_OR_ALL) -> Parameter:
    """A parameter whose SET takes other fields than its GET returns."""
    return Parameter(name, pid_number, about, Message(by, returned, get_for), Message(taken, (), set_for))


def action(name: str, pid_number: int, about: str, *fields: Field,
           sub_devices: SubDevices = SubDevices.ROOT_ONE_OR_ALL) -> Parameter:
    """A parameter with SET alone."""
    return Parameter(name, pid_number, about, set=Message(fields, (), sub_devices))
