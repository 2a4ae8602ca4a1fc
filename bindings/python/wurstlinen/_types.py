"""Values: UIDs, requests, outcomes."""

import enum
import functools
from typing import ClassVar, NamedTuple, Optional, Tuple, Union

from ._faults import BadUid

MOST_FRAME_BYTES = 257
MOST_PARAMETER_BYTES = 231
MOST_JOINED_BYTES = 65535
MOST_DEVICES = 1024
MOST_BAD_UIDS = 16
MOST_CLIENTS = 16
MOST_PLACES = 4080
MOST_ENTRIES = 1_000_000
DEFAULT_BUDGET = 384_008


def whole(value: int, bits: int, what: str) -> int:
    """The number, if it is a whole one of this many bits."""
    number = int(value)
    if number != value or not 0 <= number < 1 << bits:
        raise ValueError(f"{what} is not from 0 to {(1 << bits) - 1}: {value}")
    return number


@functools.total_ordering
class Uid:
    """A UID: 16 bits of manufacturer and 32 of device."""

    __slots__ = ("_number",)
    _number: int
    ALL: ClassVar["Uid"]

    def __init__(self, manufacturer: int, device: int) -> None:
        number = whole(manufacturer, 16, "manufacturer") << 32 | whole(device, 32, "device")
        object.__setattr__(self, "_number", number)

    def __setattr__(self, name: str, value: object) -> None:
        raise AttributeError("a UID doesn't change")

    @classmethod
    def from_number(cls, number: int) -> "Uid":
        """The UID of this number, below 2^48."""
        if not 0 <= number < 1 << 48:
            raise BadUid()
        return cls(number >> 32, number & 0xFFFFFFFF)

    @classmethod
    def parse(cls, text: str) -> "Uid":
        """The UID that a text spells, as 7a70:00000001. Raises UidLength, UidSeparator or UidDigit."""
        # Who reads no text needs no library.
        from ._forms import read_uid
        return cls.from_number(read_uid(text))

    @property
    def number(self) -> int:
        return self._number

    @property
    def manufacturer(self) -> int:
        return self._number >> 32

    @property
    def device(self) -> int:
        return self._number & 0xFFFFFFFF

    @property
    def is_broadcast(self) -> bool:
        """Whether it is a broadcast UID, which addresses many devices."""
        return self.device == 0xFFFFFFFF

    def __str__(self) -> str:
        return f"{self.manufacturer:04x}:{self.device:08x}"

    def __repr__(self) -> str:
        return f"Uid.parse('{self}')"

    def __eq__(self, other: object) -> bool:
        return isinstance(other, Uid) and self._number == other._number

    def __lt__(self, other: "Uid") -> bool:
        if not isinstance(other, Uid):
            return NotImplemented
        return self._number < other._number

    def __hash__(self) -> int:
        return hash(self._number)


Uid.ALL = Uid(0xFFFF, 0xFFFFFFFF)


class Status(enum.IntEnum):
    """How a request ended."""

    COMPLETED = 0
    WAS_BROADCAST = 1
    FAILED_TO_SEND = 2
    TIMEOUT = 3
    INVALID_RESPONSE = 4
    TOO_SHORT = 5
    WRONG_START = 6
    WRONG_SUB_START = 7
    LENGTH_MISMATCH = 8
    PARAM_LENGTH_MISMATCH = 9
    CHECKSUM = 10
    INVALID_CLASS = 11
    INVALID_RESPONSE_TYPE = 12
    TRANSACTION_MISMATCH = 13
    SUB_DEVICE_MISMATCH = 14
    SOURCE_MISMATCH = 15
    DEST_MISMATCH = 16
    CLASS_MISMATCH = 17
    NO_MEMORY = 18


class AckType(enum.IntEnum):
    """How a device responded."""

    ACK = 0
    TIMER = 1
    NACK = 2
    OVERFLOW = 3


class RequestClass(enum.IntEnum):
    GET = 0
    SET = 1


class ResponseClass(enum.IntEnum):
    DISCOVERY = 0
    GET = 1
    SET = 2


class Kind(enum.IntEnum):
    """What a discovery starts from."""

    FULL = 0
    INCREMENTAL = 1


class Search(enum.IntEnum):
    """How discovery runs search."""

    STEADY = 0
    QUICK = 1


class OutcomeKind(enum.IntEnum):
    REQUEST = 0
    DISCOVERY = 1


class RunFaultKind(enum.IntEnum):
    """Why a run ended early."""

    CORRUPT = 1
    TOO_MANY = 2
    EXHAUSTED = 3
    LINE_FAILED = 4
    ABORTED = 5


def uid_of(uid: Union[Uid, str]) -> Uid:
    """A UID, or the one that a text spells."""
    return Uid.parse(uid) if isinstance(uid, str) else uid


def pid_of(pid: Union[int, str]) -> int:
    """A parameter's number, or that of a name or a number as text. Raises ValueError if there is no such name."""
    if isinstance(pid, str):
        # Most programs work by numbers.
        from .parameters import STANDARD
        return STANDARD.pid(pid)
    return pid


def data_of(data: Union[bytes, str]) -> bytes:
    """Bytes, or those of a text of ASCII characters. Raises ValueError for any other text."""
    return data.encode("ascii") if isinstance(data, str) else data


class Request(NamedTuple):
    """A request to a device, or to many."""

    target: Uid
    pid: int
    data: bytes = b""
    sub_device: int = 0
    request_class: RequestClass = RequestClass.GET


class ReplyHead(NamedTuple):
    """What the last reply of a completed request says besides its data."""

    ack: AckType
    response_class: ResponseClass
    pid: int
    sub_device: int


class Completion(NamedTuple):
    """How a request ended. Only COMPLETED has a `head`."""

    number: int
    status: Status
    head: Optional[ReplyHead]
    data: bytes
    # Its first parts may be missing, since a GET of it, or over 1,024 others, broke off. Then GET it again.
    may_be_incomplete: bool = False


class Device(NamedTuple):
    """A device, with the control field and the binding UID of its first acknowledgement in a run."""

    uid: Uid
    control: int = 0
    binding: Optional[Uid] = None


class BadUids(NamedTuple):
    """The bad UIDs of a run: those that it has set apart, the newest first, at most 16.

    Each was answered badly when it was asked alone: it couldn't be read, or what was read couldn't be muted.
    """

    uids: Tuple[Uid, ...] = ()
    # Whether the run gave up more.
    has_more: bool = False


class RunFault(NamedTuple):
    """Why a run ended early. Only CORRUPT has a `uid`."""

    kind: RunFaultKind
    uid: Optional[Uid] = None


class Discovery(NamedTuple):
    """How a discovery ended, and the devices that its run found."""

    number: int
    run: int
    fault: Optional[RunFault]
    devices: Tuple[Device, ...]


Outcome = Union[Completion, Discovery]


def kind_of(outcome: Outcome) -> OutcomeKind:
    return OutcomeKind.REQUEST if isinstance(outcome, Completion) else OutcomeKind.DISCOVERY
