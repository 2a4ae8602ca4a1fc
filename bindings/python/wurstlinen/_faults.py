"""Why a call is refused: one exception for each status."""

from typing import Dict, Type


class Fault(Exception):
    """A call was refused, and has changed nothing."""

    code = 0
    text = ""

    def __init__(self) -> None:
        super().__init__(self.text)


class UidFault(Fault, ValueError):
    """A text isn't a UID."""


class PacketFault(Fault, ValueError):
    """Bytes aren't a response."""


_FAULTS: Dict[int, Type[Fault]] = {}


def _fault(code: int, name: str, text: str, base: Type[Fault] = Fault) -> Type[Fault]:
    made = type(name, (base,), {"code": code, "text": text, "__doc__": text[0].upper() + text[1:] + ".",
                                "__module__": "wurstlinen"})
    _FAULTS[code] = made
    return made


NotOpen = _fault(2, "NotOpen", "it is disposed of")
AlreadyOpen = _fault(3, "AlreadyOpen", "the handle is open already")
BadUid = _fault(4, "BadUid", "a UID is 2^48 or more")
BroadcastUid = _fault(5, "BroadcastUid", "a UID is broadcast")
TooManyPlaces = _fault(6, "TooManyPlaces", "more than 4,080 places")
NoBudget = _fault(7, "NoBudget", "the budget is 0")
BadSearch = _fault(8, "BadSearch", "no such search")
BadKind = _fault(9, "BadKind", "no such kind of discovery")
BadClass = _fault(10, "BadClass", "no such class")
DataTooLong = _fault(11, "DataTooLong", "more than 231 bytes of parameter data")
ReplyTooLong = _fault(12, "ReplyTooLong", "more than 257 bytes of a reply")
TooManyEntries = _fault(13, "TooManyEntries", "more than 1,000,000 entries")
BufferTooSmall = _fault(14, "BufferTooSmall", "the buffer is too small")
OutOfMemory = _fault(15, "OutOfMemory", "out of memory")
Closed = _fault(16, "Closed", "the queue is closed")
UnknownClient = _fault(17, "UnknownClient", "no such client")
TooManyClients = _fault(18, "TooManyClients", "sixteen clients have joined")
NoPlaces = _fault(19, "NoPlaces", "too few places")
Full = _fault(20, "Full", "the client's places or four discoveries are taken, or no number is left")
LogFull = _fault(21, "LogFull", "the log is full")
NotAsked = _fault(22, "NotAsked", "no reply is awaited")
OtherOutcome = _fault(23, "OtherOutcome", "the oldest outcome is of the other kind")
NotIdle = _fault(24, "NotIdle", "the session isn't idle")
NoEntry = _fault(25, "NoEntry", "no such entry")
BadRange = _fault(26, "BadRange", "the lower bound is above the upper one")
TooManyDevices = _fault(27, "TooManyDevices", "more than 1,024 devices")
BadPreamble = _fault(28, "BadPreamble", "more than 7 preamble bytes")
BadResponseType = _fault(29, "BadResponseType", "no such response type")
NotEnded = _fault(30, "NotEnded", "the run hasn't ended")
HasEnded = _fault(31, "HasEnded", "the run has ended")
UidLength = _fault(32, "UidLength", "a UID has 13 characters", UidFault)
UidSeparator = _fault(33, "UidSeparator", "a UID has a colon after its first four digits", UidFault)
UidDigit = _fault(34, "UidDigit", "a UID has hexadecimal digits", UidFault)
TooShort = _fault(35, "TooShort", "a packet has 26 bytes at least", PacketFault)
WrongStart = _fault(36, "WrongStart", "a packet begins with the start code cc", PacketFault)
WrongSubStart = _fault(37, "WrongSubStart", "a packet has the sub start code 01", PacketFault)
LengthMismatch = _fault(38, "LengthMismatch", "the message length does not fit the bytes", PacketFault)
ParamLengthMismatch = _fault(
    39, "ParamLengthMismatch", "the parameter data length does not fit the message length", PacketFault)
WrongChecksum = _fault(40, "WrongChecksum", "the checksum is wrong", PacketFault)
InvalidClass = _fault(41, "InvalidClass", "the command class is not that of a response", PacketFault)
InvalidResponseType = _fault(42, "InvalidResponseType", "there is no such response type", PacketFault)
NotText = _fault(43, "NotText", "the bytes aren't UTF-8", UidFault)

DONE = 0
NOTHING = 1


def check(status: int) -> None:
    """Raises the fault of a status that is neither done nor nothing."""
    if status > NOTHING:
        raise _FAULTS[status]()


def given(status: int) -> bool:
    """Whether there is something to return; raises any other fault."""
    check(status)
    return status == DONE
